"""Lists with the names of their SIDs: those that the engine compiles, and one that `srv6 compile` prints."""

import dataclasses
from collections.abc import Iterator

from .courses import Courses
from .description import Network, read_network
from .engine import Compiled, Refused
from .intent import Intent, read_intent
from .items import address_of, prefix_of
from .lists_file import OneList
from .report import certificate_in
from .sid_names import SidNames
from .spelled_lists import Path


class ListNames:
    """The names of the SIDs of lists, by the nodes that execute them."""

    def __init__(self, net: Network, courses: Courses | None = None) -> None:
        self._names, self._courses = SidNames(net), courses or Courses(net)

    def listed(self, intent: Intent, path: Path) -> list[str]:
        """The names of the SIDs of a list."""
        stands = self._courses.course(intent, path).stands
        return self._names.listed([prefix for _, prefix in path], stands)


def list_of(name: str, text: str, found: Compiled | Refused, names: ListNames) -> OneList:
    """What was compiled, as a file of lists has it."""
    if isinstance(found, Refused):
        return OneList(name, text, "refused", why=found.fields["why"])
    path = [(sid.stays, prefix_of(sid.prefix)) for sid in found.path]
    segments = tuple(address_of(text) for text in found.segments)
    one = OneList(name, text, found.answer, segments, tuple(path), (), found.header, found.need)
    return dataclasses.replace(one, names=tuple(names.listed(one.intent, path)))


def named_list(net_path: str, intent_path: str, printed: str) -> Iterator[str]:
    """The SIDs of the list that `srv6 compile` printed, in a line, where there is one."""
    path = [(step.stays, step.prefix) for step in certificate_in(printed + "\n").path]
    if path:
        names = ListNames(read_network(net_path)).listed(read_intent(intent_path), path)
        yield f"the list is {', '.join(names)}"
