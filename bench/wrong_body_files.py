"""The files of wrong bodies, `NAME.edit`: a line `file:`, and behind it pairs of lines `old:` and `new:`."""

import pathlib
from dataclasses import dataclass

# What an edit of the gate puts before a line of its crate that its wrong body doesn't need, so that the gate's check passes it over.
LEFT_OUT = "#[cfg(test)] "


@dataclass(frozen=True)
class Pair:
    """One change: the file below the crate's folder, the text that stands once in it, and the text in its place."""

    file: str
    old: str
    new: str

    def leaves_out(self) -> bool:
        """Whether the change only leaves the line out."""
        return self.new == LEFT_OUT + self.old


def pairs_of(edit: pathlib.Path) -> list[Pair]:
    """The changes of an edit, in their order; each is made to what the earlier ones made."""
    pairs: list[Pair] = []
    file, old = "", None
    for line in edit.read_text().splitlines():
        if line.startswith("file: "):
            file = line[6:].strip()
        elif line.startswith("old: "):
            old = line[5:]
        elif line.startswith("new:") and old is not None:
            pairs.append(Pair(file, old, line[5:]))
            old = None
    return pairs
