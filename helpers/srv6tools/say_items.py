"""What a refusal of a description or an intent means: the item's lines, and what about it is
refused.

The program names the fault and the item. What is looked for here is that fault in that item, for
a message; where it isn't found, the item and its keys are shown all the same.
"""

import difflib
from collections.abc import Callable, Iterable, Iterator, Sequence
from pathlib import Path
from typing import Any

from .command import Fault
from .description import BEHAVIOURS, TABLES
from .files import decoded, parse_toml, read_bytes
from .items import address_of, prefix_of
from .schema import KEY_OF, KEYS, MOST, faults_of, keys_in_words, kind_of
from .toml_places import Place, Places

WIDTH = 110  # characters of a line that is shown
FIRST_LINES = 12  # of an item that are shown
DECAPSULATE = ("End.DX6", "End.DX4", "End.DT6", "End.DT4", "End.DT46")
# What comes of values that aren't as a refusal has them.
OF_THIS_KIND = (KeyError, IndexError, TypeError, ValueError, AttributeError)


class TomlFile:
    """A file that was refused or belongs to one: its text, its places, and its values where it is
    TOML.
    """

    def __init__(self, path: str | Path):
        self.path = str(path)
        content = read_bytes(path)
        self.text = content.removeprefix(b"\xef\xbb\xbf").decode("utf-8", "replace")
        self.places = Places(self.text)
        self.fault: str | None = None
        self.root: dict[str, Any] = {}
        try:
            self.root = parse_toml(decoded(content, self.path), self.path)
        except Fault as fault:
            self.fault = str(fault)

    def items(self, table: str) -> list[Any]:
        """The items of a table; none where it is no list."""
        items = self.root.get(table, [])
        return items if isinstance(items, list) else []

    def item(self, table: str, number: int) -> Any:
        """The value of an item, from 1."""
        return self.items(table)[number - 1]

    def where(self, table: str, number: int) -> str:
        """An item with its line, in words."""
        place = self.places.item(table, number)
        name = f"{table} {number}" if number else table
        return f"{name}, line {self.places.line_of(place.start)}" if place else name

    def quote(self, table: str, number: int, key: str | None = None) -> Iterator[str]:
        """The lines of an item, with a mark at the one of a key."""
        if place := self.places.item(table, number):
            keys = self.places.keys_of(place)
            marked = self.places.line_of(keys[key]) if key in keys else 0
            yield from self._quoted(place, marked)

    def quote_root(self, key: str) -> Iterator[str]:
        """The line of a key of the root."""
        if key in self.places.root:
            yield from self.quote_line(self.places.line_of(self.places.root[key]))

    def quote_line(self, number: int) -> Iterator[str]:
        """A line of the text."""
        yield quoted(number, self.places.line(number))

    def _quoted(self, place: Place, marked: int) -> Iterator[str]:
        for number, line in self.places.lines_of(place, FIRST_LINES):
            yield quoted(number, line, number == marked)


def quoted(number: int, line: str, is_marked: bool = False) -> str:
    """A line of a file as a message shows it."""
    text = line if len(line) <= WIDTH else line[: WIDTH - 3] + "..."
    text = "".join(one if one.isprintable() or one == "\t" else "\ufffd" for one in text)
    return f"  {'>' if is_marked else ' '} {number:5} | {text}".rstrip()


def near(name: str, names: Iterable[str], called: str, most: int = 20) -> str:
    """Which names there are: those like one, or all where there are few."""
    names = list(names)
    like = difflib.get_close_matches(name, names, 3)
    if like:
        return f"did you mean {' or '.join(like)}?"
    if not names:
        return f"there are no {called}"
    more = ", .." if len(names) > most else ""
    return f"the {called} are {', '.join(names[:most])}{more}"


def explain_text(file: TomlFile, name: str, fields: Sequence[str]) -> Iterator[str]:
    """What one of the faults 21 to 32 means, which also 33 Text has."""
    if name == "NotToml":
        yield from _not_toml(file)
        return
    try:
        table, number = fields[0], int(fields[1])
    except OF_THIS_KIND:
        return
    key = fields[2] if len(fields) > 2 else None
    if table in ("net", "intent"):
        yield from _of_root(file, name, table, key)
        return
    if number == 0:
        yield from _of_table(file, name, table)
        return
    try:
        key, why = _why(file, name, table, number, key)
    except OF_THIS_KIND:
        key, why = None, ""
    place = file.places.item(table, number)
    line = f":{file.places.line_of(place.start)}" if place else ""
    yield f"{file.path}{line}: {table} {number}: {why or 'see its lines'}"
    yield from file.quote(table, number, key)
    earlier = _earlier(file, name, table, number)
    if earlier:
        yield f"{file.where(table, earlier)} has it too:"
        yield from file.quote(table, earlier, key)
    if name in ("MissingKey", "UnknownKey", "WrongKind"):
        yield f"keys of a {table}: {keys_in_words(table)} (those in brackets may be absent)"


def _not_toml(file: TomlFile) -> Iterator[str]:
    if file.fault is None:
        yield f"{file.path}: Python's reader of TOML takes it; srv6 doesn't: see its TOML 1.1"
        return
    yield file.fault
    words = file.fault.replace(",", " ").replace(":", " ").replace(")", " ").split()
    if "line" in words[1:]:
        number = words[len(words) - 1 - words[::-1].index("line") + 1]
        if number.isdecimal():
            yield from file.quote_line(int(number))


def _of_root(file: TomlFile, name: str, table: str, key: str | None) -> Iterator[str]:
    """A fault of the keys of a description's or an intent's root."""
    is_net = table == "net"
    known = TABLES if is_net else (*(one.name for one in KEYS["intent"]), "step")
    what = "tables of a description" if is_net else "keys of an intent"
    unknown = [one for one in file.root if one not in known]
    if name == "UnknownKey":
        for one in unknown:
            yield f"{file.path}: `{one}` is none of the {what}; {near(one, known, what)}"
            yield from file.quote_root(one)
    elif name == "MissingKey":
        yield f"{file.path}: the key `{key}` is missing"
    else:
        for one in KEYS["intent"]:
            for fault, why in faults_of(one, file.root[one.name]) if one.name in file.root else ():
                if fault == name:
                    yield f"{file.path}: {why}"
                    yield from file.quote_root(one.name)
    others = {*(one.name for one in KEYS["intent"]), "step"} if is_net else set(TABLES)
    if others & set(unknown):
        yield f"{file.path} looks like {'an intent' if is_net else 'a description'}:"
        yield "the description comes first and the intent second; are the two swapped?"
    elif name in ("UnknownKey", "MissingKey"):
        yield f"{what}: {', '.join(known)}"


def _of_table(file: TomlFile, name: str, table: str) -> Iterator[str]:
    """A fault of a table as a whole."""
    value = file.root.get(table)
    if name == "Limit":
        count = len(value) if isinstance(value, list) else 0
        yield f"{file.path}: {table}: there are {count}, and may be at most {MOST.get(table)}"
        return
    kind = kind_of(value)
    if isinstance(value, list):
        others = [number for number, one in enumerate(value, 1) if not isinstance(one, dict)]
        kind = f"a list whose member {others[0]} is no table" if others else kind
    yield f"{file.path}: `{table}` is {kind}, and takes a list of tables:"
    yield f"write [[{table}]] above each item's keys, or {table} = [{{ .. }}, {{ .. }}]"
    yield from file.quote(table, 0)


def _earlier(file: TomlFile, name: str, table: str, number: int) -> int:
    """The number of the earlier item that has a name, an address or a prefix too; 0 where there
    is none.
    """
    if name not in ("DoubleName", "DoublePrefix"):
        return 0
    identity = _IDENTITIES.get((name, table))
    try:
        own = identity(file.item(table, number))
        for earlier, item in enumerate(file.items(table)[: number - 1], 1):
            if identity(item) == own:
                return earlier
    except OF_THIS_KIND:
        pass
    return 0


_IDENTITIES: dict[tuple[str, str], Callable[[dict], Any]] = {
    ("DoubleName", "node"): lambda item: item["name"],
    ("DoubleName", "link"): lambda item: item["name"],
    ("DoubleName", "policy"): lambda item: item["name"],
    ("DoubleName", "sid"): lambda item: item.get("title"),
    ("DoublePrefix", "node"): lambda item: address_of(item["address"]),
    ("DoublePrefix", "route"): lambda item: (
        item["node"], item.get("table", 0), prefix_of(item["prefix"]),
    ),
    ("DoublePrefix", "sid"): lambda item: (item["node"], prefix_of(item["prefix"])),
}  # fmt: skip


def _why(
    file: TomlFile, name: str, table: str, number: int, key: str | None
) -> tuple[str | None, str]:
    """The key at fault and what is wrong, in words."""
    item = file.item(table, number)
    if name == "MissingKey":
        if table == "step":
            return None, "a step has `links`, a `function` or a `reach`"
        return None, f"the key `{key}` is missing"
    if name == "UnknownKey":
        known = [one.name for one in KEYS[table]]
        unknown = [one for one in item if one not in known]
        if not unknown and table == "step":
            key = "function" if "function" in item else "reach"
            return key, "a step has one of `links`, `function` and `reach`, not two"
        one = unknown[0]
        return one, f"`{one}` is no key of a {table}; {near(one, known, 'keys')}"
    for one in KEYS[table]:
        if one.name in item:
            for fault, why in faults_of(one, item[one.name]):
                if fault == name:
                    return one.name, why
    return _OF_JOINING[name](file, table, number, item)


def _unknown_name(file: TomlFile, table: str, number: int, item: dict) -> tuple[str | None, str]:
    """A name that there isn't: the keys go in the order of the tables."""
    named = {
        "from": "node", "to": "node", "node": "node",
        "via": "link", "links": "link", "policy": "policy",
    }  # fmt: skip
    for key in ("from", "to", "node", "via", "links", "policy"):
        if key not in item:
            continue
        names = [one["name"] for one in file.items(named[key])]
        for name in item[key] if isinstance(item[key], list) else [item[key]]:
            if name not in names:
                called = {"policy": "policies"}.get(named[key], named[key] + "s")
                return key, f'there is no {named[key]} "{name}"; {near(name, names, called)}'
    return None, ""


def _double(file: TomlFile, table: str, number: int, item: dict) -> tuple[str | None, str]:
    key = "title" if table == "sid" else "name"
    return key, f'an earlier {table} has the {key} "{item[key]}"'


def _double_prefix(file: TomlFile, table: str, number: int, item: dict) -> tuple[str | None, str]:
    if table == "node":
        return "address", f"an earlier node has the address {item['address']}"
    if table == "route":
        return "prefix", (
            f"an earlier route of {item['node']}, table {item.get('table', 0)}, has this prefix;"
            " equal next hops are one route with all links in `via`"
        )
    return "prefix", f"an earlier SID of {item['node']} has this prefix"


def _structure(file: TomlFile, table: str, number: int, item: dict) -> tuple[str | None, str]:
    """Parts of an item that don't fit."""
    match table:
        case "block":
            own = prefix_of(item["prefix"])
            if own.prefixlen not in (16, 32, 48, 64):
                return "prefix", f"a block has 16, 32, 48 or 64 bits, not {own.prefixlen}"
            for earlier, other in enumerate(file.items("block")[: number - 1], 1):
                if own.overlaps(prefix_of(other["prefix"])):
                    return "prefix", f"it overlaps {file.where('block', earlier)}"
        case "link":
            return "to", "it ends at the node where it starts"
        case "policy":
            return "segments", "there are no segments"
        case "route":
            return "via", why_no_set(file, item["via"], item["node"])
        case "sid":
            return _sid_structure(file, item)
    return None, ""


def _sid_structure(file: TomlFile, item: dict) -> tuple[str | None, str]:
    behaviour = item["behaviour"]
    own = KEY_OF.get(behaviour)
    if own and own not in item:
        return "behaviour", f"{behaviour} needs the key `{own}`, which is missing"
    for key in ("links", "table", "policy"):
        if key in item and key != own:
            takes = f"takes `{own}`" if own else "takes none of `links`, `table` and `policy`"
            return key, f"{behaviour} has no key `{key}`; it {takes}"
    if "links" in item:
        return "links", why_no_set(file, item["links"], item["node"])
    return None, ""


def why_no_set(file: TomlFile, names: list[str], node: str) -> str:
    """Why links are no set of next hops of a node."""
    starts = {link["name"]: link["from"] for link in file.items("link")}
    if not names:
        return "there are no links"
    for place, name in enumerate(names):
        if name in names[:place]:
            return f'the link "{name}" stands twice'
        if starts.get(name, node) != node:
            own = [link for link, start in starts.items() if start == node]
            return (
                f'the link "{name}" starts at {starts[name]}, not at {node};'
                f" {near(name, own, f'links of {node}')}"
            )
    return ""


def _flavour(file: TomlFile, table: str, number: int, item: dict) -> tuple[str | None, str]:
    """Flavours and a `csid` that the rules don't allow."""
    behaviour, flavours = item["behaviour"], item.get("flavours", [])
    if behaviour not in BEHAVIOURS:
        return "behaviour", f"the behaviours are {', '.join(BEHAVIOURS)}"
    for place, flavour in enumerate(flavours):
        if flavour in flavours[:place]:
            return "flavours", f"`{flavour}` stands twice"
    if flavours and behaviour not in ("End", "End.X", "End.T"):
        return "flavours", f"only End, End.X and End.T have flavours, and {behaviour} has none"
    csid = item.get("csid", "plain")
    if csid == "next" and behaviour in DECAPSULATE:
        return "csid", f'{behaviour} is never csid = "next"; leave `csid` out'
    prefix = prefix_of(item["prefix"])
    blocks = [(prefix_of(block["prefix"]), block) for block in file.items("block")]
    for own, block in blocks:
        if block["kind"] == csid and own.prefixlen < prefix.prefixlen and prefix.subnet_of(own):
            lengths = sorted({own.prefixlen + block["csid"], own.prefixlen + 32 * (csid == "next")})
            good = " or ".join(f"/{length}" for length in lengths if length > own.prefixlen)
            return "prefix", (
                f'in the block {own} of {block["csid"]}-bit CSIDs a SID with csid = "{csid}"'
                f" is a {good}, not a /{prefix.prefixlen}"
            )
    kinds = ", ".join(f"{own} ({block['kind']})" for own, block in blocks) or "none"
    return "csid", f"{prefix} lies in no block of the kind {csid}; the blocks are: {kinds}"


def _limit(file: TomlFile, table: str, number: int, item: dict) -> tuple[str | None, str]:
    return "node", f"it is the 65th SID of {item['node']}, and a node has at most 64"


_OF_JOINING = {
    "UnknownName": _unknown_name,
    "DoubleName": _double,
    "DoublePrefix": _double_prefix,
    "BadStructure": _structure,
    "BadFlavour": _flavour,
    "Limit": _limit,
}


def explain_intent(
    net: TomlFile, file: TomlFile, name: str, fields: Sequence[str]
) -> Iterator[str]:
    """What one of the faults 34 to 38, or 46, means."""
    if name == "LooseLimit":
        yield from _too_many_sids(net, file, int(fields[0]))
        return
    number = int(fields[0]) if fields else 0
    nodes = [one["name"] for one in net.items("node")]
    if number == 0 and name == "UnknownName":
        headend = str(file.root.get("headend"))
        yield f'{file.path}: headend: there is no node "{headend}"; {near(headend, nodes, "nodes")}'
        yield from file.quote_root("headend")
        return
    number = number or len(file.items("step"))
    at, links = _stands_at(net, file, number), {one["name"]: one for one in net.items("link")}
    step = file.item("step", number)
    reach = step.get("reach")
    functions = [one["title"] for one in net.items("sid") if "title" in one and one["node"] == at]
    key, why = "links", ""
    match name:
        case "UnknownName" if reach is not None:
            key, why = "reach", f'there is no node "{reach}"; {near(reach, nodes, "nodes")}'
        case "UnknownName":
            for link in step.get("links", []):
                if link not in links:
                    key, why = "links", f'there is no link "{link}"; {near(link, links, "links")}'
                    break
        case "DoubleLink":
            twice = [one for one in step["links"] if step["links"].count(one) > 1]
            why = f'the link "{twice[0]}" stands twice'
        case "Broken" if reach is not None:
            key, why = "reach", f"{reach} is where the step stands already"
        case "Broken":
            why = _why_broken(links, step["links"], at)
        case "NoFunction":
            key, why = "function", _why_no_function(net, step["function"], at, functions)
        case "NotFunctionLast":
            at = links[step["links"][0]].get("to") if step.get("links") else reach or at
            functions = [
                one["title"] for one in net.items("sid") if "title" in one and one["node"] == at
            ]
            why = f"the last step is no function; it ends at {at}, whose functions are:"
            why += f" {', '.join(functions) or 'none'}"
    place = file.places.item("step", number)
    line = f":{file.places.line_of(place.start)}" if place else ""
    yield f"{file.path}{line}: step {number}, which stands at {at}: {why or 'see its lines'}"
    yield from file.quote("step", number, key)


def _too_many_sids(net: TomlFile, file: TomlFile, most: int) -> Iterator[str]:
    reaches = [place for place, step in enumerate(file.items("step"), 1) if "reach" in step]
    count = len(net.items("sid"))
    yield f"{net.path} has {count} SIDs, and an intent with a step that reaches a node may"
    yield f"have {most}; without `reach`, each step with its links, there may be as many as ever"
    for place in reaches[:1]:
        yield f"{file.path}: {file.where('step', place)}:"
        yield from file.quote("step", place, "reach")


def _stands_at(net: TomlFile, file: TomlFile, number: int) -> str | None:
    """The node where a step stands."""
    ends = {link["name"]: link.get("to") for link in net.items("link")}
    at = file.root.get("headend")
    for step in file.items("step")[: number - 1]:
        if step.get("links"):
            at = ends.get(step["links"][0])
        at = step.get("reach", at)
    return at


def _why_broken(links: dict[str, dict], names: list[str], at: str | None) -> str:
    own = [name for name, link in links.items() if link["from"] == at and "to" in link]
    choices = near(names[0], own, f"links of {at} that stay in the network")
    for name in names:
        if links[name]["from"] != at:
            return f'the link "{name}" starts at {links[name]["from"]}; {choices}'
        if "to" not in links[name]:
            return f'the link "{name}" leaves the network, and a step stays in it; {choices}'
    ends = sorted({links[name]["to"] for name in names})
    return f"its links end at {' and '.join(ends)}, and have to end at one node"


def _why_no_function(net: TomlFile, title: str, at: str | None, functions: list[str]) -> str:
    titles = {one["title"]: one["node"] for one in net.items("sid") if "title" in one}
    here = f"the functions at {at} are: {', '.join(functions) or 'none'}"
    if title not in titles:
        return f'no SID has the title "{title}"; {near(title, titles, "titles")}; {here}'
    return f'the SID with the title "{title}" is at {titles[title]}; {here}'
