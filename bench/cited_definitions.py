"""Reads the definitions of the crates, and which of them cites which.

A definition stands in crates/NAME/specs/*.antt, or is a type, a trait or a constant of crates/NAME/src/*.rt. It cites
another one where its own text names it: by an import, by a module's short name, by a constructor or by a name of its
own file. A name that a pattern, `λ`, `let` or `(x : T)` binds is none, nor is a field. Words of crates that
crates.txt doesn't list are outside. A type of a source that has a `Model` is its value.
"""

import pathlib
import re
from collections.abc import Callable, Iterator
from dataclasses import dataclass, field

HEAD = re.compile(r"^(?:(abbrev|unfoldable) pub|pub (record|data)) (\S+)")
HEADING = re.compile(r"^-- -{2,} ")
USE = re.compile(r"^(pub )?use (Rattle\.[\w.]+?)(?:\.\{([^}]*)\}| as (\w+))$")
GHOST_USE = re.compile(r"^ *ghost (use Rattle[^;]*);", re.M)
ITEM = re.compile(r"^(?:pub(?:\([a-z]+\))? )?(struct|enum|trait|const|static|type) (\w+)")
FUNCTION = re.compile(r"^ *(?:pub(?:\([a-z]+\))? )?(?:const )?fn (\w+)", re.M)
RUST_USE = re.compile(r"^(?:pub(?:\([a-z]+\))? )?use ([^;]+);", re.M)
MODEL = re.compile(r"^impl(<[^\n]*>)? Model for (\w+)[^\n]*\{\n(.*?)^\}", re.M | re.S)
VALUE = re.compile(r"ghost Value = (\{.*?\});", re.S)
CLAUSE = re.compile(r"\b(?:requires|ensures)\s*(?:\w+\s*)?$|\bghost \w+(?::| =)\s*$")
TOKEN = re.compile(
    r"""(?P<text>"(?:[^"\\]|\\.)*")|(?P<comment>--[^\n]*)|(?P<lambda>λ)|(?P<name>(?!λ)[^\W\d][\w']*)|(?P<number>\d\w*)
    |(?P<field>\.(?=\w))|(?P<open>[(\[{])|(?P<close>[)\]}])|(?P<mark>[;,.])|(?P<sign>[^\s\w(){}\[\];,."]+)""",
    re.X,
)
RUST_WORD = re.compile(r'"(?:[^"\\]|\\.)*"|\.\w+|(?:\w+::)*[A-Za-z_]\w*')
WORDS_OF_LANGUAGE = set("record data where let in with do pub Type Unit if then else elim tt _".split())
NO_DEFINITION = ("--", "infix", "use ", "pub use ", "pub mod ")
OF_RUST = "of Rust"  # a name of Rust that the crates don't define


@dataclass(eq=False)
class Definition:
    """A definition, with what it cites."""

    crate: str
    path: str  # from the top of the repository
    line: int
    kind: str
    name: str
    text: str
    comment: str = ""  # the whole comment that stands above it, or above its group
    comment_line: int = 0
    heading: str = ""  # of the section of its file
    in_specs: bool = True
    parts: list[str] = field(default_factory=list)  # its constructors
    bound: set[str] = field(default_factory=set)  # the names that it takes itself
    cites: list["Definition"] = field(default_factory=list)
    outside: set[tuple[str, str]] = field(default_factory=set)  # a module of another crate, and a name of it
    unknown: set[str] = field(default_factory=set)  # names that nothing gives


@dataclass
class Import:
    """What one line of imports names."""

    path: str
    names: dict[str, str]  # the name here, and the name there
    alias: str
    public: bool  # others may import its names from here


@dataclass
class Module:
    """One file, with its definitions and imports."""

    crate: str
    path: str
    head: str
    text: str
    defined: dict[str, Definition] = field(default_factory=dict)  # constructors too
    order: list[Definition] = field(default_factory=list)
    imports: list[Import] = field(default_factory=list)
    uses: dict[str, list[str]] = field(default_factory=dict)  # of Rust: the name here, and the path


@dataclass
class Token:
    """A token, with its kind."""

    kind: str
    text: str


Found = Definition | str | None  # a definition, the module of another crate, or nothing that is known
Names = Callable[[str, str], Found]  # of a name, and its member or nothing
Cite = Callable[[Found, str], None]  # what is cited, and by which name


def tokens_of(text: str) -> list[Token]:
    """The tokens of a text of definitions, without comments and texts in quotes."""
    found = [Token(m.lastgroup or "", m.group()) for m in TOKEN.finditer(text)]
    return [token for token in found if token.kind not in ("text", "comment")]


def names_in(text: str) -> dict[str, str]:
    """The names between the braces of an import, by the names that they have here."""
    pairs = [one.split(" as ") for one in text.split(",") if one.strip()]
    return {pair[-1].strip(): pair[0].strip() for pair in pairs}


def import_of(line: str) -> Import | None:
    """The import of a line."""
    match = USE.match(line)
    if not match:
        return None
    public, path, names, alias = match.groups()
    if not names and not alias:
        return None
    return Import(path, names_in(names or ""), alias or "", bool(public))


def comment_above(lines: list[str], at: int, mark: str) -> tuple[int, str]:
    """The comment in front of this line, with the number of its first line; attributes may stand between."""
    end = at
    while end > 0 and lines[end - 1].startswith("#["):
        end -= 1
    first = end
    while first > 0 and lines[first - 1].startswith(mark):
        first -= 1
    text = " ".join(line[len(mark) :].strip() for line in lines[first:end])
    return (first + 1 if text else 0), text


def read_specs(top: pathlib.Path, crate: str, file: pathlib.Path) -> Module:
    """A file of specs/."""
    path = str(file.relative_to(top))
    text = file.read_text()
    lines = text.splitlines()
    head, length = head_of(lines)
    module = Module(crate, path, head, text)
    starts = [at for at, line in enumerate(lines) if HEAD.match(line)]
    heading, group, group_line = "", "", 0
    place = length
    for at, after in zip(starts, [*starts[1:], len(lines)]):
        for number in range(place, at):
            if HEADING.match(lines[number]):
                heading, group, group_line = comment_from(lines, number), "", 0
            elif lines[number].startswith("--") and not lines[number - 1].startswith("--"):
                group, group_line = comment_from(lines, number), number + 1
        place = at
        kinds = HEAD.match(lines[at])
        assert kinds
        kind, name = kinds.group(1) or kinds.group(2), kinds.group(3)
        body = "\n".join(line for line in lines[at:after] if not line.startswith(NO_DEFINITION)).rstrip()
        one = Definition(crate, path, at + 1, kind, name, body, group, group_line, heading)
        if kind == "data":
            one.parts = [m.group(1) for m in re.finditer(r"^  (\S+) :", one.text, re.M)]
        module.order.append(one)
        for word in [name, *one.parts]:
            module.defined[word] = one
    module.imports = [found for line in lines if (found := import_of(line))]
    return module


def head_of(lines: list[str]) -> tuple[str, int]:
    """The comment at a file's head, and the number of its lines."""
    mark = "//!" if lines and lines[0].startswith("//!") else "--"
    count = 0
    while count < len(lines) and lines[count].startswith(mark):
        count += 1
    return " ".join(line[len(mark) :].strip() for line in lines[:count]), count


def comment_from(lines: list[str], at: int) -> str:
    """The comment that begins on this line, without its dashes."""
    end = at
    while end < len(lines) and lines[end].startswith("--"):
        end += 1
    return " ".join(line.lstrip("- ").strip() for line in lines[at:end])


def item_end(text: str, at: int) -> int:
    """The place behind an item of Rust that begins here: after its `;` or its closing brace."""
    depth = 0
    for number in range(at, len(text)):
        if text[number] in "([{":
            depth += 1
        elif text[number] in ")]}":
            depth -= 1
            if depth == 0 and text[number] == "}" and text[number + 1 : number + 2] in ("\n", ""):
                return number + 1
        elif text[number] == ";" and depth == 0:
            return number + 1
    return len(text)


def without_comments(text: str) -> str:
    """Rust without its comments and attributes."""
    return re.sub(r"^\s*#\[[^\n]*\]$|//[^\n]*", "", text, flags=re.M)


def read_source(top: pathlib.Path, crate: str, file: pathlib.Path) -> Module:
    """A file of src/: its types, traits and constants."""
    path = str(file.relative_to(top))
    text = file.read_text()
    lines = text.splitlines()
    module = Module(crate, path, head_of(lines)[0], text)
    models = {m.group(2): m for m in MODEL.finditer(text)}
    offset = 0
    for at, line in enumerate(lines):
        match = ITEM.match(line)
        if match and not line.startswith("const fn"):
            kind, name = match.groups()
            body = without_comments(text[offset : item_end(text, offset)])
            if kind == "enum":  # the names of its variants cite nothing
                body = re.sub(r"^    [A-Z]\w*", "", body, flags=re.M)
            if name in models:  # contracts see its value alone
                body = " ".join(VALUE.findall(models[name].group(3)))
                kind += " with a model"
            comment_line, comment = comment_above(lines, at, "///")
            one = Definition(crate, path, at + 1, kind, name, body, comment, comment_line, in_specs=False)
            if name in models:
                one.bound = set(re.findall(r"\w+", models[name].group(1) or ""))
            module.order.append(one)
            module.defined[name] = one
        offset += len(line) + 1
    module.imports = [found for m in GHOST_USE.finditer(text) if (found := import_of(re.sub(r"\s+", " ", m.group(1))))]
    for m in RUST_USE.finditer(text):
        for here, there in use_tree(re.sub(r"\s+", "", m.group(1).replace(" as ", "@"))):
            module.uses[here] = there
    return module


def use_tree(tree: str) -> Iterator[tuple[str, list[str]]]:
    """The names that a `use` of Rust gives, with their paths; `@` stands for `as`."""
    front, brace, rest = tree.partition("{")
    if not brace:
        path, _, alias = tree.partition("@")
        segments = path.split("::")
        if segments[-1] == "self":
            segments.pop()
        yield alias or segments[-1], segments
        return
    for part in split_at_commas(rest.rpartition("}")[0]):
        yield from use_tree(front + part)


def split_at_commas(text: str) -> list[str]:
    """The parts of a text between the commas outside of braces."""
    parts, depth = [""], 0
    for letter in text:
        depth += (letter == "{") - (letter == "}")
        if letter == "," and depth == 0:
            parts.append("")
        else:
            parts[-1] += letter
    return [part for part in parts if part]


class Scan:
    """Goes over the tokens of one clause, and keeps which names are bound."""

    def __init__(self, lookup: Names, bound: set[str], cite: Cite) -> None:
        self.lookup = lookup
        self.scopes = [set(bound)]
        self.cite = cite

    def is_bound(self, name: str) -> bool:
        """Whether a name is bound here."""
        return any(name in scope for scope in self.scopes)

    def bind_pattern(self, tokens: list[Token]) -> None:
        """Binds the names of a pattern, and cites its constructors."""
        at = 0
        while at < len(tokens):
            token = tokens[at]
            if token.kind == "name":
                member = member_at(tokens, at)
                found = self.lookup(token.text, member)
                if member and found:
                    self.cite(found, f"{token.text}.{member}")
                    at += 2
                elif is_constructor(found, token.text) or (isinstance(found, str) and token.text[0].isupper()):
                    self.cite(found, token.text)
                elif token.text != "_":
                    self.scopes[-1].add(token.text)
            elif token.kind == "sign":
                self.cite_sign(token.text)
            at += 1

    def cite_sign(self, sign: str) -> None:
        """Cites what a sign stands for."""
        found = self.lookup(f"◌{sign}◌", "")
        if found:
            self.cite(found, sign)

    def run(self, tokens: list[Token]) -> None:
        """Cites what the tokens name."""
        at = 0
        while at < len(tokens):
            at = self.step(tokens, at)

    def step(self, tokens: list[Token], at: int) -> int:
        """One token; gives the place of the next one."""
        token = tokens[at]
        if token.kind == "open":
            self.bind_group(tokens, at)
            self.scopes.append(set())
        elif token.kind == "close":
            if len(self.scopes) > 1:
                self.scopes.pop()
        elif token.kind == "lambda":
            return self.take_pattern(tokens, at + 1, ".")
        elif token.text == "|":
            return self.take_pattern(tokens, at + 1, "↦")
        elif token.text == "let":
            return self.take_pattern(tokens, at + 1, "=")
        elif token.kind == "field":
            return at + 2
        elif token.kind == "sign":
            self.cite_sign(token.text)
        elif token.kind == "name":
            return self.name(tokens, at)
        return at + 1

    def bind_group(self, tokens: list[Token], at: int) -> None:
        """Binds the names of `(a b : T)`, whose scope is what stands round it."""
        end = at + 1
        while end < len(tokens) and tokens[end].kind == "name":
            end += 1
        if end > at + 1 and end < len(tokens) and tokens[end].text == ":":
            self.scopes[-1].update(token.text for token in tokens[at + 1 : end])

    def take_pattern(self, tokens: list[Token], at: int, mark: str) -> int:
        """Binds a pattern that ends with the mark, and gives the place behind it."""
        end = at
        while end < len(tokens) and tokens[end].text != mark:
            end += 1
        self.bind_pattern(tokens[at:end])
        return end + 1

    def name(self, tokens: list[Token], at: int) -> int:
        """A name: bound, a field that is given, or cited."""
        word = tokens[at].text
        after = tokens[at + 1].text if at + 1 < len(tokens) else ""
        if word == "do":
            found = self.lookup("◌>>=◌", "")
            if found:
                self.cite(found, "do")
        elif after == "←":
            self.scopes[-1].add(word)
        elif after != "=" and not self.is_bound(word) and word not in WORDS_OF_LANGUAGE:
            member = member_at(tokens, at)
            found = self.lookup(word, member) if member else None
            if found:
                self.cite(found, f"{word}.{member}")
                return at + 3
            self.cite(self.lookup(word, ""), word)
        return at + 1


def member_at(tokens: list[Token], at: int) -> str:
    """The member that stands behind a name and a point."""
    return tokens[at + 2].text if at + 2 < len(tokens) and tokens[at + 1].kind == "field" else ""


def is_constructor(found: Found, name: str) -> bool:
    """A name that is a constructor's in a pattern."""
    if not isinstance(found, Definition):
        return False
    return name in found.parts or found.kind.startswith("enum")


class Definitions:
    """All definitions of the crates."""

    def __init__(self, top: pathlib.Path) -> None:
        self.top = top
        self.crates = crates_of(top)
        self.specs: dict[tuple[str, str], Module] = {}
        self.sources: dict[tuple[str, str], Module] = {}
        for crate in self.crates:
            for file in sorted((top / "crates" / crate / "specs").glob("*.antt")):
                self.specs[crate, file.stem] = read_specs(top, crate, file)
            for file in sorted((top / "crates" / crate / "src").glob("*.rt")):
                self.sources[crate, file.stem] = read_source(top, crate, file)
        for module in self.modules():
            for one in module.order:
                self.find_cited(module, one)

    def modules(self) -> list[Module]:
        """All files."""
        return [*self.specs.values(), *self.sources.values()]

    def all(self) -> list[Definition]:
        """All definitions, of all files."""
        return [one for module in self.modules() for one in module.order]

    # -- names

    def member(self, path: str, name: str, seen: tuple[str, ...] = ()) -> Found:
        """What a name of a module is."""
        parts = path.split(".")
        if parts[1] not in self.crates:
            return path
        if parts[3] in ("declared", "contracts"):
            return self.declared(parts[1], parts[4:], name)
        module = self.specs.get((parts[1], parts[3]))
        if module is None or path in seen:
            return None
        if name in module.defined:
            return module.defined[name]
        for one in module.imports:
            if one.public and name in one.names:
                return self.member(one.path, one.names[name], (*seen, path))
        return None

    def declared(self, crate: str, parts: list[str], name: str) -> Found:
        """What a name of what a file of src/ declares is."""
        stem = parts[0]
        module = self.sources.get((crate, stem))
        if module is None:
            return None
        if len(parts) > 1 and parts[1] != "TheConstants":
            return module.defined.get(parts[1])
        return module.defined.get(name)

    def lookup_in(self, module: Module) -> Names:
        """Finds the names of a file of definitions, or of the ghost lines of a source."""
        imports = module.imports

        def lookup(name: str, member: str) -> Found:
            if member:
                paths = [one.path for one in imports if one.alias == name]
                return next((found for path in paths if (found := self.member(path, member))), None)
            if name in module.defined:
                return module.defined[name]
            for one in imports:
                if name in one.names:
                    return self.member(one.path, one.names[name])
            return None

        return lookup

    def rust_name(self, module: Module, path: list[str], depth: int = 0) -> Found:
        """What a path of Rust names in a file."""
        if depth > 9:
            return None
        first, rest = path[0], path[1:]
        if first in ("crate", "self"):
            return self.rust_path(module.crate, rest, depth)
        if first in module.defined:
            return module.defined[first]
        if first in module.uses and module.uses[first] != path:
            return self.rust_name(module, module.uses[first] + rest, depth + 1)
        if first in self.crates and rest:
            return self.rust_path(first, rest, depth)
        if rest and self.root(module.crate) is module:
            return self.rust_path(module.crate, path, depth)
        return None

    def root(self, crate: str) -> Module | None:
        """The first file of a crate."""
        return self.sources.get((crate, "lib")) or self.sources.get((crate, "main"))

    def rust_path(self, crate: str, path: list[str], depth: int) -> Found:
        """What a path from a crate's root names."""
        if not path:
            return None
        module = self.sources.get((crate, path[0]))
        if module and len(path) > 1:
            return self.rust_name(module, path[1:], depth + 1)
        root = self.root(crate)
        return self.rust_name(root, path, depth + 1) if root else None

    # -- citations

    def find_cited(self, module: Module, one: Definition) -> None:
        """Finds what a definition cites."""
        cite = self.citer(one)
        if not one.in_specs:
            if one.kind.endswith("model"):
                Scan(self.lookup_in(module), one.bound, cite).run(tokens_of(one.text))
            else:
                self.scan_rust(module, one.text, cite)
        elif one.kind in ("record", "data"):
            self.scan_parts(module, one, cite)
        else:
            self.scan_clauses(module, one, cite)

    def citer(self, one: Definition) -> Cite:
        """Adds to what a definition cites."""

        def cite(found: Found, name: str) -> None:
            if isinstance(found, Definition):
                if found is not one and found not in one.cites:
                    one.cites.append(found)
            elif found and found.startswith("Rattle."):
                one.outside.add((found, name))
            elif found is None:
                one.unknown.add(name)

        return cite

    def scan_parts(self, module: Module, one: Definition, cite: Cite) -> None:
        """A record or a data: its head, then its fields or constructors."""
        lookup = self.lookup_in(module)
        mark = r"^ +pub (.+?) :(?= |$)" if one.kind == "record" else r"^  (\S+) :(?= |$)"
        pieces = re.split(mark, one.text, flags=re.M)
        head = Scan(lookup, {one.name}, cite)
        head.run(tokens_of(pieces[0]))
        bound = set(head.scopes[0])
        for names, kind in zip(pieces[1::2], pieces[2::2]):
            Scan(lookup, bound, cite).run(tokens_of(kind))
            bound.update(names.split())

    def scan_clauses(self, module: Module, one: Definition, cite: Cite) -> None:
        """A function: its type, then its clauses."""
        lookup = self.lookup_in(module)
        clauses: list[str] = []
        for line in one.text.splitlines():
            if clauses and (line.startswith((" ", "}", ")")) or not line):
                clauses[-1] += "\n" + line
            else:
                clauses.append(line)
        Scan(lookup, {one.name}, cite).run(tokens_of(clauses[0].partition(" : ")[2]))
        for clause in clauses[1:]:
            tokens = tokens_of(clause)
            scan = Scan(lookup, {one.name}, cite)
            end = equals_at(tokens)
            own = one.name.strip("◌")
            scan.bind_pattern([token for token in tokens[:end] if token.text != own])
            scan.run(tokens[end + 1 :])

    def scan_rust(self, module: Module, text: str, cite: Cite) -> None:
        """An item of Rust: its contracts as definitions, and the rest by Rust's names."""
        rest, contracts = split_contracts(text)
        lookup = self.lookup_in(module)

        imported = {name for one in module.imports for name in one.names}

        def ghost(name: str, member: str) -> Found:
            return lookup(name, member) or (None if name in imported else OF_RUST)

        for contract in contracts:
            Scan(ghost, set(), cite).run(tokens_of(contract))
        for word in RUST_WORD.findall(rest):
            if word[0] not in '".':
                found = self.rust_name(module, word.split("::"))
                cite(found or OF_RUST, word)

    def contract(self, crate: str, function: str) -> Definition | None:
        """A function of a crate, with what its contract cites."""
        for module in self.sources.values():
            if module.crate != crate:
                continue
            for match in FUNCTION.finditer(module.text):
                if match.group(1) == function and not match.group().startswith(" "):
                    text = signature_of(module.text, match.start())
                    line = module.text.count("\n", 0, match.start()) + 1
                    one = Definition(crate, module.path, line, "function", function, text, in_specs=False)
                    self.scan_rust(module, without_comments(text), self.citer(one))
                    return one
        return None


def equals_at(tokens: list[Token]) -> int:
    """The place of the first `=` outside of brackets."""
    depth = 0
    for at, token in enumerate(tokens):
        depth += (token.kind == "open") - (token.kind == "close")
        if token.text == "=" and depth == 0:
            return at
    return len(tokens)


def split_contracts(text: str) -> tuple[str, list[str]]:
    """The text of an item without its contracts, and these."""
    rest, contracts, at = "", [], 0
    while at < len(text):
        if text[at] == "{" and CLAUSE.search(rest):
            end = brace_end(text, at)
            contracts.append(text[at + 1 : end])
            rest += " ; "
            at = end + 1
        else:
            rest += text[at]
            at += 1
    return rest, contracts


def brace_end(text: str, at: int) -> int:
    """The place of the brace that closes this one."""
    depth = 0
    for number in range(at, len(text)):
        depth += (text[number] == "{") - (text[number] == "}")
        if depth == 0:
            return number
    return len(text)


def signature_of(text: str, at: int) -> str:
    """A function's text up to its body: its types and its contract."""
    number = at
    while number < len(text):
        if text[number] == "{":
            if not CLAUSE.search(text[at:number]):
                return text[at:number]
            number = brace_end(text, number)
        elif text[number] == ";" and text[at:number].count("(") == text[at:number].count(")"):
            return text[at:number]
        number += 1
    return text[at:]


def crates_of(top: pathlib.Path) -> list[str]:
    """The crates, lowest first, as crates.txt lists them."""
    lines = (line.partition("#")[0].partition(":")[0] for line in (top / "crates.txt").read_text().splitlines())
    return [line.split()[0] for line in lines if line.strip()]


def reachable(roots: list[Definition]) -> list[Definition]:
    """What the roots rest on, without them."""
    found: dict[Definition, None] = {}
    waiting = [one for root in roots for one in root.cites]
    while waiting:
        one = waiting.pop()
        if one not in found:
            found[one] = None
            waiting += one.cites
    return list(found)
