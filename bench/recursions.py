"""The functions of the program's code that call themselves, which bench/own-checks holds against the list in docs/PROOFS.md.

A body that has the function's own name as a call is found: `name(..)` in a function, `self.name(..)` or `Self::name(..)` in a method. A
ring of functions that call one another is found by its proofs: the toolchain puts a + before the folder of a function that recurs.
"""

import pathlib
import re

FUNCTION = re.compile(r"^( *)(?:pub(?:\([a-z]+\))? )?(?:const )?fn (\w+)", re.M)
ASIDE = re.compile(r'//.*|"(?:\\.|[^"\\])*"')
LISTED = re.compile(r"^\| `(\w+)` \| `(\w+)` \| [\d,]+ \|", re.M)


def calls_itself(indent: str, name: str, body: str) -> bool:
    """Whether a function, or a method where it is indented, has a call of itself in its body."""
    before = r"(?:\bself\.|\bSelf::)" if indent else r"(?<![\w.:])"
    return bool(re.search(rf"{before}{name}(?:::<[^>]*>)?\(", body))


def recursive(top: pathlib.Path) -> set[tuple[str, str]]:
    """The crate and the name of each function that recurs."""
    found = {(folder.relative_to(top).parts[1], folder.name[1:]) for folder in top.glob("crates/*/proofs/**/+*")}
    for file in top.glob("crates/*/src/**/*.rt"):
        crate = file.relative_to(top).parts[1]
        _, *parts = FUNCTION.split(ASIDE.sub("", file.read_text()))
        functions = zip(parts[::3], parts[1::3], parts[2::3])
        found |= {(crate, name) for indent, name, body in functions if calls_itself(indent, name, body)}
    return found


def recursion_faults(top: pathlib.Path) -> list[str]:
    """Functions that recur and that docs/PROOFS.md doesn't list with their depth, and those that it lists and that don't."""
    listed = set(LISTED.findall((top / "docs/PROOFS.md").read_text()))
    found = recursive(top)
    return [f"docs/PROOFS.md: no depth of {name} of {crate}, which calls itself" for crate, name in sorted(found - listed)] + [
        f"docs/PROOFS.md: {name} of {crate} doesn't call itself" for crate, name in sorted(listed - found)
    ]
