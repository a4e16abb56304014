"""TOML as text: its tokens with their places, and TOML 1.1 as TOML 1.0, which `tomllib` reads."""

import re
from collections.abc import Iterator
from typing import NamedTuple

_TOKEN = re.compile(
    r'''
      (?P<text> """(?:\\.|[^\\])*?"{3,5} | \'\'\'.*?\'{3,5}
              | "(?:\\.|[^"\\\n])*" | '[^'\n]*' )
    | (?P<comment> \#[^\n]* )
    | (?P<line> \n )
    | (?P<mark> [][{},=] )
    | (?P<blank> [ \t\r]+ )
    | (?P<word> [^][{},=\#"'\s]+ | . )
    ''',
    re.VERBOSE | re.DOTALL,
)
_ESCAPE = re.compile(r"\\(?:x([0-9A-Fa-f]{2})|(e)|.)", re.DOTALL)


class Token(NamedTuple):
    """A piece of a TOML text: its kind, its text, and its place in characters."""

    kind: str  # text, comment, line, mark, blank or word
    text: str
    start: int
    end: int


def token_at(text: str, at: int) -> Token | None:
    """The piece of a TOML text that begins at a place; None at the text's end."""
    match = _TOKEN.match(text, at)
    return Token(match.lastgroup or "word", match[0], match.start(), match.end()) if match else None


def tokens_of(text: str) -> Iterator[Token]:
    """All pieces of a TOML text, in order; together they are the text."""
    at = 0
    while token := token_at(text, at):
        yield token
        at = token.end


def as_toml_1_0(text: str) -> str:
    """A text of TOML 1.1 as one of TOML 1.0.

    What is new in 1.1 is taken out: line ends, comments and a last comma inside inline tables,
    and the escapes `\\e` and `\\xHH`.
    """
    pieces: list[str] = []
    open_marks: list[str] = []
    comma = -1  # the piece of a comma behind which nothing but blanks has come
    for token in tokens_of(text):
        piece = token.text
        inside = open_marks[-1:] == ["{"]
        if token.kind == "text" and piece[0] == '"':
            piece = _ESCAPE.sub(_as_long_escape, piece)
        elif token.kind in ("comment", "line") and inside:
            piece = " "
        elif token.kind == "mark" and piece in "[{":
            open_marks.append(piece)
        elif token.kind == "mark" and piece in "]}" and open_marks:
            if open_marks.pop() == "{" and piece == "}" and comma >= 0:
                pieces[comma] = " "
        if token.kind == "mark" and piece == "," and inside:
            comma = len(pieces)
        elif token.kind not in ("blank", "comment", "line"):
            comma = -1
        pieces.append(piece)
    return "".join(pieces)


def _as_long_escape(match: re.Match[str]) -> str:
    if match[1]:
        return f"\\u00{match[1]}"
    return "\\u001b" if match[2] else match[0]
