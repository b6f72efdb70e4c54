"""Tokens of Rattle and of C: enough to find functions, statements, arguments and texts in them."""
import re
from typing import NamedTuple

TOKEN = re.compile(
    r"""
    (?P<space>\s+)
  | (?P<comment>//[^\n]*|/\*.*?\*/)
  | (?P<text>b?"(?:\\.|[^"\\])*")
  | (?P<char>b?'(?:\\(?:x[0-9a-fA-F]{2}|u\{[^}]*\}|.)|[^'\\\n])')
  | (?P<lifetime>'[A-Za-z_]\w*)
  | (?P<number>0x[0-9a-fA-F_]+\w*|\d[\d_]*(?:\.\d[\d_]*)?\w*)
  | (?P<word>[^\W\d]\w*)
  | (?P<mark>::|->|=>|==|!=|<=|>=|&&|\|\||\.\.=|\.\.|<<|>>|\+\+|--|[-+*/%^&|]=|.)
    """,
    re.X | re.S,
)
OPEN, CLOSE = "([{", ")]}"


class Token(NamedTuple):
    kind: str
    text: str
    start: int
    end: int


def tokens_of(text, start=0, end=None):
    """The tokens of a part of a text, without spaces and comments."""
    found = TOKEN.finditer(text, start, len(text) if end is None else end)
    tokens = (Token(it.lastgroup, it[0], it.start(), it.end()) for it in found)
    return [it for it in tokens if it.kind not in ("space", "comment")]


def closing(tokens, at):
    """The index of the token that closes the bracket at an index."""
    depth = 0
    for index in range(at, len(tokens)):
        if tokens[index].kind == "mark":
            depth += (tokens[index].text in OPEN) - (tokens[index].text in CLOSE)
            if not depth:
                return index
    return len(tokens) - 1


def parts(tokens, separator):
    """The tokens between the separators that are outside all brackets."""
    found, depth = [[]], 0
    for token in tokens:
        if token.kind == "mark":
            depth += (token.text in OPEN) - (token.text in CLOSE)
            if token.text == separator and not depth:
                found.append([])
                continue
        found[-1].append(token)
    return found


def spaced(text, token):
    """Whether there is a space on both sides of a token, as around an operator of formatted source."""
    return text[token.start - 1:token.start].isspace() and text[token.end:token.end + 1].isspace()
