"""The tokens of a text, and refusals that name the line."""
import re
from typing import List, NamedTuple, Optional

from . import trees

TOKEN = re.compile(
    r"(?P<space>[ \t\r\n]+|\#[^\n]*)"
    r"|(?P<word>[A-Za-z_][A-Za-z_0-9]*)"
    r"|(?P<number>[0-9][A-Za-z_0-9]*)"
    r"|(?P<sign>==|!=|<=|>=|&&|\|\||[()\[\]{};,?=+\-*!<>])"
)
LONGEST_WORD = 64


class Refusal(Exception):
    """Why a text is no program: a message, and where it has a place the line and the column."""

    def __init__(self, message: str, text: str = "", place: Optional[int] = None):
        super().__init__(message)
        self.message = message
        self.line = self.column = 0
        self.line_text = ""
        if place is not None:
            start = text.rfind("\n", 0, place) + 1
            end = text.find("\n", place)
            self.line = text.count("\n", 0, place) + 1
            self.column = place - start + 1
            self.line_text = text[start:] if end < 0 else text[start:end]

    def shown(self, name: str) -> str:
        """The refusal as a compiler prints it, with the line and a caret."""
        if not self.line:
            return "%s: %s" % (name, self.message)
        tabs = re.sub(r"[^\t]", " ", self.line_text[: self.column - 1])
        head = "%s:%d:%d: %s" % (name, self.line, self.column, self.message)
        return "%s\n  %s\n  %s^" % (head, self.line_text, tabs)


class Token(NamedTuple):
    kind: str  # word, number, sign or end
    text: str
    place: int


def tokens_of(text: str) -> List[Token]:
    """The tokens of a text, and last its end."""
    found = []
    place = 0
    while place < len(text):
        match = TOKEN.match(text, place)
        if not match:
            raise Refusal("no token begins with %r" % text[place], text, place)
        if match.lastgroup != "space":
            token = Token(str(match.lastgroup), match.group(), place)
            refuse_token(token, text)
            found.append(token)
        place = match.end()
    return found + [Token("end", "", len(text))]


def refuse_token(token: Token, text: str) -> None:
    """Refuses a word or a number that the language doesn't have."""
    if token.kind == "word" and len(token.text) > LONGEST_WORD:
        raise Refusal("a word of more than 64 bytes", text, token.place)
    if token.kind == "number" and not token.text.isdigit():
        raise Refusal("a word begins with a letter or `_`", text, token.place)
    # The conversion of very long texts is refused by newer Pythons, so the digits are counted.
    if token.kind == "number":
        digits = token.text.lstrip("0")
        if len(digits) > 39 or int(digits or "0") > trees.LARGEST_NUMBER:
            raise Refusal("a number of more than 2^127 - 1", text, token.place)
