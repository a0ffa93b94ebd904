"""The grammar once more, in Python, for `checks/random` to compare with: the rules that docs/GRAMMAR.md tells. It was
written by somebody who had seen neither the code nor its specifications, and was then put into this shorter form by an
author of the code, with the same answers to 6,000 texts.

`read` gives what the parts of a text mean, each as a plain text that says the same in one form, up to the first part
that has a fault, and that fault.
"""
import re
from collections import namedtuple
from dataclasses import dataclass


class Refused(Exception):
    """A fault, by its text."""


# ---- tokens

# What Rust takes for white space; Python's `isspace` is another.
WHITE_SPACE = "".join(map(chr, [
    *range(0x09, 0x0E), 0x20, 0x85, 0xA0, 0x1680, *range(0x2000, 0x200B), 0x2028, 0x2029, 0x202F, 0x205F, 0x3000,
]))
GAP = re.compile(rf"(?:[{WHITE_SPACE}]|;[^\n]*\n?)*")
SIGNS = re.compile(r"(?P<EqualEqual>==)|(?P<Equal>=)|(?P<Comma>,)")
QUOTED = re.compile(r'"([^"]*)("|\Z)')
WORD = re.compile(r"[^=,;\r\n \t\x0b]+")
KEYWORDS = "BASE CONSTANT DATA EXPORTS HEAPSIZE LIBRARY NAME NONAME PRIVATE STACKSIZE VERSION".split()
Token = namedtuple("Token", "kind value")


def token_at(text, place):
    """The token at a place that is neither in a gap nor at the end, and the place after it."""
    if found := SIGNS.match(text, place):
        return Token(found.lastgroup, found[0]), found.end()
    if found := QUOTED.match(text, place):
        return Token("Identifier", found[1].strip(WHITE_SPACE) if found[2] else ""), found.end()
    found = WORD.match(text, place)
    value = found[0].rstrip(WHITE_SPACE)
    return Token(f"Kw{value.capitalize()}" if value in KEYWORDS else "Identifier", value), found.end()


def tokens_of(text):
    tokens = []
    place = GAP.match(text).end()
    while place < len(text) and text[place] != "\0":
        token, place = token_at(text, place)
        tokens.append(token)
        place = GAP.match(text, place).end()
    return [*tokens, Token("Eof", "")]


U16, U32, U64 = 2**16 - 1, 2**32 - 1, 2**64 - 1


def number_of(value, limit):
    """The number that a text is, or nothing."""
    found = re.fullmatch(r"\+?0*([0-9]{0,20})", value) if value.strip("+") else None
    return int(found[1] or "0") if found and int(found[1] or "0") <= limit else None


def hold_numbers(values, limit):
    if any(number_of(value, limit) is None for value in values):
        raise Refused("expected integer")


# ---- definitions


def quoted(name):
    """A name as no keyword; a quote is in no quotes, but in words."""
    return name if '"' in name else f'"{name}"'


@dataclass
class Export:
    name: str
    alias_target: str = ""
    ordinal: int = 0
    no_name: bool = False
    is_data: bool = False
    private: bool = False
    constant: bool = False

    def plain(self):
        """The export in a statement of its own, in which its name is no attribute."""
        number = f" @{self.ordinal}" + " NONAME" * self.no_name if self.ordinal or self.no_name else ""
        alias = f" == {quoted(self.alias_target)}" if self.alias_target else ""
        return f"EXPORTS {quoted(self.name)}{number}{' DATA' * self.is_data}{' CONSTANT' * self.constant}{alias}\n"


FLAGS = {"KwData": "is_data", "KwConstant": "constant", "KwPrivate": "private"}


class Parser:
    """Reads statements. Of sizes, bases and versions, which no member shows, the numbers are read and not kept."""

    def __init__(self, text):
        self.tokens, self.import_name, self.exports = tokens_of(text), "", []

    def peek(self):
        return self.tokens[0]

    def take(self):
        """The next token; the last one stays."""
        return self.tokens.pop(0) if len(self.tokens) > 1 else self.tokens[0]

    def take_if(self, kind):
        return self.peek().kind == kind and self.take() is not None

    def parse(self):
        while (token := self.take()).kind != "Eof":
            if token.kind in ("KwHeapsize", "KwStacksize"):
                hold_numbers([self.identifier()], U64)
                if self.take_if("Comma"):
                    hold_numbers([self.identifier()], U64)
            elif token.kind in ("KwName", "KwLibrary"):
                self.name()
            elif token.kind == "KwVersion":
                hold_numbers(self.identifier().split(".", 1), U32)
            elif token.kind == "KwExports":
                while self.peek().kind == "Identifier":
                    self.export()
            else:
                raise Refused(f"unknown directive: {token.value}")

    def identifier(self):
        token = self.take()
        if token.kind != "Identifier":
            raise Refused(f"expected identifier, found: {token.kind}")
        return token.value

    def name(self):
        self.import_name = ""
        if self.peek().kind == "Identifier":
            self.import_name = self.take().value
            if self.take_if("KwBase"):
                sign = self.take()
                if sign.kind != "Equal":
                    raise Refused(f"expected equal, found: {sign.kind}")
                hold_numbers([self.identifier()], U64)

    def export(self):
        """An export, whose first token is an identifier; `@` and `@5` after another export do not
        come here, since that export took them."""
        export = Export(self.take().value)
        # what the DLL has it as inside is no matter of imports
        if self.take_if("Equal") and self.identifier() == "@":
            raise Refused("lone @ after =")
        while self.attribute(export):
            pass
        self.exports.append(export)

    def attribute(self, export):
        """Whether one more attribute was there."""
        token = self.peek()
        if token.kind == "Identifier" and token.value.startswith("@"):
            if token.value != "@" and number_of(token.value[1:], U16) is None:
                return False
            self.take()
            self.ordinal(export, self.take() if token.value == "@" else Token("Identifier", token.value[1:]))
        elif token.kind == "EqualEqual":
            self.take()
            export.alias_target = self.identifier()
        elif token.kind in FLAGS:
            self.take()
            setattr(export, FLAGS[token.kind], True)
        else:
            return False
        return True

    def ordinal(self, export, token):
        if token.kind == "Eof":
            raise Refused("expected identifier, found: Eof")
        export.ordinal = number_of(token.value, U16)
        if export.ordinal is None:
            raise Refused(f"invalid ordinal: {token.value}")
        if self.take_if("KwNoname"):
            export.no_name = True


def plain(text):
    """What a definition says, its private exports left out."""
    parser = Parser(text)
    parser.parse()
    exports = (export.plain() for export in parser.exports if not export.private)
    return f"LIBRARY {quoted(parser.import_name)}\n{''.join(exports)}"


def read(text):
    """The plain texts of the parts between lines that are `---`, or that and a carriage return, and the fault."""
    found = []
    for part in re.split(r"(?:\A|(?<=\n))---\r?(?:\n|\Z)", text):
        try:
            found.append(plain(part))
        except Refused as fault:
            return found, str(fault)
    return found, None
