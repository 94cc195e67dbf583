"""Tokens of a linker script, the two modes in which they are cut, and the limits on them.

The commands are those of the GNU ld manual, chapter Linker Scripts; how a text is cut is this profile's own.
"""
import re
from dataclasses import dataclass

LONGEST_TEXT = 2 ** 20
LONGEST_WORD = 255
MOST_BRACES = 4_096
MOST_OPERATORS = 64

RESERVED = set("""ENTRY MEMORY SECTIONS PROVIDE PROVIDE_HIDDEN HIDDEN KEEP ASSERT BYTE SHORT LONG QUAD SORT SORT_BY_NAME
    SORT_BY_ALIGNMENT EXCLUDE_FILE ORIGIN LENGTH ADDR LOADADDR SIZEOF ALIGN AT DEFINED MAX MIN CONSTANT NOLOAD
    SIZEOF_HEADERS FILL SQUAD INPUT_SECTION_FLAGS""".split())
OPERATORS = set("( ! - ~ * / % + << >> < <= > >= == != & && | || ?".split())
CALLS = ("BYTE", "SHORT", "LONG", "QUAD", "PROVIDE", "ASSERT")

SPACE, NAME, NUMBER, STRING, DISCARD, MARK, WORD = "space", "name", "number", "string", "discard", "mark", "word"

WHITE_SPACE = re.compile(r"[ \t\n\r]+")
# `.` before a `-` is the location counter: no name begins with `.-`.
NAME_FORM = re.compile(r"(?!\.-)[A-Za-z_.][A-Za-z0-9_.$-]*|\.")
NUMBER_FORM = re.compile(r"(?:0[xX][0-9A-Fa-f]+|0[0-7]*|[1-9][0-9]*)[KM]?(?![A-Za-z0-9_.$])")
EXPRESSION_FORMS = [
    (NAME, NAME_FORM), (NUMBER, NUMBER_FORM), (STRING, re.compile(r'"[ !#-~]*"')),
    (DISCARD, re.compile(r"/DISCARD/")),
    (MARK, re.compile(r"<<|>>|<=|>=|==|!=|&&|\|\||\+=|[(){};:,=!\-~*/%+<>&|?]"))]
PATTERN_FORMS = [
    (MARK, re.compile(r"\+=|[(){};=]")),
    (WORD, re.compile(r"(?:[A-Za-z0-9_.$/*?\[\]-]|\\[!-~])+"))]


class Refused(Exception):
    """A script refusal and its number."""

    def __init__(self, number):
        super().__init__(number)
        self.number = number


@dataclass(frozen=True)
class Token:
    """What kind it is, how it is spelled, its line from 1, and whether it was read in expression mode."""
    kind: str
    text: str
    line: int
    in_expression: bool


class Modes:
    """Where the cutting stands: the depth of braces, and the two stretches that are read as expressions.

    Pattern mode holds at depth 2 outside both. One stretch lasts from an `=` or `+=` of pattern mode to the next `;`;
    the other from the `(` right after BYTE, SHORT, LONG, QUAD, PROVIDE or ASSERT, read in pattern mode, to its `)`.
    """

    def __init__(self):
        self.depth = 0
        self.assigning = False
        self.parentheses = 0
        self.called = False

    @property
    def is_pattern(self):
        return self.depth == 2 and not self.assigning and self.parentheses == 0

    def opens_call(self, text):
        """Whether this token is the `(` with which the second stretch begins."""
        return self.called and text == "("

    def after(self, token):
        """Goes on behind one token."""
        opens = self.opens_call(token.text)
        self.called = self.is_pattern and token.kind == WORD and token.text in CALLS
        if token.kind != MARK:
            return
        self.brackets(token.text, opens)
        self.brace(token.text)

    def brackets(self, mark, opens):
        """Begins and ends the two stretches."""
        if opens:
            self.parentheses = 1
        elif self.parentheses > 0:
            self.parentheses += {"(": 1, ")": -1}.get(mark, 0)
        elif self.assigning:
            self.assigning = mark != ";"
        elif self.is_pattern:
            self.assigning = mark in ("=", "+=")

    def brace(self, mark):
        """The depth is never below 0."""
        if mark == "{":
            self.depth += 1
        elif mark == "}":
            self.depth = max(0, self.depth - 1)


def past_space(text, at):
    """The next place that is neither white space nor in a comment. A comment without an end is refusal 1."""
    while at < len(text):
        space = WHITE_SPACE.match(text, at)
        if space:
            at = space.end()
        elif text.startswith("/*", at):
            end = text.find("*/", at + 2)
            if end < 0:
                raise Refused(1)
            at = end + 2
        else:
            break
    return at


def longest(text, at, forms):
    """The kind and spelling of the longest token of a mode that begins here, or refusal 1."""
    found = [(form.match(text, at), kind) for kind, form in forms]
    found = [(match.end(), kind) for match, kind in found if match]
    if not found:
        raise Refused(1)
    end, kind = max(found)
    return kind, text[at:end]


def cut(text):
    """All tokens of a text, or refusal 1."""
    tokens, modes, at, line = [], Modes(), 0, 1
    while True:
        start = past_space(text, at)
        line += text.count("\n", at, start)
        if start == len(text):
            return tokens
        is_pattern = modes.is_pattern
        kind, spelling = longest(text, start, PATTERN_FORMS if is_pattern else EXPRESSION_FORMS)
        token = Token(kind, spelling, line, not is_pattern or modes.opens_call(spelling))
        tokens.append(token)
        modes.after(token)
        at = start + len(spelling)


def value_of(number):
    """The value of a NUMBER: hexadecimal, octal or decimal, times 2^10 for K and 2^20 for M."""
    digits, scale = number, 1
    if number[-1] in "KM":
        digits, scale = number[:-1], 2 ** 10 if number[-1] == "K" else 2 ** 20
    if digits[:2] in ("0x", "0X"):
        return int(digits[2:], 16) * scale
    return radix(digits, 8 if digits[0] == "0" else 10) * scale


def radix(digits, base):
    """The value of digits in a base. A long row of digits is cut short where it is above every limit anyway."""
    significant = digits.lstrip("0") or "0"
    return int(significant, base) if len(significant) <= 100 else 2 ** 64


def is_over_limit(tokens):
    """Refusal 5: a number, a name, the braces, or the operators of one run."""
    return (any(token.kind == NUMBER and value_of(token.text) >= 2 ** 64 for token in tokens)
            or any(token.kind in (NAME, WORD) and len(token.text) > LONGEST_WORD for token in tokens)
            or sum(token.text == "{" and token.kind == MARK for token in tokens) > MOST_BRACES
            or any(operators > MOST_OPERATORS for operators in runs(tokens)))


def runs(tokens):
    """The number of operators and `(` in each run of expression-mode tokens, which `;`, `{` and `}` break."""
    operators = 0
    for token in tokens:
        if not token.in_expression or token.kind == MARK and token.text in (";", "{", "}"):
            yield operators
            operators = 0
        elif token.kind == MARK and token.text in OPERATORS:
            operators += 1
    yield operators
