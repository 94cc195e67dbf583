"""The grammar of scripts: from tokens to the one tree that they derive, or refusal 2.

The commands are those of the GNU ld manual, chapter Linker Scripts. Each function reads one rule of the grammar.
"""
import re

from . import tree
from .patterns import pattern
from .tokens import DISCARD, MARK, NAME, NUMBER, RESERVED, STRING, WORD, NAME_FORM, Refused, value_of

WIDTHS = {"BYTE": 1, "SHORT": 2, "LONG": 4, "QUAD": 8}
SORTS = {"SORT": "SORT_BY_NAME", "SORT_BY_NAME": "SORT_BY_NAME", "SORT_BY_ALIGNMENT": "SORT_BY_ALIGNMENT"}
FILL = re.compile(r"0x((?:[0-9A-Fa-f]{2}){1,8})")

# Binary operators, loosest first; all to the left. Tighter than all are the unary ones, looser `? :`.
LEVELS = [("||",), ("&&",), ("|",), ("&",), ("==", "!="), ("<", "<=", ">", ">="), ("<<", ">>"), ("+", "-"),
          ("*", "/", "%")]


class Parser:
    """Tokens and the place up to which they are read."""

    def __init__(self, tokens):
        self.tokens, self.at = tokens, 0

    # Tokens.

    def next_is(self, text, ahead=0):
        """Whether the next token is this mark or reserved word (a string or a number is neither)."""
        at = self.at + ahead
        return at < len(self.tokens) and self.tokens[at].text == text and self.tokens[at].kind in (MARK, NAME, WORD)

    def next_kind(self):
        return self.tokens[self.at].kind if self.at < len(self.tokens) else None

    @property
    def line(self):
        """The line of the next token."""
        return self.tokens[self.at].line if self.at < len(self.tokens) else 0

    def take(self):
        """The spelling of the next token, which is read."""
        self.at += 1
        return self.tokens[self.at - 1].text

    def accept(self, text):
        """Reads this mark or reserved word if it is next."""
        found = self.next_is(text)
        self.at += found
        return found

    def expect(self, *texts):
        """Reads these marks and reserved words."""
        for text in texts:
            if not self.accept(text):
                raise Refused(2)

    def token(self, kind):
        """The spelling of a token of this kind; a name or word must not be reserved."""
        if self.next_kind() != kind or kind in (NAME, WORD) and self.tokens[self.at].text in RESERVED:
            raise Refused(2)
        return self.take()

    def name(self):
        """NAME: `.` alone is none."""
        spelling = self.token(NAME)
        if spelling == ".":
            raise Refused(2)
        return spelling

    # Statements.

    def script(self):
        """script = {top}"""
        statements = []
        while self.at < len(self.tokens):
            if not self.accept(";"):
                statements.append(self.top())
        return statements

    def top(self):
        """top = ENTRY "(" NAME ")" | MEMORY .. | SECTIONS .. | NAME "=" e ";" | provide | assert"""
        line = self.line
        if self.accept("ENTRY"):
            return tree.Entry(line, self.in_parentheses(self.name))
        if self.accept("MEMORY"):
            self.expect("{")
            return tree.Memory(line, self.up_to_brace(self.region))
        if self.accept("SECTIONS"):
            self.expect("{")
            return tree.Sections(line, self.up_to_brace(self.item, empty=True))
        return self.provide_or_assert() or self.assignment()

    def in_parentheses(self, rule):
        """ "(" rule ")" """
        self.expect("(")
        found = rule()
        self.expect(")")
        return found

    def up_to_brace(self, rule, empty=False):
        """{rule} "}", with lone semicolons where they may stand."""
        found = []
        while not self.accept("}"):
            if not (empty and self.accept(";")):
                found.append(rule())
        return found

    def region(self):
        """region = NAME ":" ORIGIN "=" e "," LENGTH "=" e"""
        line, name = self.line, self.name()
        self.expect(":", "ORIGIN", "=")
        origin = self.expression()
        self.expect(",", "LENGTH", "=")
        return tree.Region(line, name, origin, self.expression())

    def item(self):
        """item = "." "=" e ";" | "." "+=" e ";" | NAME "=" e ";" | provide | assert | section"""
        if self.next_kind() == DISCARD:
            return self.discard()
        found = self.provide_or_assert() or self.dot_statement()
        if found:
            return found
        return self.assignment() if self.next_is("=", ahead=1) else self.section()

    def provide_or_assert(self):
        """provide = PROVIDE "(" NAME "=" e ")"; assert = ASSERT "(" e "," STRING ")" """
        line = self.line
        if self.accept("PROVIDE"):
            self.expect("(")
            name = self.name()
            self.expect("=")
            found = tree.Provide(line, name, self.expression())
        elif self.accept("ASSERT"):
            self.expect("(")
            condition = self.expression()
            self.expect(",")
            found = tree.Assert(line, condition, self.token(STRING)[1:-1])
        else:
            return None
        self.expect(")")
        return found

    def dot_statement(self):
        """ "." "=" e ";" | "." "+=" e ";" """
        line = self.line
        for operator, kind in (("=", tree.SetDot), ("+=", tree.AddDot)):
            if self.next_is(".") and self.next_is(operator, ahead=1):
                self.at += 2
                found = kind(line, self.expression())
                self.expect(";")
                return found
        return None

    def assignment(self):
        """NAME "=" e ";", where the name may be a word with the spelling of a name."""
        line = self.line
        name = self.name() if self.next_kind() == NAME else self.token(WORD)
        if not NAME_FORM.fullmatch(name) or name == ".":
            raise Refused(2)
        self.expect("=")
        value = self.expression()
        self.expect(";")
        return tree.Assign(line, name, value)

    def section(self):
        """section = NAME [e] ":" [AT "(" e ")"] [ALIGN "(" e ")"] "{" {body} "}" [">" NAME] [AT ">" NAME] ["=" fill]"""
        line, name = self.line, self.name()
        address = None if self.next_is(":") else self.expression()
        self.expect(":")
        load = self.in_parentheses(self.expression) if self.accept("AT") else None
        alignment = self.in_parentheses(self.expression) if self.accept("ALIGN") else None
        self.expect("{")
        body = self.up_to_brace(self.body, empty=True)
        region = self.name() if self.accept(">") else None
        load_region = self.load_region() if self.accept("AT") else None
        fill = self.fill() if self.accept("=") else b""
        if load is not None and load_region is not None:
            raise Refused(2)
        return tree.OutputSection(line, name, address, load, alignment, body, region, load_region, fill)

    def load_region(self):
        """AT ">" NAME, after AT."""
        self.expect(">")
        return self.name()

    def fill(self):
        """A hexadecimal NUMBER of an even count of 2 to 16 digits; its bytes stand from left to right."""
        found = FILL.fullmatch(self.token(NUMBER))
        if not found:
            raise Refused(2)
        return bytes.fromhex(found.group(1))

    def discard(self):
        """ "/DISCARD/" ":" "{" {";" | input} "}" """
        line = self.line
        self.take()
        self.expect(":", "{")
        return tree.Discard(line, self.up_to_brace(self.input, empty=True))

    def body(self):
        """body = "." "=" e ";" | "." "+=" e ";" | NAME "=" e ";" | provide | assert | data "(" e ")" | input"""
        found = self.provide_or_assert() or self.dot_statement()
        if found:
            return found
        line = self.line
        for keyword, width in WIDTHS.items():
            if self.accept(keyword):
                return tree.Data(line, width, self.in_parentheses(self.expression))
        return self.assignment() if self.next_is("=", ahead=1) else self.input()

    def input(self):
        """input = plain | KEEP "(" plain ")" """
        line = self.line
        if self.accept("KEEP"):
            return self.in_parentheses(lambda: self.plain(line, True))
        return self.plain(line, False)

    def plain(self, line, keep):
        """plain = WORD "(" one {one} ")" | WORD "(" sort "(" WORD {WORD} ")" ")" """
        file = pattern(self.token(WORD))
        self.expect("(")
        for keyword, sort in SORTS.items():
            if self.accept(keyword):
                words = [tree.Word(found, ()) for found in self.in_parentheses(self.patterns)]
                break
        else:
            sort, words = None, [self.one()]
            while not self.next_is(")"):
                words.append(self.one())
        self.expect(")")
        return tree.Input(line, keep, file, words, sort)

    def one(self):
        """one = [EXCLUDE_FILE "(" WORD {WORD} ")"] WORD: the exclusion holds for this word alone."""
        excluded = self.in_parentheses(self.patterns) if self.accept("EXCLUDE_FILE") else ()
        return tree.Word(pattern(self.token(WORD)), tuple(excluded))

    def patterns(self):
        """WORD {WORD}"""
        found = [pattern(self.token(WORD))]
        while self.next_kind() == WORD:
            found.append(pattern(self.token(WORD)))
        return found

    # Expressions.

    def expression(self):
        """e = or ["?" e ":" e]"""
        condition = self.binary(0)
        if not self.accept("?"):
            return condition
        then = self.expression()
        self.expect(":")
        return tree.Choice(condition, then, self.expression())

    def binary(self, level):
        """Operands of the next tighter level, joined to the left by operators of this one."""
        if level == len(LEVELS):
            return self.unary()
        found = self.binary(level + 1)
        while self.next_kind() == MARK and self.tokens[self.at].text in LEVELS[level]:
            operator = self.take()
            found = tree.Binary(operator, found, self.binary(level + 1))
        return found

    def unary(self):
        """unary = ("!" | "-" | "~") unary | primary"""
        for operator in ("!", "-", "~"):
            if self.accept(operator):
                return tree.Unary(operator, self.unary())
        return self.primary()

    def primary(self):
        """NUMBER | "." | NAME | "(" e ")" | a function of a name | ALIGN "(" e ["," e] ")" """
        if self.next_kind() == NUMBER:
            return tree.Number(value_of(self.take()))
        if self.next_is("("):
            return self.in_parentheses(self.expression)
        if self.accept("."):
            return tree.Dot()
        for function in (*tree.OF_REGION, *tree.OF_SECTION):
            if self.accept(function):
                return tree.Of(function, self.in_parentheses(self.name))
        if self.accept("ALIGN"):
            return self.in_parentheses(self.align)
        return tree.Name(self.name())

    def align(self):
        """e | e "," e"""
        first = self.expression()
        return tree.Align(first, self.expression()) if self.accept(",") else tree.AlignDot(first)


def derive(tokens):
    """The tree that the tokens derive, or refusal 2."""
    return Parser(tokens).script()
