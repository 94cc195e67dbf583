"""The value of an expression, or its fault (GNU ld manual, Expressions; operators and their levels are C's).

Numbers are unsigned modulo 2^64 and never relative to a section.
"""
from . import elf, tree

MODULUS = 2 ** 64


class NotReady(Exception):
    """An expression names a symbol or section that isn't there yet."""

    def __init__(self, name):
        super().__init__(name)
        self.name = name


class BadOperand(Exception):
    """Division or remainder by 0, or ALIGN to a number that is no power of two."""


OPERATIONS = {
    "*": lambda a, b: a * b, "+": lambda a, b: a + b, "-": lambda a, b: a - b,
    "<<": lambda a, b: a << b if b < 64 else 0, ">>": lambda a, b: a >> b if b < 64 else 0,
    "<": lambda a, b: a < b, "<=": lambda a, b: a <= b, ">": lambda a, b: a > b, ">=": lambda a, b: a >= b,
    "==": lambda a, b: a == b, "!=": lambda a, b: a != b, "&": lambda a, b: a & b, "|": lambda a, b: a | b}


def value(expression, names, dot):
    """The value, by the structure of the expression; `names` gives what it names, `dot` is the location counter.

    Left comes before right, and of `&&`, `||` and `?:` only what C evaluates.
    """
    of = lambda part: value(part, names, dot)
    if isinstance(expression, tree.Number):
        return expression.value
    if isinstance(expression, tree.Dot):
        return dot
    if isinstance(expression, tree.Name):
        return names.symbol(expression.name)
    if isinstance(expression, tree.Of):
        return names.function(expression.function, expression.name)
    if isinstance(expression, tree.Unary):
        return unary(expression.operator, of(expression.operand))
    if isinstance(expression, tree.Choice):
        return of(expression.then if of(expression.condition) != 0 else expression.otherwise)
    if isinstance(expression, tree.AlignDot):
        return aligned(dot, of(expression.alignment))
    if isinstance(expression, tree.Align):
        return aligned(of(expression.value), of(expression.alignment))
    if expression.operator == "&&":
        return int(of(expression.left) != 0 and of(expression.right) != 0)
    if expression.operator == "||":
        return int(of(expression.left) != 0 or of(expression.right) != 0)
    return binary(expression.operator, of(expression.left), of(expression.right))


def unary(operator, operand):
    """`!` is 0 or 1; `-` and `~` are modulo 2^64."""
    if operator == "!":
        return int(operand == 0)
    return (-operand if operator == "-" else ~operand) % MODULUS


def binary(operator, left, right):
    """The operators that evaluate both sides."""
    if operator in ("/", "%"):
        if right == 0:
            raise BadOperand()
        return left // right if operator == "/" else left % right
    return int(OPERATIONS[operator](left, right)) % MODULUS


def aligned(number, alignment):
    """The least multiple of the alignment not below the number, modulo 2^64."""
    return elf.align_up(number, power_of_two(alignment)) % MODULUS


def power_of_two(alignment):
    """An alignment must be one."""
    if not elf.is_power_of_two(alignment):
        raise BadOperand()
    return alignment
