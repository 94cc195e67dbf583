"""The tree of a script: its statements, each with its line, and its expressions."""
from dataclasses import dataclass


# Expressions.

@dataclass(frozen=True)
class Number:
    value: int


@dataclass(frozen=True)
class Dot:
    """`.`, the location counter."""


@dataclass(frozen=True)
class Name:
    name: str


@dataclass(frozen=True)
class Unary:
    operator: str
    operand: object


@dataclass(frozen=True)
class Binary:
    operator: str
    left: object
    right: object


@dataclass(frozen=True)
class Choice:
    """`condition ? then : otherwise`."""
    condition: object
    then: object
    otherwise: object


@dataclass(frozen=True)
class AlignDot:
    """`ALIGN(e)`: the location counter aligned."""
    alignment: object


@dataclass(frozen=True)
class Align:
    """`ALIGN(a, e)`."""
    value: object
    alignment: object


OF_REGION = ("ORIGIN", "LENGTH")
OF_SECTION = {"ADDR": "start", "LOADADDR": "load", "SIZEOF": "size"}  # which field of a placed section each asks for


@dataclass(frozen=True)
class Of:
    """A function of a region or of an output section."""
    function: str
    name: str


# Statements.

@dataclass(frozen=True)
class Entry:
    line: int
    name: str


@dataclass(frozen=True)
class Region:
    line: int
    name: str
    origin: object
    length: object


@dataclass(frozen=True)
class Memory:
    line: int
    regions: list


@dataclass(frozen=True)
class Sections:
    line: int
    items: list


@dataclass(frozen=True)
class Assign:
    """`name = value;`."""
    line: int
    name: str
    value: object


@dataclass(frozen=True)
class Provide:
    line: int
    name: str
    value: object


@dataclass(frozen=True)
class Assert:
    line: int
    condition: object
    message: str


@dataclass(frozen=True)
class SetDot:
    """`. = value;`."""
    line: int
    value: object


@dataclass(frozen=True)
class AddDot:
    """`. += value;`."""
    line: int
    value: object


@dataclass(frozen=True)
class OutputSection:
    """`load` is AT(e), `load_region` AT>r; what isn't written is None, and no fill is no bytes."""
    line: int
    name: str
    address: object
    load: object
    alignment: object
    body: list
    region: str
    load_region: str
    fill: bytes


@dataclass(frozen=True)
class Discard:
    """`/DISCARD/`."""
    line: int
    body: list


@dataclass(frozen=True)
class Data:
    """BYTE, SHORT, LONG or QUAD by its width."""
    line: int
    width: int
    value: object


@dataclass(frozen=True)
class Word:
    """A section pattern and the file patterns excluded from it."""
    pattern: tuple
    excluded: tuple


@dataclass(frozen=True)
class Input:
    """An input statement. `sort` is None, SORT_BY_NAME or SORT_BY_ALIGNMENT."""
    line: int
    keep: bool
    file: tuple
    words: list
    sort: str


def parts(expression):
    """The expressions right inside an expression."""
    if isinstance(expression, Unary):
        return [expression.operand]
    if isinstance(expression, Binary):
        return [expression.left, expression.right]
    if isinstance(expression, Choice):
        return [expression.condition, expression.then, expression.otherwise]
    if isinstance(expression, AlignDot):
        return [expression.alignment]
    if isinstance(expression, Align):
        return [expression.value, expression.alignment]
    return []


def inside(expression):
    """An expression and all expressions inside it."""
    yield expression
    for part in parts(expression):
        yield from inside(part)


def own_expressions(statement):
    """The expressions of a statement, in text order, without those of statements inside it."""
    if isinstance(statement, (Assign, Provide, SetDot, AddDot, Data)):
        return [statement.value]
    if isinstance(statement, Assert):
        return [statement.condition]
    if isinstance(statement, Region):
        return [statement.origin, statement.length]
    if isinstance(statement, OutputSection):
        return [e for e in (statement.address, statement.load, statement.alignment) if e is not None]
    return []


def nested(statement):
    """The statements right inside a statement."""
    if isinstance(statement, Memory):
        return statement.regions
    if isinstance(statement, Sections):
        return statement.items
    if isinstance(statement, (OutputSection, Discard)):
        return statement.body
    return []


def statements(tree):
    """All statements of a tree, in text order, each before those inside it."""
    for statement in tree:
        yield statement
        yield from statements(nested(statement))


def of_kind(tree, kind):
    """All statements of one kind, in text order."""
    return [statement for statement in statements(tree) if isinstance(statement, kind)]
