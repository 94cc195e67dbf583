"""The reader of scripts: the one tree of a text, or the first of five refusals that applies.

Tested in this order: 5 for a text that is too long, 1 no token, 5 a limit, 2 no script, 3 something given twice or a
region not declared, 4 a use of the location counter outside the profile.
"""
from . import elf, tree
from .grammar import derive
from .tokens import LONGEST_TEXT, Refused, cut, is_over_limit


def read(data):
    """The tree of the text; raises Refused."""
    if len(data) > LONGEST_TEXT:
        raise Refused(5)
    tokens = cut(elf.text(data))
    if is_over_limit(tokens):
        raise Refused(5)
    found = derive(tokens)
    if has_repetition(found) or has_undeclared_region(found):
        raise Refused(3)
    if has_foreign_dot(found):
        raise Refused(4)
    return found


def repeats(items):
    """Whether something stands in a list twice."""
    return len(items) != len(set(items))


def has_repetition(script):
    """Refusal 3: a second ENTRY, MEMORY or SECTIONS, or a name of a region, section or symbol given twice."""
    if any(len(tree.of_kind(script, kind)) > 1 for kind in (tree.Entry, tree.Memory, tree.Sections)):
        return True
    return (repeats([region.name for region in tree.of_kind(script, tree.Region)])
            or repeats([section.name for section in tree.of_kind(script, tree.OutputSection)])
            or repeats([symbol.name for symbol in tree.of_kind(script, (tree.Assign, tree.Provide))]))


def has_undeclared_region(script):
    """Refusal 3: a region that is used before its whole declaration."""
    declared = set()
    for statement in tree.statements(script):
        if not regions_used(statement) <= declared:
            return True
        if isinstance(statement, tree.Region):
            declared.add(statement.name)
    return False


def regions_used(statement):
    """The regions that a statement names itself."""
    used = {part.name for expression in tree.own_expressions(statement) for part in tree.inside(expression)
            if isinstance(part, tree.Of) and part.function in ("ORIGIN", "LENGTH")}
    if isinstance(statement, tree.OutputSection):
        used |= {region for region in (statement.region, statement.load_region) if region is not None}
    return used


def has_foreign_dot(script):
    """Refusal 4: the location counter outside SECTIONS or in an ASSERT; a bad assignment to it in an output section."""
    for statement in tree.statements(script):
        if isinstance(statement, (tree.Region, tree.Assert)) and uses(statement, tree.Dot, tree.AlignDot):
            return True
    if any(uses(statement, tree.Dot, tree.AlignDot) for statement in script):
        return True
    return any(isinstance(statement, tree.SetDot) and form(statement.value) is None
               for section in tree.of_kind(script, tree.OutputSection) for statement in section.body)


def uses(statement, *kinds):
    """Whether an expression of these kinds stands in a statement itself."""
    return any(has(expression, *kinds) for expression in tree.own_expressions(statement))


def has(expression, *kinds):
    """Whether an expression of these kinds stands in an expression."""
    return any(isinstance(part, kinds) for part in tree.inside(expression))


ADD, SET, OFFSET = "add", "set", "offset"


def form(value):
    """How `. = value` in an output section moves the location counter: the form, and the expression of its amount.

    `. + e` adds e; `ALIGN(e)` without `.` in e sets it; e with neither `.` nor ALIGN counts from the section's start.
    """
    if isinstance(value, tree.Binary) and value.operator == "+" and isinstance(value.left, tree.Dot):
        return ADD, value.right
    if isinstance(value, tree.AlignDot) and not has(value.alignment, tree.Dot):
        return SET, value
    if not has(value, tree.Dot, tree.AlignDot, tree.Align):
        return OFFSET, value
    return None
