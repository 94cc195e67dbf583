"""ASSERT: conditions over a whole link (GNU ld manual, Miscellaneous Commands).

They see every name as it is decided, and every output section of the script.
"""
from . import tree
from .expressions import BadOperand, NotReady, value
from .targets import NotInOutput, Undefined


class Names:
    """What the expression of an ASSERT may name."""

    def __init__(self, output):
        self.output = output

    def symbol(self, name):
        return self.output.name_value(name)

    def function(self, function, name):
        """A function of a region, or of an output section."""
        if function in tree.OF_REGION:
            return self.output.placement.regions[name][tree.OF_REGION.index(function)]
        placed = self.output.placement.section(name)
        if placed is None:
            raise NotReady(name)
        return getattr(placed, tree.OF_SECTION[function])


def holds(statement, output):
    """Whether the condition has a value, and that is not 0."""
    try:
        return value(statement.condition, Names(output), 0) != 0
    except (NotReady, BadOperand, Undefined, NotInOutput):
        return False


def faults(project, output):
    """The last phase: F15 for each ASSERT that doesn't hold, in script order."""
    return [f"F15 {statement.line} {statement.message}" for statement in tree.of_kind(project.script, tree.Assert)
            if not holds(statement, output)]
