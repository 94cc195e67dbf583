"""Projects, and what an edit makes of one: the next project, or the first refusal that applies."""
from dataclasses import dataclass, field, replace

from . import objects, scripts
from .elf import printable_name
from .tokens import Refused

MOST_OBJECTS = 4_096
LARGEST_PAYLOAD = 2 ** 26
LONGEST_NAME = 255

NAME_IN_USE, NAME_UNKNOWN, POSITION_PAST_END, OBJECT_REFUSED, SCRIPT_REFUSED, LIMIT = 1, 2, 3, 4, 5, 6


@dataclass(frozen=True)
class Options:
    """Fixed for a run. `orphans` is `error` or `discard`; `entry` is a name or None."""
    gc: bool = False
    entry: str = None
    orphans: str = "error"


@dataclass(frozen=True)
class Member:
    """An object of a project under its name."""
    name: str
    object: objects.Object


@dataclass(frozen=True)
class Project:
    """Objects in their order, the tree of the script (at first that of the empty text), and the options."""
    members: list = field(default_factory=list)
    script: list = field(default_factory=list)
    options: Options = Options()

    @property
    def names(self):
        return [member.name for member in self.members]


@dataclass(frozen=True)
class Add:
    name: str
    at: int
    data: bytes


@dataclass(frozen=True)
class Replace:
    name: str
    data: bytes


@dataclass(frozen=True)
class Move:
    name: str
    to: int


@dataclass(frozen=True)
class Remove:
    name: str


@dataclass(frozen=True)
class Script:
    data: bytes


@dataclass(frozen=True)
class Refusal:
    """The number of an edit refusal, and for objects and scripts the number of theirs."""
    number: int
    inner: int = 0


def limit_passed(project, edit):
    """6: a payload that is too long, a name outside the limits, or one object too many."""
    if not isinstance(edit, (Add, Replace, Script)):
        return False
    return len(edit.data) > LARGEST_PAYLOAD or isinstance(edit, Add) and (
        not printable_name(edit.name, LONGEST_NAME) or len(project.members) >= MOST_OBJECTS)


def first_refusal(project, edit):
    """Tested in the order 1 name in use, 2 name unknown, 3 position past the end, 6 limit; None if none holds."""
    if isinstance(edit, Add) and edit.name in project.names:
        return Refusal(NAME_IN_USE)
    if isinstance(edit, (Replace, Move, Remove)) and edit.name not in project.names:
        return Refusal(NAME_UNKNOWN)
    if (isinstance(edit, Add) and edit.at > len(project.members)
            or isinstance(edit, Move) and edit.to > len(project.members) - 1):
        return Refusal(POSITION_PAST_END)
    return Refusal(LIMIT) if limit_passed(project, edit) else None


def after(project, edit):
    """The next project or the refusal; 4 for the object and 5 for the script come after all others."""
    refusal = first_refusal(project, edit)
    if refusal:
        return refusal
    if isinstance(edit, (Add, Replace)):
        inner = objects.refusal(edit.data)
        if inner:
            return Refusal(OBJECT_REFUSED, inner)
    if isinstance(edit, Script):
        try:
            return replace(project, script=scripts.read(edit.data))
        except Refused as refused:
            return Refusal(SCRIPT_REFUSED, refused.number)
    return replace(project, members=members_after(project.members, edit))


def members_after(members, edit):
    """The objects after an edit of them: `to` of a move counts in the list without the object."""
    if isinstance(edit, Add):
        return members[:edit.at] + [Member(edit.name, objects.read(edit.data))] + members[edit.at:]
    if isinstance(edit, Replace):
        read = objects.read(edit.data)
        return [Member(edit.name, read) if member.name == edit.name else member for member in members]
    others = [member for member in members if member.name != edit.name]
    if isinstance(edit, Move):
        moved = [member for member in members if member.name == edit.name]
        return others[:edit.to] + moved + others[edit.to:]
    return others
