"""Gathering: which statement takes a section, which sections are live, and the row of each output section.

From the GNU ld manual: Input Section Basics, Wildcards, Common, Keep; Output Section Discarding; --gc-sections.
"""
from dataclasses import dataclass

from . import elf, names, tree
from .names import Case
from .patterns import matches


@dataclass(frozen=True)
class Piece:
    """A linked section of an object or a common block. `number` is that of the section, or of a block's symbol."""
    object: int
    owner: str
    number: int
    is_block: bool
    name: str
    kind: int
    flags: int
    size: int
    alignment: int
    content: bytes

    @property
    def key(self):
        """What tells a piece from all others of a project."""
        return self.object, self.is_block, self.number

    @property
    def gives_file_bytes(self):
        return self.size > 0 and self.kind != elf.SHT_NOBITS


@dataclass(frozen=True)
class InputStatement:
    """An input statement and its number in text order; the number of its output section, None under /DISCARD/."""
    number: int
    section: int
    statement: tree.Input


@dataclass(frozen=True)
class RowEntry:
    """A piece in the row of an output section, and the number of the input statement that took it."""
    statement: int
    piece: Piece


def pieces(project, decisions):
    """All linked sections in object order, then section order; after an object's sections the common blocks it owns.

    Alignment 0 counts as 1. A common block has no file bytes, is writable, and is named COMMON.
    """
    found = []
    for at, member in enumerate(project.members):
        for section in member.object.sections:
            found.append(Piece(at, member.name, section.number, False, section.name, section.kind, section.flags,
                               section.size, max(1, section.alignment), section.content))
        for block in decisions.commons.get(at, []):
            found.append(Piece(at, member.name, block.entry.symbol.number, True, "COMMON", elf.SHT_NOBITS,
                               elf.SHF_ALLOC | elf.SHF_WRITE, block.size, block.alignment, b""))
    return found


def input_statements(project):
    """The input statements of a script, in text order."""
    found, section = [], -1
    for holder in tree.of_kind(project.script, (tree.OutputSection, tree.Discard)):
        is_output = isinstance(holder, tree.OutputSection)
        section += is_output
        for statement in holder.body:
            if isinstance(statement, tree.Input):
                found.append(InputStatement(len(found), section if is_output else None, statement))
    return found


def word_matches(word, piece):
    """The word matches the section's name, and no pattern excluded from it the object's name."""
    return matches(word.pattern, piece.name) and not any(matches(file, piece.owner) for file in word.excluded)


def takes(statement, piece):
    """The file pattern matches the object's name, and one of the words the section."""
    return matches(statement.file, piece.owner) and any(word_matches(word, piece) for word in statement.words)


def first_match(statements, piece):
    """The first input statement that takes the piece, or None."""
    return next((found for found in statements if takes(found.statement, piece)), None)


def is_out(project, piece, taken):
    """Taken under /DISCARD/; or not taken, and empty or discarded as an orphan."""
    if taken is not None:
        return taken.section is None
    return piece.size == 0 or project.options.orphans == "discard"


def target(project, decisions, at, symbol):
    """The key of the piece that a symbol of an object stands for, or None.

    A local symbol: its section. Another: what its name is decided to be, also where its own object defines it.
    """
    if symbol.number == 0:
        return None
    if symbol.is_local:
        return at, False, symbol.section
    return piece_of(decisions.of(symbol.name))


def piece_of(decision):
    """The key of the piece in which a decided name lies, or None. It may name a section that isn't linked."""
    if decision.case is Case.COMMON:
        return decision.entry.object, True, decision.entry.symbol.number
    if decision.case in (Case.STRONG, Case.WEAK):
        return decision.entry.object, False, decision.entry.symbol.section
    return None


def roots(project, decisions, taken):
    """The keys from which liveness starts: the entry symbol's piece, and pieces taken under KEEP."""
    found = [key for key, statement in taken.items() if statement is not None and statement.statement.keep]
    entry = names.entry_name(project)
    return found + ([piece_of(decisions.of(entry))] if entry is not None else [])


def live(project, decisions, taken, standing):
    """The keys of the live pieces among those that aren't out (`standing`).

    With garbage collection those to which a path of standing pieces leads from a root, each next one the target of some
    relocation of the one before, NONE too.
    """
    if not project.options.gc:
        return set(standing)
    found, ahead = set(), roots(project, decisions, taken)
    while ahead:
        key = ahead.pop()
        if key in standing and key not in found:
            found.add(key)
            ahead += steps(project, decisions, key)
    return found


def steps(project, decisions, key):
    """The targets of the relocations of a piece. A common block has none."""
    at, is_block, number = key
    if is_block:
        return []
    read = project.members[at].object
    return [target(project, decisions, at, read.symbols[relocation.symbol])
            for relocation in read.relocations.get(number, [])]


@dataclass(frozen=True)
class Gathered:
    """The row of each output section in script order, and the orphans that are a fault."""
    rows: list
    orphans: list


def gather(project, decisions):
    """Takes, marks, and puts in rows: the row of an output section is what its statements take, one after the other."""
    found, statements = pieces(project, decisions), input_statements(project)
    taken = {piece.key: first_match(statements, piece) for piece in found}
    standing = {piece.key for piece in found if not is_out(project, piece, taken[piece.key])}
    marked = live(project, decisions, taken, standing)
    alive = [piece for piece in found if piece.key in marked]
    count = len(tree.of_kind(project.script, tree.OutputSection))
    rows = [[] for _ in range(count)]
    for statement in statements:
        if statement.section is not None:
            rows[statement.section] += taken_by(statement, alive, taken)
    return Gathered(rows, [piece for piece in alive if taken[piece.key] is None])


def taken_by(statement, alive, taken):
    """The live pieces that a statement takes, sorted as it says; equal keys stay in object and section order."""
    entries = [RowEntry(statement.number, piece) for piece in alive if taken[piece.key] == statement]
    if statement.statement.sort == "SORT_BY_NAME":
        return sorted(entries, key=lambda entry: entry.piece.name)
    if statement.statement.sort == "SORT_BY_ALIGNMENT":
        return sorted(entries, key=lambda entry: -entry.piece.alignment)
    return entries


def faults(gathered):
    """The second phase: F3 for each live piece that no statement takes."""
    return [f"F3 {piece.owner} {piece.name}" for piece in gathered.orphans]
