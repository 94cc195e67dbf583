"""The map and the fault lines as texts."""
from . import elf
from .layout import PlacedPiece
from .names import Case
from .tail import symbols


def lines(found):
    """Each line ended by a line feed, as bytes."""
    return elf.data_of("".join(line + "\n" for line in found))


def flags(placed):
    """`r`, then `w` or `-`, then `x` or `-`."""
    return ("r" + ("w" if placed.flags & elf.SHF_WRITE else "-")
            + ("x" if placed.flags & elf.SHF_EXECINSTR else "-"))


def section_lines(placed):
    """An output section, then each piece of its row, also empty ones."""
    found = [f"section {placed.section.name} {placed.start:016x} {placed.load:016x} {placed.size:016x} {flags(placed)}"]
    for content in placed.contents:
        if isinstance(content, PlacedPiece):
            piece = content.piece
            found.append(f"piece {content.address:016x} {piece.size:016x} {piece.owner} {piece.name}")
    return found


def symbol_line(project, name, value, decision):
    """Its value (hyphens where its section has no piece in the output), name, and owner: an object or the script."""
    shown = "-" * 16 if value is None else f"{value:016x}"
    by_script = decision.case in (Case.SCRIPT, Case.PROVIDED)
    return f"symbol {shown} {name} {'script' if by_script else project.members[decision.entry.object].name}"


def map_text(project, output):
    """The entry, output sections with their pieces in script order, and symbols in byte order of names."""
    found = [f"entry {output.entry:016x}"]
    for placed in output.placement.sections:
        found += section_lines(placed)
    found += [symbol_line(project, *symbol) for symbol in symbols(output)]
    return lines(found)
