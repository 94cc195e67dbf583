"""The link: status, image, map and fault lines as a function of a project, phase by phase.

The fault lines are those of the first phase that has any; then the status is 1, and image and map are empty.
"""
from dataclasses import dataclass

from . import assertions, gathering, image, layout, names, segments, tail, targets, texts

LONGEST_IMAGE = 2 ** 28


@dataclass(frozen=True)
class Linked:
    """The four parts of a link; and for a good one what its image's bytes depend on (`image.byte_at`)."""
    status: int
    image: bytes
    map: bytes
    faults: bytes
    built: image.Link = None


def faulty(lines):
    """A link with faults."""
    return Linked(1, b"", b"", texts.lines(lines))


def link(project):
    """Names, gathering, layout, length of the image, relocation, ASSERT; then the image and the map."""
    decisions = names.Decisions(project)
    faults = names.faults(project, decisions)
    if faults:
        return faulty(faults)
    gathered = gathering.gather(project, decisions)
    faults = gathering.faults(gathered)
    if faults:
        return faulty(faults)
    placement, faults = layout.place(project, decisions, gathered.rows)
    if faults:
        return faulty(faults)
    return placed_link(project, targets.Output(project, decisions, placement))


def placed_link(project, output):
    """What follows on a placement: the length limit, relocation, ASSERT, the image and the map."""
    file_layout = segments.file_layout(output.placement)
    ending = tail.tail(output, file_layout)
    length = file_layout.end + len(ending.content)
    if length > LONGEST_IMAGE:
        return faulty([f"F11 {length}"])
    fields = targets.fields(output)
    faults = fields.faults or assertions.faults(project, output)
    if faults:
        return faulty(faults)
    built = image.Link(output.placement, file_layout, output.entry, fields.content, ending)
    return Linked(0, image.image(built), texts.map_text(project, output), b"", built)
