"""The file layout: which output sections share a PT_LOAD, and where each stands in the file (gABI, program header).

The joining rule is this profile's own.
"""
from dataclasses import dataclass
from functools import cached_property

from . import elf

PAGE = 4_096


@dataclass(frozen=True)
class Segment:
    """Consecutive output sections of nonzero size in script order, and the file offset of the first."""
    sections: list
    offset: int

    @property
    def address(self):
        return self.sections[0].start

    @property
    def load(self):
        return self.sections[0].load

    @property
    def memory_size(self):
        """It reaches to the end of the last section."""
        return self.sections[-1].end - self.address

    @property
    def file_size(self):
        """It reaches to the end of the last section with file bytes, and is 0 without one."""
        ends = [placed.end for placed in self.sections if placed.has_file_bytes]
        return ends[-1] - self.address if ends else 0

    @property
    def flags(self):
        """R, with W and X as its sections have them (they all agree)."""
        section = self.sections[0].flags
        return (elf.PF_R | (elf.PF_W if section & elf.SHF_WRITE else 0)
                | (elf.PF_X if section & elf.SHF_EXECINSTR else 0))

    def offset_of(self, placed):
        """The file offset of one of its sections: the segment's plus its distance."""
        return self.offset + placed.start - self.address


def joins(earlier, placed):
    """Whether a section joins the segment of the one before it.

    Equal flags, an equal distance of address and load address, a start not below the other's end and less than a page
    past it; and it isn't so that only this one has file bytes.
    """
    return (earlier.flags == placed.flags
            and (earlier.start - earlier.load) % 2 ** 64 == (placed.start - placed.load) % 2 ** 64
            and earlier.end <= placed.start < earlier.end + PAGE
            and not (placed.has_file_bytes and not earlier.has_file_bytes))


@dataclass(frozen=True)
class FileLayout:
    """The segments in script order, and the end of the last file bytes."""
    segments: list
    end: int

    @property
    def table(self):
        """The segments in the order of the program headers: ascending addresses."""
        return sorted(self.segments, key=lambda segment: segment.address)

    @cached_property
    def offsets(self):
        """The file offset of each output section of nonzero size, by its name."""
        return {placed.section.name: segment.offset_of(placed)
                for segment in self.segments for placed in segment.sections}

    def offset_of(self, placed):
        """The file offset of an output section; 0 for an empty one."""
        return self.offsets.get(placed.section.name, 0)


def groups(placement):
    """The output sections of nonzero size, parted where one doesn't join the one before."""
    found = []
    for placed in placement.sections:
        if placed.size == 0:
            continue
        if found and joins(found[-1][-1], placed):
            found[-1].append(placed)
        else:
            found.append([placed])
    return found


def file_layout(placement):
    """Each segment at the least offset not below the end so far that is congruent to its address modulo 4,096."""
    parted = groups(placement)
    end = elf.FILE_HEADER_SIZE + elf.PROGRAM_HEADER_SIZE * len(parted)
    segments = []
    for sections in parted:
        segment = Segment(sections, end + (sections[0].start - end) % PAGE)
        segments.append(segment)
        if segment.file_size > 0:
            end = segment.offset + segment.file_size
    return FileLayout(segments, end)
