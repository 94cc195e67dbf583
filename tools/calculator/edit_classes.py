"""The classes of edits between two good links: what was edited, what became otherwise, and what moved.

    count(options, data)    how many edits of each class a stream has, by the calculator's links

An edit is in each class that holds of it. The links are those right before and right after it; only for the last two
classes others were between.
"""
import collections
import re
from dataclasses import dataclass
from functools import cached_property

from . import answers, edits, elf, image, tree
from .link import link
from .names import Case, Decisions


@dataclass(frozen=True)
class Place:
    """Where an input section lies: its output section, addresses in memory and in the file, and what it is."""
    section: str
    address: int
    offset: int
    piece: object


class Good:
    """A good link and its project, with what the classes ask of them."""

    def __init__(self, project, linked):
        self.project, self.linked = project, linked
        self.placement, self.layout = linked.built.placement, linked.built.layout

    @cached_property
    def decisions(self):
        return Decisions(self.project)

    @cached_property
    def places(self):
        """The place of each input section and common block, by its object's name and its number there."""
        found = {}
        for placed in self.placement.sections:
            start = self.layout.offset_of(placed)
            for one in placed.pieces:
                key = one.piece.owner, one.piece.is_block, one.piece.number
                offset = start + one.address - placed.start if placed.has_file_bytes else 0
                found[key] = Place(placed.section.name, one.address, offset, one.piece)
        return found

    @cached_property
    def gaps(self):
        """The lengths of the gaps of each output section with file bytes, and its fill."""
        return {placed.section.name: ([end - first for first, end in image.gaps(placed)], placed.section.fill)
                for placed in self.placement.sections if placed.has_file_bytes}

    @cached_property
    def sections(self):
        """The output sections by name."""
        return {placed.section.name: placed for placed in self.placement.sections}

    @cached_property
    def defined(self):
        """The names that are defined."""
        return {name for name, one in self.decisions.decided.items() if one.case is not Case.UNDEFINED}

    @cached_property
    def common(self):
        """The owner, the size and the alignment of each common block."""
        return {name: (self.project.members[one.entry.object].name, one.size, one.alignment)
                for name, one in self.decisions.decided.items() if one.case is Case.COMMON}

    @cached_property
    def owners(self):
        """Whose symbol decides each name that is strong or weak."""
        return {name: self.project.members[one.entry.object].name
                for name, one in self.decisions.decided.items() if one.case in (Case.STRONG, Case.WEAK)}

    @cached_property
    def provided(self):
        """The names that a PROVIDE gives."""
        return {name for name, one in self.decisions.decided.items() if one.case is Case.PROVIDED}

    def sorted_rows(self):
        """What each statement that sorts takes, in its order."""
        found = []
        for section in tree.of_kind(self.project.script, tree.OutputSection):
            if any(isinstance(one, tree.Input) and one.sort for one in section.body):
                pieces = self.sections[section.name].pieces
                found.append([(one.piece.owner, one.piece.is_block, one.piece.number) for one in pieces])
        return found


class Step:
    """An edit from a good link to a good one. `sent` are the bytes that came last under each name. `others` are the
    input sections of other objects that are in both links."""

    def __init__(self, command, sent, before, after):
        self.word, self.before, self.after = command.word, before, after
        self.name = command.arguments[0] if command.word != "script" else None
        latest, data = sent.get(self.name), command.payload
        self.is_same, self.is_other = latest == data, latest not in (data, None)
        self.is_renamed = latest is None and data in sent.values()
        self.both = [(old, after.places[key]) for key, old in before.places.items() if key in after.places]
        self.others = [(old, new) for old, new in self.both
                       if old.piece.owner != self.name or command.word == "move"]
        self.in_memory = [new.address - old.address for old, new in self.others]
        self.in_file = [new.offset - old.offset for old, new in self.others]

    def member(self, good):
        """The object that is edited, in one of the two projects."""
        return next((one.object for one in good.project.members if one.name == self.name), None)

    @cached_property
    def objects(self):
        """The object before and after a `replace`; None for another edit."""
        if self.word != "replace":
            return None
        return self.member(self.before), self.member(self.after)

    def differ(self, what):
        """Whether something of both links differs."""
        return what(self.before) != what(self.after)

    @property
    def nothing_moved(self):
        """Every input section stays where it is."""
        return self.before.places.keys() == self.after.places.keys() and not any(
            (old.address, old.offset, old.piece.size) != (new.address, new.offset, new.piece.size)
            for old, new in self.both)

    def sizes(self, what):
        """Whether a section of the object that is replaced, or a common block, has sizes before and after of which this
        holds."""
        return self.word == "replace" and any(what(old.piece.size, new.piece.size) for old, new in self.both
                                              if old.piece.owner == self.name)


def counted(what):
    """What is counted of the object that a `replace` changes, before and after."""
    return lambda step: step.objects is not None and (what(step.objects[0]), what(step.objects[1]))


def more(what):
    """There is more of it afterwards."""
    return lambda step: bool(found := counted(what)(step)) and found[0] < found[1]


def fewer(what):
    """There is less of it afterwards."""
    return lambda step: bool(found := counted(what)(step)) and found[0] > found[1]


def other(what):
    """It is otherwise afterwards."""
    return lambda step: bool(found := counted(what)(step)) and found[0] != found[1]


def relocations(one):
    """How many relocations an object has."""
    return sum(map(len, one.relocations.values()))


def defined(one):
    """The names that an object defines."""
    return {symbol.name for symbol in one.symbols if not symbol.is_local and not symbol.is_undefined}


def symbol_moves(step):
    """A symbol that a replaced object defines before and after has another place in its section."""
    if step.objects is None:
        return False
    old, new = ({symbol.name: symbol.value for symbol in one.symbols
                 if not symbol.is_undefined and not symbol.is_common} for one in step.objects)
    return any(old[name] != new[name] for name in old.keys() & new.keys())


def targets(one):
    """Each relocation of an object, with the name of its symbol."""
    return [(of, entry.offset, entry.kind, entry.addend, one.symbols[entry.symbol].name)
            for of, entries in sorted(one.relocations.items()) for entry in entries]


def distances(step):
    """The distances by which others move in memory."""
    return {distance for distance in step.in_memory if distance != 0}


def came(what):
    """Whether there is something afterwards that was not there before."""
    return lambda step: bool(what(step.after) - what(step.before))


def went(what):
    """Whether something is gone afterwards."""
    return lambda step: bool(what(step.before) - what(step.after))


def of_blocks(part):
    """Whether a common block that is in both links has another owner, size or alignment."""
    return lambda step: any(step.before.common[name][part] != step.after.common[name][part]
                            for name in step.before.common.keys() & step.after.common.keys())


def gap_changes(step):
    """The old and the new gaps of output sections where they differ, with the new fill."""
    return [(old, step.after.gaps[name]) for name, old in step.before.gaps.items()
            if name in step.after.gaps and old[0] != step.after.gaps[name][0]]


def blocks(good):
    """The names of the common blocks."""
    return set(good.common)


def said(kind, what):
    """What the script says in all statements of one kind."""
    return lambda good: [what(statement) for statement in tree.of_kind(good.project.script, kind)]


def without_lines(value):
    """A part of a script's tree, without the numbers of its lines."""
    return re.sub(r"line=\d+", "", repr(value))


def regions_of(good):
    """The region of each output section."""
    return {section.name: section.region for section in tree.of_kind(good.project.script, tree.OutputSection)}


def one_region_moves(step):
    """With two regions what others have in one of them moves, and in the other it stays."""
    regions = regions_of(step.after)
    found = collections.defaultdict(set)
    for (_, new), distance in zip(step.others, step.in_memory):
        found[regions[new.section]].add(distance != 0)
    return len([one for one in found if one]) >= 2 and {True} in found.values() and {False} in found.values()


def load_alone(step):
    """An output section stays in memory and has another load address."""
    return any(name in step.after.sections and old.start == step.after.sections[name].start and old.size > 0
               and old.load != step.after.sections[name].load for name, old in step.before.sections.items())


def live_others(good, name):
    """The input sections of the output that are not of an object."""
    return {key for key in good.places if key[0] != name and not key[1]}


def order(good):
    """The names of the objects, in their order."""
    return [member.name for member in good.project.members]


def nonempty(good):
    """The output sections that have contents."""
    return {name for name, placed in good.sections.items() if placed.size > 0}


def segment_names(good):
    """The output sections of each segment."""
    return [[placed.section.name for placed in segment.sections] for segment in good.layout.segments]


def outputs(good):
    """The output sections, in their order."""
    return [placed.section.name for placed in good.placement.sections]


def is_collected(step):
    """Whether sections without references are dropped, and an object is edited."""
    return step.before.project.options.gc and step.word != "script" and step.name is not None


# The title of each class, and when it holds.
CLASSES = {
    "replace": lambda step: step.word == "replace",
    "  nothing otherwise": lambda step: step.word == "replace" and not step.differ(lambda g: (g.linked.image,
                                                                                              g.linked.map)),
    "  bytes alone: nothing moves": lambda step: (step.word == "replace" and step.nothing_moved
                                                  and not step.differ(lambda g: g.linked.map)
                                                  and step.differ(lambda g: g.linked.image)),
    "  a symbol moves, no section does": lambda step: symbol_moves(step) and step.nothing_moved,
    "  relocations otherwise, nothing moves": lambda step: other(targets)(step) and step.nothing_moved,
    "  a section longer": lambda step: step.sizes(lambda old, new: old < new),
    "  a section shorter": lambda step: step.sizes(lambda old, new: old > new),
    "  longer or shorter inside an alignment: no other moves": lambda step: (
        step.sizes(lambda old, new: old != new) and not any(step.in_memory) and not any(step.in_file)),
    "  a section becomes empty": lambda step: step.sizes(lambda old, new: old > 0 == new),
    "  an empty section has bytes again": lambda step: step.sizes(lambda old, new: old == 0 < new),
    "  a section more": more(lambda one: len(one.sections)),
    "  a section less": fewer(lambda one: len(one.sections)),
    "  a section of another alignment": other(lambda one: [section.alignment for section in one.sections]),
    "  a section of another name": lambda step: (other(lambda one: [section.name for section in one.sections])(step)
                                                 and not other(lambda one: len(one.sections))(step)),
    "  a section with bytes has none, or the other way round": other(
        lambda one: [section.kind == elf.SHT_NOBITS for section in one.sections]),
    "  a symbol more": more(lambda one: len(defined(one))),
    "  a symbol less": fewer(lambda one: len(defined(one))),
    "  a reference more": more(relocations),
    "  a reference less": fewer(relocations),
    "move": lambda step: step.word == "move" and step.differ(order),
    "  to the front": lambda step: (step.word == "move" and step.differ(order)
                                    and order(step.after)[0] == step.name),
    "  to the end": lambda step: (step.word == "move" and step.differ(order)
                                  and order(step.after)[-1] == step.name),
    "add": lambda step: step.word == "add",
    "  again, with other bytes": lambda step: step.word == "add" and step.is_other,
    "  again, with the same bytes": lambda step: step.word == "add" and step.is_same,
    "  the bytes of an object that is gone, under another name": lambda step: step.word == "add" and step.is_renamed,
    "  an object without sections": lambda step: step.word == "add" and not step.member(step.after).sections,
    "remove": lambda step: step.word == "remove",
    "script": lambda step: step.word == "script",
    "  nothing otherwise in the image": lambda step: (step.word == "script"
                                                      and not step.differ(lambda g: g.linked.image)),
    "  all of another address": lambda step: (step.word == "script" and len(set(step.in_memory)) == 1
                                              and any(step.in_memory)),
    "  output sections in another order": lambda step: step.word == "script" and step.differ(outputs),
    "  another fill": lambda step: step.differ(said(tree.OutputSection, lambda one: one.fill)),
    "  other input statements": lambda step: step.differ(said(tree.Input, without_lines)),
    "  other data commands": lambda step: step.differ(said(tree.Data, without_lines)),
    "  other values of PROVIDEs": lambda step: step.differ(said(tree.Provide, without_lines)),
    "  other regions": lambda step: step.differ(said(tree.Memory, without_lines)),
    "others move in memory": lambda step: bool(distances(step)),
    "  some stay": lambda step: bool(distances(step)) and 0 in step.in_memory,
    "  by several distances: over an alignment": lambda step: len(distances(step)) > 1,
    "  some up, some down": lambda step: min(step.in_memory, default=0) < 0 < max(step.in_memory, default=0),
    "  with two regions, those of one": one_region_moves,
    "others move in the file": lambda step: any(step.in_file),
    "  not in memory": lambda step: any(file and not memory
                                        for file, memory in zip(step.in_file, step.in_memory)),
    "  some up, some down in the file": lambda step: min(step.in_file, default=0) < 0 < max(step.in_file, default=0),
    "others are in another output section": lambda step: any(old.section != new.section
                                                             for old, new in step.others),
    "a gap of another length": lambda step: bool(gap_changes(step)),
    "  with a fill": lambda step: any(new[1] for _, new in gap_changes(step)),
    "  a gap comes": lambda step: any(len(old[0]) < len(new[0]) for old, new in gap_changes(step)),
    "  a gap goes": lambda step: any(len(old[0]) > len(new[0]) for old, new in gap_changes(step)),
    "segments split or join": lambda step: step.differ(segment_names),
    "an output section becomes empty": went(nonempty),
    "an empty output section has contents again": came(nonempty),
    "a load address alone is otherwise": load_alone,
    "a sorted row is otherwise": lambda step: step.word != "script" and step.differ(Good.sorted_rows),
    "a common block comes": came(blocks),
    "a common block goes": went(blocks),
    "a common block of another owner": of_blocks(0),
    "a common block of another size": of_blocks(1),
    "a common block of another alignment": of_blocks(2),
    "a PROVIDE comes into force, by an object": lambda step: (step.word != "script"
                                                              and came(lambda g: g.provided)(step)),
    "a PROVIDE goes out of force, by an object": lambda step: (step.word != "script"
                                                               and went(lambda g: g.provided)(step)),
    "sections of others become live (--gc-sections)": lambda step: (
        is_collected(step) and came(lambda g: live_others(g, step.name))(step)),
    "sections of others are dropped (--gc-sections)": lambda step: (
        is_collected(step) and went(lambda g: live_others(g, step.name))(step)),
    "a name comes": came(lambda g: g.defined),
    "a name goes": went(lambda g: g.defined),
    "a name of another object's symbol": lambda step: any(
        step.before.owners[name] != step.after.owners[name]
        for name in step.before.owners.keys() & step.after.owners.keys()),
    "another entry address": lambda step: step.differ(lambda g: g.linked.image[24:32]),
    "the image longer": lambda step: len(step.before.linked.image) < len(step.after.linked.image),
    "the image shorter": lambda step: len(step.before.linked.image) > len(step.after.linked.image),
}
REFUSED, BACK = "right after a refused edit", "takes back the edit before"
FAULTY, OTHERS = "after links with faults", "  and another project than before them"
TITLES = ["edits", "between good links", *CLASSES, BACK, REFUSED, FAULTY, OTHERS]


class Counter:
    """Follows a stream, and counts its edits by class."""

    def __init__(self, options):
        self.project = edits.Project(options=options)
        self.linked = link(self.project)
        self.good = Good(self.project, self.linked) if self.linked.status == 0 else None
        self.earlier = None
        self.found, self.sent = collections.Counter(), {}
        self.has_refused = self.has_faults = False

    def edit(self, command):
        """One edit."""
        self.found["edits"] += 1
        answer, self.project, self.linked = answers.answer(self.project, self.linked, command)
        if answer.startswith(b"refused"):
            self.has_refused = True
            return
        self.between(command)
        if command.word in ("add", "replace"):
            self.sent[command.arguments[0]] = command.payload
        self.has_refused = False

    def between(self, command):
        """What an accepted edit is, after the links before it."""
        if self.linked.status != 0:
            self.has_faults = True
            return
        earlier, before, self.good = self.earlier, self.good, Good(self.project, self.linked)
        self.earlier = before
        if before is None or self.has_faults:
            self.found[FAULTY] += before is not None
            self.found[OTHERS] += before is not None and before.project != self.project
            self.has_faults = False
            return
        step = Step(command, self.sent, before, self.good)
        self.found["between good links"] += 1
        self.found[REFUSED] += self.has_refused
        self.found[BACK] += earlier is not None and earlier.project == self.project != before.project
        for title, holds in CLASSES.items():
            self.found[title] += bool(holds(step))


def count(options, data):
    """How many edits of each class a stream has."""
    counter, at = Counter(options), 0
    while at < len(data):
        command, at = answers.next_command(data, at)
        if command.word not in answers.QUERIES:
            counter.edit(command)
    return counter.found
