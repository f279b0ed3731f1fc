#!/usr/bin/env python3
"""Replays calls on cells from text, by the plainest method.

    replay.py                 print what the documents say for the input
    replay.py --check FILE    compare FILE, printed by another program for the same input
    replay.py --accept FILE   as --check, and print the expected output with the cycles of FILE

Written from the documents alone: the format is docs/replay.md, the meaning
docs/calls.md, rules-and-sources.md, boxes.md and lengths.md. Nothing here is
made to be fast; every step is meant to be read beside its definition.
"""

import re
import sys
from itertools import zip_longest

# ---------------------------------------------------------------- lengths
#
# A length is a tuple of parts: one for a grid cell, two for a strict cell.
# Tuples compare part by part from the first on, which is the order of both kinds.

LOWEST = -2**63
HIGHEST = 2**63 - 1


def stop(part):
    """A part beyond the 64-bit range stops at its end."""
    return max(LOWEST, min(HIGHEST, part))


def zero(parts):
    return (0,) * parts


def add(one, other):
    return tuple([stop(a + b) for a, b in zip(one, other)])


def opposite(length):
    return tuple([stop(-part) for part in length])


def measure(length):
    return max(abs(part) for part in length)


def far(parts):
    return (10**12 + 1,) + (0,) * (parts - 1)


# ---------------------------------------------------------------- refusals

LARGEST_GAP = 1_000_000
LARGEST_IN_ROW = 10**13
MOST_MARKS = 256
USED_RECORDS = 4096
MOST_PLACES = 8192
TOO_MANY_PLACES = 8193
MOST_BOXES = 90


class Refused(Exception):
    """A refused call, with its three figures; one that it has not is 0."""

    def __init__(self, number, at=0, cause=0):
        super().__init__(number)
        self.number, self.at, self.cause = number, at, cause

    def three(self):
        return f"refused {self.number} {self.at} {self.cause}"


def unfit(rule, marks):
    """The first cause for which a rule does not fit a cell, or 0."""
    start, end, gap = rule
    if start >= marks or end >= marks:
        return 3
    if start == end:
        return 4
    if measure(gap) > LARGEST_GAP:
        return 5
    return 0


# ---------------------------------------------------------------- boxes

WIDTH = {0: 12, 1: 4, 2: 2}
SPACING = {(0, 0): 12, (1, 1): 4, (1, 2): 2, (2, 1): 2, (2, 2): 3}


def refuse_box(layer, left, right, bottom, top):
    if left >= right:
        raise Refused(17)
    if bottom >= top:
        raise Refused(18)
    if layer > 2:
        raise Refused(19)


def spans_overlap(one, other):
    """Each bottom is below the other's top, so touching is not enough."""
    return one[3] < other[4] and other[3] < one[4]


def spacing_rule(one, other, factor):
    """The rule between a box and a later one, or nothing."""
    steps = SPACING.get((one[0], other[0]))
    if steps is None or not spans_overlap(one, other):
        return None
    return (one[2], other[1], (factor * steps,))


def box_place(boxes, factor, i, j):
    if i == j:
        layer, left, right = boxes[i][:3]
        return (left, right, (factor * WIDTH[layer],))
    if i < j:
        return spacing_rule(boxes[i], boxes[j], factor)
    return None


def box_places(boxes, factor):
    """All places of a box source in order, each a rule or nothing."""
    if len(boxes) > MOST_BOXES:
        return [None] * TOO_MANY_PLACES
    count = range(len(boxes))
    return [box_place(boxes, factor, i, j) for i in count for j in count]


def listed_places(rules):
    return rules if len(rules) <= MOST_PLACES else [None] * TOO_MANY_PLACES


def joined_places(first, second):
    """A part of 8,193 places makes more than 8,192 together in any case."""
    both = first + second
    return both if len(both) <= MOST_PLACES else [None] * TOO_MANY_PLACES


# ---------------------------------------------------------------- longest paths
#
# A rule in force is (number, from, to, gap). `best` gives for each mark the
# length of the longest path to it that was found, or nothing. One round allows
# one rule more, so after N rounds all paths of at most N rules are counted.


def one_rule_more(best, force):
    longer = list(best)
    for _, start, end, gap in force:
        if best[start] is None:
            continue
        length = add(best[start], gap)
        if longer[end] is None or length > longer[end]:
            longer[end] = length
    return longer


def no_rules(start, marks, parts):
    """The empty path alone."""
    return [zero(parts) if mark == start else None for mark in range(marks)]


def longest_from(start, force, marks, parts):
    """Longest path lengths from one mark, over paths of at most N rules."""
    best = no_rules(start, marks, parts)
    for _ in range(marks):
        longer = one_rule_more(best, force)
        if longer == best:
            break  # the same table would give the same table ever after
        best = longer
    return best


def all_distances(force, marks, parts):
    return [longest_from(start, force, marks, parts) for start in range(marks)]


# ---------------------------------------------------------------- cycles


def mark_with_gain(force, marks, parts):
    """A mark from which at most N rules lead back to it with more than zero.

    There is one exactly when there is a positive cycle: such a cycle leaves no
    mark twice, so it has at most N rules; and any way back to its start falls
    apart into cycles, of which one is positive if the whole is.
    """
    tables = [no_rules(start, marks, parts) for start in range(marks)]
    for _ in range(marks):
        longer = [one_rule_more(best, force) for best in tables]
        for start in range(marks):
            if longer[start][start] > zero(parts):
                return start
        if longer == tables:
            return None
        tables = longer
    return None


def way_back(start, force, marks, parts):
    """The rules of a longest way of at most N rules from a mark back to it."""
    rounds = [no_rules(start, marks, parts)]
    while len(rounds) <= marks:
        rounds.append(one_rule_more(rounds[-1], force))
    way, mark = [], start
    for count in range(marks, 0, -1):
        length, before = rounds[count][mark], rounds[count - 1]
        if before[mark] == length:
            continue  # fewer rules reach as far
        way.append(last_rule(before, mark, length, force))
        mark = way[-1][1]
    return way[::-1]


def last_rule(before, mark, length, force):
    for rule in force:
        _, start, end, gap = rule
        if end == mark and before[start] is not None and add(before[start], gap) == length:
            return rule
    raise AssertionError("a length that no rule gives")


def total(rules, parts):
    length = zero(parts)
    for _, _, _, gap in rules:
        length = add(length, gap)
    return length


def split_into_cycles(way):
    """The cycles of a way: whenever a mark comes again, what lies between is one."""
    cycles, kept = [], []
    for rule in way:
        kept.append(rule)
        left = [start for _, start, _, _ in kept]
        if rule[2] in left:
            first = left.index(rule[2])
            cycles.append(kept[first:])
            kept = kept[:first]
    return cycles


def from_smallest_mark(cycle):
    left = [start for _, start, _, _ in cycle]
    first = left.index(min(left))
    return cycle[first:] + cycle[:first]


def positive_cycle(force, marks, parts):
    """One positive cycle, beginning at its smallest mark, or nothing."""
    start = mark_with_gain(force, marks, parts)
    if start is None:
        return None
    for cycle in split_into_cycles(way_back(start, force, marks, parts)):
        if total(cycle, parts) > zero(parts):
            return from_smallest_mark(cycle)
    raise AssertionError("a way back with a gain but without a positive cycle")


def is_shown_cycle(numbers, force, marks, parts):
    """Whether these numbers are what a compaction may show."""
    numbered = {rule[0]: rule for rule in force}
    if not 1 <= len(numbers) <= marks or any(number not in numbered for number in numbers):
        return False
    cycle = [numbered[number] for number in numbers]
    left = [start for _, start, _, _ in cycle]
    reached = [end for _, _, end, _ in cycle]
    return (reached == left[1:] + left[:1]
            and len(set(left)) == len(left)
            and left[0] == min(left)
            and total(cycle, parts) > zero(parts))


# ---------------------------------------------------------------- reduction


def tied(distances, one, other):
    there, back = distances[one][other], distances[other][one]
    return there is not None and back is not None and not any(add(there, back))


def groups(distances):
    """The groups by rising leader; each rises, so its leader comes first."""
    found = []
    for mark in range(len(distances)):
        group = [other for other in range(len(distances))
                 if other == mark or tied(distances, mark, other)]
        if group[0] == mark:
            found.append(group)
    return found


def ring(group):
    """From each mark to the next higher one, and from the highest to the leader."""
    return list(zip(group, group[1:] + group[:1]))


def is_split(distances, start, end, leaders):
    for third in leaders:
        first, second = distances[start][third], distances[third][end]
        if third in (start, end) or first is None or second is None:
            continue
        if add(first, second) == distances[start][end]:
            return True
    return False


def reduced_list(distances):
    found = groups(distances)
    leaders = [group[0] for group in found]
    pairs = [pair for group in found if len(group) > 1 for pair in ring(group)]
    for start in leaders:
        for end in leaders:
            if start == end or distances[start][end] is None:
                continue
            if not is_split(distances, start, end, leaders):
                pairs.append((start, end))
    return [(start, end, distances[start][end]) for start, end in pairs]


# ---------------------------------------------------------------- the cell


class Cell:
    def __init__(self, parts, marks, records):
        self.parts = parts
        self.accepted = 1 <= marks <= MOST_MARKS
        self.marks = marks if self.accepted else 1
        self.records = [(0, (0, 0, zero(parts)))] * records
        self.filled = 0
        self.new_source(1)

    def new_source(self, factor):
        self.factor, self.listed, self.boxes = factor, [], []

    # -- rule memory

    def place_of(self, tag):
        """The record of the rule in force under a tag, or nothing."""
        for place in range(self.filled):
            if self.records[place][0] == tag:
                return place
        return None

    def enter(self, tag, rule):
        if tag == 0:
            raise Refused(2)
        cause = unfit(rule, self.marks)
        if cause:
            raise Refused(cause)
        if self.place_of(tag) is not None:
            raise Refused(6)
        if self.filled == min(len(self.records), USED_RECORDS):
            raise Refused(7)
        self.records[self.filled] = (tag, rule)
        self.filled += 1

    def withdraw(self, tag):
        if tag == 0:
            raise Refused(2)
        place = self.place_of(tag)
        if place is None:
            raise Refused(8)
        self.filled -= 1
        self.records[place] = self.records[self.filled]

    def look_up(self, tag):
        place = self.place_of(tag)
        return None if place is None else self.records[place][1]

    # -- rules in force

    def places(self):
        """The places of the source; a strict cell has no box part."""
        boxes = box_places(self.boxes, self.factor) if self.parts == 1 else []
        return joined_places(listed_places(self.listed), boxes)

    def force(self):
        """The rules in force with their numbers; refuses an unfit source."""
        places = self.places()
        if len(places) > MOST_PLACES:
            raise Refused(9)
        for place, rule in enumerate(places):
            if rule is not None and unfit(rule, self.marks):
                raise Refused(10, place, unfit(rule, self.marks))
        boundary = [(70_000 + mark, 0, mark, zero(self.parts)) for mark in range(1, self.marks)]
        entered = [(tag, *rule) for tag, rule in self.records[:self.filled]]
        told = [(100_000 + place, *rule) for place, rule in enumerate(places) if rule is not None]
        return boundary + entered + told

    def try_row(self, row):
        force = self.force()
        if len(row) < self.marks:
            raise Refused(11)
        for mark in range(self.marks):
            if mark == 0 and any(row[0]) or measure(row[mark]) > LARGEST_IN_ROW:
                raise Refused(14, mark)
        broken = [number for number, start, end, gap in force if row[end] < add(row[start], gap)]
        return min(broken, default=0)


# ---------------------------------------------------------------- printing


class Line:
    """One line of output; where it shows a cycle, also what another may show instead."""

    def __init__(self, text, with_cycle=None, may_show=None):
        self.text = text
        self.with_cycle = with_cycle
        self.may_show = may_show


def length_text(length):
    return ",".join(str(part) for part in length)


def rule_text(rule):
    start, end, gap = rule
    return f"{start}:{end}:{length_text(gap)}"


def words(first, entries):
    return " ".join([first] + entries)


def over(first, rest):
    """What a call leaves: it writes the first entries and leaves the others."""
    return first + rest[len(first):]


# ---------------------------------------------------------------- reading


class NotUnderstood(Exception):
    pass


def read_number(word, low, high):
    form = "-?[0-9]{1,40}" if low < 0 else "[0-9]{1,40}"
    if not re.fullmatch(form, word) or not low <= int(word) <= high:
        raise NotUnderstood
    return int(word)


def read_small(word):
    """A mark, a tag or a layer."""
    return read_number(word, 0, 65_535)


def read_count(word):
    return read_number(word, 0, 2**32 - 1)


def read_size(word):
    """The size of a row, cycle list, table or list."""
    return read_number(word, 0, 70_000)


def read_span(word):
    return read_number(word, -2**31, 2**31 - 1)


def read_length(word, parts):
    pieces = word.split(",")
    if len(pieces) != parts:
        raise NotUnderstood
    return tuple([read_number(piece, LOWEST, HIGHEST) for piece in pieces])


def read_rule(pieces, parts):
    start, end, gap = pieces
    return (read_small(start), read_small(end), read_length(gap, parts))


def expect(pieces, how_many):
    if len(pieces) != how_many:
        raise NotUnderstood


# ---------------------------------------------------------------- the lines


class Replay:
    """Keeps the cell from line to line."""

    def __init__(self):
        self.cell = None

    def line(self, text):
        """The line printed for an input line, or nothing where it is passed over."""
        if text == "" or text.startswith("#"):
            return None
        name, *rest = text.split(" ")
        try:
            if name == "cell":
                return self.do_cell(rest)
            if self.cell is None or name not in self.CALLS:
                raise NotUnderstood
            return self.CALLS[name](self, rest)
        except NotUnderstood:
            return Line("not understood")

    def do_cell(self, rest):
        expect(rest, 3)
        parts = {"grid": 1, "strict": 2}.get(rest[0])
        if parts is None:
            raise NotUnderstood
        self.cell = Cell(parts, read_count(rest[1]), read_number(rest[2], 0, 5000))
        return Line(f"marks {self.cell.marks}" if self.cell.accepted else "refused 1")

    def do_enter(self, rest):
        expect(rest, 4)
        tag, entered = read_small(rest[0]), read_rule(rest[1:], self.cell.parts)
        return accepted_or_number(lambda: self.cell.enter(tag, entered))

    def do_withdraw(self, rest):
        expect(rest, 1)
        tag = read_small(rest[0])
        return accepted_or_number(lambda: self.cell.withdraw(tag))

    def do_lookup(self, rest):
        expect(rest, 1)
        found = self.cell.look_up(read_small(rest[0]))
        return Line("nothing" if found is None else f"rule {rule_text(found)}")

    def do_records(self, rest):
        expect(rest, 0)
        texts = [f"{tag}:{rule_text(held)}" for tag, held in self.cell.records]
        return Line(words("records", texts))

    def do_source(self, rest):
        expect(rest, 1)
        self.cell.new_source(read_count(rest[0]))
        return Line("ok")

    def do_rule(self, rest):
        expect(rest, 3)
        self.cell.listed.append(read_rule(rest, self.cell.parts))
        return Line("ok")

    def do_box(self, rest):
        if self.cell.parts != 1:
            raise NotUnderstood
        expect(rest, 5)
        box = tuple([read_small(word) for word in rest[:3]] + [read_span(word) for word in rest[3:]])
        return accepted_or_number(lambda: self.give(box))

    def give(self, box):
        refuse_box(*box)
        self.cell.boxes.append(box)

    def do_try(self, rest):
        if len(rest) > 70_000:
            raise NotUnderstood
        row = [read_length(word, self.cell.parts) for word in rest]
        try:
            return Line(f"answer {self.cell.try_row(row)}")
        except Refused as refused:
            return Line(refused.three())

    def do_compact(self, rest):
        expect(rest, 2)
        return compact(self.cell, read_size(rest[0]), read_size(rest[1]))

    def do_reduce(self, rest):
        expect(rest, 2)
        return reduce(self.cell, read_size(rest[0]), read_size(rest[1]))

    CALLS = {"enter": do_enter, "withdraw": do_withdraw, "lookup": do_lookup,
             "records": do_records, "source": do_source, "rule": do_rule, "box": do_box,
             "try": do_try, "compact": do_compact, "reduce": do_reduce}


def accepted_or_number(call):
    try:
        call()
        return Line("ok")
    except Refused as refused:
        return Line(f"refused {refused.number}")


def compact(cell, row_size, cycle_size):
    row = [(77,) * cell.parts] * row_size
    cycle = [77] * cycle_size

    def show(answer, lengths, numbers):
        return " | ".join([answer, words("row", [length_text(x) for x in lengths]),
                           words("cycle", [str(x) for x in numbers])])

    try:
        force = cell.force()
        if row_size < cell.marks:
            raise Refused(11)
        if cycle_size < cell.marks:
            raise Refused(12)
    except Refused as refused:
        return Line(show(refused.three(), row, cycle))

    found = positive_cycle(force, cell.marks, cell.parts)
    if found is None:
        packed = longest_from(0, force, cell.marks, cell.parts)
        return Line(show("packed", over(packed, row), cycle))

    def with_cycle(numbers):
        zeros = over([zero(cell.parts)] * cell.marks, row)
        return show(Refused(15, len(numbers)).three(), zeros, over(numbers, cycle))

    def may_show(numbers):
        return is_shown_cycle(numbers, force, cell.marks, cell.parts)

    return Line(with_cycle([number for number, _, _, _ in found]), with_cycle, may_show)


def reduce(cell, table_size, list_size):
    table = [(77,) * cell.parts] * table_size
    rules = [(7, 7, (77,) * cell.parts)] * list_size
    marks, parts = cell.marks, cell.parts

    def show(answer, lengths, listed):
        return Line(" | ".join([answer, words("table", [length_text(x) for x in lengths]),
                                words("list", [rule_text(x) for x in listed])]))

    try:
        force = cell.force()
        if table_size < marks * marks:
            raise Refused(13)
    except Refused as refused:
        return show(refused.three(), table, rules)

    if mark_with_gain(force, marks, parts) is not None:
        return show(Refused(15).three(), over([zero(parts)] * (marks * marks), table), rules)
    distances = all_distances(force, marks, parts)
    none = opposite(far(parts))
    flat = [none if length is None else length for line in distances for length in line]
    reduced = reduced_list(distances)
    if list_size < len(reduced):
        return show(Refused(16, len(reduced)).three(), over(flat, table), rules)
    return show(f"reduced {len(reduced)}", over(flat, table), over(reduced, rules))


# ---------------------------------------------------------------- comparing


def lines_of(data):
    """The lines of some bytes; any byte is a character, so nothing can fail here."""
    lines = data.decode("latin-1").split("\n")
    return lines[:-1] if lines[-1] == "" else lines


def replay(lines):
    """For each input line that prints: its number, itself and the line printed."""
    state = Replay()
    for place, text in enumerate(lines, 1):
        printed = state.line(text)
        if printed is not None:
            yield place, text, printed


def cycle_in(text):
    """The numbers of the cycle that a line shows, or nothing."""
    form = r"refused 15 ([0-9]{1,9}) 0 \| row[^|]* \| cycle((?: [0-9]{1,9})*)"
    match = re.fullmatch(form, text)
    if not match:
        return None
    return [int(word) for word in match[2].split()][:int(match[1])]


def expected_beside(line, found):
    """The expected text, with the cycle of the other program where it is right."""
    if line.may_show is None or found is None:
        return line.text
    numbers = cycle_in(found)
    if numbers is None or not line.may_show(numbers):
        return line.text
    return line.with_cycle(numbers)


def report(place, text, expected, found, out):
    print(f"line {place}: {text}", file=out)
    print(f"  expected: {expected}", file=out)
    print(f"  found:    {'(no line)' if found is None else found}", file=out)


def compare(lines, found_lines, out, accepted=None):
    """Compares line by line; gives how many lines were compared and how many differ."""
    compared = differ = 0
    for printed, found in zip_longest(replay(lines), found_lines):
        compared += 1
        if printed is None:
            place, text, expected = len(lines), "(past the last line)", "(no line)"
        else:
            place, text, line = printed
            expected = expected_beside(line, found)
            if accepted is not None:
                print(expected, file=accepted)
        if expected != found or printed is None:
            differ += 1
            report(place, text, expected, found, out)
    return compared, differ


def main(arguments):
    if arguments and (len(arguments) != 2 or arguments[0] not in ("--check", "--accept")):
        print("use: replay.py [--check FILE | --accept FILE] < INPUT", file=sys.stderr)
        return 2
    lines = lines_of(sys.stdin.buffer.read())
    if not arguments:
        for _, _, printed in replay(lines):
            print(printed.text)
        return 0
    with open(arguments[1], "rb") as file:
        found_lines = lines_of(file.read())
    accepting = arguments[0] == "--accept"
    out = sys.stderr if accepting else sys.stdout
    compared, differ = compare(lines, found_lines, out, sys.stdout if accepting else None)
    print(f"compared {compared} lines, {differ} differ", file=out)
    return 1 if differ else 0


if __name__ == "__main__":
    sys.exit(main(sys.argv[1:]))
