#!/usr/bin/env python3
"""Prints random input for the replay of calls.

    generate.py SEED CELLS [--count]

The same seed gives the same input. Under --count a small table of what the
input reaches is written to standard error.

Written from the documents alone. What they leave open (leading zeros, a plus
sign, minus zero, more than 65,535 marks) is never printed.
"""

import random
import re
import sys
from collections import Counter

sys.dont_write_bytecode = True  # so that a run leaves nothing in this folder
import replay

SIDE = 2**63
KINDS = ("grid", "strict")
SPANS = [(0, 4), (4, 8), (2, 6), (0, 8), (-5, 0), (-5, 1), (7, 9), (-2**31, 2**31 - 1),
         (-2**31, -2**31 + 1), (2**31 - 2, 2**31 - 1)]


class Writer:
    """Writes the lines of one cell. `spots` is a row that the kept rules are chosen by."""

    def __init__(self, chance, lines):
        self.chance, self.lines = chance, lines
        self.kind, self.marks, self.spots = "grid", 1, [(0,)]
        self.records, self.next_tag, self.given = 0, 1, []

    def say(self, *words):
        self.lines.append(" ".join(str(word) for word in words))

    def now_and_then(self, share):
        return self.chance.random() < share

    # -- lengths

    def length(self, grid, least=0):
        return (grid,) if self.kind == "grid" else (grid, least)

    def text(self, length):
        return ",".join(str(part) for part in length)

    def some_length(self, low, high):
        return self.length(self.chance.randint(low, high), self.chance.choice((0, 0, 1, -1, 2)))

    def plus(self, one, other):
        return tuple(a + b for a, b in zip(one, other))

    def minus(self, one, other):
        return tuple(a - b for a, b in zip(one, other))

    def least(self):
        """The smallest length above zero."""
        return self.length(1) if self.kind == "grid" else self.length(0, 1)

    def slack(self):
        """Zero or more; often zero, which makes ties."""
        if self.now_and_then(0.4):
            return self.length(0)
        if self.now_and_then(0.3):
            return self.least()
        return self.length(self.chance.randint(0, 9))

    def huge_part(self):
        return self.chance.choice((10**6 + 1, -10**6 - 1, 10**6 + 1, 10**13, SIDE - 1, -SIDE, -SIDE + 1,
                                   SIDE - self.chance.randint(1, 9)))

    def huge(self):
        """A gap that is too large, in either part of a strict one."""
        if self.kind == "strict" and self.now_and_then(0.5):
            return (self.chance.choice((0, 5, 10**6)), self.huge_part())
        return self.length(self.huge_part())

    def largest(self):
        """A gap that is just not too large."""
        return self.length(self.chance.choice((10**6, -10**6)), self.chance.choice((0, 10**6, -10**6)))

    # -- the cell

    def begin(self, marks, records, kind=None):
        self.kind = kind or self.chance.choice(KINDS)
        self.say("cell", self.kind, marks, records)
        self.marks = marks if 1 <= marks <= 256 else 1
        self.records, self.given = records, []
        self.next_tag = self.chance.choice((1, 1, 1, 40, 65_500, 65_533))
        self.choose_spots(self.chance.choice((3, 12, 40)))

    def choose_spots(self, width):
        self.spots = [self.length(0)]
        while len(self.spots) < self.marks:
            self.spots.append(max(self.length(0), self.some_length(0, width)))

    def pair(self):
        """Two different marks, where there are two."""
        if self.marks == 1:
            return 0, 0
        return self.chance.sample(range(self.marks), 2)

    def fresh_tag(self):
        tag = self.next_tag
        self.next_tag = tag % 65_535 + 1
        self.given.append(tag)
        return tag

    def any_tag(self):
        """Mostly a tag given while there was room, so that it is often in force."""
        if self.now_and_then(0.1):
            return self.chance.choice((0, 0, 65_535))
        if self.given and self.now_and_then(0.75):
            return self.chance.choice(self.given[:self.records + 1])
        return self.next_tag

    # -- rules

    def put(self, start, end, gap, listed=None):
        """Gives a rule to the cell or to the listed part of its source."""
        if listed is None:
            listed = self.now_and_then(0.35)
        if listed:
            self.say("rule", start, end, self.text(gap))
        else:
            self.say("enter", self.fresh_tag(), start, end, self.text(gap))

    def distance(self, start, end):
        return self.minus(self.spots[end], self.spots[start])

    def kept_rule(self):
        """A rule that the spots keep: a minimum or a maximum, as the marks lie."""
        start, end = self.pair()
        return start, end, self.minus(self.distance(start, end), self.slack())

    def tie(self):
        start, end = self.pair()
        self.put(start, end, self.distance(start, end))
        self.put(end, start, self.distance(end, start))

    def loop(self, gain):
        """A cycle of rules that adds up to the gain: none, or just too much."""
        if self.marks < 2:
            return
        size = self.chance.randint(2, min(self.marks, self.chance.choice((4, 7, 20))))
        around = self.chance.sample(range(self.marks), size)
        raised = self.chance.randrange(size)
        for place, (start, end) in enumerate(zip(around, around[1:] + around[:1])):
            gap = self.distance(start, end)
            self.put(start, end, self.plus(gap, gain) if place == raised else gap)

    def chain(self):
        """Minima from left to right, and a maximum over some of them."""
        gaps = [self.some_length(0, 9) for _ in range(self.marks - 1)]
        for mark, gap in enumerate(gaps):
            self.put(mark, mark + 1, gap)
        if self.marks > 1:
            first, last = sorted(self.pair())
            total = self.length(0)
            for gap in gaps[first:last]:
                total = self.plus(total, gap)
            tight, short = self.length(0), self.minus(self.length(0), self.least())
            more = self.chance.choice((tight, tight, self.length(3), self.length(-1), short, short, short))
            self.put(last, first, self.minus(self.length(0), self.plus(total, more)))

    def bad_rule(self):
        start, end = self.pair()
        bad = self.chance.randrange(4)
        if bad == 0 or self.marks == 1 and bad == 2:
            end = self.chance.choice((self.marks, self.marks + 1, 65_535))
            start, end = self.chance.choice(((start, end), (end, start), (end, end)))
            return start, end, self.chance.choice((self.length(1), self.huge()))
        if bad == 1:
            return start, start, self.chance.choice((self.length(0), self.huge()))
        return start, end, self.huge()

    # -- boxes

    def box(self, layer, left, right, span=None):
        bottom, top = span or self.chance.choice(SPANS)
        self.say("box", layer, left, right, bottom, top)

    def bad_box(self):
        layer = self.chance.choice((1, 3, 3, 65_535))
        left, right = self.chance.choice(((1, 1), (2, 1), (0, 1), (0, 1), (0, 1), (0, 1)))
        span = self.chance.choice(((0, 0), (5, -5), (0, 5), (0, 5), (0, 5)))
        self.box(layer, left, right, span)

    def box_of_cell(self):
        left, right = sorted(self.pair()) if self.marks > 1 else (0, 1)
        self.box(self.chance.randrange(3), left, right)

    # -- calls

    def size(self, needed):
        """Mostly enough, sometimes more than needed, sometimes too short."""
        if self.now_and_then(0.08):
            return max(0, needed - self.chance.choice((1, 1, 2, needed)))
        return needed + self.chance.choice((0, 0, 0, 1, 3))

    def compact(self):
        self.say("compact", self.size(self.marks), self.size(self.marks))

    def reduce(self):
        room = self.chance.choice((self.marks, self.marks * 2, self.marks * 3 + 2))
        if self.now_and_then(0.2):
            room = self.chance.randint(0, self.marks)
        self.say("reduce", self.size(self.marks * self.marks), room)

    def row(self):
        """The spots, or the spots with a mark moved, or a stranger row."""
        row = list(self.spots)
        if self.marks > 1 and self.now_and_then(0.5):
            mark = self.chance.randrange(1, self.marks)
            row[mark] = self.plus(row[mark], self.some_length(-4, 4))
        if self.now_and_then(0.12):
            row[0] = self.chance.choice((self.least(), self.length(-1), self.length(10**14)))
        if self.now_and_then(0.2):
            edge = self.chance.choice((10**13, -10**13, 10**13 + 1, -10**13 - 1, SIDE - 1, -SIDE))
            row[self.marks - 1 - self.chance.randrange(self.marks) // 2] = self.chance.choice(
                (self.length(edge), self.length(0, edge), self.length(edge, -10**13)))
        return row

    def try_row(self):
        row = self.row()
        if self.now_and_then(0.08):
            row = row[:self.chance.randrange(self.marks)]
        elif self.now_and_then(0.15):
            row.append(self.chance.choice((self.length(7), self.length(-SIDE))))
        self.say("try", *[self.text(length) for length in row])

    def ask(self):
        """One of the calls that work on the rules in force."""
        self.chance.choice((self.compact, self.compact, self.reduce, self.reduce, self.try_row))()

    def ask_all(self):
        self.compact()
        self.reduce()
        self.try_row()

    def memory_call(self):
        turn = self.chance.randrange(10)
        if turn < 3:
            self.say("enter", self.any_tag(), *self.rule_words(self.kept_rule()))
        elif turn < 4:
            self.say("enter", self.any_tag(), *self.rule_words(self.bad_rule()))
        elif turn < 6:
            self.put(*self.kept_rule(), listed=False)
        elif turn < 8:
            self.say("withdraw", self.any_tag())
        elif turn < 9:
            self.say("lookup", self.any_tag())
        else:
            self.say("records")

    def rule_words(self, rule):
        start, end, gap = rule
        return start, end, self.text(gap)

    def spoil(self):
        """An unfit rule in the source, and then a new source."""
        self.put(*self.bad_rule(), listed=True)
        if self.now_and_then(0.3):
            self.put(*self.bad_rule(), listed=True)
        self.ask()
        self.say("source", self.chance.randint(0, 5))

    def odd_line(self):
        """A line that is not understood, or one that is passed over."""
        one = self.text(self.length(1))
        other = "1,1" if self.kind == "grid" else "1"  # a length of the other kind
        good = self.chance.choice((
            f"enter 3 0 1 {one}", "withdraw 1", "lookup 1", "records", "source 2", f"rule 0 1 {one}",
            "compact 3 3", "reduce 9 9", "box 1 0 1 0 1"))
        odd = self.chance.choice((
            ("pack 3 3", "Records", "withdraw", "withdraw x", "withdraw -1", "compact 3", "enter 1 0 1"),
            ("cell", "cell grid 3", "cell round 3 3", "cell grid 3 5001", "cell grid 3 3 3", "cell grid -1 3"),
            (f"enter 65536 0 1 {one}", "lookup 65536", "source 4294967296", "source -1", f"rule 0 65536 {one}"),
            (f"rule 0 1 {SIDE}", f"enter 1 0 1 {-SIDE - 1}", f"rule 0 1 {SIDE},0", f"rule 0 1 0,{SIDE}"),
            ("rule 0 1 1,1,1", "rule 0 1 ,", f"enter 1 0 1 {other}", f"try {other}", f"try {one} x"),
            ("box 65536 0 1 0 1", "box 1 0 1 0 2147483648", "box 1 0 1 -2147483649 0", "box 1 0 1 0"),
            ("compact 70001 3", "compact 3 70001", "reduce 70001 3", "reduce 9 70001", "compact 4294967296 1"),
            (f"{good} 1", f"{good} ", f" {good}", "compact  3 3", "lookup  1"),
            ("# a remark", "#", ""),
            ("box 1 0 1 0 1" if self.kind == "strict" else "box",)))
        self.say(self.chance.choice(odd))


# ---------------------------------------------------------------- cells


def some_marks(chance):
    turn = chance.random()
    if turn < 0.04:
        return 1
    if turn < 0.78:
        return chance.randint(2, 8)
    if turn < 0.94:
        return chance.randint(9, 20)
    if turn < 0.95:
        return 40
    return chance.choice((0, 257, 300, 65_535))


def layout_cell(writer):
    """Minima and maxima about some spots; then perhaps one loop too many."""
    chance = writer.chance
    writer.begin(some_marks(chance), chance.choice((10, 20, 30, 60)))
    for _ in range(chance.randint(1, 3 + writer.marks)):
        if writer.now_and_then(0.35):
            writer.tie()
        else:
            writer.put(*writer.kept_rule())
    if writer.now_and_then(0.3):
        writer.loop(writer.length(0))
    if writer.now_and_then(0.3):
        writer.ask_all()
    if writer.now_and_then(0.75):
        writer.loop(chance.choice((writer.least(), writer.length(1), writer.length(4))))
    writer.compact()
    for _ in range(chance.randint(1, 4)):
        chance.choice((writer.ask, writer.memory_call, writer.ask))()


def chain_cell(writer):
    chance = writer.chance
    writer.begin(some_marks(chance), chance.choice((5, 20, 45)))
    writer.chain()
    writer.ask_all()
    for _ in range(chance.randint(0, 2)):
        writer.put(*writer.kept_rule())
    writer.ask()
    writer.ask()


def wild_cell(writer):
    """Rules chosen with no spots in mind; the gaps lean to the left, so that some cells hold."""
    chance = writer.chance
    writer.begin(some_marks(chance), chance.choice((8, 16, 30)))
    low, high = chance.choice(((-9, 2), (-9, 4), (-1, 0), (-3, 3), (-3, 3)))
    for _ in range(chance.randint(1, 2 + 2 * min(writer.marks, 8))):
        if writer.marks > 1:
            writer.put(*writer.pair(), writer.some_length(low, high))
        if writer.now_and_then(0.15):
            writer.ask()
    writer.ask_all()


def memory_cell(writer):
    """Few records, so that they are soon full."""
    chance = writer.chance
    writer.begin(chance.choice((1, 2, 3, 4, 5)), chance.choice((0, 1, 1, 2, 3, 4, 6)))
    for _ in range(chance.randint(6, 20)):
        writer.memory_call()
        if writer.now_and_then(0.12):
            writer.ask()
    writer.say("records")


def edge_cell(writer):
    """Gaps at the ends of what is accepted, and sources that are refused."""
    chance = writer.chance
    writer.begin(some_marks(chance), chance.choice((4, 8)))
    for _ in range(chance.randint(2, 8)):
        turn = chance.randrange(6)
        if turn < 2 and writer.marks > 1:
            writer.put(*writer.pair(), writer.largest())
        elif turn < 4:
            writer.put(*writer.bad_rule(), listed=False)
        elif turn < 5:
            writer.spoil()
        else:
            writer.ask()
    writer.ask_all()


def box_cell(writer):
    """Boxes from left to right, each with two marks of its own, and a widest place for them."""
    chance = writer.chance
    boxes = chance.randint(1, 6)
    writer.begin(2 * boxes + chance.randint(0, 2), 6, "grid")
    factor = chance.choice((0, 1, 1, 2, 3, 4, 5, 83_333, 83_334, 2**32 - 1))
    writer.say("source", factor)
    first = chance.choice((0, 0, 1))
    for place in range(boxes):
        writer.box(chance.randrange(3), first + 2 * place, first + 2 * place + 1)
        if writer.now_and_then(0.3):
            writer.bad_box()
    writer.ask()
    if writer.marks > 2:
        width = chance.randint(0, 10 * boxes) * chance.choice((1, factor if factor < 10 else 1))
        writer.put(writer.marks - 1, chance.randrange(writer.marks - 1), writer.length(-width))
    writer.ask_all()
    if writer.now_and_then(0.3):
        writer.box_of_cell()
        writer.ask_all()


def mixed_box_cell(writer):
    """Boxes on any marks, also shared ones and ones that the cell has not, beside listed rules."""
    chance = writer.chance
    writer.begin(chance.randint(2, 9), 5, "grid")
    for _ in range(chance.randint(1, 2)):
        writer.say("source", chance.choice((0, 1, 2, 5, 83_333, 83_334)))
        for _ in range(chance.randint(1, 5)):
            chance.choice((writer.box_of_cell, writer.box_of_cell, writer.bad_box,
                           lambda: writer.put(*writer.kept_rule(), listed=True)))()
        if writer.now_and_then(0.15):
            writer.box(chance.randrange(3), 0, writer.marks)
        writer.ask()
        writer.ask()


def many_boxes_cell(writer):
    """About 90 boxes; with as many as fit, listed rules about the last free place."""
    chance = writer.chance
    writer.begin(chance.randint(2, 5), 3, "grid")
    writer.say("source", chance.choice((0, 0, 1)))
    boxes = chance.choice((90, 91, 91, 91, 92))
    for place in range(boxes):
        left, right = sorted(writer.pair())
        writer.box(chance.randrange(3), left, right, chance.choice(((place, place + 1), (0, 1))))
    if boxes == 90 and writer.now_and_then(0.5):
        for _ in range(91):
            writer.put(*writer.kept_rule(), listed=True)
    writer.ask_all()
    for _ in range(2):
        writer.put(*writer.kept_rule(), listed=True)
        writer.ask()


def listed_to_the_end_cell(writer):
    """As many listed rules as there are places, and then one more."""
    writer.begin(writer.chance.randint(2, 4), 2)
    for _ in range(8191):
        writer.put(*writer.kept_rule(), listed=True)
    for _ in range(3):
        writer.try_row()
        writer.compact()
        writer.put(*writer.kept_rule(), listed=True)


def full_memory_cell(writer):
    """More records than are used."""
    writer.begin(writer.chance.randint(2, 4), 4100)
    writer.next_tag = 1
    for _ in range(4095):
        writer.put(*writer.kept_rule(), listed=False)
    for _ in range(3):
        writer.put(*writer.kept_rule(), listed=False)
        writer.say("enter", 1, 0, 1, writer.text(writer.length(0)))
    writer.ask_all()
    writer.say("withdraw", writer.chance.randint(1, 4096))
    writer.say("records")


def most_marks_cell(writer):
    """All 256 marks, with few rules so that it stays light."""
    writer.begin(256, 60)
    for _ in range(40):
        writer.put(*writer.kept_rule())
    writer.compact()
    writer.try_row()
    writer.say("reduce", 65_536, 300)


CELLS = [(layout_cell, 300), (chain_cell, 130), (wild_cell, 150), (memory_cell, 140), (edge_cell, 120),
         (box_cell, 90), (mixed_box_cell, 70), (many_boxes_cell, 20), (listed_to_the_end_cell, 0.5),
         (full_memory_cell, 0.5), (most_marks_cell, 0.5)]


def write_cell(chance, lines):
    makes, weights = zip(*CELLS)
    writer = Writer(chance, lines)
    chance.choices(makes, weights)[0](writer)
    if writer.now_and_then(0.15):
        writer.odd_line()
    if writer.now_and_then(0.1):
        writer.spoil()
        writer.ask()


def generate(seed, cells):
    chance, lines = random.Random(seed), []
    if chance.random() < 0.5:  # before the first cell nothing is understood
        lines.append(chance.choice(("records", "lookup 1", "compact 1 1", "source 1", "try", "withdraw 0")))
    for _ in range(cells):
        write_cell(chance, lines)
    return lines


# ---------------------------------------------------------------- the count


def reached(call, text):
    """What a printed line reaches, in a word or two."""
    match = re.match(r"refused (\d+)(?: \d+ (\d+))?", text)
    if not match:
        first = text.split(" ")[0]
        if first == "answer":
            return "try: kept" if text == "answer 0" else "try: broken"
        return "not understood" if first == "not" else f"{call}: {first}"
    number = f"{int(match[1]):2} {call}"
    return f"{number} by {match[2]}" if match[1] == "10" else number


def count(lines, out):
    counted = Counter(reached(text.split(" ")[0], printed.text) for _, text, printed in replay.replay(lines))
    for name, times in sorted(counted.items()):
        print(f"{times:7} {name}", file=out)


def main(arguments):
    with_count = "--count" in arguments
    rest = [word for word in arguments if word != "--count"]
    if len(rest) != 2 or not rest[1].isdigit():
        print("use: generate.py SEED CELLS [--count]", file=sys.stderr)
        return 2
    lines = generate(rest[0], int(rest[1]))
    sys.stdout.write("".join(line + "\n" for line in lines))
    if with_count:
        count(lines, sys.stderr)
    return 0


if __name__ == "__main__":
    sys.exit(main(sys.argv[1:]))
