"""Plates for the page's test, and what a page must show of a joined plate.

Everything here is worked out from the marks that `twill retrace --format json` gives, by the
rules of document 01, and from nothing that the page says.
"""

import bisect
import math
import random

KINDS = ["start", "cut", "back-step", "jump", "touch"]
JUMP, TOUCH = 3, 4
# The page's colours for grooves by their passes: 1, 2, 3 to 4, 5 to 8 and so on, and 33 or more.
PASS_COLOURS = ["#7f93a6", "#e06b2d", "#cc4778", "#9c179e", "#6a00a8", "#34057d", "#000000"]


def pass_class(passes):
    return min((passes - 1).bit_length(), len(PASS_COLOURS) - 1)


def pass_range(number):
    """The words for a class."""
    if number == 0:
        return "1 pass"
    first, last = 2 ** (number - 1) + 1, 2 ** number
    if number == len(PASS_COLOURS) - 1:
        return f"{first} or more passes"
    return f"{first} passes" if first == last else f"{first} to {last} passes"


def waves(across, down, points):
    """Rows of short waves, each row against the last: many contours and many pairs."""
    contours = []
    for row in range(down):
        for place in range(across):
            column = place if row % 2 == 0 else across - 1 - place
            x, y = column * 1000 / across, row * 1000 / down
            contours.append([
                (x + s * 800 / across / points, y + 300 / down * math.sin(s * 2 * math.pi / points))
                for s in range(points)
            ])
    return contours


def strokes(count, longest, seed):
    """Bent strokes anywhere; between them the path goes back far, and often over back-steps."""
    chance = random.Random(seed)
    contours = []
    for _ in range(count):
        x, y, turn = chance.uniform(0, 1000), chance.uniform(0, 800), chance.uniform(0, 6.28)
        contour = []
        for _ in range(chance.randint(1, longest)):
            contour.append((x, y))
            turn += chance.uniform(-0.5, 0.5)
            x, y = x + 9 * math.cos(turn), y + 9 * math.sin(turn)
        contours.append(contour)
    return contours


TINY = [
    [(0.0, -0.0), (4.0, 0.1), (8.0, 0.0)], [], [(0.0, 1.0)], [(4.0, 3.0), (4.0, 3.0)],
    [(2.0, 2.0), (4.0, 1.5), (6.0, 5e-324), (6.0, 1e-7)], [],
]

# The library's farthest coordinates, points of one place, and points that are hardly apart.
FAR = [
    [(1e6, 1e6), (1e6, 999999.9999999999), (1e6, 1e6)], [(-1e6, -1e6)], [(5e-324, 0.0), (0.0, 5e-324)],
    [(1.0, 1.0), (1.0, 1.0), (1.0, 1.0)], [(-1e6, 1e6), (1e6, -1e6)],
]


# Strokes that meet in a point, at 0 and -0, a stroke on another's end with one more beyond it, a point
# on a stroke, and a jump so short that its length is 0.
TOUCHING = [
    [(0.0, 0.0), (10.0, 0.0)], [(-0.0, 0.0), (0.0, 10.0)], [(10.0, -0.0), (10.0, 10.0)], [(0.0, 10.0)],
    [(10.0, 10.0), (5.0, 5.0)], [(0.0, -0.0), (-10.0, -5.0)], [(1e-310, 0.0)], [(20.0, 0.0), (20.0, 10.0)],
]


def text(contours, width, height, start, layers=None):
    """The plain text form."""
    lines = [f"size {width} {height}", f"start {start}"]
    for place, contour in enumerate(contours):
        lines += [f"layer {layers[place]}"] if layers else []
        lines += [f"{x!r} {y!r}" for x, y in contour] if contour else ["empty"]
        lines.append("")
    return "\n".join(lines)


class Expected:
    """What follows from the path and the marks, and from the contours' lengths, if they are
    known; otherwise the contours that hold a point are counted."""

    def __init__(self, path, marks, lengths=None):
        self.path, self.marks = path, marks
        self.pairs = max(len(path) - 1, 0)
        self.vertex = []
        for kind, reference in marks:
            if kind == 1 and self.vertex[-1] == reference:
                self.vertex.append(reference + 1)
            elif kind == 2:
                self.vertex.append(self.vertex[reference])
            else:
                self.vertex.append(reference)
        self.lengths = lengths if lengths is not None else self.held()
        self.firsts = [0]
        for length in self.lengths:
            self.firsts.append(self.firsts[-1] + length)
        self.totals = [sum(kind == k for kind, _ in marks) for k in range(len(KINDS))]
        self.jumps = [i for i, (kind, _) in enumerate(marks) if kind == JUMP]
        self.touches = [i for i, (kind, _) in enumerate(marks) if kind == TOUCH]
        self.entries = sorted(self.jumps + self.touches)
        self.count_passes()

    def count_passes(self):
        """For each pair the first over the same groove, or 0, and how many ran over it by then; for each
        groove's first pair how many do in all, and the last."""
        first_over = {}
        self.first_passes, self.pass_ranks, self.pass_totals, self.pass_lasts = [0], [0], {}, {}
        for pair in range(1, self.pairs + 1):
            # A zero has no sign here, as equal numbers are equal keys.
            ends = frozenset(self.path[pair - 1:pair + 1])
            first = first_over.setdefault(ends, pair) if len(ends) == 2 else 0
            if first:
                self.pass_totals[first] = self.pass_totals.get(first, 0) + 1
                self.pass_lasts[first] = pair
            self.first_passes.append(first)
            self.pass_ranks.append(self.pass_totals.get(first, 0))

    def passes(self, pair):
        """The two lines that tell of the passes over a pair's groove."""
        first = self.first_passes[pair]
        if not first:
            return ["none", "the points are equal"]
        told = f"over this groove, by pair {first:,} first, {self.pass_lasts[first]:,} last"
        return [f"{self.pass_ranks[pair]:,} of {self.pass_totals[first]:,}", told]

    def held(self):
        """A contour ends with each vertex that no cut is the lower one of."""
        lower = {reference for kind, reference in self.marks if kind == 1}
        lengths, length = [], 0
        for vertex in range(max(self.vertex, default=-1) + 1):
            length += 1
            if vertex not in lower:
                lengths.append(length)
                length = 0
        return lengths

    def locate(self, vertex):
        contour = bisect.bisect_right(self.firsts, vertex) - 1
        return contour, vertex - self.firsts[contour]

    def place(self, vertex):
        contour, within = self.locate(vertex)
        return f"contour {contour:,}, vertex {within:,}"

    def cut(self, pair):
        """The segment of a cut and its sense."""
        contour, segment = self.locate(self.marks[pair][1])
        sense = "forward" if self.vertex[pair] == self.marks[pair][1] + 1 else "reversed"
        return f"contour {contour:,}, segment {segment:,}, {sense}"

    def what(self, pair):
        """The two lines that tell what a pair is."""
        kind, reference = self.marks[pair]
        before, here = self.vertex[pair - 1], self.vertex[pair]
        if kind == 1:
            ends = [self.locate(v)[1] for v in (before, here)]
            return [self.cut(pair), f"vertex {ends[0]:,} to vertex {ends[1]:,}"]
        if kind in (JUMP, TOUCH):
            return [f"lands on {self.place(here)}", f"leaves {self.place(before)}"]
        groove = reference + 1
        while self.marks[groove][0] == 2:
            groove = self.marks[groove][1] + 1
        if self.marks[groove][0] == 1:
            told = f"the cut of {self.cut(groove)}"
        else:
            told = f"the {KINDS[self.marks[groove][0]]} to {self.place(self.vertex[groove])}"
        if groove != reference + 1:
            told = f"a back-step too; what it goes over is pair {groove:,}, {told}"
        return [f"reverses pair {reference + 1:,}", told]

    def contour(self, pair):
        """The contour whose groove a pair is or goes back over; of a jump or touch the one landed on."""
        while self.marks[pair][0] == 2:
            pair = self.marks[pair][1] + 1
        return self.locate(self.vertex[pair])[0]

    def panel(self, pair):
        """What the panel shows of a pair; numbers as floats."""
        return {
            "number": f"Pair {pair:,} of {self.pairs:,}",
            "kind": KINDS[self.marks[pair][0]],
            "points": f"path points {pair - 1:,} to {pair:,}",
            "from": [*self.path[pair - 1], self.place(self.vertex[pair - 1])],
            "to": [*self.path[pair], self.place(self.vertex[pair])],
            "what": self.what(pair),
            "passes": self.passes(pair),
            "mark": "{} {}".format(*self.marks[pair]),
        }

    def length(self, pair):
        return math.dist(self.path[pair - 1], self.path[pair])

    def sample(self, count, seed=1):
        """Pairs to look at: the ends, some jumps and touches with the pairs around them, and others."""
        if self.pairs <= count:
            return list(range(1, self.pairs + 1))
        chance = random.Random(seed)
        chosen = {1, 2, self.pairs}
        for entry in chance.sample(self.entries, min(len(self.entries), count // 6)):
            chosen.update({max(entry - 1, 1), entry, min(entry + 1, self.pairs)})
        while len(chosen) < count:
            chosen.add(chance.randint(1, self.pairs))
        return sorted(chosen, key=lambda pair: chance.random())
