"""A drawing's places for things that stand on each other: rows from the bottom up, few crossings, short ways."""
from math import fsum  # exact, so that every machine draws the same

SWEEPS = 30


def closure(below):
    """Everything that each name stands on, at any depth; None if one stands on itself."""
    under, left = {}, dict(below)
    while left:
        ready = [name for name, direct in left.items() if all(one in under for one in direct)]
        if not ready:
            return None
        for name in ready:
            direct = left.pop(name)
            under[name] = set(direct).union(*(under[one] for one in direct))
    return under


def direct_only(below):
    """Without what a name stands on by way of another."""
    under = closure(below)
    return {name: [one for one in direct if not any(one in under[other] for other in direct)] for name, direct in below.items()}


def rows_of(below):
    """The row of each name: one above the highest that it stands on."""
    row = {}
    for name, _ in sorted(closure(below).items(), key=lambda pair: len(pair[1])):
        row[name] = 1 + max((row[one] for one in below[name]), default=-1)
    return row


class Drawing:
    """Places (x, row) for names and for the bends of their ways, which pass each row between at a place of their own."""

    def __init__(self, below, width_of, gap):
        self.width_of, self.gap = width_of, gap
        self.row = rows_of(below)
        self.ways = []  # each a list of stops, from the upper name down to the lower one
        self.links = {name: [] for name in below}
        for name, direct in below.items():
            for one in direct:
                self.add_way(name, one)
        self.order = [[name for name in self.row if self.row[name] == row] for row in range(1 + max(self.row.values()))]
        self.x = {}
        self.arrange()
        self.place()

    def add_way(self, upper, lower):
        stops = [upper]
        for row in range(self.row[upper] - 1, self.row[lower], -1):
            bend = (upper, lower, row)
            self.row[bend], self.links[bend] = row, []
            stops.append(bend)
        stops.append(lower)
        for one, other in zip(stops, stops[1:]):
            self.links[one].append(other)
            self.links[other].append(one)
        self.ways.append(stops)

    def width(self, name):
        return self.width_of(name) if isinstance(name, str) else 4

    # ---- the order in each row ----

    def crossings(self):
        rank = {name: place for row in self.order for place, name in enumerate(row)}
        count = 0
        for row in self.order:
            ends = [(rank[name], rank[one]) for name in row for one in self.links[name] if self.row[one] < self.row[name]]
            count += sum(a < c and b > d for a, b in ends for c, d in ends)
        return count

    def arrange(self):
        """Puts each row in the order of what it is joined to, down and up by turns, and keeps the best."""
        best = [list(row) for row in self.order]
        least = self.crossings()
        for sweep in range(SWEEPS):
            step = 1 if sweep % 2 == 0 else -1
            for row in self.order[::step]:
                self.sort(row, step)
            if self.crossings() < least:
                least, best = self.crossings(), [list(row) for row in self.order]
        self.order = best

    def sort(self, row, step):
        rank = {name: place / len(other) for other in self.order for place, name in enumerate(other)}

        def middle(name):
            joined = [rank[one] for one in self.links[name] if (self.row[one] - self.row[name]) * step < 0]
            return fsum(joined) / len(joined) if joined else rank[name]
        row.sort(key=middle)

    # ---- the places in each row ----

    def place(self):
        for row in self.order:
            for number, name in enumerate(row):
                self.x[name] = number * 100.0
        for sweep in range(SWEEPS):
            for row in self.order[::1 if sweep % 2 == 0 else -1]:
                self.x.update(zip(row, self.apart(row, [self.wanted(name) for name in row])))
        left = min(x - self.width(name) / 2 for name, x in self.x.items())
        self.x = {name: x - left for name, x in self.x.items()}
        self.total = max(x + self.width(name) / 2 for name, x in self.x.items())

    def wanted(self, name):
        """In the middle of what it is joined to."""
        joined = [self.x[one] for one in self.links[name]]
        return fsum(joined) / len(joined) if joined else self.x[name]

    def apart(self, row, wanted):
        """The places nearest to those wanted that keep the order and the gaps: runs that would meet are moved as one."""
        at, offsets = 0.0, []
        for before, name in zip([None] + row, row):
            at += (self.width(before) + self.width(name)) / 2 + self.gap if before else 0
            offsets.append(at)
        runs = []  # [sum of wanted places less offsets, how many]
        for want, offset in zip(wanted, offsets):
            runs.append([want - offset, 1])
            while len(runs) > 1 and runs[-2][0] / runs[-2][1] > runs[-1][0] / runs[-1][1]:
                total, count = runs.pop()
                runs[-1][0] += total
                runs[-1][1] += count
        starts = [total / count for total, count in runs for _ in range(count)]
        return [start + offset for start, offset in zip(starts, offsets)]
