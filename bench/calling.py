"""The calls by themselves, without house records and printing: one driver (calls/driver.c), linked with each side's
ends. It takes a workload apart before it makes the calls, so two rounds of them less one are the calls alone."""
import os
import statistics

import programs
import workloads
from programs import Program

SIDES = ("ours", "tuned", "second")


class Side:
    """The driver of one side on one workload and end."""

    def __init__(self, side, steps):
        self.side, self.steps = side, steps

    def exists(self):
        return os.access(programs.driver(self.side), os.X_OK)

    def program(self, rounds):
        return Program(programs.driver(self.side), str(rounds), str(self.steps.queue), str(self.steps.room))

    def answer(self):
        """The number of calls, and the digest of all that they gave back."""
        _, calls, _, digest = self.program(0).answer(self.steps.data).split()
        return int(calls), digest

    def instructions(self):
        once, twice = (self.program(rounds).count(self.steps.data).instructions for rounds in (1, 2))
        return twice - once

    def seconds(self, rounds, runs):
        """Of one round: best and median."""
        path = programs.stored("timed", self.steps.data)
        start = min(self.program(1).seconds(path) for _ in range(runs))
        taken = [(self.program(1 + rounds).seconds(path) - start) / rounds for _ in range(runs)]
        return min(taken), statistics.median(taken)


def sides_of(steps):
    return [side for side in (Side(name, steps) for name in SIDES) if side.exists()]


def rows(names):
    """(workload, end, payload, the sides) of each end that has something to do."""
    for name in names:
        work = workloads.made(name)
        for end in ("sender", "receiver"):
            steps = workloads.steps_of(work, end)
            if steps is not None:
                yield name, end, work.payload, sides_of(steps)
