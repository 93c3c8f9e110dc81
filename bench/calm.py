"""Runs that count, on a host that gives its processors to others too.

Such a host makes programs up to twice as slow, for parts of a second or for many, and not all of them alike. So a run
counts only when a fixed piece of work, done before and after it on the same processor, takes no longer than it takes at
rest. A run that does not count is made again."""
import os
import time

SLACK = 1.12
TRIES = 100


def work():
    """The seconds that a fixed piece of work takes."""
    started = time.perf_counter()
    total = 0
    for number in range(100_000):
        total += number
    return time.perf_counter() - started


class Processors:
    """The processors that this process may use: what the work takes at rest, how many runs did not count, and how many
    count though each try was disturbed."""

    def __init__(self):
        self.left_out = 0
        self.disturbed = 0
        self.numbers = sorted(os.sched_getaffinity(0))
        self.rest = work()
        for _ in range(20):
            for number in self.numbers:
                os.sched_setaffinity(0, {number})
                self.rest = min(self.rest, *(work() for _ in range(20)))

    def is_calm(self):
        return work() <= SLACK * self.rest

    def settle(self):
        """Moves to a processor at rest, if there is one."""
        for _ in range(TRIES):
            for number in self.numbers:
                os.sched_setaffinity(0, {number})
                if self.is_calm():
                    return
            time.sleep(0.02)

    def once(self, run, *arguments, tries=TRIES):
        """What `run` gives of these arguments in a run that counts, or in the last one that was tried."""
        for _ in range(tries):
            self.settle()
            result = run(*arguments)
            if self.is_calm():
                return result
            self.left_out += 1
        self.disturbed += 1
        return result

    def summary(self):
        """How many runs did not count, and what rest is."""
        return (
            f"runs that did not count: {self.left_out}; that were disturbed each time, and count: {self.disturbed};"
            f" {1000 * self.rest:.2f} ms at rest"
        )
