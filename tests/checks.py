"""Counts checks, says which fail, and ends a program."""

import collections
import sys

# How many failures are printed.
SHOWN = 20


class Checks:
    """The checks of one program, counted by kind."""

    def __init__(self, program):
        self.program = program
        self.counts = collections.Counter()
        self.failures = 0

    def check(self, ok, kind, what):
        self.counts[kind] += 1
        if not ok:
            self.failures += 1
            if self.failures <= SHOWN:
                print(f"FAILED: {what}")

    def end(self):
        """Prints the counts; exits with 1 where a check failed, or where there was none."""
        counted = [f"{n} {kind}" for kind, n in self.counts.items()]
        print(f"{self.program}: {', '.join(counted or ['no checks'])}, {self.failures} failed")
        sys.exit(1 if self.failures or not counted else 0)


def shortened(text, most=2000):
    return text if len(text) <= most else f"{text[: most // 2]} .. {text[-most // 2 :]}"
