#!/usr/bin/env python3
"""Compares the calls of the contenders with tests/reference.py.

    python3 bench/check.py [--bench PROGRAM] [--contender NAME] [--count N] [--seed N]

The program is target/bench/bench, built by bench/run; all its contenders are compared where none is named. Encounters
are drawn over all sizes: zero misses, equal sigmas, t close to 64, the extremes, every refusal, adds in pieces, and
orders to 1,024; before them the begins of tests/edges.py, among them those with 2M at 1,026 and next to it, four
encounters that have an end next to 1/10,000, and some with exact terms. Exits with 1 where an answer differs.
"""

import argparse
import collections
import math
import pathlib
import random
import subprocess
import sys

ROOT = pathlib.Path(__file__).resolve().parent.parent
sys.dont_write_bytecode = True
sys.path.insert(0, str(ROOT / "tests"))
from edges import ANSWERS, BEGINS, EXACT_TERMS, conjunctions
from encounters import AT_THRESHOLD, LATEST
from fields import ANSWER, answer_numbers
from reference import LARGEST, LARGEST_N, LARGEST_T, Session

SEED = 1
COUNT = 4000
# The contender that counts exact terms.
LIBRARY = "proved"
# One encounter in this many goes on to a large order.
LONG = 20
EXTREMES = (1, 2, 3, LARGEST - 1, LARGEST)
OUTSIDE = (0, LARGEST + 1, 2**31, 2**32 - 1)
MISS_OUTSIDE = (LARGEST + 1, -LARGEST - 1, 2**31 - 1, -(2**31))


def size(rng, most=LARGEST):
    """A length from 1 to most, of any magnitude."""
    return min(most, max(1, round(math.exp(rng.uniform(0, math.log(most + 1))))))


def clipped(x, most=LARGEST):
    return max(-most, min(most, x))


def drawn(rng):
    """An encounter with t from 0 to somewhat above 64."""
    sx = rng.choice(EXTREMES) if rng.random() < 0.1 else size(rng)
    sy = sx if rng.random() < 0.15 else size(rng, sx)
    t = LARGEST_T * (rng.uniform(0.98, 1.005) if rng.random() < 0.3 else rng.random())
    parts = [rng.random() ** rng.choice((1, 4, 12)) for _ in range(3)]
    x, y, z = (math.sqrt(2 * t * part / sum(parts)) for part in parts)
    R = clipped(max(1, round(sy * x)))
    xm = clipped(round(sx * y)) if rng.random() < 0.8 else rng.choice((0, 1, -1))
    ym = clipped(round(sy * z)) if rng.random() < 0.8 else rng.choice((0, 1, -1))
    return R, sx, sy, rng.choice((xm, -xm)), rng.choice((ym, -ym))


def extreme(rng):
    """An encounter of the smallest and largest inputs; many of them are refused."""
    misses = (0,) + EXTREMES + tuple(-x for x in EXTREMES)
    return *(rng.choice(EXTREMES) for _ in range(3)), rng.choice(misses), rng.choice(misses)


def refused(rng):
    """An encounter with some inputs outside."""
    R, sx, sy, xm, ym = drawn(rng)
    if rng.random() < 0.4:
        R = rng.choice(OUTSIDE)
    if rng.random() < 0.4:
        sx = rng.choice(OUTSIDE)
    if rng.random() < 0.4:
        sx, sy = sy, sx
    if rng.random() < 0.3:
        xm = rng.choice(MISS_OUTSIDE)
    if rng.random() < 0.3:
        ym = rng.choice(MISS_OUTSIDE)
    return R, sx, sy, xm, ym


# Of a begin_conjunction; 0 is no object number.
OBJECTS = (0, 1, 25544, 2**32 - 1)
TIMES = (0, 2, 1440, 2**32 - 2)


def begin(rng, inputs):
    """A begin of either kind."""
    return rng.choice((("begin", *inputs), ("begin_conjunction", *inputs, rng.choice(OBJECTS), rng.choice(TIMES))))


def calls_of(rng, long):
    """The calls for one encounter."""
    calls = []
    if rng.random() < 0.2:
        calls.append(("empty",))
    if rng.random() < 0.2:
        calls.append(rng.choice((("read",), ("add", rng.choice((0, 1, 5, 65535))))))
    draw = rng.choices((drawn, extreme, refused), (8, 1, 1))[0]
    calls.append(begin(rng, draw(rng)))
    left = rng.randrange(LARGEST_N // 4, LARGEST_N) if long else rng.randrange(60)
    if long and rng.random() < 0.3:
        left = LARGEST_N - 1
    while left > 0:
        count = left if rng.random() < 0.3 else rng.randrange(left + 1)
        calls += [("add", count), ("read",)]
        left -= count
    if rng.random() < 0.1:
        calls.append(begin(rng, refused(rng)))
    if long:
        calls.append(("add", rng.choice((0, 1, LARGEST_N, 65535))))
    calls.append(("read",))
    return calls


def first_calls():
    """The calls for the encounters of tests/."""
    calls = [call for _, inputs in BEGINS for call in (("begin", *inputs), ("read",))]
    calls += [call for _, inputs in conjunctions() for call in (("begin_conjunction", *inputs), ("read",))]
    calls += [call for inputs, *_ in AT_THRESHOLD for call in (("begin", *inputs), ("read",))]
    # Where N is 1, the add is one of 0, which is refused.
    calls += [call for inputs, N, *_ in EXACT_TERMS for call in (("begin", *inputs), ("add", N - 1), ("read",))]
    # This one is read at the largest order alone.
    calls += [("begin", *LATEST), ("add", LARGEST_N), ("add", LARGEST_N - 2), ("read",)]
    calls += [("add", 1), ("read",), ("add", 1)]
    return calls


def answers(calls):
    """The reference's answers."""
    session = Session()
    for name, *words in calls:
        if name == "empty":
            session = Session()
            yield (0,) * len(ANSWER)
        else:
            a = getattr(session, name)(*words)
            yield tuple(answer_numbers(a))


def output(command, script=""):
    run = subprocess.run(command, input=script, capture_output=True, text=True)
    if run.returncode:
        sys.exit(f"check: exit status {run.returncode}: {run.stderr}")
    return run.stdout.splitlines()


def failures_of(bench, contender, calls, due):
    """Prints the contender's wrong answers and counts them."""
    script = "".join(" ".join(map(str, call)) + "\n" for call in calls)
    found = [tuple(map(int, line.split())) for line in output([bench, "--calls", contender], script)]
    if len(found) != len(calls):
        sys.exit(f"check: {contender}: {len(calls)} calls, {len(found)} answers")
    if contender != LIBRARY:
        # Its last field, the count of exact terms, is 0.
        due = [(*a[:-1], 0) for a in due]
    failures = 0
    for call, answer, a in zip(calls, found, due):
        if answer != a:
            failures += 1
            print(f"FAILED: {contender}: {call}: {answer}, due {a}")
    return failures


def main():
    parser = argparse.ArgumentParser()
    parser.add_argument("--bench", default=str(ROOT / "target/bench/bench"))
    parser.add_argument("--contender")
    parser.add_argument("--count", type=int, default=COUNT)
    parser.add_argument("--seed", type=int, default=SEED)
    given = parser.parse_args()
    rng = random.Random(given.seed)
    calls = first_calls()
    calls += [call for i in range(given.count) for call in calls_of(rng, i % LONG == 0)]
    due = list(answers(calls))
    reads = sum(call[0] == "read" and a[0] == 0 for call, a in zip(calls, due))
    refusals = collections.Counter(a[0] for a in due if a[0])
    counts = ", ".join(f"{n} of {r}" for r, n in sorted(refusals.items()))
    if set(refusals) != {answer for _, answer in ANSWERS if answer}:
        sys.exit(f"check: only these refusals: {counts}")
    begins = sum(call[0].startswith("begin") for call in calls)
    print(f"{begins} begins, {len(calls)} calls, {reads} reads; refusals: {counts}")
    names = [given.contender] if given.contender else output([given.bench, "--names"])
    failures = 0
    for name in names:
        failed = failures_of(given.bench, name, calls, due)
        print(f"{name}: {failed} failed")
        failures += failed
    sys.exit(1 if failures else 0)


if __name__ == "__main__":
    main()
