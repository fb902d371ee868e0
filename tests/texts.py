#!/usr/bin/env python3
"""Holds what is written in several places to document 01 and to the listings.

    python3 tests/texts.py

The table of refusals in the definitions, README.md, docs/READING.md, the header, the C example, Rust and Python, the
calls that the header and README.md name in it, and the refusals that are named beside each call; the session's size,
the week's and the version in each language; the advised orders and the ends as doubles in the header; the tables of
examples/*.md, whose decimals are those of the listings, and what their texts say of orders, lines and bytes; the
listing, the bytes and the decimals of README.md; the titles of the documents that are cited; the files, the names in
them and the must-fail edits that docs/ names. Exits with 1 where anything differs.
"""

import math
import re
import sys
from fractions import Fraction

sys.dont_write_bytecode = True
import advice
import brackets
import division
import doubles
import edges
import exact_series
import fields
import options
import orders
import records
import scaled
from checks import Checks
from encounters import ALFANO_3, CLEAR_THEN_OPEN, DOCUMENTS, EDGES, FULL, HALF, SMALL, TEST_1, THIN
from exact_series import Encounter
from markdown import README, blocks, section
from options import ROOT
from reference import LARGEST_2M, LARGEST_N, REFUSALS, Session
from week_reference import DAYS, PLACES

EXAMPLES = ROOT / "examples"

checks = Checks("texts")


def same(kind, what, found, due):
    checks.check(found == due, kind, f"{what}\n  found: {found}\n    due: {due}")


def found_in(path, pattern):
    return re.findall(pattern, (ROOT / path).read_text(), re.M)


# The tables of refusals.

ALL = list(REFUSALS)
# The calls and what they may answer. Those of records come first; no record asks for an entry into a week.
CALLS = edges.ANSWERS | edges.ENTRIES
OF_RECORDS = sorted({refusal for _, refusal in edges.ANSWERS if refusal})
OF_CALLS = [number for number in ALL if number in {refusal for _, refusal in CALLS}]
# The definitions have both tests of request #111 together.
AS_DEFINED = [number for number in ALL if number != 13]
AS_DEFINED.insert(AS_DEFINED.index(24), 13)
# Where a table stands, how a row of it looks, and the numbers that it has, in their order.
TABLES = (
    ("README.md", r"^\| (\d+) \| (.*?) \| \D.*\|.*\|$", ALL),
    ("docs/READING.md", r"^\| (\d+): (.*?) \|", ALL),
    ("bindings/c/jinthuol.h", r"^ \* +(\d+)  (.*?) +\(", ALL),
    # The example makes no add of 0.
    ("bindings/c/example.c", r'case (\d+):\s+return "(.*)";', [number for number in OF_CALLS if number != 12]),
    ("bindings/rust/src/refusal.rs", r'^ +(\d+) => "(.*)",$', sorted(ALL)),
    ("bindings/python/jinthuol.py", r'^ +(\d+): "(.*)",$', sorted(ALL)),
    ("crates/exact/specs/Refusals.antt", r"^ *-- (\d+): (.*?)(?:;.*)?$", AS_DEFINED),
)


def of_refusals():
    for path, row, numbers in TABLES:
        # C has no other minus; the paper says of 8 when it is tested.
        due = [(number, REFUSALS[number].replace("−", "-")) for number in numbers]
        rows = found_in(path, row)
        found = [(int(n), text.replace("−", "-").removesuffix(" (program only, before all else)")) for n, text in rows]
        same("refusals", path, found, due)


def of_refused_calls():
    """Beside each refusal of the header's table and of README's stand the calls that have it."""
    tables = ("bindings/c/jinthuol.h", r"^ \* +(\d+)  .*? +\(([\w, ]+)\)$"), ("README.md", r"^\| (\d+) \| [^|]+ \| ([\w, ]+) \| ")
    for path, pattern in tables:
        rows = dict(found_in(path, pattern))
        for number in OF_CALLS:
            due = {call for call, refusal in CALLS if refusal == number}
            calls = rows.get(str(number), "").replace("both begins", "begin, begin_conjunction")
            calls = "begin, begin_conjunction" if calls == "begin" else calls.replace("begin of kind 4", "begin_conjunction")
            same("refusals", f"{path}, the calls of {number}", sorted(calls.split(", ")), sorted(due))


# Numbers in words: '3 to 7, 11 or 9'.
LIST = r"\d+(?: to \d+)?(?:(?:,| or) \d+(?: to \d+)?)*"
# Where texts name the refusals of each call, and how the call and its refusals stand there, once all is in one line.
NAMED_REFUSALS = (
    (["bindings/c/jinthuol.h"], rf"Refused as (?P<words>{LIST})(?:(?!\*/).)*\*/ \w+ jinthuol_(?P<call>\w+)\("),
    (
        ["bindings/rust/src/session.rs", "bindings/rust/src/doubles.rs", "bindings/rust/src/week.rs"],
        rf"Refused as (?P<words>{LIST})(?:(?! fn ).)* fn (?P<call>\w+)\(",
    ),
    (["bindings/python/jinthuol.py"], rf'def (?P<call>\w+)\(self[^)]*\): """(?:(?!""").)*Refused as (?P<words>{LIST})'),
    (
        ["README.md"],
        rf"\| `(?P<call>\w+)\((?:week, day, )?session[^|]*\| [^|]*?or (?:a refusal )?(?P<words>{LIST})(?: and [^|]*)? \|",
    ),
)


def numbers_of(words):
    """The numbers of such a list."""
    pairs = re.findall(r"(\d+)(?: to (\d+))?", words)
    return sorted(n for first, last in pairs for n in range(int(first), int(last or first) + 1))


def of_named_refusals():
    """A text names all refusals of a call, and no other; README.md also all after which a listing goes on."""
    due = {}
    for call, refusal in sorted(CALLS):
        if refusal:
            due.setdefault(call, []).append(refusal)
    for paths, pattern in NAMED_REFUSALS:
        text = "\n".join((ROOT / path).read_text() for path in paths)
        text = re.sub(r"\s*\n\s*(?:\* |/// )?", " ", re.sub(r"`Refused\((\d+)\)`", r"\1", text))
        named = {found["call"]: numbers_of(found["words"]) for found in re.finditer(pattern, text)}
        named = {call: numbers for call, numbers in named.items() if call in due}
        same("refusals", f"the refusals of each call in {' and '.join(paths)}", named, due)
    words = re.findall(rf"after refusals ({LIST} and {LIST}) it goes on", README)
    same("refusals", "README.md: after which a listing goes on", list(map(numbers_of, words)), [OF_RECORDS])


# The session's size and the version.

SIZES = (
    ("README.md", r"A session is (\d+) words"),
    ("bindings/c/jinthuol.h", r"words\[(\d+)\]"),
    ("bindings/rust/src/session.rs", r"words: \[u32; (\d+)\]"),
    ("bindings/rust/src/lib.rs", r"words: \[0; (\d+)\]"),
    ("bindings/python/jinthuol.py", r"c_uint32 \* (\d+)"),
)
# The days of a week and the places of a day, where they stand.
WEEKS = (
    ("bindings/c/jinthuol.h", r"jinthuol_bracket days\[(?P<days>\d+)\]\[(?P<places>\d+)\];"),
    ("bindings/rust/src/week.rs", r"days: \[\[ffi::Bracket; (?P<places>\d+)\]; (?P<days>\d+)\]"),
    ("bindings/python/jinthuol.py", r"Bracket \* (?P<places>\d+) \* (?P<days>\d+)"),
)
VERSIONS = (
    ("crates/jinthuol/specs/Version.antt", r"^version = (\d+)$"),
    ("crates/jinthuol/src/lib.rt", r"VERSION: u32 = (\d+);"),
    ("bindings/c/jinthuol.h", r"#define JINTHUOL_VERSION (\d+)$"),
    ("bindings/rust/src/lib.rs", r"VERSION: u32 = (\d+);"),
    ("bindings/python/jinthuol.py", r"^VERSION = (\d+)$"),
)


def of_bindings():
    for path, number in SIZES:
        same("sizes", f"the session's words in {path}", found_in(path, number), [str(len(fields.SESSION))])
    for path, pattern in WEEKS:
        found = [one.groupdict() for one in re.finditer(pattern, (ROOT / path).read_text())]
        same("sizes", f"the week in {path}", found, [{"days": str(DAYS), "places": str(PLACES)}])
    versions = {path: found_in(path, number) for path, number in VERSIONS}
    first = versions[VERSIONS[0][0]]
    for path, found in versions.items():
        same("versions", path, found, first)
    checks.check(len(first) == 1, "versions", "there is one version")
    header = "bindings/c/jinthuol.h"
    said = found_in(header, r"= jinthuol_advise\(session\); +(\d+): from N = (\d+) on")
    same("advised orders", f"{header}, of Test 1", said, [(str(orders.advised(TEST_1)),) * 2])
    said = found_in(header, r"jinthuol_add\(&session, advice\.order - 1\); +N is (\d+)")
    same("advised orders", f"{header}, the add", said, [str(orders.advised(TEST_1))])
    said = found_in(header, r"the advised order, from (\d+) to (\d+),")
    due = [(str(min(advice.ORDERS)), str(max(advice.ORDERS)))]
    same("advised orders", f"{header}, the least and the greatest", said, due)
    record = orders.at_order(TEST_1, orders.advised(TEST_1)).read_plot_record().record
    said = found_in(header, r"both ends as doubles: about (\S+) and (\S+)$")
    same("doubles", f"{header}, both ends", said, [tuple(f"{float(end):.9g}" for end in (record.lower, record.upper))])
    said = found_in(header, r"the double upper - lower: about (\S+)$")
    same("doubles", f"{header}, the difference", said, [f"{float(record.difference):.3g}"])


# Decimals.


def decimal(up, end, digits=8):
    """An end in digits, rounded down or up, as d.ddde±kk."""
    q = scaled.value(scaled.Scaled(*end))
    k = len(str(q.numerator)) - len(str(q.denominator))
    # q × 10^-k is from 1/10 to 10; it is to be from 1 to 10.
    k -= q < Fraction(10) ** k
    whole = q * Fraction(10) ** (digits - 1 - k)
    n = -(-whole.numerator // whole.denominator) if up else whole.numerator // whole.denominator
    if n == 10**digits:
        n, k = n // 10, k + 1
    text = str(n)
    return f"{text[0]}.{text[1:]}e{'-' if k < 0 else '+'}{abs(k):02}"


def of_decimals():
    for m, e, digits, down, up in (
        (1 << 31, -31, 8, "1.0000000e+00", "1.0000000e+00"),
        ((1 << 32) - 1, -32, 8, "9.9999999e-01", "1.0000000e+00"),
        ((1 << 31) + 1, -31, 3, "1.00e+00", "1.01e+00"),
        (2640538691, 133, 2, "2.8e+49", "2.9e+49"),
        (2147483648, -34, 8, "1.2500000e-01", "1.2500000e-01"),
    ):
        same("decimals", f"{m} {e}", [decimal(False, (m, e), digits), decimal(True, (m, e), digits)], [down, up])


# The examples.

# The one whose table has the exact terms.
COUNTED = "where-rounding-starts"


def said(record):
    """A record in the words of the table."""
    if record.encounter:
        of_object = ", object %d at minute %d" % record.inputs[5:] if len(record.inputs) > 5 else ""
        return f"begin ({', '.join(map(str, record.encounter))}){of_object}"
    return " ".join([record.kind.call, *map(str, record.inputs)])


def rows(script, listing, counted):
    """The rows of the table: offset, record, order and answer of each line of the listing.

    Where they are counted, the exact terms too.
    """
    order = "none"
    for record, line in zip(records.records(script), listing.splitlines(), strict=True):
        answer = records.printed(line)
        word = line.split()[1]
        if answer.refusal:
            said_of_it = f"refused {answer.refusal}"
        elif word == "read":
            said_of_it = f"{decimal(False, answer.lower)} to {decimal(True, answer.upper)}, {answer.class_name}"
            said_of_it += f", object {answer.object} at minute {answer.time}" if answer.object else ""
        else:
            order, said_of_it = answer.N, word
        text = f"a byte {script[record.position]}" if record.refusal else said(record)
        more = f" {answer.exact} |" if word == "read" else " |"
        yield f"| {line.split()[0]} | {text} | {order} | {said_of_it} |{more if counted else ''}"


def of_examples():
    stems = sorted(path.stem for path in EXAMPLES.glob("*.md"))
    same("examples", "texts", stems, sorted(path.stem for path in EXAMPLES.glob("*.script")))
    closed = 0
    for stem in stems:
        text = (EXAMPLES / f"{stem}.md").read_text()
        script, listing = (EXAMPLES / f"{stem}.script").read_bytes(), (EXAMPLES / f"{stem}.listing").read_text()
        counted = stem == COUNTED
        head = ["| Offset | Record | Order N | Answer |", "|---|---|---|---|"]
        head = [f"{line}{more}" for line, more in zip(head, (" Exact terms |", "---|"))] if counted else head
        due = [*head, *rows(script, listing, counted)]
        same("examples", stem, [line for line in text.splitlines() if line.startswith("|")], due)
        closed += of_orders(stem, text, script)
        of_advice(stem, text, script)
        of_titles(f"examples/{stem}.md", text)
    checks.check(closed > 4, "examples", f"orders from which a bracket is close: {closed}")


def encounters_of(script):
    """The encounter of each begin."""
    return [Encounter(*record.encounter) for record in records.records(script) if record.encounter]


def of_orders(stem, text, script):
    """'From N on the tail bound is at most 2^-31': N is the least such order of an encounter of the script."""
    begun = list(filter(orders.begun, encounters_of(script)))
    found = [int(N) for N in re.findall(r"From (\d+) (?:terms )?on the tail bound is at most 2\^-31", text)]
    for N in found:
        closes = [[brackets.is_close(orders.at_order(E, n)) for n in (N - 1, N)] for E in begun]
        checks.check([False, True] in closes, "examples", f"{stem}: from {N} on")
    return len(found)


# What a text says of an encounter, or that none is advised, or of several encounters.
ADVISED = r"[Tt]he advised order is (\d+)|[Nn]o order is (advised)|[Tt]he advised orders are, in turn, (%s)"
ADVISED %= r"(?:(?:\d+|none)(?:, | and )?)+"


def of_advice(stem, text, script):
    """Request #106: the advised order of each encounter that is begun, in turn, or that none is advised.

    Encounters with the same M share theirs. Where a text gives an M in decimals, one of the encounters has it.
    """
    Ms = list(dict.fromkeys(value(session.M) for session in map(orders.begun, encounters_of(script)) if session))
    # What a program prints is indented.
    words = " ".join("".join(groups) for groups in re.findall(ADVISED, re.sub("^ .*", "", text, flags=re.M)))
    found = [int(word) if word.isdigit() else None for word in re.findall(r"\d+|none|advised", words)]
    same("advised orders", f"{stem}, the advised orders", found, list(map(advice.order_for, Ms)))
    for said in re.findall(r"\bM is (\d+\.\d+)", text):
        digits = len(said.split(".")[1])
        same("advised orders", f"{stem}, M is {said}", said in {f"{float(M):.{digits}f}" for M in Ms}, True)


# README.


def of_readme():
    test_1 = (EXAMPLES / "test-1.listing").read_text().splitlines()
    script = (EXAMPLES / "test-1.script").read_bytes()
    same("README", "the listing", blocks(section("First command"))[1], test_1)
    line = blocks(section("A line of a listing"))[0]
    checks.check(len(line) == 1 and line[0] in test_1, "README", f"the line: {line}")
    fields = re.findall(r"^\| [^|]+ \| `([^`]+)` \| [^|]+ \|$", section("A line of a listing").split("Aloud")[0], re.M)
    same("README", "the fields of the line", fields and " ".join(fields), line[0])
    shift = (EXAMPLES / "shift.listing").read_text()
    for end in re.findall(r"`\.\. (.+?)`, which is object (\d+) at minute (\d+)", section("A line of a listing")) or [[]]:
        ok = len(end) == 3 and end[0].split()[-3:-1] == list(end[1:]) and f" {end[0]}\n" in shift
        checks.check(ok, "README", f"the end of a line with an object: {end}")
    kinds = re.findall(r"^\| (\d) \| [^|]+ \| (\d+) \|", section("A script, byte by byte"), re.M)
    due = [(str(kind), str(1 + of.body.size)) for kind, of in records.KINDS.items()]
    same("README", "the kinds and their bytes", kinds, due)
    # The count of an add and the object number of kind 4.
    kinds = re.findall(r"^\| (\d) \| .*\bfrom 1 on\b.*\|$", section("A script, byte by byte"), re.M)
    same("README", "the kinds with a number that may not be 0", kinds, ["2", "4"])
    bytes_ = blocks(section("A script, byte by byte"))[0][0]
    same("README", "the bytes", bytes_.split(), script[:21].hex(" ").split())
    checks.check(f"`{script[1:5].hex(' ')}` | R = 244 + 1 × 256 = 500" in README, "README", "the bytes of R")
    for bytes_, what in (((-388) % (1 << 32)).to_bytes(4, "little"), "-388"), (records.add(54), "add 54"):
        checks.check(f"`{bytes_.hex(' ')}`" in README, "README", f"the bytes of {what}")
    for number, of_number in (27386, "object"), (642, "minute"):
        word = number.to_bytes(4, "little")
        checks.check(word.hex(" ") in README, "README", f"the bytes of {number}")
        text = f"{of_number} {number} ({word[0]} + {word[1]} × 256)"
        checks.check(text in README, "README", text)
    # Decimals of the reads that its text speaks of, outward.
    listings = {stem: (EXAMPLES / f"{stem}.listing").read_text() for stem in ("test-1", "alfano-3")}
    for stem, N, digits, text in (
        ("test-1", 55, 8, "from {} to {}, so its first digits are 0.0764738."),
        ("test-1", 36, 7, "Test 1 has {} to {} at N = 36"),
        ("test-1", 55, 8, "and {} to {} at N = 55"),
    ):
        lower, upper = ends(listings[stem], N)
        decimals = decimal(False, lower, digits), decimal(True, upper, digits)
        written = [f"{float(text):.{digits + 1}f}" for text in decimals]
        checks.check(text.format(*written) in README, "README", f"{stem} at {N}: {written}")
    _, upper = ends(listings["alfano-3"], 597)
    same("README", "Alfano 3 at 597", (decimal(True, upper, 2), "2.9 × 10^49 at N = 597" in README), ("2.9e+49", True))
    _, upper = ends(listings["alfano-3"], 765)
    found = decimal(True, upper), "and 0.10040417 at N = 765" in README
    same("README", "Alfano 3 at 765", found, ("1.0040417e-01", True))
    # The limit of test 7, on each side.
    for R, refusal, text in (1131, 0, "11.31² = 127.9561"), (1132, 7, "11.32² = 128.1824"):
        squares = Fraction(1000, 5000) ** 2 + Fraction(R, 100) ** 2
        checks.check(text.endswith(str(float(squares))) and text in README, "README", f"the squares of R = {R}")
        same("README", f"the refusal of R = {R}", Session().begin(R, 5000, 100, 1000, 0).refusal, refusal)
    stuck = orders.at_order(Encounter(20, 10, 10, 0, 0), 2), orders.at_order(Encounter(20, 10, 10, 0, 0), 3)
    text = "the upper end of (20, 10, 10, 0, 0) is the same at N = 2 and 3 and falls later"
    later = value(orders.at_order(Encounter(20, 10, 10, 0, 0), 6).read().upper)
    stays = stuck[0].read().upper == stuck[1].read().upper and later < value(stuck[0].read().upper)
    checks.check(text in README and stays, "README", text)
    of_test_11()
    of_figures()
    of_how_many_terms()
    of_printed_ends()
    of_classes()
    of_titles("README.md", README)


def value(end):
    return scaled.value(scaled.Scaled(*end[:2]))


def of_test_11():
    """The limit of test 11, and an encounter above it."""
    at = Encounter(32, 4, 4, 16, 15)
    for encounter, factor, text, refusal in (
        (at, "16.03125", "r = 8 and d² = 16 + 14.0625, so 2M is 64 × 16.03125 = 1,026: it is begun", 0),
        (FULL, "33", "r = 8 and d = 8, so 2M is 64 × 33 = 2,112: it is refused as 11", 11),
    ):
        words = f"({', '.join(map(str, encounter))}) has {text}"
        twice = 2 * orders.exact_M(encounter)
        found = words in README, twice, f" = {int(twice):,}: " in text, Session().begin(*encounter).refusal
        same("README", words, found, (True, 64 * Fraction(factor), True, refusal))
    same("README", "the limit of test 11", (2 * orders.exact_M(at), orders.least(at)), (LARGEST_2M, LARGEST_N))


def of_figures():
    """Figures in README's text."""
    M = value(orders.begun(TEST_1).M)
    text = "Test 1 has M = 18.7476, so a read needs 36 terms"
    same("README", text, (f"{float(M):.4f}", orders.least(TEST_1), text in README), ("18.7476", 36, True))
    t = exact_series.letters(TEST_1).t
    same("README", "2t of Test 1", (2 * t, "Test 1 has 25.04." in README), (Fraction("25.04"), True))
    refusal = Session().begin(100, 100, 100, 1127, 0).refusal
    same("README", "11.27", (refusal, "a miss of 11.27 with a radius of 1 is refused" in README), (7, True))
    text = "(10, 10, 10, 0, 0) has the terms 1/2, 1/8, 1/48, ..: the third is no such number, so the count is 1"
    text += " at N = 1, and 2 from N = 2 on"
    found = exact_series.by_definition(HALF, 3), [orders.at_order(HALF, N).read().exact for N in (1, 2, 3, LARGEST_N)]
    same("README", text, (*found, text in README), ([Fraction(1, n) for n in (2, 8, 48)], [1, 2, 2, 2], True))
    # Half a centimetre more of R, in tenths of a centimetre: a probability does not depend on the unit.
    brackets_ = [orders.at_order(Encounter(R, 114250, 1410, 150, -3880), 950).read() for R in (15000, 15005)]
    found = [f"{float(value(end)):.5f}" for read in brackets_ for end in (read.lower, read.upper)]
    text = "half a centimetre more of R takes Alfano 3's 0.10040 to 0.10044"
    same("README", text, (found, text in README), (["0.10040"] * 2 + ["0.10044"] * 2, True))


def of_how_many_terms():
    """What README says of orders: those of the table, and those where M is above 256."""
    text = section("How many terms")
    columns = [re.findall(r"\d+", row) for row in re.findall(r"^\| (?:M below|Order) \|(.*)$", text, re.M)]
    Ms = [int(M) for M in columns[0]] if len(columns) == 2 else []
    found = Ms == sorted(Ms) and Ms[:1] + Ms[-1:], [int(N) for N in columns[-1]]
    same("README", "the table of orders", found, ([1, advice.LARGEST_M], [advice.ORDERS[M - 1] for M in Ms]))
    M = value(orders.begun(TEST_1).M)
    words = f"Test 1 has M = {float(M):.4f}, so it is the entry for {math.ceil(M)}, which is {orders.advised(TEST_1)}."
    checks.check(words in text, "README", words)
    # (1 + 2^-31)^(18N + 2,600), in tenths of a millionth upward.
    above = [(1 + Fraction(1, 1 << 31)) ** (18 * N + 2600) - 1 for N in (orders.advised(TEST_1), max(advice.ORDERS))]
    tenths = [math.ceil(q * 10**7) / 10 for q in above]
    words = "at most {} millionths of the value at N = 66 and {} at N = 708".format(*tenths)
    same("README", words, (words in text, orders.advised(TEST_1), max(advice.ORDERS)), (True, 66, 708))
    at_55 = (1 + Fraction(1, 1 << 31)) ** (18 * 55 + 2600) - 1
    words = "at N = 55 they differ by less than 2 in the sixth digit"
    holds = 10 * at_55 < Fraction(2, 10**5), words in (ROOT / "docs/TRUST.md").read_text()
    same("README", f"docs/TRUST.md: {words}", holds, (True, True))
    test_1 = [orders.at_order(TEST_1, N) for N in (54, 55, 66, 101)]
    upper = [session.read().upper[0] for session in test_1[1:]]
    words = "its upper m is {} at N = 55, {} at N = 66 and {} at N = 101".format(*upper)
    found = words in text, list(map(brackets.is_close, test_1[:2])), "as Test 1 is at N = 55" in text
    same("README", words, found, (True, [False, True], True))
    M = value(orders.begun(ALFANO_3).M)
    words = f"Alfano 3 has M = {float(M):.2f}, so {math.ceil(3 * M + 13)} terms."
    found = words in text, orders.advised(ALFANO_3), "Take N = 3M + 13: from there on" in text
    same("README", words, found, (True, None, True))
    # 3M + 13 terms are enough: 2M ≤ N + 2, and 2 × M^N/(N+1)! ≤ 2^-32, which leaves a factor of two for the roundings.
    # The first order that is read is at least 2M − 2, so half as much again and 16 more are at least 3M + 13.
    factorial = math.factorial(14)
    for N in range(14, LARGEST_N + 1):
        factorial *= N + 1
        ok = 2 * (N - 13) <= 3 * (N + 2) and (N - 13) ** N << 33 <= 3**N * factorial
        checks.check(ok, "orders", f"N = {N} for M = {N - 13}/3")
    words = "computed for every M up to 337, where it is 1,024, and not proved"
    same("README", words, (words in text, 3 * 337 + 13), (True, LARGEST_N))
    words = "take 1,024, the largest order: up to M = 372 it is enough too, by the same computation"
    found = words in text, [advice.is_enough(M, LARGEST_N) for M in (372, 373)]
    same("README", words, found, (True, [True, False]))
    words = "M is at most 372 just where a read is accepted at 742 terms. Above, up to 513,"
    same("README", words, (words in text, orders.least_for(372), LARGEST_2M), (True, 742, 2 * 513))


def of_printed_ends():
    """What README says of ends in decimal."""
    _, upper = ends((EXAMPLES / "alfano-3.listing").read_text(), 597)
    text = "`1.000e-00`, however large it is: Alfano 3's upper end at N = 597 prints so and is 2.9 × 10^49"
    same("README", text, (records.decimal_text(True, upper), text in README), ("1.000e-00", True))
    inputs = 1241890, 5822809, 2710891, 8414864, 9077603
    text = f"({', '.join(map(str, inputs))}) at N = 1 prints `1.001e-04`, and its upper end is just below 1/10,000"
    read = orders.at_order(Encounter(*inputs), 1).read()
    below = value(read.upper) < Fraction(1, 10_000) <= value(scaled.above(scaled.Scaled(*read.upper)))
    found = records.decimal_text(True, read.upper), read.class_name, below, text in README
    same("README", text, found, ("1.001e-04", "clear", True, True))
    for m, due in (scaled.LIMIT - 1, "1.001e-00"), (scaled.LIMIT - 2, "1.000e-00"):
        same("README", "just below 1", records.decimal_text(True, (m, -scaled.BITS)), due)
    checks.check("just below 1 prints as `1.000e-00` or `1.001e-00`" in README, "README", "just below 1")
    lines = listed("decimals")
    text = "an upper end of 0.099998 prints as `1.000e-01`, a lower end just above 10^-19 as `9.999e-20`"
    upper, lower = records.printed(lines[155]).upper, records.printed(lines[177]).lower
    next_to = decimal(True, upper, 5) == "9.9998e-02" and 0 < value(lower) * 10**19 - 1 < Fraction(1, 10**6)
    checks.check(text in README and next_to, "README", text)


def listed(stem):
    """The lines of an example's listing by their offsets."""
    lines = (EXAMPLES / f"{stem}.listing").read_text().splitlines()
    return {int(line.split()[0]): line for line in lines}


def of_printed_lines(stem):
    """What a text says of each read: 'at byte N' and then what that line ends with.

    Of a line without an object, the object number and what stands behind it may be left out.
    """
    text, lines = (EXAMPLES / f"{stem}.md").read_text(), listed(stem)
    said = re.findall(r"[Aa]t byte (\d+)[^`]*`([^`]*)`", text)
    reads = [offset for offset, line in lines.items() if line.split()[1] == "read"]
    same("examples", f"{stem}, the reads", [int(offset) for offset, _ in said], reads)
    for offset, words in said:
        line = lines[int(offset)]
        before, *both, _ = line.rsplit(" ", 3)
        ends = line.endswith(f" {words}") or (both == ["0", "0"] and before.endswith(f" {words}"))
        checks.check(ends, "examples", f"{stem} at {offset}: {words}")
    return text, lines


def of_printed_examples():
    text, lines = of_printed_lines("decimals")
    below = 1 - 10_000 * value(records.printed(lines[79]).upper)
    words = "below 1/10,000 by less than three parts in ten thousand million"
    checks.check(words in text and 0 < below < Fraction(3, 10**10), "examples", f"decimals: {words}")
    _, lines = of_printed_lines("refused-object")
    # 'all its numbers are those of the read before the refusal'
    same("examples", "refused-object, the refusal", lines[62].split()[1:], lines[32].split()[1:])
    text, _ = of_printed_lines(COUNTED)
    begun = encounters_of((EXAMPLES / f"{COUNTED}.script").read_bytes())
    terms = []
    for n, over, under in re.findall(r"c\((\d)\) = (\d+)/(\d+)", text):
        terms += [[]] if n == "0" else []
        terms[-1].append(Fraction(int(over), int(under)))
    due = [exact_series.by_definition(encounter, len(of_one)) for encounter, of_one in zip(begun, terms)]
    same("examples", f"{COUNTED}, the terms", terms, due)
    same("examples", f"{COUNTED}, the encounters", len(terms), len(begun))
    counts = [session.exact for session in map(orders.begun, DOCUMENTS.values()) if session]
    words = f"of the {len(counts)} of document 000, Table 3, that are not refused, {counts.count(0)} have no exact term"
    checks.check(words in text, "examples", f"{COUNTED}: {words}")
    words = f"Of the {len(counts)} encounters of document 000, Table 3, that are not refused, {counts.count(0)} have 0."
    checks.check(words in README, "README", words)
    text, lines = of_printed_lines("shift")
    script = (EXAMPLES / "shift.script").read_bytes()
    same("examples", "shift, the bytes", blocks(text)[0][0].split(), script[:29].hex(" ").split())
    hours = re.findall(r"minute (\d+) is (\d\d):(\d\d)", text)
    found = [(int(minute), 60 * int(hour) + int(rest)) for minute, hour, rest in hours]
    times = {answer.time for answer in map(records.printed, lines.values()) if answer.object}
    same("examples", "shift, the hours", sorted(found), sorted((time, time) for time in times))
    # 'the last read of each encounter is at its advised order'
    last = []
    for line in lines.values():
        _, word, N, *_ = line.split()
        last = [*last, 0] if word == "begun" else [*last[:-1], int(N)]
    same("examples", "shift, the last reads", last, list(map(orders.advised, encounters_of(script))))
    of_advised_order()
    of_equal_weights()
    of_plot_records()
    of_largest_order()


def of_largest_order():
    """What examples/largest-order.md says of its three encounters."""
    text, lines = (EXAMPLES / "largest-order.md").read_text(), listed("largest-order")
    begun = encounters_of((EXAMPLES / "largest-order.script").read_bytes())
    at, above, smaller = (2 * orders.exact_M(encounter) for encounter in begun)
    lower, later = (value(records.printed(lines[offset]).lower) for offset in (36, 102))
    for words, holds in (
        ("so 2M = 8² × (1 + 30.0625/2) = 1,026", at == 64 * (1 + Fraction("30.0625") / 2) == LARGEST_2M),
        ("as 2M is above 1,025; at 1,024 it is accepted", orders.least(begun[0]) == LARGEST_N),
        ("the line ends with `alert 9.926e-01 1.000e-00 40115 120 2`", lines[36].endswith(text.split("`")[1])),
        ("a probability of at least 0.9926", Fraction("0.9926") <= lower),
        ("the radius is 8.42 of them, and 2M is about 1,252", (f"{16000 / 1900:.2f}", round(above)) == ("8.42", 1252)),
        ("2M is about 958.6", f"{float(smaller):.1f}" == "958.6"),
        ("from 957 terms on a read is: at least 0.9357 for 140 m", Fraction("0.9357") <= later),
        ("from 957 terms on", orders.least(begun[2]) == 957),
    ):
        same("examples", f"largest-order: {words}", (words in text, holds), (True, True))
    # 'The encounter before stays: the read at byte 69 is that of object 40115'
    same("examples", "largest-order, the refusal", lines[69].split()[1:], lines[36].split()[1:])


def of_equal_weights():
    """What examples/equal-weights.md says of the first solution's ends and their thirds, and of the mean."""
    text, lines = of_printed_lines("equal-weights")
    reads = [records.printed(line) for line in lines.values() if line.split()[1] == "read"]
    ends = [scaled.Scaled(*end) for end in (reads[0].lower, reads[0].upper)]
    thirds = [division.divided(up, end, 3).quotient for up, end in zip((False, True), ends)]
    said = [scaled.Scaled(int(m), int(e)) for m, e in re.findall(r"(\d+) × 2\^(-\d+)", text)]
    same("examples", "equal-weights, the thirds", said, [ends[0], thirds[0], ends[1], thirds[1]])
    exact = [scaled.value(third) == scaled.value(end) / 3 for third, end in zip(thirds, ends)]
    same("examples", "equal-weights: no number of 32 bits is a third", exact, [False, False])
    mean = sum(value(read.upper) for read in reads) / 3
    alerts = [read.class_name for read in reads].count("alert")
    words = "It is below 1/10,000, although one solution alone is an alert."
    same("examples", f"equal-weights: {words}", (words in text, mean < Fraction(1, 10_000), alerts), (True, True, 1))
    limits = "an e from −1,000,000,000 to 2,147,483,647 and every divisor from 1 to 4,294,967,295"
    due = f"an e from −{-division.LOWEST:,} to {edges.HIGH:,} and every divisor from 1 to {edges.MOST_32:,}"
    same("examples", "equal-weights, the limits", (limits, limits in text), (due, True))


def of_plot_records():
    """What examples/plot-records.md says of its encounters and their records. readme.py has what the program prints."""
    text, lines = of_printed_lines("plot-records")
    read = {offset: records.printed(line) for offset, line in lines.items()}
    ends = {offset: (value(of.lower), value(of.upper)) for offset, of in read.items() if of.lower != scaled.ZERO}
    answers = {offset: doubles.record_of(read[offset]).record for offset in ends}
    stored = {offset: record for offset, record in answers.items() if record}
    apart = {offset: upper - lower for offset, (lower, upper) in ends.items()}
    lost = {offset: apart[offset] - record.difference for offset, record in stored.items()}
    is_sure = all(apart[n] <= Fraction(math.nextafter(float(stored[n].difference), math.inf)) for n in stored)
    first, at_first, always = encounters_of((EXAMPLES / "plot-records.script").read_bytes())
    begun_early = first, read[32].refusal
    as_listed = "the lower end as {} × 2^{} and the upper end as {} × 2^{}".format(*read[36].lower, *read[36].upper)
    said = [int(N) for N in re.findall(r"With (\d+) terms", text)]
    same("examples", "plot-records, the orders", said, [read[offset].N for offset in (29, 66, 70)])
    [digits] = re.findall(r"`(\d\.\d+e-\d\d)` has the lower end itself", text) or ["0"]
    same("examples", "plot-records, the digits", Fraction(float(digits)), ends[77][0])
    inputs = "R = {} m, σx = {} m, σy = {} m, a miss of {} m and {} m".format(*(n // 100 for n in at_first))
    least, last = orders.least(always), orders.at_order(always, read[110].N)
    # The bound of the terms left out is at most 2^-31 of the lower sum: without it too the upper end is above 1.
    is_above_by_rounding = brackets.is_close(last) and ends[110][1] > 1 + scaled.power(-30)
    # An upper end that is exactly 1.
    at_1 = doubles.of_read(read[36]._replace(upper=scaled.ONE))
    is_apart = [record is not None for record in answers.values()] == [upper < 1 for _, upper in ends.values()]
    for words, holds in (
        ("Where the upper end is 1 or more, the answer is `unbounded`, with the lower end alone", at_1.upper is None),
        ("both ends are answered where the upper end is below 1, the lower end alone where it is 1 or more", is_apart),
        ("Test 1 of document 000, Table 3. With 20 terms the read is refused as 23", begun_early == (TEST_1, 23)),
        (as_listed, 36 in stored),
        (f"{inputs}. M is", not any(n % 100 for n in at_first)),
        ("The upper end is about 7.0 × 10^20", f"{float(ends[69][1]):.1e}" == "7.0e+20"),
        ("so the answer is unbounded and no record is stored", 69 not in stored),
        ("The upper end is below 1, so there is a record", 73 in stored),
        ("the difference is almost as large as the upper end", 1 - apart[73] / ends[73][1] < Fraction(1, 10**6)),
        ("less than three ten-millionths of the value", apart[77] < Fraction(3, 10**7) * ends[77][0]),
        ("R = 160 m, σx = σy = 20 m, and no miss", always == (16000, 2000, 2000, 0, 0)),
        ("here the rounding alone leaves the upper end above 1", is_above_by_rounding),
        (f"It is above 1 at each order from {least}, the first that is read, to {LARGEST_N:,}", is_above_1(always)),
        ("its probability is at least 0.9999998", Fraction("0.9999998") <= ends[110][0]),
        ("the most likely collision of the three", max(ends[36][1], ends[77][1]) < ends[110][0]),
        ("the decimal number of these digits is a little above it", Fraction(digits) > ends[77][0]),
        ("exact in the records at 36 and 77, and not in the one at 73", list(map(bool, lost.values())) == [0, 1, 0]),
        ("the exact difference is above the double, by 2^-55", lost[73] == scaled.power(-55)),
        ("the next double above the difference: no exact difference is above that one", is_sure),
    ):
        same("examples", f"plot-records: {words}", (words in text, holds), (True, True))
    same("examples", "plot-records, the records", list(stored), [36, 73, 77])
    # Of the shift, whose begins have an object number or none.
    shift = list(records.records((EXAMPLES / "shift.script").read_bytes()))
    begun = [(*record.inputs, 0)[5] for record in shift if record.encounter]
    kind = [kind for kind, of in records.KINDS.items() if of.call == "begin"]
    reads = [answer.object for answer in map(records.printed, listed("shift").values()) if answer.lower != scaled.ZERO]
    again = {"has two encounters": begun, "is read twice": [n for n in reads if begun.count(n) == 1]}
    for words, objects in again.items():
        said = [int(n) for n in re.findall(rf"Object (\d+) {words}", text)]
        same("examples", f"plot-records: {words}", said, [n for n in dict.fromkeys(objects) if objects.count(n) == 2])
    words = "The last encounter was begun by a record of kind {}, without an object, so its number is {}."
    checks.check(words.format(*kind, begun[-1]) in text, "examples", f"plot-records: {words}")


def is_above_1(encounter):
    """Whether the upper end is above 1 at every order that is read."""
    session = orders.at_order(encounter, orders.least(encounter))
    while session.N < LARGEST_N and value(session.read().upper) > 1:
        session.add(1)
    return value(session.read().upper) > 1


def of_advised_order():
    """What examples/advised-order.md says beyond its table and its lines."""
    text, lines = of_printed_lines("advised-order")
    early, late = (records.printed(lines[offset]) for offset in (29, 33))
    apart = [(value(read.upper) - value(read.lower)) / value(read.lower) for read in (early, late)]
    words = "differ by more than a hundredth of the value", "differ by less than two ten-millionths of the value"
    holds = apart[0] > Fraction(1, 100), apart[1] < Fraction(2, 10**7)
    same("examples", f"advised-order: {words}", ([said in text for said in words], holds), ([True] * 2, (True, True)))
    for said, M in re.findall(r"M is (\d+\.\d+), which is taken up to (\d+)", text):
        same("examples", f"advised-order: {said} taken up", math.ceil(Fraction(said)), int(M))
    begun = [encounter for encounter in DOCUMENTS.values() if orders.begun(encounter)]
    least = list(map(orders.advised, begun)).count(min(advice.ORDERS))
    words = f"Of the {len(begun)} encounters of document 000, Table 3, that are not refused, {least} have this order."
    checks.check(words in text, "examples", f"advised-order: {words}")
    M = value(orders.begun(ALFANO_3).M)
    words = f"It can be read all the same, from {orders.least(ALFANO_3)} terms on."
    checks.check(words in text, "examples", f"advised-order: {words}")
    words = f"README.md has 3M + 13 terms for such an encounter, which is {math.ceil(3 * M + 13)} here"
    checks.check(words in text, "examples", f"advised-order: {words}")
    wide = (1 + Fraction(1, 1 << 31)) ** (18 * late.N + 2600) - 1
    words = f"At N = {late.N} that is less than 1.8 millionths above the lower end."
    holds = Fraction("1.7") < wide * 10**6 < Fraction("1.8")
    same("examples", f"advised-order: {words}", (words in text, holds), (True, True))


def classes(encounter):
    """The orders at which the class is another than before, each with the class, or the refusal's number."""
    session, found = orders.begun(encounter), []
    while True:
        answer = session.read()
        said = answer.refusal or answer.class_name
        if not found or found[-1][1] != said:
            found.append((session.N, said))
        if session.N == LARGEST_N:
            return found
        session.add(1)


def of_classes():
    """What README and examples/open-class.md say of the class at every order."""
    inputs = ", ".join(map(str, CLEAR_THEN_OPEN))
    found = classes(CLEAR_THEN_OPEN), orders.advised(CLEAR_THEN_OPEN)
    same("README", "clear, then open", found, ([(1, "open"), (3, "clear"), (11, "open")], 13))
    for path, words in (
        ("README.md", "whose advised order is 13"),
        ("examples/advised-order.md", "which is advised 13"),
        ("examples/open-class.md", "which is advised 13"),
    ):
        said = f"({inputs}), {words}, is clear from N = 3 to 10 and open from 11 on"
        checks.check(said in (ROOT / path).read_text(), "README", f"{path}: {said}")
    script = (EXAMPLES / "open-class.script").read_bytes()
    begun = encounters_of(script)
    due = [[(1, "open"), (2, "alert")], [(1, 23), (2, "open"), (5, "clear")], [(1, "open")]]
    same("examples", "open-class, classes", list(map(classes, begun)), due)
    # In ten-thousandths, three decimals outward: which encounter, its order, its end, and the text around.
    text = (EXAMPLES / "open-class.md").read_text()
    for which, N, end, around in (
        (0, 1, "lower", "At N = 1 the ends are {} and"),
        (0, 1, "upper", "and {} ten-thousandths: open"),
        (0, 2, "lower", "lifts the lower end to {} ten-thousandths"),
        (0, 17, "lower", "it is from {} to"),
        (0, 17, "upper", "to {} ten-thousandths"),
        (1, 5, "upper", "At N = 5 the upper end is {} ten-thousandths: clear"),
        (1, 2, "upper", "the upper end was {} ten-thousandths"),
    ):
        thousandths = 10**7 * value(getattr(orders.at_order(begun[which], N).read(), end))
        whole = math.floor(thousandths) if end == "lower" else math.ceil(thousandths)
        said = around.format(f"{whole // 1000}.{whole % 1000:03}")
        checks.check(said in text, "examples", f"open-class: {said}")


def of_lower_ends():
    """'More terms never lower the lower end.'"""
    for encounter in [*DOCUMENTS.values(), *EDGES.values(), SMALL, THIN]:
        session, before = orders.begun(encounter), 0
        for _ in range(150 if session else 0):
            # The divisor of every lower end is the same, so the sums tell.
            lower = value(session.lower.sum)
            checks.check(before <= lower, "lower sums", f"{encounter} at {session.N}")
            before = lower
            session.add(1)


def ends(listing, N):
    """Both ends of the read at order N."""
    answer = next(a for a in map(records.printed, listing.splitlines()) if a.N == N and a.lower != scaled.ZERO)
    return answer.lower, answer.upper


# The documents.

TITLES = {
    "000": "Rounding Error Analysis of an Orbital Collision Probability Evaluation Algorithm",
    "001": "A Power Series Expansion based Method to compute the Probability of Collision for Short-term Space"
    " Encounters",
    "003": "talk on document 000",
    "01": "Short-encounter collision probability, bracketed",
    "02": "More changes customers want",
}
# Document 01 says that they are unused.
UNUSED = {"002", "004"}


def of_titles(path, text):
    """Each document that a text cites by its number has its title there."""
    cited = set()
    for numbers in re.findall(r"\b[Dd]ocuments? (\d+(?:(?:,| and|, and) \d+)*)", text):
        cited |= set(re.findall(r"\d+", numbers))
    for number in sorted(cited - UNUSED):
        checks.check(number in TITLES and TITLES[number] in text, "titles", f"{path} cites document {number}")
    checks.check(bool(cited), "titles", f"{path} cites no document")


# The files that the documents name.

CRATES = "|".join(path.name for path in (ROOT / "crates").iterdir())
# A file of a crate, and the names before it in the text: '`name`, `name` (crate/specs/File.antt)'.
FILE = rf"\b(?:crates/)?((?:{CRATES})/(?:src|specs|proofs)/[\w/-]+\.(?:antt|rt))"
NAMED = rf"((?:`[^`|]+`, )*`[^`|]+`) \({FILE}\)"
EDIT = rf"(?<![\w/])((?:{CRATES})/(?!src|specs|proofs|stdin|stdout)[A-Za-z]\w*)\b(?![/.\w])"


def of_files(path):
    """Each file of a crate that a text names is there, and has the names that the text says it has."""
    text = (ROOT / path).read_text()
    files = set(re.findall(FILE, text))
    checks.check(len(files) > 10, "files", f"{path} names only {sorted(files)}")
    for file in sorted(files):
        checks.check((ROOT / "crates" / file).is_file(), "files", f"{path} names {file}")
    for names, file in re.findall(NAMED, text):
        code = (ROOT / "crates" / file).read_text() if (ROOT / "crates" / file).is_file() else ""
        for name in re.findall(r"`([^`]+)`", names):
            word = name.split()[0].rsplit("::", 1)[-1]
            checks.check(word in code, "files", f"{path} has {name} in {file}")


def of_edits():
    """Each must-fail edit that docs/READING.md names is there."""
    named = set(found_in("docs/READING.md", EDIT))
    there = {f"{path.parts[-3]}/{path.stem}" for path in (ROOT / "crates").glob("*/must-fail/*.edit")}
    checks.check(len(named) > 50, "files", f"docs/READING.md names only {len(named)} edits")
    same("files", "the edits that docs/READING.md names and that are not there", sorted(named - there), [])


def main():
    options.parser("Holds texts to document 01 and to the listings.").parse_args()
    of_refusals()
    of_refused_calls()
    of_named_refusals()
    of_bindings()
    of_decimals()
    of_examples()
    of_printed_examples()
    of_readme()
    of_lower_ends()
    for path in "docs/READING.md", "docs/DECISIONS.md":
        of_titles(path, (ROOT / path).read_text())
    for path in "docs/READING.md", "docs/DECISIONS.md", "docs/TRUST.md":
        of_files(path)
    of_edits()
    checks.end()


if __name__ == "__main__":
    main()
