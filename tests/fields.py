"""Every number of an answer, of a session, of its advice and of its ends as doubles, with its name."""

import doubles

SIDE = ["u", "h", "X", "Y", "t", "exponential", "c", "p", "v", "y", "sum"]
INPUTS = ["R", "sx", "sy", "xm", "ym"]
# The number of a class is its index.
CLASSES = ("clear", "alert", "open")


def scaled_fields(names):
    return [(f"{name}.{part}", part == "e") for name in names for part in "me"]


# Each number's name, and whether it is signed.
ANSWER = [
    ("answer.refusal", False),
    ("answer.N", False),
    *scaled_fields(["answer.lower", "answer.upper"]),
    ("answer.class", False),
    ("answer.object", False),
    ("answer.time", False),
    ("answer.exact", False),
]
SESSION = [
    *[(name, name.endswith("m")) for name in INPUTS],
    ("object", False),
    ("time", False),
    ("N", False),
    *scaled_fields(f"{side}.{name}" for side in ("lower", "upper") for name in SIDE),
    *scaled_fields(["r256", "M", "d"]),
    ("exact", False),
    ("lossless", False),
]
ADVICE = [("advice.refusal", False), ("advice.has_order", False), ("advice.order", False)]
# The ends as doubles and the record. Of a double its bits.
HOST = ["doubles.refusal", "doubles.tag", "doubles.lower", "doubles.upper"]
HOST += ["plotted.refusal", "plotted.tag", "record.object", "record.lower", "record.upper", "record.difference"]
# The tags.
REFUSED, UNBOUNDED, BOTH = range(3)
# In lines a double is two words.
OF_DOUBLES = ("lower", "upper", "difference")
WORDS_OF = {name: (".high", ".low") if name.endswith(OF_DOUBLES) else ("",) for name in HOST}
IN_WORDS = [(f"{name}{word}", False) for name in HOST for word in WORDS_OF[name]]
FIELDS = ANSWER + SESSION + ADVICE + IN_WORDS


def side_numbers(side):
    return [number for name in SIDE for number in getattr(side, name)[:2]]


def answer_numbers(answer):
    class_ = CLASSES.index(answer.class_name)
    of_object = answer.object, answer.time
    return [answer.refusal, answer.N, *answer.lower, *answer.upper, class_, *of_object, answer.exact]


def session_numbers(session):
    return [
        *(getattr(session, name) for name in INPUTS),
        session.object,
        session.time,
        session.N,
        *side_numbers(session.lower),
        *side_numbers(session.upper),
        *(*session.r256[:2], *session.M[:2], *session.d[:2]),
        session.exact,
        session.lossless,
    ]


def advice_numbers(advice):
    """The refusal, 1 where there is an order and else 0, and the order, or 0."""
    return [advice.refusal, int(advice.order is not None), advice.order or 0]


def tag_of(answer, last):
    """The tag, where this is the last part of the answer, or None."""
    return REFUSED if answer.refusal else UNBOUNDED if last is None else BOTH


def host_numbers(ends, plotted):
    """Both answers in doubles; 0 where an end or the record is not there."""
    found = [doubles.bits(end) if end is not None else 0 for end in (ends.lower, ends.upper)]
    number, *of_record = plotted.record or (0, 0, 0, 0)
    first = [ends.refusal, tag_of(ends, ends.upper), *found]
    return [*first, plotted.refusal, tag_of(plotted, plotted.record), number, *map(doubles.bits, of_record)]


def host_words(ends, plotted):
    """The same in words."""
    for name, number in zip(HOST, host_numbers(ends, plotted), strict=True):
        yield from divmod(number, 1 << 32) if len(WORDS_OF[name]) == 2 else [number]
