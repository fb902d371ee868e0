"""Fractions, encounters, orders and scripts with the answer that documents 01 and 02 give, decimals of numbers, and
scripts with what is left of them without their empty adds.
"""

from encounters import (
    ALFANO_3,
    ALFANO_5,
    AT_64,
    FIVE,
    FULL,
    HALF,
    LARGE,
    LATEST,
    LOST_B,
    LOST_P,
    PAST_FULL,
    TEST_1,
    THIN,
    THIRDS,
)
from records import KINDS, MOST_COUNT, READ, add, begin, begin_conjunction
from reference import LARGEST, LARGEST_N, LONGEST_SCRIPT
from scaled import LEAST, LIMIT, ONE, ZERO, Scaled

# n, d, D(n/d) and U(n/d).
RATIOS = (
    (1, 3, Scaled(2_863_311_530, -33), Scaled(2_863_311_531, -33)),
    (1, 48, Scaled(2_863_311_530, -37), Scaled(2_863_311_531, -37)),
    ((1 << 40) + 1, 1 << 40, ONE, Scaled(LEAST + 1, -31)),
    (0, 1, ZERO, ZERO),
)

# The tests of a begin of kind 1, in their order; kind 4 has 9 after them.
BEGIN_TESTS = (3, 4, 5, 6, 7, 11)
# A call and what it may answer: 0, or a refusal.
ANSWERS = {
    *(("begin", answer) for answer in (0, *BEGIN_TESTS)),
    *(("begin_conjunction", answer) for answer in (0, *BEGIN_TESTS, 9)),
    *(("add", answer) for answer in (0, 12, 21, 22)),
    *(("read", answer) for answer in (0, 21, 23)),
    *(("advise", answer) for answer in (0, 21)),
    # Request #108: "refuses as a read does".
    *(("read_doubles", answer) for answer in (0, 21, 23)),
    *(("read_plot_record", answer) for answer in (0, 21, 23)),
}
# The same of request #111: "A bracket enters the week only through a read of a session". No record asks for it.
ENTRIES = {("enter", answer) for answer in (0, 13, 21, 23, 24)}

PAST = LARGEST + 1
MOST_32 = (1 << 32) - 1
LOW, HIGH = -(1 << 31), (1 << 31) - 1

# Request #103: m, e, and the decimals of m × 2^e as a lower and as an upper end.
DECIMALS = (
    # (10, 10, 10, 0, 0) at N = 3 has these two ends.
    (3364829335, -33, "3.917e-01", "3.918e-01"),
    (3391965302, -33, "3.948e-01", "3.949e-01"),
    # Around 1, and far above it. U(1,000 − 1,000 × 2^-32) is 1,000, so there k is 3.
    (LIMIT - 3, -32, "9.999e-01", "1.000e-00"),
    (LIMIT - 2, -32, "9.999e-01", "1.000e-00"),
    (LIMIT - 1, -32, "9.999e-01", "1.001e-00"),
    (*ONE, "1.000e-00", "1.000e-00"),
    (LEAST + 1, -31, "1.000e-00", "1.000e-00"),
    (LEAST, -30, "1.000e-00", "1.000e-00"),
    (3604241660, 801, "1.000e-00", "1.000e-00"),
    (LIMIT - 1, HIGH, "1.000e-00", "1.000e-00"),
    # The product is whole.
    (LEAST, -32, "5.000e-01", "5.001e-01"),
    (LEAST, -34, "1.250e-01", "1.251e-01"),
    # U(1/10) and D(1/10), for which U of the product with 10^4 is 1,000 too, and the number below.
    (3435973837, -35, "1.000e-01", "1.001e-01"),
    (3435973836, -35, "9.999e-02", "1.001e-01"),
    (3435973835, -35, "9.999e-02", "1.000e-01"),
    # The lower whole part is 10,000. There are no others.
    (3961408126, -95, "9.999e-20", "1.001e-19"),
    (2535301201, -101, "9.999e-22", "1.001e-21"),
    (4153837488, -115, "9.999e-26", "1.001e-25"),
    (2854495386, -151, "9.999e-37", "1.001e-36"),
    (3653754094, -158, "9.999e-39", "1.001e-38"),
    (3741444192, -168, "9.999e-42", "1.001e-41"),
    # The upper whole part is 10,000, so the upper digits are 10,001; then the number below, where they are 10,000.
    (2199023255, -41, "9.999e-04", "1.001e-03"),
    (2199023254, -41, "9.999e-04", "1.000e-03"),
    (3689348813, -65, "9.999e-11", "1.001e-10"),
    (3689348812, -65, "9.999e-11", "1.000e-10"),
    (3653754091, -158, "9.999e-39", "1.001e-38"),
    (3653754090, -158, "9.999e-39", "1.000e-38"),
    (2338402619, -164, "9.999e-41", "1.001e-40"),
    # The least end that an encounter below has.
    (3381150765, -168, "9.037e-42", "9.038e-42"),
    # Around 10^-43, where the table ends.
    (2394524284, -174, "1.000e-43", "1.001e-43"),
    (2394524283, -174, "0.000e-00", "1.001e-43"),
    (2394524282, -174, "0.000e-00", "1.001e-43"),
    (2394524281, -174, "0.000e-00", "1.000e-43"),
    (LEAST, -174, "0.000e-00", "1.000e-43"),
    (LEAST, -(1 << 20), "0.000e-00", "1.000e-43"),
    (LEAST, LOW, "0.000e-00", "1.000e-43"),
    (*ZERO, "0.000e-00", "0.000e-00"),
    # Not in the scaled form.
    (0, -1, "0.000e-00", "0.000e-00"),
    (0, 1, "0.000e-00", "0.000e-00"),
    (0, LOW, "0.000e-00", "0.000e-00"),
    (0, HIGH, "0.000e-00", "0.000e-00"),
    (1, 0, "1.000e-00", "1.000e-00"),
    (1, HIGH, "1.000e-00", "1.000e-00"),
    (1, -1, "5.000e-01", "5.001e-01"),
    (3, -2, "7.500e-01", "7.501e-01"),
    (LEAST - 1, -31, "9.999e-01", "1.000e-00"),
    (LEAST - 1, -32, "4.999e-01", "5.000e-01"),
    (1, -142, "1.793e-43", "1.794e-43"),
    (1, -143, "0.000e-00", "1.000e-43"),
    (1, LOW, "0.000e-00", "1.000e-43"),
)
# As a lower end (false) or an upper one: m and e of a number whose decimal is off by more than one in the last digit.
MORE_THAN_ONE = (
    (False, 3961408126, -95),
    (False, 4153837488, -115),
    # The whole part is 9,033, and the exact product is above 9,034.
    (False, 2345360492, -111),
    (True, LIMIT - 1, -32),
    (True, 3689348813, -65),
    # The whole part is 9,980, and the exact product is below it.
    (True, 2173451533, -134),
)

# Request #109: an encounter with M at 513 or next to it; on which side of 513 its exact M is (-1 below, 0 at it, 1
# above); how many scaled numbers its upper M is above 513; the same of M by the lower side's steps; the refusal of its
# begin, or 0.
AT_TEST_11 = (
    (LATEST, 0, 0, 0, 0),
    ((32, 4, 4, 16, 15), 0, 0, 0, 0),
    ((36, 6, 4, -39, 8), 0, 1, -1, 11),
    # t is 64.
    ((611968, 112627, 76496, 901016, 0), -1, -1, -3, 0),
    ((329688, 60676, 41211, -485408, 0), -1, 0, -2, 0),
    ((706784, 130077, 88348, 1040616, 0), -1, 1, -1, 11),
    ((377096, 69401, 47137, 555208, 0), 1, 1, 0, 11),
    # ym is not 0.
    ((1613506, 192707, 192706, 369225, -936148), -1, -1, -3, 0),
    ((851295, 155194, 155194, 403884, 1196349), -1, 0, -2, 0),
    ((2900875, 317982, 317982, -12932, 1513489), -1, 1, -1, 11),
    ((1099106, 142084, 142083, 740928, -320814), 1, 1, -1, 11),
)
# Each encounter with the refusal of its begin, or 0.
BEGINS = (
    (3, (0, 1, 1, 0, 0)),
    (3, (PAST, 1, 1, 0, 0)),
    (3, (PAST, LARGEST, LARGEST, 0, 0)),
    (3, (1 << 31, 1, 1, 0, 0)),
    (3, (MOST_32, 0, 0, LOW, HIGH)),
    (3, (0, 0, 1, PAST, PAST)),
    (4, (1, 0, 1, 0, 0)),
    (4, (1, 1, 0, 0, 0)),
    (4, (1, 1, 0, PAST, PAST)),
    (4, (1, PAST, 1, 0, 0)),
    (4, (1, PAST, PAST, LOW, 0)),
    (4, (1, 1, PAST, PAST, PAST)),
    (4, (1, 1, MOST_32, 0, 0)),
    (4, (LARGEST, 0, PAST, PAST, 0)),
    (5, (7, 7, 8, 0, 0)),
    (5, (1, 1, 2, PAST, PAST)),
    (5, (1, LARGEST - 1, LARGEST, PAST, PAST)),
    (6, (1, 1, 1, PAST, 0)),
    (6, (1, 1, 1, -PAST, 0)),
    (6, (1, 1, 1, 0, PAST)),
    (6, (1, 1, 1, 0, -PAST)),
    (6, (LARGEST, 1, 1, LOW, HIGH)),
    (6, (1, LARGEST, 1, HIGH, LOW)),
    # M is 1,072, so test 11 would refuse it too.
    (7, PAST_FULL),
    (7, ALFANO_5),
    (7, (LARGEST, 1, 1, 0, 0)),
    (7, (LARGEST, 1, 1, LARGEST, -LARGEST)),
    (7, (1, LARGEST, 1, 0, LARGEST)),
    (7, (12, 1, 1, 0, 0)),
    (7, (8, 1, 1, -8, -1)),
    # Exact t is 64, but its three parts are rounded up.
    (7, (32, 3, 3, 8, 8)),
    (7, (8, 3, 3, -32, 8)),
    # M is 1,056.
    (11, FULL),
    (11, FULL._replace(xm=-8)),
    (11, (8, 1, 1, 0, -8)),
    # M is 1,072.3. Where t is at most 64, M is at most u(1.5 + t - u), so none is above 1,072.57.
    (11, (8093, LARGEST, 1000, 0, 7905)),
    # t is 64, and M is 513.1, then 512.1.
    (11, (288, 53, 36, 424, 0)),
    (0, AT_64),
    *((refusal, inputs) for inputs, *_, refusal in AT_TEST_11),
    (0, HALF),
    (0, (7, 7, 7, 0, 0)),
    (0, (11, 1, 1, 0, 0)),
    (0, LARGE),
    (0, (1, LARGEST, 1, LARGEST, 0)),
    (0, (LARGEST, LARGEST, LARGEST, 0, 0)),
    (0, (1, LARGEST, 1, 0, 0)),
    (0, THIN),
)
# A begin that each of these tests refuses, in their order.
REFUSED = [next(inputs for r, inputs in BEGINS if r == refusal) for refusal in BEGIN_TESTS]

# Request #104: object numbers and times, up to the largest ones. The two are never the same number, so that it is seen
# where they are exchanged.
OBJECTS = (
    (25544, 1440),
    (1, 0),
    (2, MOST_32),
    (MOST_32, 3),
    (1 << 31, HIGH),
    (0x01020304, 0x0A0B0C0D),
    (1 << 24, 256),
    (0, 1440),
    (0, MOST_32),
)


def conjunctions():
    """Begins of kind 4, each with its refusal, or 0: those above, with an object number and with 0.

    "It refuses, as 9 after test 7, a kind 4 record whose object number is 0": only one that no earlier test refuses,
    11 among them, which is "after test 7 and before 9".
    """
    for refusal, inputs in BEGINS:
        for number, time in OBJECTS if inputs == HALF else (OBJECTS[0], OBJECTS[-1]):
            yield refusal or (9 if number == 0 else 0), (*inputs, number, time)


# A begin of kind 4 for each of these tests, with an object number and with 0, and one that is refused as 9.
REFUSED_CONJUNCTIONS = [(*inputs, *both) for inputs in REFUSED for both in (OBJECTS[0], OBJECTS[-1])]
REFUSED_CONJUNCTIONS += [(*HALF, *OBJECTS[-1])]

# The least order that is read.
LEAST_ORDERS = (
    ("(18, 4, 3, 36, 9)", LATEST, 1024),
    ("(152, 28, 19, 224, 0)", AT_64, 1023),
    ("Test 1", TEST_1, 36),
    ("Alfano 3", ALFANO_3, 597),
)


# Request #105: an encounter, an order, the count of exact terms there, and whether nothing is lost (1) or something is
# (0) on the way to the numbers that the next term is formed of.
EXACT_TERMS = (
    # "For (10, 10, 10, 0, 0) at N = 3 it is 2."
    (HALF, 1, 1, 1),
    (HALF, 2, 2, 1),
    (HALF, 3, 2, 0),
    (HALF, 4, 2, 0),
    (HALF, LARGEST_N, 2, 0),
    # c(0) is lost, and u is not.
    (THIRDS, 1, 0, 0),
    (THIRDS, 2, 0, 0),
    # u is lost, and c(0) is not.
    ((6, 16, 9, 0, 0), 1, 1, 0),
    ((6, 16, 9, 0, 0), 2, 1, 0),
    # b is lost, and zx is 0: u, g, h, c(0) and p(0) are not, and X is 0.
    (LOST_B, 1, 1, 0),
    (LOST_B, 2, 1, 0),
    # Of what c(1) is formed of X is lost, or Y, or h, and nothing else.
    ((84, 1344, 672, 3, 84), 1, 1, 0),
    ((33984, 362496, 11328, 33984, 1), 1, 1, 0),
    ((756, 8064, 384, 0, 3), 1, 1, 0),
    # p(0) is lost, and nothing else that c(1) is formed of.
    ((257, 256, 256, 0, 0), 1, 1, 0),
    ((257, 256, 256, 0, 0), 2, 1, 0),
    # p(1) is lost, and c(1) is not.
    (LOST_P, 1, 1, 1),
    (LOST_P, 2, 2, 0),
    (LOST_P, 3, 2, 0),
    (LOST_P, LARGEST_N, 2, 0),
    # v(4) and y(4) are lost, and p(4) and c(4) are not.
    ((12, 16, 8, 16, 8), 5, 5, 0),
    ((12, 16, 8, 16, 8), 6, 5, 0),
    # Four and five exact terms. No encounter with more is known.
    ((3, 1, 1, 0, 0), 3, 3, 1),
    ((3, 1, 1, 0, 0), 4, 4, 1),
    ((3, 1, 1, 0, 0), 5, 4, 0),
    (FIVE, 1, 1, 1),
    (FIVE, 2, 2, 1),
    (FIVE, 3, 3, 1),
    (FIVE, 4, 4, 1),
    (FIVE, 5, 5, 0),
    (FIVE, 6, 5, 0),
    (FIVE, LARGEST_N, 5, 0),
    ((6, 1, 1, -4, 4), 4, 4, 1),
    ((6, 1, 1, -4, 4), 700, 5, 0),
)

# Request #106: a whole M, an encounter, on which side of M its exact M is (-1 below, 0 at it, 1 above), how many scaled
# numbers its upper M is above M, and the advised order, or None.
AT_WHOLE_M = (
    (1, (1, 1, 1, 1, 1), 0, 0, 13),
    (1, (1, 3, 1, -3, 1), 0, 1, 17),
    (1, (1, 28862, 1, 0, 1), -1, -1, 13),
    (1, (1, 123645, 1, 0, 1), -1, 0, 13),
    (1, (1, 56998, 1, -3873, 1), -1, 1, 17),
    (1, (4, 1208872, 4, 1665345, 4), 1, 1, 17),
    (2, (2, 1, 1, 0, 0), 0, 0, 17),
    (2, (2, 3, 3, 0, 12), 0, 1, 20),
    (2, (6564157, 4948910, 4948909, 6996699, 3665143), -1, -1, 17),
    (2, (432330, 1911701, 988767, -4017286, 6089675), -1, 0, 17),
    (2, (1639561, 1166237, 1166236, -1559788, 593422), -1, 1, 20),
    (2, (283170, 783468, 783467, 0, 6030164), 1, 1, 20),
    (255, (9558153, 1689123, 1689122, 4685260, 7951602), -1, -1, 706),
    (255, (2916957, 435509, 435508, 1502221, 1294787), -1, 0, 706),
    (255, (LARGEST, 1052416, 1052415, 2767802, 1623812), -1, 1, 708),
    (255, (6, 3, 1, -6, 5), 0, 1, 708),
    (256, (8, 2, 1, 14, 1), 0, 0, 708),
    (256, (144, 27, 18, 0, 66), 0, 1, None),
    (256, (693555, 2825903, 155642, -3816026, 1084668), -1, -1, 708),
    (256, (3998560, 1519673, 1128012, 9658572, 8500426), -1, 0, 708),
    (256, (2438800, 799685, 799684, 1971514, 8077254), -1, 1, None),
    (256, (8038301, 3610517, 884281, 3353258, 2711233), 1, 2, None),
)
# An encounter and the advised order for it, or None.
ADVISED = (
    # M is 1/2, and next to nothing.
    (HALF, 13),
    (THIN, 13),
    ((20, 10, 10, 0, 0), 17),
    # M is 18.7, 299.1 and 513.
    (TEST_1, 66),
    (ALFANO_3, None),
    (LATEST, None),
    *((inputs, order) for _, inputs, *_, order in AT_WHOLE_M),
)

# What the read of (10, 10, 10, 0, 0) at N = 3 prints between the order and the object number.
HALF_AT_3 = "3364829335 -33 3391965302 -33 alert 3.917e-01 3.949e-01"
# Request #103: encounters with an end at an edge of the decimals, the order, and what the read prints likewise.
AT_DECIMAL_EDGES = (
    (HALF, 3, HALF_AT_3),
    # The upper end is 1 − 2^-32, 1 − 2^-31, 1, the next one above 1, and far above it.
    ((4778498, 1167591, 1167591, 190612, 51940), 19, "4291938013 -32 4294967295 -32 alert 9.992e-01 1.001e-00"),
    ((7136390, 1648935, 1648935, 323971, 41207), 22, "4294020089 -32 4294967294 -32 alert 9.997e-01 1.000e-00"),
    ((7136391, 1648935, 1648935, 323971, 41207), 22, "4294020093 -32 2147483648 -31 alert 9.997e-01 1.000e-00"),
    ((2078237, 444957, 444957, 23685, 10260), 25, "4294578130 -32 2147483649 -31 alert 9.999e-01 1.000e-00"),
    (ALFANO_3, 597, "3449859490 -35 2640538691 133 alert 1.004e-01 1.000e-00"),
    # The upper digits are 10,000.
    ((18579, 95136, 18760, 0, 4640), 1, "3946895211 -36 3435896920 -35 alert 5.743e-02 1.000e-01"),
    # They are 10,001, with k = 7, 8, 10, 14 and 23.
    ((341483, 5435294, 3263578, 8302861, 763390), 1, "2177947170 -41 2199023255 -41 alert 9.904e-04 1.001e-03"),
    ((1241890, 5822809, 2710891, 8414864, 9077603), 1, "4002590475 -46 3518437208 -45 clear 5.688e-05 1.001e-04"),
    ((334841, 9432430, 1845876, 5688827, 7394630), 1, "3894166177 -52 2251799813 -51 clear 8.646e-07 1.001e-06"),
    ((14521, 5544676, 2035999, 8072551, 9278886), 1, "3688226503 -65 3689348813 -65 clear 9.996e-11 1.001e-10"),
    ((10, 6905616, 1118359, 3405943, 6684811), 1, "3961407763 -95 3961408123 -95 clear 9.999e-20 1.001e-19"),
    # The lower whole part is 10,000, with k = 23, 25, 29, 40, 42 and 45.
    ((632, 5506137, 1379156, 4053824, 9949895), 1, "3961408126 -95 3961419941 -95 clear 9.999e-20 1.001e-19"),
    ((915, 6506283, 1239134, 4525395, 9810138), 1, "2535301201 -101 2535324171 -101 clear 9.999e-22 1.001e-21"),
    ((713, 7456382, 1070052, 9443772, 9510901), 1, "4153837488 -115 4153875956 -115 clear 9.999e-26 1.001e-25"),
    ((1, 5830096, 918637, 7377828, 9376401), 1, "2854495386 -151 2854495823 -151 clear 9.999e-37 1.001e-36"),
    ((1, 6999104, 932692, 6177940, 9950421), 1, "3653754094 -158 3653754612 -158 clear 9.999e-39 1.001e-38"),
    ((1, 9448725, 885686, 9743762, 9975327), 1, "3741444192 -168 3741444777 -168 clear 9.999e-42 1.001e-41"),
    # t is less than 64 by about 10^-7, and the sigmas are as large as the misses then allow. No smaller end is known.
    ((1, LARGEST, 887356, 9999905, 9999995), 1, "3381150765 -168 3381151276 -168 clear 9.037e-42 9.038e-42"),
)

# Request #108: an encounter, an order, both ends, and how the subtraction of the doubles rounds (doubles.py has the
# words), or None where the upper end is 1 or more. No read has equal ends: the lower end is divided by the greater
# exponential, so every difference is above 0.
AS_DOUBLES = (
    # The upper end is 1 − 2^-32, 1, and the next one above 1: at an order where the tail bound is small, then by it.
    ((5877919, 10**6, 10**6, 0, 0), 70, (4294966829, -32), (LIMIT - 1, -32), "exact"),
    ((5877845, 10**6, 10**6, 0, 0), 70, (4294966829, -32), ONE, None),
    ((5878031, 10**6, 10**6, 0, 0), 70, (4294966835, -32), (LEAST + 1, -31), None),
    ((4778498, 1167591, 1167591, 190612, 51940), 19, (4291938013, -32), (LIMIT - 1, -32), "exact"),
    ((7136391, 1648935, 1648935, 323971, 41207), 22, (4294020093, -32), ONE, None),
    ((2078237, 444957, 444957, 23685, 10260), 25, (4294578130, -32), (LEAST + 1, -31), None),
    # It is far above 1, with M at 513 or just below: the first is about 6 × 10^113.
    ((32, 4, 4, 16, 15), LARGEST_N, (4263578795, -32), (2182407799, 347), None),
    (LATEST, LARGEST_N, (4121517097, -53), (3586985175, 322), None),
    (AT_64, LARGEST_N - 1, (2488688989, -39), (3065947822, 320), None),
    # It is below 1/2, above it, and above 1.
    (HALF, 1, (2605029163, -33), (3907544026, -33), "exact"),
    ((20, 10, 10, 0, 0), 2, (2325042318, -32), (3875070780, -32), "exact"),
    ((40, 10, 10, 0, 0), 14, (4219407956, -32), (2148470447, -31), None),
    # The smallest ends and the smallest difference that are known; and the least R with the largest sigmas.
    ((1, LARGEST, 887356, 9999905, 9999995), 1, (3381150765, -168), (3381151276, -168), "exact"),
    (THIN, 1, (3022314188, -79), (3022314551, -79), "exact"),
    # The upper e is higher by 1, 2, 11 and 21: then the difference has 53 bits at most.
    ((1, 38, 2, 0, 13), 4, (3716176110, -68), (2469234515, -67), "exact"),
    ((43932, 665630, 62584, 113480, 619913), 23, (4192510113, -103), (2174373262, -101), "exact"),
    ((51, 40, 40, 0, 350), 62, (4270355103, -78), (2310688428, -67), "exact"),
    ((37, 361, 30, 0, 333), 94, (4253442498, -112), (2669673631, -91), "exact"),
    # It is higher by 22 and more, and the last bits of the lower m are 0, or they are cut off.
    ((9, 5, 5, 0, 39), 100, (4212183972, -63), (2161445397, -40), "exact"),
    ((60, 43, 43, 0, 429), 97, (4197345331, -91), (2290804916, -69), "even below"),
    ((103815, 1194308, 68714, 1032197, 628803), 97, (3525292633, -84), (2193437226, -62), "even above"),
    ((34, 23, 23, 19, 220), 101, (3351235198, -85), (2397315817, -62), "even below"),
    ((15, 47, 10, 0, 95), 103, (4226602692, -86), (2289594750, -62), "even above"),
    ((66, 286, 39, 19, 322), 100, (4043893011, -71), (2231502867, -48), "down"),
    ((2, 20, 1, 1, 8), 132, (3980295324, -67), (2166779981, -33), "down"),
    ((61, 424, 48, 70, 533), 100, (4050750993, -111), (2486479387, -88), "up"),
    ((3, 33, 2, 19, 19), 103, (4094138409, -88), (2317352589, -64), "up"),
    # A subtraction that rounds to 64 bits first, as a long double may, gives another double.
    ((83, 190, 43, 0, 381), 153, (2252357637, -73), (2346495568, -37), "down"),
    ((61, 183, 37, 0, 396), 166, (3623399423, -99), (2760512484, -65), "up"),
    # The lower end is lost in the upper one, which is the difference.
    ((37, 231, 20, 0, 216), 203, (4287069084, -99), (2377322388, -40), "up"),
)


# Scripts, each with its name and its listing.

BEGIN_HALF, BEGIN_FULL, BEGIN_LATEST = begin(*HALF), begin(*FULL), begin(*LATEST)
# One of kind 4.
BEGIN_OBJECT = begin_conjunction(*HALF, *OBJECTS[0])
EMPTY_ADD = add(0)


def begins():
    """The begins above of both kinds, as records, each with its refusal, or 0."""
    yield from ((refusal, begin(*inputs)) for refusal, inputs in BEGINS)
    yield from ((refusal, begin_conjunction(*inputs)) for refusal, inputs in conjunctions())


def of_document():
    script = BEGIN_FULL + READ + add(4096) + b"\x09"
    # Request #109: "its begin line now shows the new number, and the read and the add each show 21."
    yield "the whole listing", script, "0 refused 11\n21 refused 21\n22 refused 21\n25 refused 1\n"
    yield "the largest add", BEGIN_HALF + add(LARGEST_N - 1), f"0 begun 1\n21 added {LARGEST_N}\n"
    yield "one more", BEGIN_HALF + add(LARGEST_N), "0 begun 1\n21 refused 22\n"


def of_refusals_1_and_2():
    for kind in range(256):
        if kind not in KINDS:
            yield f"kind {kind}", BEGIN_HALF + bytes([kind]) + READ, "0 begun 1\n21 refused 1\n"
    yield "kind 9 first", b"\x09" + BEGIN_HALF, "0 refused 1\n"
    kinds = ("begin", BEGIN_FULL), ("add", add(1)), ("add of 0", EMPTY_ADD), ("begin of kind 4", BEGIN_OBJECT)
    for name, record in kinds:
        for length in range(1, len(record)):
            script = BEGIN_HALF + record[:length]
            yield f"{name} with {length - 1} bytes", script, "0 begun 1\n21 refused 2\n"
            yield f"{name} with {length - 1} bytes first", record[:length], "0 refused 2\n"


def refused(offset, count, refusal):
    """The lines of refused records of one byte each."""
    return "".join(f"{n} refused {refusal}\n" for n in range(offset, offset + count))


def of_the_state():
    """Refusals 12 and 21 to 23, and the calls beside them."""
    for name, script, lines in (
        ("empty input", b"", ""),
        ("read first", READ, "0 refused 21\n"),
        # Request #110: "as 12 after test 2 and before 21".
        ("add 0 first", EMPTY_ADD + add(1), "0 refused 12\n3 refused 21\n"),
        ("add 0 after a refused begin", begin(*REFUSED[0]) + EMPTY_ADD, "0 refused 3\n21 refused 12\n"),
        ("the largest count first", add(MOST_COUNT), "0 refused 21\n"),
        ("after a refused begin", begin(*REFUSED[0]) + add(1) + READ, "0 refused 3\n21 refused 21\n24 refused 21\n"),
        ("going on after 21", READ + add(1) + BEGIN_HALF, "0 refused 21\n1 refused 21\n4 begun 1\n"),
        ("going on after 22", BEGIN_HALF + add(MOST_COUNT) + add(1), "0 begun 1\n21 refused 22\n24 added 2\n"),
        ("going on after 23", BEGIN_LATEST + 3 * READ + add(1), "0 begun 1\n" + refused(21, 3, 23) + "24 added 2\n"),
        ("going on after 12", BEGIN_HALF + EMPTY_ADD + add(2), "0 begun 1\n21 refused 12\n24 added 3\n"),
        ("256 is neither 0 nor 1", BEGIN_HALF + add(256), "0 begun 1\n21 added 257\n"),
        ("65280 is not 0", BEGIN_HALF + add(65280), "0 begun 1\n21 refused 22\n"),
        ("two's complement", begin(8, 1, 1, -8, -1), "0 refused 7\n"),
    ):
        yield name, script, lines
    largest = f"0 begun 1\n21 added {LARGEST_N}\n24 refused 22\n27 refused 12\n"
    yield "at the largest order", BEGIN_HALF + add(LARGEST_N - 1) + add(1) + EMPTY_ADD, largest
    lines = f"0 begun 1\n21 refused 12\n24 added 3\n27 refused 12\n30 read 3 {HALF_AT_3} 0 0 2\n"
    yield "add 0 changes nothing", BEGIN_HALF + EMPTY_ADD + add(2) + EMPTY_ADD + READ, lines


def of_lengths():
    """Up to the longest script, and past it."""
    for length in LONGEST_SCRIPT - 1, LONGEST_SCRIPT:
        yield f"{length} reads", READ * length, refused(0, length, 21)
        yield f"{length} bytes of kind 0", bytes(length), "0 refused 1\n"
    for record in BEGIN_HALF, BEGIN_OBJECT:
        at = LONGEST_SCRIPT - len(record)
        yield f"the last record has kind {record[0]}", READ * at + record, refused(0, at, 21) + f"{at} begun 1\n"
        script, lines = READ * (at + 1) + record[:-1], refused(0, at + 1, 21) + f"{at + 1} refused 2\n"
        yield f"the last body is short, kind {record[0]}", script, lines
    for length in LONGEST_SCRIPT + 1, LONGEST_SCRIPT + 2, 2 * LONGEST_SCRIPT, 1_000_000:
        yield f"{length} reads", READ * length, "0 refused 8\n"
    yield "kind 0, and too long", bytes(LONGEST_SCRIPT + 1), "0 refused 8\n"


def of_decimals():
    for inputs, N, printed in AT_DECIMAL_EDGES:
        name, script = f"the decimals of {tuple(inputs)} at {N}", begin(*inputs)
        if N == 1:
            yield name, script + READ, f"0 begun 1\n21 read 1 {printed} 0 0 0\n"
        else:
            # c(0) is lost, but for the first.
            exact = 2 if inputs == HALF else 0
            yield name, script + add(N - 1) + READ, f"0 begun 1\n21 added {N}\n24 read {N} {printed} 0 0 {exact}\n"


def of_objects():
    """Request #104: the object number and the time that a read answers, and which begins change them."""
    read = f"read 3 {HALF_AT_3}"
    begun, lines = BEGIN_OBJECT + add(2) + READ, f"0 begun 1\n29 added 3\n32 {read} 25544 1440 2\n"
    body = "0a000000 0a000000 0a000000 00000000 00000000 c8630000 a0050000"
    yield "byte by byte", bytes.fromhex("04" + body) + begun[29:], lines
    yield "kind 4 alone", BEGIN_OBJECT, "0 begun 1\n"
    for number, time in OBJECTS:
        script = begin_conjunction(*HALF, number, time) + add(2) + READ
        accepted = f"0 begun 1\n29 added 3\n32 {read} {number} {time} 2\n"
        due = accepted if number else "0 refused 9\n29 refused 21\n32 refused 21\n"
        yield f"object {number} at {time}", script, due
    # Both are kept where a begin is refused, of either kind.
    for refusal, inputs in zip(BEGIN_TESTS, REFUSED):
        for record in begin(*inputs), begin_conjunction(*inputs, 7, 8), begin_conjunction(*inputs, 0, 8):
            due = f"{lines}33 refused {refusal}\n{33 + len(record)} {read} 25544 1440 2\n"
            yield f"kept after {refusal}, kind {record[0]}", begun + record + READ, due
    due = f"{lines}33 refused 9\n62 {read} 25544 1440 2\n"
    yield "kept after 9", begun + begin_conjunction(*LATEST, 0, 8) + READ, due
    # "After a kind 1 begin both are 0", and after another one of kind 4 they are its own.
    again = f"{lines}33 begun 1\n54 added 3\n57 {read} 0 0 2\n"
    yield "kind 1 after kind 4", begun + BEGIN_HALF + add(2) + READ, again
    script = begun + begin_conjunction(*HALF, 1440, 25544) + add(2) + READ
    yield "kind 4 after kind 4", script, f"{lines}33 begun 1\n62 added 3\n65 {read} 1440 25544 2\n"


# Request #105: encounters, each with orders and what the read prints behind each.
EXACT_READS = (
    (
        HALF,
        (1, "2605029163 -33 3907544026 -33 alert 3.032e-01 4.549e-01 0 0 1"),
        (2, "3256286454 -33 3473372468 -33 alert 3.790e-01 4.044e-01 0 0 2"),
        (3, f"{HALF_AT_3} 0 0 2"),
    ),
    (
        FIVE,
        (4, "3745196195 -36 3811685336 -36 alert 5.449e-02 5.547e-02 0 0 4"),
        (5, "3752161430 -36 3765147828 -36 alert 5.460e-02 5.480e-02 0 0 5"),
        (6, "3752829750 -36 3755004059 -36 alert 5.461e-02 5.465e-02 0 0 5"),
    ),
    (LOST_B, (2, "3256266578 -33 3473354249 -33 alert 3.790e-01 4.044e-01 0 0 1")),
    (LOST_P, (2, "3238458928 -33 3451334730 -33 alert 3.770e-01 4.018e-01 0 0 2")),
    (THIRDS, (1, "3473372217 -35 2990959625 -34 alert 1.010e-01 1.741e-01 0 0 0")),
)


def of_exact_terms():
    for inputs, *reads in EXACT_READS:
        script, lines, before = begin(*inputs), "0 begun 1\n", 1
        for N, printed in reads:
            if N > before:
                lines += f"{len(script)} added {N}\n"
                script += add(N - before)
            lines += f"{len(script)} read {N} {printed}\n"
            script, before = script + READ, N
        yield f"the exact terms of {tuple(inputs)}", script, lines
    # Refused records between change nothing, and the next begin starts over.
    script = begin(*FIVE) + add(3) + EMPTY_ADD + begin(*REFUSED[0]) + add(LARGEST_N) + add(1) + READ + BEGIN_HALF + READ
    due = "0 begun 1\n21 added 4\n24 refused 12\n27 refused 3\n48 refused 22\n51 added 5\n"
    due += f"54 read 5 {EXACT_READS[1][2][1]}\n55 begun 1\n76 read 1 {EXACT_READS[0][1][1]}\n"
    yield "exact terms with refused records between", script, due


def scripts():
    for part in of_document, of_refusals_1_and_2, of_the_state, of_decimals, of_objects, of_exact_terms, of_lengths:
        yield from part()


# Request #110: scripts, each with its name and what is left of it.


def with_empty_adds():
    """Empty adds at each place, and adds that are not empty."""
    yield "no byte", b"", b""
    yield "an empty add alone", EMPTY_ADD, b""
    script = BEGIN_HALF + add(2) + READ + BEGIN_OBJECT + add(1) + READ
    yield "no empty add", script, script
    yield "the first record", EMPTY_ADD + script, script
    yield "the last record", script + EMPTY_ADD, script
    between = EMPTY_ADD + BEGIN_HALF + 2 * EMPTY_ADD + add(2) + EMPTY_ADD + READ + EMPTY_ADD + BEGIN_OBJECT + EMPTY_ADD
    yield "between all records", between + add(1) + 3 * EMPTY_ADD + READ + EMPTY_ADD, script
    refused = begin(*REFUSED[0])
    yield "after a refused begin", refused + EMPTY_ADD + add(1) + EMPTY_ADD + READ, refused + add(1) + READ
    largest = BEGIN_HALF + add(LARGEST_N - 1)
    yield "at the largest order", largest + EMPTY_ADD + READ, largest + READ
    # One of the two bytes of a count may be 0.
    for count in 1, 255, 256, 65280, MOST_COUNT:
        script = BEGIN_HALF + EMPTY_ADD + add(count) + EMPTY_ADD + add(count)
        yield f"count {count}", script, BEGIN_HALF + 2 * add(count)
    # Every count but 0; so many adds fit a script.
    most = LONGEST_SCRIPT // len(EMPTY_ADD)
    for first in range(1, MOST_COUNT + 1, most):
        script = b"".join(map(add, range(first, first + most)))
        yield f"counts from {first} on", script, script
    # A body may have the bytes of an empty add in it: at its start, at its end, and throughout.
    bodies = begin(2, 2, 2, 0, 0), begin_conjunction(*HALF, 1, 512), b"\1\2\0" + 6 * EMPTY_ADD, b"\4\0" + 9 * EMPTY_ADD
    for record in bodies:
        yield f"within a body, kind {record[0]}", EMPTY_ADD + record + EMPTY_ADD + READ, record + READ


def with_bad_records():
    """Request #110: "It leaves the byte at a refusal 1 or 2 and everything after it unchanged"."""
    for kind in range(256):
        if kind not in KINDS:
            rest = bytes([kind]) + EMPTY_ADD + READ + 2 * EMPTY_ADD
            yield f"after kind {kind}", BEGIN_HALF + EMPTY_ADD + rest, BEGIN_HALF + rest
    yield "kind 0 first", b"\0" + EMPTY_ADD, b"\0" + EMPTY_ADD
    # The last byte of a count and two bytes after it are those of an empty add.
    yield "kind 0 after add 512", EMPTY_ADD + add(512) + b"\0\0", add(512) + b"\0\0"
    yield "kind 9 last", EMPTY_ADD + READ + b"\x09", READ + b"\x09"
    for record in EMPTY_ADD, add(1), BEGIN_HALF, BEGIN_OBJECT:
        for length in range(1, len(record)):
            cut = record[:length]
            yield f"kind {record[0]} with {length - 1} bytes", READ + EMPTY_ADD + cut, READ + cut
    # What is there of the body has the bytes of empty adds in it.
    for cut in b"\1" + 6 * EMPTY_ADD, b"\1\0" + 6 * EMPTY_ADD, b"\4" + 9 * EMPTY_ADD, b"\4\5\5" + 8 * EMPTY_ADD:
        yield f"{len(cut)} bytes of kind {cut[0]}", EMPTY_ADD + cut, cut


def of_new_lengths():
    """Up to the longest script, and past it, where nothing is written."""
    most = LONGEST_SCRIPT // len(EMPTY_ADD)
    for length in LONGEST_SCRIPT - 1, LONGEST_SCRIPT:
        rest = length - most * len(EMPTY_ADD)
        yield f"{length} bytes of empty adds and reads", most * EMPTY_ADD + rest * READ, rest * READ
        yield f"{length} bytes of reads and empty adds", rest * READ + most * EMPTY_ADD, rest * READ
        yield f"{length} reads", length * READ, length * READ
        yield f"{length - 3} reads and an empty add", (length - 3) * READ + EMPTY_ADD, (length - 3) * READ
        yield f"{length} bytes of kind 0", bytes(length), bytes(length)
    yield "the longest, cut short", most * EMPTY_ADD + EMPTY_ADD[:1], EMPTY_ADD[:1]
    yield "the longest, and a bad kind", b"\0" + most * EMPTY_ADD, b"\0" + most * EMPTY_ADD
    for length in LONGEST_SCRIPT + 1, LONGEST_SCRIPT + 2, 2 * LONGEST_SCRIPT, 1_000_000:
        for record in READ, EMPTY_ADD, b"\0":
            yield f"{length} bytes of kind {record[0]}", (record * length)[:length], b""
    # Without its empty adds it would not be too long.
    yield "too long by an empty add", READ * (LONGEST_SCRIPT - 2) + EMPTY_ADD, b""


def dropped():
    for part in with_empty_adds, with_bad_records, of_new_lengths:
        yield from part()
