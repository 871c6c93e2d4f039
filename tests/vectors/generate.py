#!/usr/bin/env python3
"""Makes what the program `cases_leaves` runs: its data/vectors.txt, and its expected output, stdout.

Expected values come from exact arithmetic. A binary64 operand is decoded to a fraction, the operation is done on
fractions.Fraction, and the result is rounded once to nearest, ties to even, by `encode` below. Python's own float
arithmetic isn't used. I32, U32 and Fx values are Python integers; quads follow from Belnap's two orders alone.
A number leaf without a value has one of document 02's reasons (W5). Factors (W14) come from a search over all i32, whose
answers stand in tests/factors/found.txt. The seeds are fixed: two runs write the same files.
"""
import os
import random
import sys
from fractions import Fraction

ROOT = os.path.join(os.path.dirname(os.path.abspath(__file__)), "..", "..")
CASES = os.path.join(ROOT, "crates", "cases_leaves")
FOUND = os.path.join(ROOT, "tests", "factors", "found.txt")

# Why a number leaf has no value (document 02, W5); and what stands for no quad and for no factor.
ZERO = "divisor zero"
RANGE = "out of range"
NONE = "none"

# ---- binary64: 1 sign bit, 11 exponent bits, 52 fraction bits

SIGN = 1 << 63
INFINITY = 0x7FF << 52
NAN = 0x7FF8000000000000
LEAST = -1074  # the exponent of the last place of a subnormal


def is_nan(bits):
    return bits % SIGN > INFINITY


def is_infinite(bits):
    return bits % SIGN == INFINITY


def is_zero(bits):
    return bits % SIGN == 0


def negative(bits):
    return bits >= SIGN


def decode(bits):
    """The exact value of finite bits."""
    exponent, fraction = bits % SIGN >> 52, bits % (1 << 52)
    digits, place = (fraction, LEAST) if exponent == 0 else (fraction + (1 << 52), exponent - 1 + LEAST)
    value = Fraction(digits) * Fraction(2) ** place
    return -value if negative(bits) else value


def encode(value, zero_sign):
    """The bits of value rounded to nearest, ties to even; zero_sign is the sign of an exact zero."""
    if value == 0:
        return zero_sign
    sign, value = (SIGN, -value) if value < 0 else (0, value)
    top = value.numerator.bit_length() - value.denominator.bit_length()
    if value < Fraction(2) ** top:
        top -= 1  # 2^top is at most value, and 2^(top + 1) above it
    place = max(LEAST, top - 52)
    scaled = value / Fraction(2) ** place
    digits, rest = divmod(scaled.numerator, scaled.denominator)
    twice = 2 * rest
    if twice > scaled.denominator or (twice == scaled.denominator and digits % 2 == 1):
        digits += 1
    if digits == 1 << 53:
        digits, place = digits >> 1, place + 1
    if digits < 1 << 52:
        return sign + digits
    exponent = place - LEAST + 1
    return sign + INFINITY if exponent >= 0x7FF else sign + (exponent << 52) + digits - (1 << 52)


def add(a, b):
    if is_nan(a) or is_nan(b):
        return NAN
    if is_infinite(a):
        return NAN if is_infinite(b) and a != b else a
    if is_infinite(b):
        return b
    return encode(decode(a) + decode(b), SIGN if negative(a) and negative(b) else 0)


def subtract(a, b):
    return NAN if is_nan(b) else add(a, b ^ SIGN)


def multiply(a, b):
    sign = (a ^ b) & SIGN
    if is_nan(a) or is_nan(b):
        return NAN
    if is_infinite(a) or is_infinite(b):
        return NAN if is_zero(a) or is_zero(b) else sign + INFINITY
    return encode(decode(a) * decode(b), sign)


def divide(a, b):
    """The Rust's division: it declines a divisor of either zero (document 01, module 1), by that name (document 02, W5)."""
    return ZERO if is_zero(b) else ieee_divide(a, b)


def ieee_divide(a, b):
    """IEEE 754's, by document 02's words (W4) for a divisor of either zero."""
    sign = (a ^ b) & SIGN
    if is_zero(b):
        # "a nonzero number by zero is an infinity with the product of the signs, and zero or NaN by zero is NaN"
        return NAN if is_zero(a) or is_nan(a) else sign + INFINITY
    if is_nan(a) or is_nan(b):
        return NAN
    if is_infinite(a):
        return NAN if is_infinite(b) else sign + INFINITY
    if is_infinite(b):
        return sign
    return encode(decode(a) / decode(b), sign)


def equal(a, b):
    if is_nan(a) or is_nan(b):
        return 0
    return int(a == b or (is_zero(a) and is_zero(b)))


# Published double-precision results. Each is checked against the exact arithmetic above.
PUBLISHED = [
    # 0.1 + 0.2 is 0.30000000000000004 (The Python Tutorial, 'Floating-Point Arithmetic: Issues and Limitations')
    ("add", add, 0x3FB999999999999A, 0x3FC999999999999A, 0x3FD3333333333334),
    # 1 / 10 is 3602879701896397 / 2^55 (the same page)
    ("div", divide, 0x3FF0000000000000, 0x4024000000000000, 0x3FB999999999999A),
    # 1 / 3 is 3FD5555555555555, 3 / 256 is 3F88000000000000 (Wikipedia, 'Double-precision floating-point format')
    ("div", divide, 0x3FF0000000000000, 0x4008000000000000, 0x3FD5555555555555),
    ("div", divide, 0x4008000000000000, 0x4070000000000000, 0x3F88000000000000),
    # the next number after 1, the largest subnormal and the least normal number (the same page)
    ("add", add, 0x3FF0000000000000, 0x3CB0000000000000, 0x3FF0000000000001),
    ("sub", subtract, 0x0010000000000000, 0x0000000000000001, 0x000FFFFFFFFFFFFF),
    ("add", add, 0x000FFFFFFFFFFFFF, 0x0000000000000001, 0x0010000000000000),
    # 1 - 3 * (4 / 3 - 1) is 2^-52 (MATLAB documentation, 'Floating-Point Numbers'), step by step
    ("div", divide, 0x4010000000000000, 0x4008000000000000, 0x3FF5555555555555),
    ("sub", subtract, 0x3FF5555555555555, 0x3FF0000000000000, 0x3FD5555555555554),
    ("mul", multiply, 0x4008000000000000, 0x3FD5555555555554, 0x3FEFFFFFFFFFFFFE),
    ("sub", subtract, 0x3FF0000000000000, 0x3FEFFFFFFFFFFFFE, 0x3CB0000000000000),
    # 2^53 + 1 is 2^53: the first integer that isn't a double (ECMA-262, Number.MAX_SAFE_INTEGER)
    ("add", add, 0x4340000000000000, 0x3FF0000000000000, 0x4340000000000000),
    # the largest number doubled is infinity; half the least subnormal is 0 (IEEE 754-2019, 7.4 and 7.5)
    ("add", add, 0x7FEFFFFFFFFFFFFF, 0x7FEFFFFFFFFFFFFF, 0x7FF0000000000000),
    ("mul", multiply, 0x0000000000000001, 0x3FE0000000000000, 0x0000000000000000),
    # invalid operations give NaN (IEEE 754-2019, 7.2)
    ("sub", subtract, 0x7FF0000000000000, 0x7FF0000000000000, 0x7FF8000000000000),
    ("mul", multiply, 0x0000000000000000, 0xFFF0000000000000, 0x7FF8000000000000),
    ("div", divide, 0xFFF0000000000000, 0x7FF0000000000000, 0x7FF8000000000000),
    # the sign of a zero (IEEE 754-2019, 6.3)
    ("sub", subtract, 0x3FF0000000000000, 0x3FF0000000000000, 0x0000000000000000),
    ("add", add, 0x8000000000000000, 0x8000000000000000, 0x8000000000000000),
    ("add", add, 0x8000000000000000, 0x0000000000000000, 0x0000000000000000),
    ("mul", multiply, 0x8000000000000000, 0x3FF0000000000000, 0x8000000000000000),
    # 4195835 / 3145727 is 1.333820449136241, which a flawed Pentium gave as 1.33373 (T. Nicely, 1994)
    ("div", divide, 0x4150017EC0000000, 0x4147FFFF80000000, 0x3FF557541C7C6B43),
]

# Quotients by zero, written out from document 02 (W4): 1.0, -1.0, infinity, the least subnormal, zeros and a NaN.
BY_ZERO = [
    (0x3FF0000000000000, 0, INFINITY),
    (0xBFF0000000000000, 0, SIGN + INFINITY),
    (0x3FF0000000000000, SIGN, SIGN + INFINITY),
    (0xBFF0000000000000, SIGN, INFINITY),
    (INFINITY, 0, INFINITY),
    (INFINITY, SIGN, SIGN + INFINITY),
    (1, SIGN, SIGN + INFINITY),
    (0, 0, NAN),
    (SIGN, 0, NAN),
    (0xFFF8000000000123, SIGN, NAN),
]

EDGES = [
    0x0000000000000000,
    0x0000000000000001,
    0x0000000000000003,
    0x000FFFFFFFFFFFFF,
    0x0010000000000000,
    0x0010000000000001,
    0x3CA0000000000000,  # 2^-53, half the last place of 1
    0x3CA0000000000001,
    0x3FDFFFFFFFFFFFFF,
    0x3FE0000000000000,
    0x3FF0000000000000,
    0x3FF0000000000001,
    0x3FF8000000000000,
    0x3FFFFFFFFFFFFFFF,
    0x4008000000000000,
    0x433FFFFFFFFFFFFF,
    0x4340000000000000,
    0x4340000000000001,
    0x7C90000000000000,  # 2^970, half the last place of the largest number
    0x7C8FFFFFFFFFFFFF,
    0x7FE0000000000000,
    0x7FEFFFFFFFFFFFFF,
    0x7FF0000000000000,
    0x7FF0000000000001,  # a signalling NaN
    0x7FF8000000000000,
    0x7FF8DEADBEEF0001,  # a NaN with a payload
]
EDGES += [SIGN + bits for bits in EDGES]


def ties(rng, name):
    """Operands whose exact result lies halfway between two neighbours, with an even and an odd lower one."""
    if name in ("add", "sub"):
        # digits at 2^0 and half a last place
        one, half = 0x3FF0000000000000, 0x3CA0000000000000
        base = one + rng.randrange(1 << 52)
        return (base, half + (SIGN if name == "sub" else 0))
    if name == "mul":
        # (2^27 + i) (2^26 + j), both odd: 54 digits, the last of which is 1
        a, b = (1 << 27) + 2 * rng.randrange(1 << 25) + 1, (1 << 26) + 2 * rng.randrange(1 << 25) + 1
        return (encode(Fraction(a), 0), encode(Fraction(b), 0))
    # a quotient is halfway only below the normal numbers: an odd multiple of 2^-1074 by 2
    return (2 * rng.randrange(1 << 50) + 1, 0x4000000000000000 + SIGN * rng.randrange(2))


def subnormal(rng, name):
    """Operands whose result lies near the subnormal numbers."""
    small = rng.randrange(1 << 54)
    if name in ("add", "sub"):
        return (small, rng.randrange(1 << 54) + SIGN * rng.randrange(2))
    if name == "mul":
        return (small, rng.randrange(0x3F00000000000000, 0x4010000000000000))
    return (small, rng.randrange(0x3FF0000000000000, 0x4100000000000000))


def huge(rng, name):
    """Operands whose result lies near the largest number."""
    top = rng.randrange(0x7FD0000000000000, INFINITY)
    if name in ("add", "sub"):
        return (top, rng.randrange(0x7C80000000000000, INFINITY) + (SIGN if name == "sub" else 0))
    near = rng.randrange(0x3FE0000000000000, 0x4010000000000000)
    return (top, near)


def anything(rng, name):
    return (rng.randrange(1 << 64), rng.randrange(1 << 64))


def near(rng, name):
    """Two ordinary numbers of close exponents."""
    return tuple(rng.randrange(0x3F80000000000000, 0x4080000000000000) + SIGN * rng.randrange(2) for _ in "ab")


def floats(rng, name, operation, count):
    rows, seen = [], set()

    def keep(a, b):
        if (a, b) not in seen and operation(a, b) != ZERO:
            seen.add((a, b))
            rows.append((a, b, operation(a, b)))

    while len(rows) < 50:
        keep(rng.choice(EDGES), rng.choice(EDGES))
    for kind in (ties, subnormal, huge, near, anything):
        wanted = len(rows) + (count - 50) // 5
        while len(rows) < wanted:
            keep(*kind(rng, name))
    return rows


# ---- integers and Fx

I32_EDGES = [0, -1, 7, (1 << 31) - 1, -(1 << 31)]
U32_EDGES = [0, 1, 65536, (1 << 32) - 1]
FX_EDGES = [0, -1, 1500, (1 << 31) - 1, -(1 << 31)]


def wrapped(n):
    return (n + (1 << 31)) % (1 << 32) - (1 << 31)


def in_i32(n):
    return n if -(1 << 31) <= n < 1 << 31 else RANGE


def in_u32(n):
    return n if 0 <= n < 1 << 32 else RANGE


def truncated(a, b):
    quotient = abs(a) // abs(b)
    return quotient if (a < 0) == (b < 0) else -quotient


def divided(a, b):
    return ZERO if b == 0 else in_i32(truncated(a, b))


def remainder(a, b):
    """It is missing where the quotient is, and for the same reason."""
    quotient = divided(a, b)
    return quotient if quotient in (ZERO, RANGE) else a - b * quotient


I32 = [
    ("add", lambda a, b: wrapped(a + b)),
    ("sub", lambda a, b: wrapped(a - b)),
    ("mul", lambda a, b: wrapped(a * b)),
    ("div", divided),
    ("mod", remainder),
    ("lt", lambda a, b: int(a < b)),
    ("le", lambda a, b: int(a <= b)),
]
U32 = [
    ("add", lambda a, b: in_u32(a + b)),
    ("sub", lambda a, b: in_u32(a - b)),
    ("mul", lambda a, b: in_u32(a * b)),
    ("div", lambda a, b: a // b if b else ZERO),
    ("mod", lambda a, b: a % b if b else ZERO),
    ("lt", lambda a, b: int(a < b)),
    ("le", lambda a, b: int(a <= b)),
]
FX = [
    ("add", lambda a, b: in_i32(a + b)),
    ("sub", lambda a, b: in_i32(a - b)),
    ("mul", lambda a, b: in_i32(truncated(a * b, 1000))),
    ("div", lambda a, b: in_i32(truncated(a * 1000, b)) if b else ZERO),
]

# Document 01's starred cases: kind, operation, operands, result.
STARRED = [
    (I32, "add", 2147483647, 1, -2147483648),
    (I32, "div", -7, 2, -3),
    (I32, "mod", -7, 2, -1),
    (I32, "div", -2147483648, -1, RANGE),
    (U32, "sub", 0, 1, RANGE),
    (FX, "mul", 1500, 1500, 2250),
    (FX, "mul", -1, 1, 0),
    (FX, "mul", 2147483647, 1000, 2147483647),
    (FX, "mul", 2147483647, 1001, RANGE),
]

MOST, LEAST_I32, MOST_U32 = 2147483647, -2147483648, 4294967295

# Document 02's reasons (W5), written out by hand: each leaf on either side of its edges, and where both reasons hold.
REASONS = [
    (I32, "add", MOST, 1, LEAST_I32),
    (I32, "sub", LEAST_I32, 1, MOST),
    (I32, "mul", LEAST_I32, -1, LEAST_I32),
    (I32, "div", 7, 0, ZERO),
    (I32, "div", LEAST_I32, 0, ZERO),
    (I32, "div", LEAST_I32, 1, LEAST_I32),
    (I32, "div", LEAST_I32 + 1, -1, MOST),
    (I32, "mod", 7, 0, ZERO),
    (I32, "mod", LEAST_I32, 0, ZERO),
    (I32, "mod", LEAST_I32, -1, RANGE),
    (I32, "mod", LEAST_I32, 1, 0),
    (I32, "mod", LEAST_I32 + 1, -1, 0),
    (U32, "add", MOST_U32 - 1, 1, MOST_U32),
    (U32, "add", MOST_U32, 1, RANGE),
    (U32, "sub", 7, 7, 0),
    (U32, "sub", 7, 8, RANGE),
    (U32, "mul", 65535, 65537, MOST_U32),
    (U32, "mul", 65536, 65536, RANGE),
    (U32, "div", MOST_U32, 0, ZERO),
    (U32, "div", MOST_U32, 1, MOST_U32),
    (U32, "mod", MOST_U32, 0, ZERO),
    (U32, "mod", MOST_U32, MOST_U32, 0),
    (FX, "add", MOST - 1, 1, MOST),
    (FX, "add", MOST, 1, RANGE),
    (FX, "add", LEAST_I32 + 1, -1, LEAST_I32),
    (FX, "add", LEAST_I32, -1, RANGE),
    (FX, "sub", -1, MOST, LEAST_I32),
    (FX, "sub", -2, MOST, RANGE),
    (FX, "sub", -1, LEAST_I32, MOST),
    (FX, "sub", 0, LEAST_I32, RANGE),
    # 2,147,483,647,999 and -2,147,483,648,999 thousandths of thousandths are the last products in range
    (FX, "mul", 66431, 32326529, MOST),
    (FX, "mul", 1073741824, 2000, RANGE),
    (FX, "mul", 3263, -658131673, LEAST_I32),
    (FX, "mul", 715827883, -3000, RANGE),
    (FX, "mul", LEAST_I32, -1000, RANGE),
    (FX, "div", 7, 0, ZERO),
    (FX, "div", MOST, 0, ZERO),
    (FX, "div", LEAST_I32, 0, ZERO),
    (FX, "div", MOST, 1000, MOST),
    (FX, "div", MOST, 999, RANGE),
    (FX, "div", LEAST_I32, 1000, LEAST_I32),
    (FX, "div", LEAST_I32, -1000, RANGE),
    (FX, "div", 2147483, 1, 2147483000),
    (FX, "div", 2147484, 1, RANGE),
]


def near_edge(rng, kind, name, low, high):
    """Operands whose exact result lies near an end of the type, on either side; by zero too."""
    end, off = rng.choice((low, high - 1)), rng.randrange(-2, 3)
    a = rng.randrange(low, high)
    small = rng.randrange(2, 5000) * (rng.choice((1, -1)) if low else 1)
    if name == "add":
        return (a, end + off - a)
    if name == "sub":
        return (a, a - end - off)
    scale = 1000 if kind is FX else 1
    if name == "mul":
        return (small, truncated(end * scale, small) + off)
    if kind is FX:
        return (truncated(end * small, scale) + off, small)
    return (end + off, rng.choice((0, 1, -1 if low else 2, small)))


def integers(rng, ends, kind, name, operation, edges, low, high):
    pairs = [(a, b) for k, n, a, b, result in STARRED if k is kind and n == name]
    pairs += [(a, b) for a in edges for b in edges]
    pairs += [(rng.randrange(low, high), rng.randrange(low, high)) for _ in range(4)]
    pairs += [(rng.randrange(low, high), rng.randrange(-1000 if low else 0, 1000)) for _ in range(4)]
    pairs += [(a, b) for k, n, a, b, result in REASONS if k is kind and n == name]
    if name not in ("lt", "le"):
        near = [near_edge(ends, kind, name, low, high) for _ in range(40)]
        pairs += [(a, b) for a, b in near if low <= a < high and low <= b < high]
    rows = []
    for a, b in dict.fromkeys(pairs):
        result = operation(a, b)
        rows.append((a % (1 << 32), b % (1 << 32), result if isinstance(result, str) else result % (1 << 32)))
    return rows


# ---- factors (document 02, W14): the wanted value, one factor, and the other

# "Given a wanted value and one factor, find the other for MulFx and for MulI32, as the number leaves define them."
FACTORS = [
    (FX, 2250, 1500, 1500),
    (FX, 1, 1000, 1),
    (FX, 1, 1, 1000),
    (FX, 1, -1, -1000),
    (FX, -1, 1, -1000),
    (FX, -1, -1, 1000),
    (I32, 42, 7, 6),
    (I32, 42, -7, -6),
    (I32, 1, 3, -1431655765),
    (I32, -1, 3, 1431655765),
    (I32, 1, MOST, MOST),
    # MulFx truncates: 999 times 2 is 1,998 thousandths; 1,999 times 1 gives 1, and 2,000 times 1 is too much already
    (FX, 1, 999, 2),
    (FX, 1, 1999, 1),
    (FX, 1, 2000, NONE),
    (FX, -1, 1999, -1),
    (FX, -1, -1999, 1),
    (FX, 1, -2000, NONE),
    (FX, 2, 1999, NONE),
    (FX, 1000, 999, 1002),
    (FX, 1000, 1001, NONE),
    # "Of several, the one nearest zero is given,"
    (FX, 0, 0, 0),
    (FX, 0, 1, 0),
    (FX, 0, LEAST_I32, 0),
    (I32, 0, 0, 0),
    (I32, 0, 1, 0),
    (I32, 0, LEAST_I32, 0),
    (I32, 6, 2, 3),
    (I32, -2, 2, -1),
    (I32, 65536, 65536, 1),
    (I32, -65536, 65536, -1),
    (I32, -1073741824, 1073741824, -1),
    # "the positive one on a tie."
    (I32, LEAST_I32, 2, 1073741824),
    (I32, LEAST_I32, 1073741824, 2),
    (I32, LEAST_I32, -1073741824, 2),
    (I32, LEAST_I32, LEAST_I32, 1),
    # "Every i32 counts as a possible factor.": the least number too, and its positive twin is none
    (FX, LEAST_I32, 1000, LEAST_I32),
    (FX, LEAST_I32, -1000, NONE),
    (FX, MOST, 1000, MOST),
    (FX, MOST, -1000, -MOST),
    (FX, LEAST_I32, LEAST_I32, 1000),
    (FX, 268435456, 125, NONE),
    (FX, 268435456, -125, LEAST_I32),
    (FX, -268435456, 125, LEAST_I32),
    (FX, 2147483, 1, 2147483000),
    (FX, 2147484, 1, NONE),
    (I32, LEAST_I32, 1, LEAST_I32),
    (I32, LEAST_I32, -1, LEAST_I32),
    (I32, LEAST_I32, 3, LEAST_I32),
    (I32, MOST, -1, -MOST),
    # "It refuses 36 when no factor gives the wanted value, and only then."
    (FX, 1, 0, NONE),
    (FX, LEAST_I32, 0, NONE),
    (FX, MOST, 999, NONE),
    (FX, MOST, 2000, NONE),
    (FX, LEAST_I32, MOST, NONE),
    (I32, 1, 0, NONE),
    (I32, LEAST_I32, 0, NONE),
    (I32, 1, 2, NONE),
    (I32, 6, 4, NONE),
    (I32, MOST, LEAST_I32, NONE),
]


def searched():
    """What was found by trying every i32 (tests/factors): kind, wanted value, factor, and the other."""
    rows = []
    with open(FOUND) as found:
        for kind, wanted, factor, other in map(str.split, found):
            rows.append(({"fx": FX, "i32": I32}[kind], int(wanted), int(factor), other if other == NONE else int(other)))
    return rows


def factor_rows(kind, rows):
    of_kind = [row[1:] for row in rows if row[0] is kind]
    return [tuple(n if n == NONE else n % (1 << 32) for n in row) for row in of_kind]


def check_factors(rows):
    """A factor gives the wanted value; and no pair has two answers."""
    answers = {}
    for kind, wanted, factor, other in rows:
        label, product = ("fx", dict(FX)["mul"]) if kind is FX else ("i32", dict(I32)["mul"])
        assert other == NONE or product(other, factor) == wanted, (label, wanted, factor, other)
        assert answers.setdefault((label, wanted, factor), other) == other, (label, wanted, factor, other)


# ---- quads, from the orders alone: in the approximation order N is below F and T, both below S; in the truth order F is below N and S, both below T

N, F, T, S = range(4)


def order(least, greatest):
    return {(least, x) for x in range(4)} | {(x, greatest) for x in range(4)} | {(x, x) for x in range(4)}


def greatest_lower(below, a, b):
    lower = [x for x in range(4) if (x, a) in below and (x, b) in below]
    return next(x for x in lower if all((y, x) in below for y in lower))


def least_upper(below, a, b):
    upper = [x for x in range(4) if (a, x) in below and (b, x) in below]
    return next(x for x in upper if all((x, y) in below for y in upper))


def exchanged(a):
    return {F: T, T: F}.get(a, a)


def quad(below):
    return [
        ("and", lambda a, b: greatest_lower(below, a, b)),
        ("or", lambda a, b: least_upper(below, a, b)),
        ("impl", lambda a, b: least_upper(below, exchanged(a), b)),
    ]


QUAD = quad(order(N, S))
TRUTH = quad(order(F, T))
assert QUAD[0][1](T, F) == N and QUAD[1][1](T, F) == S and QUAD[2][1](F, N) == T
assert TRUTH[0][1](N, S) == F and TRUTH[1][1](N, S) == T and TRUTH[2][1](F, N) == T

# ---- equality of constants: of one kind by its bits, and of two kinds, numbered as ConstVal's cases are

EQUAL = [
    ("quad", range(4), lambda a, b: int(a == b)),
    ("bool", range(2), lambda a, b: int(a == b)),
    ("f64", [0, SIGN, 0x3FF0000000000000, INFINITY, NAN, 0x7FF0000000000001], equal),
    ("i32", [0, 1, 0x80000000], lambda a, b: int(a == b)),
    ("u32", [0, 1, 0x80000000], lambda a, b: int(a == b)),
    ("fx", [0, 1, 0x80000000], lambda a, b: int(a == b)),
]
KINDS = ["unknown", "quad", "bool", "f64", "i32", "u32", "fx"]
assert equal(0, SIGN) == 1

# ---- writing

# The program's numbers of the leaves: a kind, and a leaf of it.
LEAF = {"f64": 0x10, "i32": 0x20, "u32": 0x30, "fx": 0x40, "quad": 0x50, "bool": 0x60, "eq": 0x70, "factor": 0x80}
LINE = 50  # bytes of a line before its end


def line(text):
    assert len(text) <= LINE
    return text.ljust(LINE) + "\n"


def row(left, right, result):
    return line("%016X %016X %s" % (left, right, result if isinstance(result, str) else "%016X" % result))


def printed(name, rows):
    """What the program writes of a group: each row that is declined with its reason, and the count of those that pass.
    The kit writes hexadecimal digits in small letters."""
    declined = ["declined: %016x %016x %s\n" % row for row in rows if row[2] in (ZERO, RANGE)]
    return "".join(declined) + "%s: %d passed\n" % (name, len(rows))


def write(path, text):
    path = os.path.join(CASES, path)
    os.makedirs(os.path.dirname(path), exist_ok=True)
    with open(path, "w") as out:
        out.write(text)


def main():
    if sys.argv[1:]:
        print(__doc__.strip())
        sys.exit(0 if "--help" in sys.argv[1:] else 2)
    rng = random.Random(754)
    ends = random.Random(5)
    groups = []  # the leaf's number, the group's name, and its rows

    def group(kind, leaf, name, rows):
        groups.append((LEAF[kind] + leaf, name, rows))

    for name, operation, a, b, bits in PUBLISHED:
        assert operation(a, b) == bits, (name, hex(a), hex(b), hex(operation(a, b)))
    operations = [("add", add), ("sub", subtract), ("mul", multiply), ("div", divide)]
    for leaf, (name, operation) in enumerate(operations, 1):
        rows = [(a, b, bits) for n, _, a, b, bits in PUBLISHED if n == name]
        group("f64", leaf, "f64 %s, published" % name, rows)
    for leaf, (name, operation) in enumerate(operations, 1):
        group("f64", leaf, "f64 " + name, floats(rng, name, operation, 105))
    # The two divisions agree but by zero.
    quotients = [row for _, name, rows in groups if name.startswith("f64 div") for row in rows]
    group("f64", 5, "f64 IEEE div", quotients)
    for a, b, quotient in BY_ZERO:
        assert ieee_divide(a, b) == quotient
    by_zero = [(a, b) for a in EDGES for b in (0, SIGN)]
    group("f64", 4, "f64 div by zero", [(a, b, divide(a, b)) for a, b in by_zero])
    # A divisor next to zero, or NaN, is no zero divisor.
    others = [(a, b) for a in (0, SIGN, 0x3FF0000000000000, INFINITY, NAN) for b in (1, SIGN + 1, NAN, SIGN + NAN, INFINITY + 1)]
    assert not any(divide(a, b) == ZERO for a, b in others)
    group("f64", 4, "f64 div by no zero", [(a, b, divide(a, b)) for a, b in others])
    group("f64", 5, "f64 IEEE div by zero", [(a, b, ieee_divide(a, b)) for a, b in by_zero])
    group("f64", 0, "f64 bits", [(a, 0, NAN if is_nan(a) else a) for a in EDGES])

    for label, kind, edges, low, high in (
        ("i32", I32, I32_EDGES, -(1 << 31), 1 << 31),
        ("u32", U32, U32_EDGES, 0, 1 << 32),
        ("fx", FX, FX_EDGES, -(1 << 31), 1 << 31),
    ):
        for leaf, (name, operation) in enumerate(kind, 1):
            for k, n, a, b, result in STARRED + REASONS:
                assert k is not kind or n != name or operation(a, b) == result
            group(label, leaf, "%s %s" % (label, name), integers(rng, ends, kind, name, operation, edges, low, high))

    for leaf, (name, operation) in enumerate(QUAD, 1):
        group("quad", leaf, "quad " + name, [(a, b, operation(a, b)) for a in range(4) for b in range(4)])
    group("quad", 4, "quad not", [(a, 0, exchanged(a)) for a in range(4)])
    for leaf, (name, operation) in enumerate(TRUTH, 5):
        group("quad", leaf, "quad truth " + name, [(a, b, operation(a, b)) for a in range(4) for b in range(4)])
    group("quad", 8, "quad truth not", [(a, 0, exchanged(a)) for a in range(4)])
    numbers = (0, 1, 2, 3, 4, 5, 6, 7, 128, 252, 254, 255)
    group("quad", 0, "quad number", [(n, 0, n if n < 4 else NONE) for n in numbers])
    for leaf, (name, operation) in enumerate((("and", lambda a, b: a & b), ("or", lambda a, b: a | b)), 1):
        group("bool", leaf, "bool " + name, [(a, b, operation(a, b)) for a in range(2) for b in range(2)])
    group("bool", 3, "bool not", [(a, 0, 1 - a) for a in range(2)])

    for leaf, (name, operands, operation) in enumerate(EQUAL, 1):
        group("eq", leaf, "const eq, " + name, [(a, b, operation(a, b)) for a in operands for b in operands])
    # The zeros of two kinds differ, and Unknown equals none.
    rows = [(a, b, 0) for a in range(len(KINDS)) for b in range(len(KINDS)) if a != b or a == 0]
    group("eq", 0, "const eq, two kinds", rows)

    check_factors(FACTORS + searched())
    for leaf, (name, kind) in enumerate((("fx", FX), ("i32", I32)), 1):
        group("factor", leaf, "factor %s, by hand" % name, factor_rows(kind, FACTORS))
        group("factor", leaf, "factor " + name, factor_rows(kind, searched()))

    text = [line("# %02X %02X %s" % (leaf, len(name), name)) + "".join(row(*r) for r in rows) for leaf, name, rows in groups]
    write("data/vectors.txt", "".join(text))
    write("stdout", "".join(printed(name, rows) for _, name, rows in groups))
    print("%d vectors in %d groups" % (sum(len(rows) for _, _, rows in groups), len(groups)))


if __name__ == "__main__":
    main()
