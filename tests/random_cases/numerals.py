"""Fractions that are chosen at random, and their words."""
from fractions import Fraction

LARGEST = 2 ** 127 - 1
# Primes: fractions over two of them can hardly be summed.
PRIMES = [2 ** 61 - 1, 2 ** 64 + 13, 2 ** 67 + 3, 2 ** 71 + 11, 2 ** 89 - 1, 2 ** 107 - 1, 2 ** 127 - 1, 2 ** 127 - 25, 2 ** 127 - 39]
# Words that are no numbers, or numbers in another than the printed form, or at the limits of what is accepted.
ODD_WORDS = ["2/4", "07", "-0", "0/1", "1/1", "+1", "1.5", "0.50", "02.5", "-", "x", "1/0", "0/5", "0/0", "00/1", str(LARGEST), str(LARGEST + 1),
             f"1/{LARGEST}", f"1/{LARGEST + 1}", f"{LARGEST}/{LARGEST}", f"-{LARGEST}", f"-{LARGEST + 1}", "--1", "1/-2", "-1/02",
             "1/2/3", "1e3", "inf", "-inf", "Inf", "/1", "1/", "-/1", ".5", "5.", "1.5/2", "0x1", "1_0", "0" * 40 + "1",
             "0." + "0" * 37 + "1", "0." + "0" * 38 + "1", "1." + "0" * 38, "1." + "0" * 39, f"0.{LARGEST}", f"1.{LARGEST}", "-0.0"]
ODD_COUNTS = ["-1", "01", "+1", "x", "1/2", str(2 ** 64 - 1), str(2 ** 64), "00", "9" * 21, "0", "007", "-"]


def chance(rng, probability):
    """True with this probability."""
    return rng.random() < probability


def printed(value):
    """The word of a fraction in lowest terms."""
    value = Fraction(value)
    return str(value.numerator) if value.denominator == 1 else f"{value.numerator}/{value.denominator}"


def fits(value):
    """Whether both parts of a fraction are at most the largest number."""
    return abs(value.numerator) <= LARGEST and value.denominator <= LARGEST


def is_number(word):
    """Whether a word is a fraction as it is printed or could be."""
    digits = (word[1:] if word.startswith("-") else word).split("/")
    return len(digits) <= 2 and all(part.isascii() and part.isdigit() for part in digits) and int(digits[-1] if len(digits) == 2 else 1) > 0


def wide(rng, most_bits=126):
    """A positive fraction of any width up to so many bits."""
    numerator = rng.randint(1, 2 ** rng.choice([bits for bits in (1, 3, 20, 40, 62, 63, 64, 100, 126) if bits <= most_bits]))
    denominator = rng.randint(1, 2 ** rng.choice([bits for bits in (1, 1, 1, 3, 20, 40, 63, 100) if bits <= most_bits]))
    return Fraction(numerator, denominator)


def over_primes(rng):
    """A positive fraction over a large prime, mostly."""
    return Fraction(rng.randint(1, 2 ** 63), rng.choice(PRIMES + [1, 2, 2 ** 31 - 1]))


def near_powers(rng):
    """A positive fraction with parts beside a power of two, 2^63 and 2^127 among them."""
    def part():
        """A whole number beside a power of two."""
        return max(1, min(LARGEST, 2 ** rng.choice([31, 32, 62, 63, 63, 64, 126, 126, 127]) + rng.choice([-2, -1, -1, 0, 1])))
    return Fraction(part(), part() if chance(rng, 0.4) else 1)


def coprime(rng):
    """A positive fraction of one of several kinds whose denominators share nothing."""
    one, other = rng.choice(PRIMES), rng.choice(PRIMES)
    return rng.choice([over_primes(rng), near_powers(rng), Fraction(1, one), Fraction(one, other), Fraction(rng.randint(1, 3)),
                       Fraction(LARGEST - 1, rng.randint(1, 3))])


def some_time(rng):
    """A time of at least 0: mostly small, at times wide."""
    kind = rng.random()
    if kind < 0.06:
        return Fraction(0)
    if kind < 0.9:
        return Fraction(rng.randint(0, 40), rng.choice([1, 1, 2, 3, 4, 6]))
    if kind < 0.97:
        return wide(rng, 64)
    return rng.choice([Fraction(1, LARGEST), Fraction(LARGEST), Fraction(LARGEST - 1, 2), near_powers(rng)])


def small_rate(rng):
    """A rate of at least 0 with a small numerator and denominator."""
    return Fraction(rng.randint(0, 9), rng.choice([1, 1, 1, 2, 3, 6]))


def rising_times(rng, count, steps=(1, 1, 2, Fraction(1, 2), Fraction(1, 3), Fraction(1, 1000))):
    """So many times, each above the one before, the first mostly 0."""
    times, time = [], Fraction(rng.choice([0, 0, 0, 1]), rng.choice([1, 2]))
    for _ in range(count):
        times.append(time)
        time += Fraction(rng.choice(steps)) * rng.randint(1, 4)
    return times
