"""Exact fractions, number words, and the operations that may pass.

FORMATS.md, "Lines, words, numbers" and "Operations that pass"; LISTS.md, "What a list is".
"""
from math import gcd, lcm

BOUND = 2 ** 127 - 1
DIGITS = frozenset("0123456789")


class Rational:
    """A fraction in lowest terms with a denominator above 0. Its operators are exact and have no bound."""

    __slots__ = ("numerator", "denominator")

    def __init__(self, numerator, denominator=1):
        if denominator != 1:
            common = gcd(numerator, denominator)
            if denominator < 0:
                common = -common
            numerator //= common
            denominator //= common
        self.numerator = numerator
        self.denominator = denominator

    def __add__(self, other):
        return Rational(self.numerator * other.denominator + other.numerator * self.denominator,
                        self.denominator * other.denominator)

    def __sub__(self, other):
        return self + -other

    def __mul__(self, other):
        return Rational(self.numerator * other.numerator, self.denominator * other.denominator)

    def __truediv__(self, other):
        return Rational(self.numerator * other.denominator, self.denominator * other.numerator)

    def __neg__(self):
        return Rational(-self.numerator, self.denominator)

    def __eq__(self, other):
        return (isinstance(other, Rational) and self.numerator == other.numerator
                and self.denominator == other.denominator)

    def __lt__(self, other):
        return self.numerator * other.denominator < other.numerator * self.denominator

    def __le__(self, other):
        return self.numerator * other.denominator <= other.numerator * self.denominator

    def __gt__(self, other):
        return other < self

    def __ge__(self, other):
        return other <= self

    def __hash__(self):
        return hash((self.numerator, self.denominator))

    def __str__(self):
        """The printed form: lowest terms, no slash before a 1."""
        return str(self.numerator) if self.denominator == 1 else f"{self.numerator}/{self.denominator}"

    def __repr__(self):
        return f"Rational({self})"

    def fits(self):
        """Whether numerator and denominator are within the bound of the program's fractions."""
        return abs(self.numerator) <= BOUND and self.denominator <= BOUND


ZERO = Rational(0)
ONE = Rational(1)
TWO = Rational(2)


class Passing(Exception):
    """An operation that passes: the part of the work, the operation, and the two operands."""

    def __init__(self, part, operation, left, right):
        super().__init__(part, operation, left, right)
        self.part = part
        self.operation = operation
        self.left = left
        self.right = right


class Part:
    """A part of the work, with the four operations. An operation whose result does not fit raises Passing."""

    def __init__(self, name):
        self.name = name

    def sum(self, left, right):
        """left + right, over the least common denominator."""
        return self._total("sum", left, right, right.numerator)

    def difference(self, left, right):
        """left - right: the sum with the negated number."""
        return self._total("difference", left, right, -right.numerator)

    def product(self, left, right):
        """left times right, reduced."""
        return self._fitting("product", left, right, left * right)

    def quotient(self, left, right):
        """left over right, reduced; right is not 0."""
        return self._fitting("quotient", left, right, left / right)

    def _total(self, operation, left, right, right_numerator):
        """A sum passes where one of these is beyond the bound: the least common denominator, a numerator brought to it,
        the sum of the two numerators."""
        denominator = lcm(left.denominator, right.denominator)
        first = left.numerator * (denominator // left.denominator)
        second = right_numerator * (denominator // right.denominator)
        total = first + second
        if denominator > BOUND or max(abs(first), abs(second), abs(total)) > BOUND:
            raise Passing(self.name, operation, left, right)
        return Rational(total, denominator)

    def _fitting(self, operation, left, right, result):
        """A product or quotient passes where a part of its reduced result is beyond the bound."""
        if not result.fits():
            raise Passing(self.name, operation, left, right)
        return result


PART_NAMES = ("slack", "table", "verdict", "extend", "advance", "curve", "load", "check", "quick")
OPERATION_NAMES = ("sum", "difference", "product", "quotient")
SLACK, TABLE, VERDICT, EXTEND, ADVANCE, CURVE, LOAD, CHECK, QUICK = (Part(name) for name in PART_NAMES)


def read_digits(word):
    """The value of a word of decimal digits alone, at least one; None for another word.

    Of a value with more than 40 digits the first 40 are returned: they are beyond each bound too.
    """
    if not word or not DIGITS.issuperset(word):
        return None
    significant = word.lstrip("0")
    return int(significant[:40] or "0")


def read_fraction(word):
    """The number of a word `a` or `a/b`, perhaps with a minus before it; None for another word."""
    digits, slash, below = word.partition("/")
    negative = digits.startswith("-")
    numerator = read_digits(digits[1:] if negative else digits)
    denominator = read_digits(below) if slash else 1
    if numerator is None or denominator is None:
        return None
    if numerator > BOUND or denominator > BOUND or denominator == 0:
        return None
    return Rational(-numerator if negative else numerator, denominator)


def read_number(word):
    """The number of a word in version 2 of the network file: a fraction or a decimal `a.b`; None for another word."""
    if "/" in word or "." not in word:
        return read_fraction(word)
    before, _, behind = word.partition(".")
    negative = before.startswith("-")
    before = before[1:] if negative else before
    if read_digits(before) is None or read_digits(behind) is None:
        return None
    scale = 10 ** len(behind)
    numerator = read_digits(before + behind)
    if scale > BOUND or numerator > BOUND:
        return None
    return Rational(-numerator if negative else numerator, scale)


def read_printed(word):
    """The fraction of which the word is the printed form; None for another word."""
    fraction = read_fraction(word)
    return fraction if fraction is not None and str(fraction) == word else None


def read_count(word):
    """The value of a plain count below 2^64: decimal digits with no zero before others; None for another word."""
    value = read_digits(word)
    return value if value is not None and str(value) == word and value < 2 ** 64 else None
