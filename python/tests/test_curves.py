"""Curves against their definition, point by point."""
import pickle
import random
import time
import unittest
from decimal import Decimal
from fractions import Fraction

import nfot
from nfot import Curve

from .cases import Case, pairs, random_curve

ARRIVAL = Curve([(0, 10), (20, 50), (60, 90)])


def times(rng: random.Random) -> list[Fraction]:
    """Times in and around the range of random curves."""
    return [Fraction(number, rng.choice([2, 5, 11])) for number in range(-2, 230, 3)]


class Values(Case):
    def test_value(self) -> None:
        self.assertEqual([ARRIVAL(moment) for moment in (0, 10, 20, 30, 60, "1/2", 0.5, Decimal("0.5"))], [10, 30, 50, 60, 90, 11, 11, 11])

    def test_nothing_is_said_beyond_what_is_known(self) -> None:
        """A value after the last known time would be a guess."""
        for call in (ARRIVAL, ARRIVAL.slope, ARRIVAL.cut):
            self.faulted(nfot.OutOfRange, "time 99 is outside of what is known: 0 to 60", call, 99)
            self.faulted(nfot.OutOfRange, "time -1 is outside", call, -1)
        self.faulted(nfot.OutOfRange, "outside", ARRIVAL.at, [0, 61])
        self.faulted(nfot.OutOfRange, "outside", ARRIVAL.integral, 0, 61)
        self.faulted(nfot.OutOfRange, "outside", ARRIVAL.sample, 5, 0, 70)
        self.faulted(nfot.OutOfRange, "nothing is known right of time 60", ARRIVAL.slope, 60)
        self.faulted(nfot.OutOfRange, "nothing is known left of time 0", ARRIVAL.slope, 0, "left")
        self.faulted(nfot.OutOfRange, "known until 3, the other one from 5 on", lambda: Curve([(0, 1)], 3) + Curve([(5, 1)]))

    def test_constant_from_the_last_point_on(self) -> None:
        curve = Curve([(0, 0), (2, 4)], until=5)
        self.assertEqual((curve(4), curve.slope(3), curve.slope(2), curve.slope(2, "left"), curve.until), (4, 0, 0, 2, 5))
        self.assertEqual(list(curve.pieces()), [(0, 2, 0, 2), (2, 5, 4, 0)])
        self.assertEqual(curve.floats(), ([0.0, 2.0, 5.0], [0.0, 4.0, 4.0]))

    def test_what_is_no_curve_is_refused(self) -> None:
        for points, until, wanted in [([], None, "at least one point"), ([(0, 1), (0, 2)], None, "time 0 comes after time 0"),
                                      ([(1, 1), (0, 2)], None, "time 0 comes after time 1"), ([(0, 1), (4, 2)], 3, "known until 3"),
                                      ([(0, 0.5)], None, "0.5 is a float"), ([(0, "x")], None, "x is no number")]:
            self.faulted(nfot.Refused, wanted, Curve, points, until)
        self.faulted(nfot.Refused, "falls after time 0", Curve([(0, 2), (1, 1)]).then, ARRIVAL)
        self.faulted(nfot.Refused, "0 is no step", ARRIVAL.sample, 0)
        self.faulted(nfot.Refused, "up is no side", ARRIVAL.slope, 5, "up")

    def test_a_curve_never_changes(self) -> None:
        for name in ("points", "until", "start"):
            with self.assertRaises(AttributeError):
                setattr(ARRIVAL, name, 0)
        self.assertEqual(pickle.loads(pickle.dumps(ARRIVAL)), ARRIVAL)

    def test_equality_is_of_functions_on_the_known_range(self) -> None:
        split = Curve([(0, 10), (5, 20), (20, 50), (60, 90)])
        self.assertEqual(split, ARRIVAL)
        self.assertEqual(hash(split), hash(ARRIVAL))
        self.assertEqual(split.tidy().points, ARRIVAL.points)
        self.assertNotEqual(ARRIVAL, ARRIVAL.cut(59))
        self.assertEqual(Curve([(0, 1)], 5), Curve([(0, 1), (2, 1), (5, 1)]))

    def test_sample(self) -> None:
        self.assertEqual(ARRIVAL.sample(25), pairs((0, 10), (25, 55), (50, 80)))
        self.assertEqual(ARRIVAL.sample(0.5, "1/2", 1), pairs(("1/2", 11), (1, 12)))
        self.assertEqual(ARRIVAL.sample(20, 20, 60), pairs((20, 50), (40, 70), (60, 90)))

    def test_amounts_of_rates(self) -> None:
        amount = Curve.of_rates([(0, 4), (60, 0)], 90)
        self.assertEqual([amount(moment) for moment in (0, "15/2", 60, 90)], [0, 30, 240, 240])
        self.assertEqual(Curve.of_rates([(10, 4)], 5).points, tuple(pairs((0, 0), (5, 0))))
        self.assertEqual(Curve.of_rates([], 5), Curve([(0, 0)], 5))
        self.assertEqual(Curve.of_rates([(0, 1)], 0).points, tuple(pairs((0, 0))))
        self.faulted(nfot.Refused, "start 1 comes after start 2", Curve.of_rates, [(2, 1), (1, 1)], 9)


class Definitions(Case):
    """Each operation of random curves has the value at each time that its definition says, and is known where it says."""

    def check(self, curve: Curve, wanted: object, known: object, rng: random.Random) -> None:
        assert callable(wanted) and callable(known)
        for moment in times(rng):
            self.assertEqual(curve.start <= moment <= curve.until, known(moment))
            if known(moment):
                self.assertEqual(curve(moment), wanted(moment))

    def test_sum_difference_least(self) -> None:
        rng = random.Random(1)
        for _ in range(150):
            p, q = random_curve(rng), random_curve(rng)
            if max(p.start, q.start) > min(p.until, q.until):
                continue

            def known(moment: Fraction) -> bool:
                return max(p.start, q.start) <= moment <= min(p.until, q.until)
            self.check(p + q, lambda moment: p(moment) + q(moment), known, rng)
            self.check(p - q, lambda moment: p(moment) - q(moment), known, rng)
            self.check(p.least(q), lambda moment: min(p(moment), q(moment)), known, rng)
            self.check(p * "1/3", lambda moment: p(moment) / 3, lambda moment: p.start <= moment <= p.until, rng)

    def test_composition(self) -> None:
        rng = random.Random(2)
        for _ in range(300):
            inner, outer = random_curve(rng, rising=True), random_curve(rng)

            def known(moment: Fraction) -> bool:
                return inner.start <= moment <= inner.until and outer.start <= inner(moment) <= outer.until
            try:
                made = inner.then(outer)
            except nfot.OutOfRange:
                self.assertFalse([moment for moment in times(rng) if known(moment)])
                continue
            self.check(made, lambda moment: outer(inner(moment)), known, rng)

    def test_integral_and_extremes(self) -> None:
        rng = random.Random(3)
        for _ in range(100):
            curve = random_curve(rng)
            total = sum(((b - a) * (value + slope * (b - a) / 2) for a, b, value, slope in curve.pieces()), Fraction(0))
            self.assertEqual(curve.integral(), total)
            middle = (curve.start + curve.until) / 2
            self.assertEqual(curve.integral(None, middle) + curve.integral(middle), total)
            values = [curve(moment) for moment in (*[moment for moment, _ in curve.points], curve.until)]
            self.assertEqual(curve.greatest()[1], max(values))
            self.assertEqual(curve.least_value()[1], min(values))
            self.assertEqual(curve(curve.greatest()[0]), max(values))

    def test_differences(self) -> None:
        other = Curve([(0, 10), (20, 40), (60, 90)])
        self.assertEqual(ARRIVAL.differences(other), [(20, 50, 40)])
        self.assertEqual(ARRIVAL.differences(ARRIVAL.cut(30)), [])

    def test_at_is_the_value_at_each_time_in_any_order(self) -> None:
        rng = random.Random(4)
        for _ in range(50):
            curve = random_curve(rng)
            inside = [moment for moment in times(rng) if curve.start <= moment <= curve.until]
            rng.shuffle(inside)
            self.assertEqual(curve.at(inside), [curve(moment) for moment in inside])


class Speed(Case):
    def test_calls_are_merges(self) -> None:
        """A call that looks at each corner of one curve in each piece of the other one takes 10^7 steps here."""
        inner = Curve([(number, number + number % 2) for number in range(3000)], 6000)
        outer = Curve([(number, number % 7) for number in range(3000)], 6000)
        begun = time.process_time()
        inner.then(outer), inner.least(outer), inner + outer, outer.at(range(3000)), outer.tidy()
        Curve.of_rates([(number, number % 3) for number in range(3000)], 3000)
        self.assertLess(time.process_time() - begun, 3)


if __name__ == "__main__":
    unittest.main()
