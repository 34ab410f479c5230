"""Numbers and their words."""
import pickle
import re
import unittest
from decimal import Decimal
from fractions import Fraction

import nfot
from nfot import numbers

from .cases import Case, independent


class Numbers(Case):
    def test_exact(self) -> None:
        given = ("7/2", "3.5", "1e2", 2, Fraction(1, 3), Decimal("0.25"), "-.5")
        self.assertEqual([numbers.exact(value) for value in given], [Fraction(word) for word in ("7/2", "7/2", "100", "2", "1/3", "1/4", "-1/2")])

    def test_floats_are_refused_with_what_to_do(self) -> None:
        for value in (0.1, 40.666666666666664, float("nan")):
            self.faulted(nfot.Refused, rf"{value} is a float: round it and write it as a text, as Fraction\('.*'\)", numbers.exact, value)
        self.assertEqual(numbers.time_of(0.5), Fraction(1, 2))
        self.assertEqual(numbers.time_of(0.1), Fraction(0.1))
        self.faulted(nfot.Refused, "nan is no time", numbers.time_of, float("nan"))

    def test_words_that_are_none_are_refused_by_name(self) -> None:
        for value in ("x", "1/0", "", None, "1,5", "1e9999", "7" * 500, Decimal("Infinity"), [1]):
            self.faulted(nfot.Refused, re.escape(f"{value!s:.60}"), numbers.exact, value)

    def test_the_hint_has_the_number_of_the_word(self) -> None:
        """The value is worked out; a word beyond the bound of files, one over 0 and one without a value are told apart."""
        most = 2 ** 127 - 1
        wide = "its numerator or denominator exceeds 2^127 - 1"
        for word, wanted in [("1.5", "write 3/2"), ("-0.25", "write -1/4"), ("1,5", "write 3/2"), ("1e3", "write 1000"), (".5", "write 1/2"),
                             (f"{2 * most}/2", f"write {most}"), (str(most + 1), wide), (f"0.{'0' * 39}1", wide), ("1/0", "its denominator is 0"),
                             ("1,800", "a number is written like 5/2"), ("x", "a number is written like 5/2")]:
            self.assertEqual(numbers.hint(word), wanted, word)
        self.faulted(nfot.Refused, "^1,5 is no number: write 3/2$", numbers.exact, "1,5")
        self.faulted(nfot.Refused, "^x is no number: a number is written like 5/2 or 2.5$", numbers.exact, "x")

    def test_words_of_the_command_line(self) -> None:
        words = {"2.5": "5/2", "7/2": "7/2", "1e6": "1000000", "7:30": "450", "07:30": "450", "0:00:30": "1/2", "-1": "-1"}
        for word, value in words.items():
            self.assertEqual(numbers.parse(word), Fraction(value), word)
        for word in ("7:60", "7:3", "7.30:00", ":30"):
            self.faulted(nfot.Refused, "is no number", numbers.parse, word)

    def test_short_is_exact(self) -> None:
        words = {"400": "400", "165/2": "82.5", "5/3": "5/3", "-1/4": "-0.25", "-3/2": "-1.5", "1/1000000": "0.000001",
                 "1/10000000": "1/10000000", "10.05": "10.05"}
        for word, wanted in words.items():
            self.assertEqual(numbers.short(Fraction(word)), wanted)

    def test_decimals_are_rounded(self) -> None:
        for word, digits, wanted in [("1/3", 2, "0.33"), ("2/3", 2, "0.67"), ("-1/2", 0, "-1"), ("-1/1000", 2, "0.00"), ("1/8", 2, "0.13"),
                                     ("7", 1, "7.0"), ("1999/1000", 2, "2.00")]:
            self.assertEqual(numbers.decimal(Fraction(word), digits), wanted)

    def test_times_of_day(self) -> None:
        for minutes, start, wanted in [("0", "450", "07:30"), ("15/2", "360", "06:07:30"), ("60", "1420", "24:40"), ("1/180", "0", "00:00:00")]:
            self.assertEqual(numbers.clock(Fraction(minutes), Fraction(start)), wanted)

    def test_words_of_files_are_those_of_the_independent_program(self) -> None:
        words = ["0", "-0", "00", "1", "-1", "1/2", "2/4", "1/1", "0/5", "-3/9", "1/0", "1/", "/1", "--1", "+1", "1.5", ".5", "5.", "1.5/2", "-0.25",
                 "1e3", "", "-", "a", "170141183460469231731687303715884105727", "170141183460469231731687303715884105728",
                 "1/170141183460469231731687303715884105728", "0." + "0" * 37 + "1", "0." + "0" * 38 + "1", "1" * 60, "٣"]
        exact = independent("exact")
        for word in words:
            self.assertEqual(str(numbers.file_number(word, False)), str(exact.read_fraction(word)), word)
            self.assertEqual(str(numbers.file_number(word, True)), str(exact.read_number(word)), word)
            self.assertEqual(str(numbers.printed(word)), str(exact.read_printed(word)), word)


class Faults(Case):
    def test_a_fault_is_one_sentence_with_its_place(self) -> None:
        fault = nfot.Refused("a number word is no number (write 5/2)", status=4, file="roads.net", line=4, rule="N8")
        self.assertEqual(str(fault), "roads.net line 4: N8: a number word is no number (write 5/2)")
        self.assertEqual(str(nfot.Fault("nothing fits")), "nothing fits")
        self.assertEqual(str(nfot.Fault("it is cut", file="a.report", line=0, rule="P14")), "a.report: P14: it is cut")

    def test_faults_pass_between_processes(self) -> None:
        faults = [nfot.Refused("why", status=4, file="f", line=2, rule="N8"), nfot.Killed("k", signal="SIGKILL"), nfot.Timeout("t"),
                  nfot.Unbounded("u", links=["a"]), nfot.Stopped("s", status=6, cause="patterns 1 2"), nfot.OutOfRange("o")]
        for fault in faults:
            again = pickle.loads(pickle.dumps(fault))
            self.assertEqual((type(again), vars(again), str(again)), (type(fault), vars(fault), str(fault)))


if __name__ == "__main__":
    unittest.main()
