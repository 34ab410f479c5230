"""The programs of the folder examples that no page shows, run as a user runs them."""
import importlib.util
import os
import re
import subprocess
import sys
import unittest
from fractions import Fraction
from typing import Tuple

from nfot.program import WARNING

from .cases import EXAMPLES, ROOT, Case


def run(name: str, *words: str) -> Tuple[int, str, str]:
    """Status, output and error of an example, with the package of this checkout; without the warning that the slow program is used."""
    done = subprocess.run([sys.executable, str(EXAMPLES / name), *words], stdout=subprocess.PIPE, stderr=subprocess.PIPE, text=True, cwd=EXAMPLES,
                          env={**os.environ, "PYTHONPATH": str(ROOT / "python"), "PYTHONDONTWRITEBYTECODE": "1"})
    return done.returncode, done.stdout, done.stderr.replace(f"{WARNING}\n", "")


def last_arrival(n: int) -> Fraction:
    """By hand, when the driver who leaves at n arrives on n + 1 roads of 0 to n minutes and capacity 1, with a supply of n + 1.

    While k roads are used, arrivals grow by (n + 1)/k for each minute of departure. The next road is used when travel times are k.
    """
    opens, used = Fraction(0), 1
    while used <= n and opens + Fraction(used, n + 1 - used) < n:
        opens += Fraction(used, n + 1 - used)
        used += 1
    return opens + used - 1 + (n - opens) * Fraction(n + 1, used)


class Examples(Case):
    def test_price_of_anarchy(self) -> None:
        """The least time is 3 n/2: by then the roads bring (n + 1) 3 n/2 less their transit times, n (n + 1)/2."""
        status, out, _ = run("anarchy.py", *map(str, range(1, 9)))
        rows = [[Fraction(above or whole) / Fraction(below or 1) for above, below, whole in re.findall(r"\$(?:\\frac\{(\d+)\}\{(\d+)\}|(\d+))\$", line)]
                for line in out.splitlines()[1:-1]]
        self.assertEqual((status, rows), (0, [[Fraction(n), Fraction(3 * n, 2), last_arrival(n), last_arrival(n) / Fraction(3 * n, 2)] for n in range(1, 9)]))
        self.assertEqual(run("anarchy.py", "1..8"), (0, out, ""))
        self.assertEqual([run("anarchy.py", *words)[:2] for words in (["x"], ["3..x"], ["3..1"], ["0..2"], [])], [(2, "")] * 5)

    def test_wrong_words(self) -> None:
        for name, *words in (["packets.py", "x"], ["packets.py"], ["simulate.py", "1"], ["simulate.py", "0", "1"], ["simulate.py", "x", "1"]):
            status, out, err = run(name, *words)
            self.assertEqual((status, out, err.startswith("usage: ")), (2, "", True))

    def test_price_of_anarchy_of_a_nested_family(self) -> None:
        """By hand: nobody leaves the street, so the last driver arrives at n. The links into the end bring n m by n - m (1/(m + 1) + .. + 1/n)."""
        status, out, _ = run("anarchy.py", "--nested", *map(str, range(2, 9)))
        prices = [Fraction(*map(int, found)) for found in re.findall(r"\\frac\{(\d+)\}\{(\d+)\}\$ \\\\", out)]
        least = {2: 1, 3: 1, 4: 2, 5: 2, 6: 2, 7: 3, 8: 3}
        times = {n: n - m * sum(Fraction(1, k) for k in range(m + 1, n + 1)) for n, m in least.items()}
        self.assertEqual((status, prices), (0, [n / time for n, time in times.items()]))
        self.assertEqual([run("anarchy.py", *words)[:2] for words in (["--nested"], ["--nested", "1"])], [(2, ""), (2, "")])

    def test_more(self) -> None:
        status, out, err = run("more.py", "3")
        self.assertEqual((status, err, len(out.splitlines())), (0, "", 2))
        self.assertRegex(out, r"^more capacity: earlier in \d, later in \d of 3 networks\nmore supply: earlier in 0, later in \d of 3 networks\n$")
        self.assertEqual(run("more.py")[:2], (2, ""))

    def test_many(self) -> None:
        """A fault names its network once, whether it is of the file or of the run."""
        folder = self.folder()
        (folder / "bad.net").write_text("nfot 1\nlink\n")
        (folder / "even.net").write_bytes((EXAMPLES / "even.net").read_bytes())
        bad, even = folder / "bad.net", folder / "even.net"
        status, out, _ = run("solve_many.py", "-1", str(bad), str(even))
        lines = out.splitlines()
        self.assertEqual((status, len(lines)), (1, 2))
        self.assertEqual([line.count(str(path)) for line, path in zip(lines, (bad, even))], [1, 1])
        self.assertTrue(lines[0].startswith(f"{bad} line 2: N6: "), out)
        self.assertTrue(lines[1].startswith(f"{even}: "), out)

    @unittest.skipUnless(importlib.util.find_spec("networkx"), "networkx isn't installed")
    def test_graph(self) -> None:
        """By hand: 4 a minute, 20 in five minutes, go by the bridge until its wait is 18.25 minutes, and then 2 a minute each way."""
        status, out, err = run("graph.py")
        self.assertEqual((status, err), (0, ""))
        lines = out.splitlines()
        self.assertEqual([lines[at].split()[1:] for at in (1, 4, 6)], [["06:00", "20.00", "0.00", "12.00"], ["06:15", "16.50", "3.50", "20.00"], ["06:25", "10.00", "10.00", "10.00"]])
        self.assertEqual(lines[-1], "('bridge', 'work', 18.25)")

    @unittest.skipUnless(sys.platform.startswith("linux"), "the limits are those of Linux")
    def test_limits(self) -> None:
        """Statuses are those of docs/FORMATS.md, and 128 more than the number of a signal."""
        status, out, err = run("limits.py")
        found = [line.split(": ")[1] for line in out.splitlines()]
        self.assertEqual((status, err), (0, ""))
        self.assertEqual(found, ["5 Stopped", "6 Stopped", "7 Stopped", "11 Stopped", "12 Stopped", "4 Refused", "3 Refused", "3 NotFound", "4 Refused", "9 Fault",
                                 "124 Timeout", "143 Killed", "137 Killed", "1 Fault"])

    def test_sample(self) -> None:
        folder = self.folder()
        (folder / "two.net").write_bytes((EXAMPLES / "two.net").read_bytes())
        done = subprocess.run([sys.executable, str(EXAMPLES / "sample.py")], cwd=folder, stdout=subprocess.PIPE, text=True,
                              env={**os.environ, "PYTHONPATH": str(ROOT / "python"), "PYTHONDONTWRITEBYTECODE": "1"})
        self.assertEqual((done.returncode, done.stdout), (0, "yes\n"))

    def test_packets_come_closer(self) -> None:
        """The gap falls with the packets, about as 1/k."""
        status, out, _ = run("packets.py", "2", "4", "8")
        gaps = [float(line.split()[1]) for line in out.splitlines()]
        self.assertEqual(status, 0)
        self.assertTrue(gaps[0] > 1.5 * gaps[1] > 2 * gaps[2] > 0, gaps)

    def test_all_are_short(self) -> None:
        for path in EXAMPLES.glob("*.py"):
            self.assertLess(len(path.read_text(encoding="utf-8").splitlines()), 100, path)


if __name__ == "__main__":
    unittest.main()
