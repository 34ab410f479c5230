"""Makes a case that differs smaller while it still differs: fewer words, links, nodes, lines and digits."""
import re
import time

from .case import Case
from .simpler_reports import read_exactly, simpler

NUMBER = re.compile(r"^(-?)(\d+)(/\d+)?$")
NAMED_LINKS = ("inflow", "outflow", "queue", "state", "rate", "flow")
NAMED_NODES = ("label", "never", "slope")


class Shrinking:
    """The smallest case so far, and until when smaller ones are looked for."""

    def __init__(self, case, differs, seconds):
        self.case, self.differs, self.end, self.tried = case, differs, time.monotonic() + seconds, 0

    def is_late(self):
        """Whether time is over."""
        return time.monotonic() > self.end

    def take(self, case):
        """Goes on with another case if it still differs; whether it does."""
        if self.is_late() or case is None or (case.words, case.files) == (self.case.words, self.case.files):
            return False
        self.tried += 1
        if not self.differs(case):
            return False
        self.case = case
        return True

    def smallest(self):
        """The smallest case that is found, when no step makes it smaller or time is over."""
        steps = [self.fewer_links, self.simpler_reports, self.fewer_lines, self.fewer_words, self.smaller_numbers, self.plainer_lines, self.shorter_names]
        while not self.is_late() and any([step() for step in steps]):
            pass
        return self.case

    def fewer_lines(self):
        """Lines are taken away from each file: halves of it first, then smaller and smaller parts."""
        return any([self.fewer_of(name) for name in sorted(self.case.files)])

    def fewer_of(self, name):
        """Lines are taken away from one file."""
        smaller = False
        size = max(1, len(lines_of(self.case, name)) // 2)
        while size >= 1:
            smaller |= self.fewer_in_steps(name, size)
            size = size // 2
        return smaller

    def fewer_in_steps(self, name, size):
        """So many lines at once are taken away, from each place on where the case still differs."""
        smaller, at = False, 0
        while at < len(lines_of(self.case, name)) and not self.is_late():
            lines = lines_of(self.case, name)
            ending = [""] if lines[-1] == "" and at + size >= len(lines) else []
            if self.take(with_lines(self.case, name, lines[:at] + lines[at + size:] + ending)):
                smaller = True
            else:
                at += size
        return smaller

    def fewer_links(self):
        """A link is taken away from all files together, and nodes that no link names then."""
        names = [line.split()[1] for line in lines_of(self.case, first_name(self.case)) if line.startswith("link ") and line.count(" ") > 1]
        return any([self.take(without_link(self.case, name)) for name in names])

    def simpler_reports(self):
        """A report gets shorter, loses a point or gets a smaller number, and its rates with it."""
        return any([self.simpler_report(name) for name in sorted(self.case.files)])

    def simpler_report(self, name):
        """The report of one file becomes simpler as long as it can."""
        smaller, report = False, read_exactly(self.case.files[name])
        while report is not None and any(self.take(with_text(self.case, name, other.text())) for other in simpler(report)):
            smaller, report = True, read_exactly(self.case.files[name])
        return smaller

    def fewer_words(self):
        """An option is taken away, or a file that no word names."""
        smaller = False
        for count in (2, 1):
            for at in range(len(self.case.words) - 1, -1, -1):
                words = self.case.words[:at] + self.case.words[at + count:]
                smaller |= self.take(Case(words, self.case.files))
        for name in sorted(self.case.files):
            smaller |= self.take(Case(self.case.words, {other: text for other, text in self.case.files.items() if other != name}))
        return smaller

    def smaller_numbers(self):
        """A number becomes 0, 1 or 2, loses its denominator or its last digits: in a word of the command or of a line."""
        smaller = False
        for at in range(len(self.case.words)):
            smaller |= any(self.take(with_word(self.case, at, word)) for word in smaller_words(self.case.words[at]))
        for name in sorted(self.case.files):
            for row in range(len(lines_of(self.case, name))):
                smaller |= self.smaller_in_line(name, row)
        return smaller

    def smaller_in_line(self, name, row):
        """The numbers of one line become smaller."""
        smaller = False
        for column in range(1, len(words_at(self.case, name, row))):
            words = words_at(self.case, name, row)
            if column < len(words):
                smaller |= any(self.take(with_line(self.case, name, row, replaced(words, column, word))) for word in smaller_words(words[column]))
        return smaller

    def plainer_lines(self):
        """A line is written with single spaces and without what stands behind `#`."""
        smaller = False
        for name in sorted(self.case.files):
            for row, line in enumerate(lines_of(self.case, name)):
                plain = " ".join(line.split("#")[0].split())
                if plain != line:
                    smaller |= self.take(with_line(self.case, name, row, plain))
        return smaller

    def shorter_names(self):
        """A name of more than two characters becomes one of two."""
        text = b"\n".join(self.case.files.values())
        names = {word for word in re.findall(rb"[A-Za-z0-9_.-]{3,}", text) if not word.isdigit() and not word.isalpha()}
        free = [bytes([letter, digit]) for letter in b"abcdefgh" for digit in b"0123456789" if bytes([letter, digit]) not in text]
        return any([self.take(renamed(self.case, name, short)) for name, short in zip(sorted(names), free)])


def first_name(case):
    """The name of the file that has most `link` lines."""
    return max(sorted(case.files), key=lambda name: case.files[name].count(b"link "), default="")


def lines_of(case, name):
    """The lines of a file without their endings."""
    return case.files.get(name, b"").decode("latin-1").split("\n")


def words_at(case, name, row):
    """The words of a line, if the file still has so many lines."""
    lines = lines_of(case, name)
    return lines[row].split(" ") if row < len(lines) else []


def with_lines(case, name, lines):
    """The case with other lines in a file."""
    return with_text(case, name, "\n".join(lines).encode("latin-1"))


def with_text(case, name, text):
    """The case with another file of a name."""
    return Case(case.words, {**case.files, name: text})


def with_line(case, name, row, line):
    """The case with another line in a file."""
    lines = lines_of(case, name)
    lines[row] = line
    return with_lines(case, name, lines)


def with_word(case, at, word):
    """The case with another word in the command."""
    return Case(case.words[:at] + [word] + case.words[at + 1:], case.files)


def replaced(words, column, word):
    """A line with another word in a column."""
    return " ".join(words[:column] + [word] + words[column + 1:])


def smaller_words(word):
    """Words of smaller numbers than this one, the smallest first; `--name=value` keeps its name."""
    name, equals, value = word.partition("=")
    if equals and name.startswith("--"):
        return [f"{name}={smaller}" for smaller in smaller_words(value)]
    found = NUMBER.match(word)
    if not found or word in ("0", "1", "2"):
        return []
    sign, numerator, denominator = found.groups()
    shorter = [f"{sign}{numerator}"] if denominator else []
    if denominator and len(denominator) > 2:
        shorter.append(f"{sign}{numerator}/{denominator[1:1 + len(denominator) // 2]}")
    if len(numerator) > 1:
        shorter += [f"{sign}{numerator[:len(numerator) // 2]}{denominator or ''}", f"{sign}{numerator[:-1]}{denominator or ''}"]
    return ["0", "1", "2", *(["1/2"] if denominator and word != "1/2" else []), *shorter]


def without_link(case, link):
    """The case without a link, and without the nodes that nothing names then, in all files."""
    network = first_name(case)
    lines = [line for line in lines_of(case, network) if line.split()[:2] != ["link", link]]
    nodes = {word for line in lines for words in [line.split()] for word in words[1:4] if words[:1] != ["inflow"]}
    files = {network: "\n".join(lines).encode("latin-1")}
    for name in case.files:
        if name != network:
            files[name] = "\n".join(line for line in lines_of(case, name) if not is_of(line.split(), link, nodes)).encode("latin-1")
    return Case(case.words, {name: files[name] for name in case.files})


def is_of(words, link, nodes):
    """Whether a line of a second file is of a link, or of a node that isn't there."""
    if words[:1] == ["route"]:
        return link in words[2:]
    return len(words) > 1 and (words[0] in NAMED_LINKS and words[1] == link or words[0] in NAMED_NODES and words[1] not in nodes)


def renamed(case, name, short):
    """The case with a shorter word in place of a name, in all files."""
    pattern = re.compile(rb"(?<![A-Za-z0-9_.-])" + re.escape(name) + rb"(?![A-Za-z0-9_.-])")
    return Case(case.words, {file: pattern.sub(short, text) for file, text in case.files.items()})


def smallest(case, differs, seconds=300):
    """The smallest case found within so many seconds that still differs, and how many were tried."""
    shrinking = Shrinking(case, differs, seconds)
    return shrinking.smallest(), shrinking.tried
