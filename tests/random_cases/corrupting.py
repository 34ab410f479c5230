"""Files with lines, words or bytes changed at random, and other spellings of the same content."""
from fractions import Fraction

from .numerals import ODD_WORDS, chance

ODD_LINE_WORDS = ODD_WORDS + ["end", "a", "s", "t", "#", "full", "tight", "-", "done", "label", "e0", "w" * 24, "w" * 25, "", "never", "link"]
ODD_BYTES = ["\x00", "\x7f", "\xc3\xa9", "\x1f", "\x80", "\x0b", "\r "]


def corrupted(rng, text):
    """One to three changes of a file."""
    for _ in range(rng.randint(1, 3)):
        if chance(rng, 0.06):
            text = text[:rng.randrange(len(text) + 1)]
            continue
        lines = text.split(b"\n")
        rng.choice([changed_lines, changed_words, changed_words, changed_spelling])(rng, lines)
        text = b"\n".join(lines)
    return text


def changed_lines(rng, lines):
    """A line is taken away, doubled, moved or put in."""
    i, kind = rng.randrange(len(lines)), rng.randrange(4)
    j = rng.randrange(len(lines))
    if kind == 0:
        del lines[i]
    elif kind == 1:
        lines.insert(i, lines[j])
    elif kind == 2:
        lines[i], lines[j] = lines[j], lines[i]
    else:
        lines.insert(rng.choice([len(lines), max(0, len(lines) - 1), i]), rng.choice([b"end", b"x", b"", b"#", b"end end"]))


def changed_words(rng, lines):
    """A word is taken away, put in or replaced."""
    i, kind = rng.randrange(len(lines)), rng.randrange(5)
    words = lines[i].split(b" ")
    j = rng.randrange(len(words))
    odd = rng.choice(ODD_LINE_WORDS).encode("latin-1")
    if kind == 0:
        del words[j]
    elif kind == 1:
        words.insert(j, odd)
    else:
        words[j] = odd
    lines[i] = b" ".join(words)


def changed_spelling(rng, lines):
    """Spaces, endings, comments or bytes of a line change."""
    i = rng.randrange(len(lines))
    line = lines[i]
    lines[i] = rng.choice([line + b"\r", b" " + line, line + b" ", b"\t" + line, line.replace(b" ", b"  "), line + b" # note", b"", b"#",
                           line.replace(b" ", b"\t"), line + b"#", line + rng.choice(ODD_BYTES).encode("latin-1"),
                           line + b" " * (rng.choice([999, 1000, 1001]) - len(line))])


def respelled_number(rng, word):
    """Another word of the same number."""
    numerator, slash, denominator = word.partition("/")
    if chance(rng, 0.5) and len(word) < 30:
        factor = rng.choice([1, 2, 7, 10 ** 6])
        return f"{int(numerator) * factor}/{int(denominator or 1) * factor}"
    zeros = "0" * rng.choice([1, 3, 30, 300])
    if numerator.startswith("-"):
        return f"-{zeros}{numerator[1:]}{slash}{denominator}"
    return f"{zeros}{numerator}{slash}{denominator}"


def decimal_of(rng, word):
    """A decimal of the same number with up to 38 digits behind the point, or the word itself where it has none of at most eight."""
    value = Fraction(word)
    for digits in range(1, 9):
        if (value * 10 ** digits).denominator == 1:
            digits = rng.choice([digits, digits, digits + 1, 30, 38])
            whole, part = divmod(abs(value.numerator) * 10 ** digits // value.denominator, 10 ** digits)
            return f"{'-' if value < 0 else ''}{rng.choice(['', '', '0'])}{whole}.{part:0{digits}}"
    return word


def respelled(rng, text, number_columns):
    """The content of a file in other spaces, comments, endings and number words; columns tell by a line's first word where its numbers begin."""
    lines, spellings = [], [respelled_number, decimal_of] if text.startswith(b"nfot 2") else [respelled_number]
    for line in text.decode("latin-1").splitlines():
        words = line.split(" ")
        for i in range(number_columns.get(words[0], len(words)), len(words)):
            if chance(rng, 0.4) and words[i].strip("-").replace("/", "").isdigit():
                words[i] = rng.choice(spellings)(rng, words[i])
        if chance(rng, 0.3):
            lines.append(rng.choice(["", "   ", "\t", "#", "# x y z", " \t# nfot 1", "#" * 1000, " " * 1000]))
        separator = rng.choice([" ", " ", "\t", "  ", " \t "])
        lines.append(rng.choice(["", "", " ", "\t"]) + separator.join(words) + rng.choice(["", " ", "\t", "#", " # note", "#end"]))
    ending = rng.choice(["\n", "\r\n"])
    text = ending.join(lines) + rng.choice([ending, ending, ""])
    return text.encode("latin-1")


def with_odd_end(rng, text):
    """The file with something behind its last line."""
    return text + rng.choice([b"\r", b"\r\r\n", b"\n", b"\x00", b"\xa0", b"\n\n#\n", b"\nend\n", b" end", b"\n#" + b"x" * 999, b"\n#" + b"x" * 1000])
