"""Lines and words of a text, and what all files share.

FORMATS.md, "Lines, words, numbers" and the first rules of each file.
"""
ALLOWED = frozenset([9, *range(32, 127)])
LONGEST_LINE = 1000
NAME_CHARACTERS = frozenset("ABCDEFGHIJKLMNOPQRSTUVWXYZabcdefghijklmnopqrstuvwxyz0123456789_-.")


class Broken(Exception):
    """A file breaks a rule: the rule's name, and the line, which is 0 for a rule about the file as a whole."""

    def __init__(self, rule, line):
        super().__init__(rule, line)
        self.rule = rule
        self.line = line


class Line:
    """A line: its number from 1, its words, and whether it is plain.

    A plain line is its words joined by single spaces and ended by LF.
    """

    def __init__(self, number, words, plain):
        self.number = number
        self.words = words
        self.plain = plain


def read_lines(text, letter):
    """The lines of a text. Rules 1 and 2 of the file's letter: allowed bytes, and at most 1,000 of them."""
    pieces = text.split(b"\n")
    last = pieces.pop()
    raw_lines = [(piece, True) for piece in pieces]
    if last:
        raw_lines.append((last, False))
    return [read_line(number, raw, ended, letter) for number, (raw, ended) in enumerate(raw_lines, 1)]


def read_line(number, raw, ended, letter):
    """One line. A CR right before LF belongs to the ending; `#` and all that follows it is a comment."""
    returned = ended and raw.endswith(b"\r")
    body = raw[:-1] if returned else raw
    if not ALLOWED.issuperset(body):
        raise Broken(letter + "1", number)
    if len(body) > LONGEST_LINE:
        raise Broken(letter + "2", number)
    content = body.decode("ascii")
    words = content.partition("#")[0].replace("\t", " ").split()
    plain = ended and not returned and " ".join(words) == content
    return Line(number, words, plain)


def content_lines(text, letter, heads):
    """The place of the first content line among the heads, and the content lines behind it.

    Rule 3: the first content line is one of the heads, each of which is a list of words.
    """
    content = [line for line in read_lines(text, letter) if line.words]
    if not content:
        raise Broken(letter + "3", 1)
    if content[0].words not in heads:
        raise Broken(letter + "3", content[0].number)
    return heads.index(content[0].words), content[1:]


def body_lines(lines, letter, counts, end_rule):
    """Yields the lines before `end`; `counts` has the allowed numbers of words by first word.

    Rule 4: nothing stands after `end`. Rule 5: the first word is one of `counts`. Rule 6: the line has as many words.
    `end_rule` is that of a missing `end`, and comes last. The caller tests the later rules of a line before it takes the
    next one, so that the lowest line is refused.
    """
    ended = False
    for line in lines:
        first = line.words[0]
        if ended:
            raise Broken(letter + "4", line.number)
        if first not in counts:
            raise Broken(letter + "5", line.number)
        if len(line.words) not in counts[first]:
            raise Broken(letter + "6", line.number)
        if first == "end":
            ended = True
        else:
            yield line
    if not ended:
        raise Broken(end_rule, 0)


def is_name(word):
    """Whether the word is a name: 1 to 24 of the allowed characters."""
    return 1 <= len(word) <= 24 and NAME_CHARACTERS.issuperset(word)


def joined(lines):
    """The text of printed lines: each ends with LF."""
    return "".join(line + "\n" for line in lines).encode()
