"""The words of the command line. FORMATS.md, "The command line"."""
from .exact import ZERO, read_digits, read_fraction

USAGE = """nfot: usage
nfot solve NET --horizon Q [--phases N] [--patterns N]
nfot show NET
nfot load NET LOADS --horizon Q
nfot check NET REPORT
nfot quick NET --amount Q [--augments N]
nfot gen --number N --rungs N --horizon Q [--phases N] [--patterns N]
nfot settle NET FLOWS
nfot solve NET --forever [--phases N] [--patterns N]
nfot resume NET REPORT --horizon Q [--phases N] [--patterns N]
nfot routes NET ROUTES --horizon Q
"""
FLAG = "forever"
BUDGETS = ("phases", "patterns")


class Form:
    """A form of a command: its number of files, its options, and those that may be left out."""

    def __init__(self, command, files, options=(), optional=()):
        self.command = command
        self.files = files
        self.options = options
        self.optional = optional


FORMS = [
    Form("solve", 1, ("horizon",), BUDGETS),
    Form("show", 1),
    Form("load", 2, ("horizon",)),
    Form("check", 2),
    Form("quick", 1, ("amount",), ("augments",)),
    Form("gen", 0, ("number", "rungs", "horizon"), BUDGETS),
    Form("settle", 2),
    Form("solve", 1, (FLAG,), BUDGETS),
    Form("resume", 2, ("horizon",), BUDGETS),
    Form("routes", 2, ("horizon",)),
]
NUMBER_OPTIONS = ("horizon", "amount")
RANGES = {"phases": (1, 100000), "patterns": (1, 1000000), "augments": (1, 100000), "rungs": (1, 30),
          "number": (0, 2 ** 64 - 1)}


class Usage(Exception):
    """The words are no request."""


class Request:
    """What the words ask for: the command, the names of its files, and the values of its options."""

    def __init__(self, command, files, options):
        self.command = command
        self.files = files
        self.options = options


def read_request(words):
    """The request of the words behind the program's name; raises Usage."""
    positional, options = split_words(words)
    if not positional:
        raise Usage()
    command, files = positional[0], positional[1:]
    for form in FORMS:
        if form.command == command and len(files) == form.files and has_options(form, options):
            return Request(command, files, {name: option_value(name, word) for name, word in options.items()})
    raise Usage()


def has_options(form, options):
    """Whether the options are those of the form, with or without those that may be left out."""
    return all(name in options for name in form.options) and all(
        name in form.options or name in form.optional for name in options)


def split_words(words):
    """The positional words and the options with their words, as the library clap takes them; raises Usage.

    Options stand anywhere, as `--name value` or `--name=value`, each at most once. Behind a word `--` no word is an
    option. A word that begins with `-` and isn't `-` alone is an option. As a value it is taken only behind `=`.
    """
    positional, options = [], {}
    rest = list(words)
    while rest:
        word = rest.pop(0)
        if word == "--":
            return positional + rest, options
        if not word.startswith("-") or word == "-":
            positional.append(word)
            continue
        name, has_value, value = word[2:].partition("=")
        if not word.startswith("--") or name in options or name not in (FLAG, *NUMBER_OPTIONS, *RANGES):
            raise Usage()
        if name == FLAG:
            if has_value:
                raise Usage()
        elif not has_value:
            if not rest or (rest[0].startswith("-") and rest[0] != "-"):
                raise Usage()
            value = rest.pop(0)
        options[name] = value
    return positional, options


def option_value(name, word):
    """The value of an option's word; raises Usage where it is none."""
    if name == FLAG:
        return True
    if name in NUMBER_OPTIONS:
        value = read_fraction(word)
        if value is None or value < ZERO:
            raise Usage()
        return value
    value = read_digits(word)
    least, most = RANGES[name]
    if value is None or not least <= value <= most:
        raise Usage()
    return value
