"""A case: the words of a command and its files; and the ways in which words may be spelled."""
from __future__ import annotations

from dataclasses import dataclass, field
from typing import Optional

from .numerals import LARGEST, ODD_COUNTS, ODD_WORDS, chance

ODD_OPTIONS = ["--", "-", "-x", "-1", "--help", "-h", "--horizon", "--phases=3", "--=1", "---", "--forever", "--forever=", "--no-forever",
               "N", "", "--amount", "--horizon=2", "--version", "--hor=2", "--Horizon=1", "- ", "-=", "\u00e9", "--\u00e9=1", "--horizon=",
               "\udcff", "--amount=\udcc3"]
ODD_COMMANDS = ["Solve", "", "help", "solve ", "so", "-", "\u00e9", "SHOW"]
ODD_NAMES = ["-", "a b", "x" * 255, "\u00e9", "\u00f1\u2603", "N\n", "=", "solve", "#", "\"", "'", " "]


@dataclass
class Case:
    """The words after the program's name, and the bytes of each file by its name."""
    words: list
    files: dict = field(default_factory=dict)


@dataclass
class Call:
    """A command with its files and its options, before it is spelled. An option of value None is a flag."""
    command: str
    options: list
    files: dict

    def value_of(self, name: str) -> Optional[object]:
        """The value of an option, None if there is none."""
        return dict(self.options).get(name)

    def with_value(self, name: str, value: object) -> Call:
        """The call with another value of an option that it has."""
        return Call(self.command, [(option, value if option == name else old) for option, old in self.options], self.files)

    def in_plain_words(self):
        """The words in one order, each option as two words."""
        words = [self.command, *self.files]
        for name, value in self.options:
            words += [f"--{name}"] if value is None else [f"--{name}", str(value)]
        return Case(words, self.files)


def groups_of(rng, call):
    """The words of the call: options in one word or in two, then positional words."""
    options = []
    for name, value in call.options:
        if value is None:
            options.append([f"--{name}"])
        elif chance(rng, 0.5):
            options.append([f"--{name}={value}"])
        else:
            options.append([f"--{name}", str(value)])
    return options, [[word] for word in (call.command, *call.files)]


def in_any_order(rng, call):
    """Options before, between and behind the positional words."""
    options, positional = groups_of(rng, call)
    rng.shuffle(options)
    for option in options:
        positional.insert(rng.randint(0, len(positional)), option)
    if chance(rng, 0.15):
        positional.insert(rng.randint(0, len(positional)), ["--"])
    return Case([word for group in positional for word in group], call.files)


def with_odd_words(rng, case):
    """The words with one changed, added or taken away."""
    words, kind = list(case.words), rng.randrange(7)
    at = rng.randrange(len(words))
    if kind == 0:
        del words[at]
    elif kind == 1:
        words.insert(at, rng.choice(ODD_OPTIONS))
    elif kind == 2:
        words.append(rng.choice(ODD_OPTIONS))
    elif kind == 3:
        words[at] = rng.choice(ODD_WORDS + ODD_COUNTS + [" 3", "3 ", "\u0663", "3\u00a0", "0" * 5000 + "3"])
    elif kind == 4:
        words[0] = rng.choice(ODD_COMMANDS)
    elif kind == 5:
        words.insert(at, words[rng.randrange(len(words))])
    else:
        rng.shuffle(words)
    return Case(words, case.files)


def with_odd_value(rng, call):
    """The call with the value of one option at a limit or no value at all."""
    limits = {"phases": ["1", "100000", "100001", "0"], "patterns": ["1", "1000000", "1000001", "0"], "augments": ["1", "100000", "100001", "0"],
              "rungs": ["0", "1", "31"], "number": [str(2 ** 64 - 1), str(2 ** 64), "1" * 40, "0" * 40]}
    at = rng.choice([i for i, (_, value) in enumerate(call.options) if value is not None] or [None])
    if at is None:
        return call
    name, options = call.options[at][0], list(call.options)
    odd = ODD_WORDS + [str(LARGEST), "3.0", "1/0", "-1"] if name in ("horizon", "amount") else limits[name] * 3 + ODD_COUNTS
    options[at] = (name, rng.choice(odd))
    return Call(call.command, options, call.files)


def with_odd_names(rng, call):
    """The call with another name for one of its files, or with one file that isn't there."""
    if not call.files:
        return call
    old = rng.choice(sorted(call.files))
    if chance(rng, 0.4):
        return Call(call.command, call.options, {name: None if name == old else text for name, text in call.files.items()})
    new = rng.choice(ODD_NAMES)
    return Call(call.command, call.options, {new if name == old else name: text for name, text in call.files.items()})


def spelled(rng, call):
    """The call in words: mostly plain, at times in any order or with something odd."""
    kind = rng.random()
    if kind < 0.03:
        call = with_odd_value(rng, call)
    elif kind < 0.05:
        call = with_odd_names(rng, call)
    case = in_any_order(rng, call) if chance(rng, 0.3) else call.in_plain_words()
    case.files = {name: text for name, text in case.files.items() if text is not None}
    return with_odd_words(rng, case) if chance(rng, 0.03) else case
