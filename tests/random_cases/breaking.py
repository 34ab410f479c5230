"""Network, loads, flows and routes files that break one chosen rule, or several at once.

Each call takes the lines of a file and changes them where it can; what else the lines break is left to chance.
"""
from .numerals import LARGEST, chance

BAD_BYTES = ["\x00", "\x7f", "\r ", "\x0b", "\xe9"]
NO_NUMBERS = ["x", "1/0", "+1", "1/", "/1", "-", str(LARGEST + 1), "1/-2", "--1", "1e3", "1.2.3", "inf"]
NEGATIVE = ["-1", f"-1/{LARGEST}", "-1/2"]
# Words that break a rule, by the column of a link line.
WRONG_WORDS = {
    1: ["a!", "x" * 25, "e0"],
    2: ["a!", "y" * 25],
    3: ["a!", "y" * 25],
    4: [*NEGATIVE, "x", "1/0"],
    5: [*NEGATIVE, "0", "x", "1/0"],
}


def lines_with(lines, key):
    """The places of the lines that begin with a word."""
    return [i for i, line in enumerate(lines) if line.split(" ")[0] == key]


def put_word(rng, lines, key, column, choices):
    """In some line of a key the word of a column is replaced."""
    places = lines_with(lines, key)
    if places:
        i = rng.choice(places)
        words = lines[i].split(" ")
        if column < len(words):
            words[column] = rng.choice(choices)
            lines[i] = " ".join(words)


def break_shared(rng, lines, head, keys):
    """A rule that files of all kinds have: bytes, length of a line, first line, `end`, first words, number of words."""
    i, kind = rng.randrange(len(lines)), rng.randrange(6)
    if kind == 0:
        lines[i] += rng.choice(BAD_BYTES)
    elif kind == 1:
        lines[i] += rng.choice([" ", "#"]) * (1001 - len(lines[i]))
    elif kind == 2:
        lines[0] = rng.choice([f"{head} 3", head, f"{head} 1 1", "#", lines[-1], lines[min(1, len(lines) - 1)]])
    elif kind == 3:
        lines.insert(rng.randint(len(lines) - 1, len(lines)), rng.choice(["end", "x", lines[i]]))
        lines.append("end")
    elif kind == 4:
        lines.insert(rng.randint(1, len(lines)), rng.choice(["rates e0 0 1", f"{head} 1", keys[0].capitalize(), "."]))
    else:
        lines[i] = rng.choice([lines[i] + " 1", lines[i].rsplit(" ", 1)[0], rng.choice(keys), "end 1"])


def drop_end(rng, lines):
    """There is no `end` line."""
    del lines[rng.choice([len(lines) - 1, len(lines) - 1, rng.randrange(len(lines))]):]


def break_network(rng, lines):
    """One of the rules of network files is broken, where it can be."""
    rule = rng.randint(1, 14)
    if rule == 1:
        break_shared(rng, lines, "nfot", ["source", "sink", "link", "inflow"])
    elif rule == 2:
        put_word(rng, lines, rng.choice(["link", "source", "sink"]), rng.choice([1, 2, 3]), ["x" * 25, "a!", "a/b", "\xe9", "a,b"])
    elif rule == 3:
        put_word(rng, lines, rng.choice(["link", "inflow"]), rng.choice([1, 2, 4, 5]), NO_NUMBERS)
    elif rule == 4:
        lines.insert(rng.randint(1, len(lines)), rng.choice([line for line in lines if line.split(" ")[0] in ("source", "sink", "link")] or lines))
    elif rule == 5:
        put_word(rng, lines, "link", 4, NEGATIVE)
    elif rule == 6:
        put_word(rng, lines, "link", 5, ["0", "-0", "0/5", "-1", "-1/2"])
    elif rule == 7:
        put_word(rng, lines, "inflow", rng.choice([1, 2]), NEGATIVE)
    elif rule == 8:
        swap_two(rng, lines, lines_with(lines, "inflow"))
    elif rule == 9:
        drop_end(rng, lines)
    elif rule == 10:
        del lines[rng.choice(lines_with(lines, "source") + lines_with(lines, "sink") or [0])]
    elif rule == 11:
        ends = [lines[i].split(" ")[-1] for i in lines_with(lines, "source") + lines_with(lines, "sink")]
        put_word(rng, lines, rng.choice(["source", "sink"]), 1, ends + ["n0", "new"])
    elif rule == 12:
        lines.insert(max(0, len(lines) - 1), rng.choice(["link far1 q1 q2 1 1", "link far2 q1 t 1 1", "link far3 t q1 0 1"]))
    elif rule == 13:
        put_word(rng, lines, "link", 4, ["0"])
        lines.insert(max(0, len(lines) - 1), rng.choice(["link zero1 t s 0 1", "link zero2 s s 0 1", "link zero3 n0 s 0 1", "link zero4 t t 0 2"]))
    else:
        for _ in range(rng.randint(1, 3)):
            put_word(rng, lines, "link", 4, [str(LARGEST), f"{LARGEST}/2", f"1/{LARGEST}", str(LARGEST - 1)])


def swap_two(rng, lines, places):
    """Two lines change places."""
    if len(places) > 1:
        i, j = rng.sample(places, 2)
        lines[i], lines[j] = lines[j], lines[i]


def break_twice_on_a_line(rng, lines):
    """One line of a network file breaks two or more of the rules of its names and numbers."""
    names = ["e0", "a", "a!", "x" * 25, "new"]
    nodes = ["s", "t", "n0", "new1", "y" * 25]
    numbers = ["1", "1", "-1", "-1/2", "0", "x", "0.5", "1/0", str(LARGEST + 1), "inf"]
    link = f"link {rng.choice(names)} {rng.choice(nodes)} {rng.choice(nodes)} {rng.choice(numbers)} {rng.choice(numbers)}"
    inflow = f"inflow {rng.choice(numbers)} {rng.choice(numbers)}"
    at = rng.randint(1, max(1, len(lines) - 1))
    lines.insert(at, rng.choice([link, link, inflow]))
    if chance(rng, 0.2):
        lines[at] += rng.choice([" 1", " #", " \x01", "#\x02", " " * 1001])


def break_two_words(rng, lines):
    """Two words of a link line break a rule each, half of the time those of its two numbers."""
    places = lines_with(lines, "link")
    if places:
        i = rng.choice(places)
        words = lines[i].split(" ")
        for column in (4, 5) if chance(rng, 0.5) else rng.sample(range(1, 6), 2):
            if column < len(words):
                words[column] = rng.choice(WRONG_WORDS[column])
        lines[i] = " ".join(words)


def break_pieces(rng, lines, key, name_column, names, idle):
    """A rule of named pieces (name, start, rate) is broken."""
    kind = rng.randrange(5)
    if kind == 0:
        put_word(rng, lines, key, name_column, ["x", "E0", "e00", "e-1", "w" * 25, "end"] + idle)
    elif kind == 1:
        put_word(rng, lines, key, rng.choice([2, 3]), NO_NUMBERS + ["0.5"])
    elif kind == 2:
        put_word(rng, lines, key, rng.choice([2, 3]), NEGATIVE)
    elif kind == 3:
        doubled_start(rng, lines, key)
    else:
        name = rng.choice(names)
        lines[-1:] = [f"{key} {name} {1000 + k} {k % 3}" for k in range(rng.choice([199, 200, 201]))] + ["end"]


def doubled_start(rng, lines, key):
    """A second line of the same name has no later start."""
    places = lines_with(lines, key)
    if places:
        i = rng.choice(places)
        words = lines[i].split(" ")
        if len(words) == 4:
            lines.insert(i + 1, f"{key} {words[1]} {rng.choice([words[2], '0'])} 1")


def break_loads(rng, lines, names, idle):
    """One of the rules of loads files is broken, where it can be."""
    kind = rng.random()
    if kind < 0.3:
        break_shared(rng, lines, "loads", ["rate"])
    elif kind < 0.9:
        break_pieces(rng, lines, "rate", 1, names, idle)
    else:
        drop_end(rng, lines)


def break_flows(rng, lines, nodes, idle):
    """One of the rules of flows files is broken, where it can be."""
    kind, key = rng.randrange(6), rng.choice(["flow", "slope"])
    places = lines_with(lines, key)
    if kind == 0:
        break_shared(rng, lines, "flows", ["flow", "slope"])
    elif kind == 1:
        put_word(rng, lines, key, 1, ["x", "e0", "s", "t"] + nodes[2:] + idle)
    elif kind == 2:
        put_word(rng, lines, key, 2, NO_NUMBERS + ["0.5"])
    elif kind == 3:
        put_word(rng, lines, key, 2, NEGATIVE)
    elif kind == 4 and places:
        lines.insert(rng.randint(1, len(lines)), lines[rng.choice(places)])
    else:
        drop_end(rng, lines)


def break_routes(rng, lines, names, idle):
    """One of the rules of routes files is broken, where it can be."""
    kind = rng.randrange(12)
    if kind == 0:
        break_shared(rng, lines, "routes", ["route", "rate"])
    elif kind == 1:
        put_word(rng, lines, "route", 1, ["x" * 25, "r!", "r1", "\xe9"])
    elif kind == 2:
        put_word(rng, lines, "route", rng.choice([2, 3, 4]), ["x", "e00"] + names + idle)
    elif kind == 3:
        put_word(rng, lines, "rate", 1, ["r9", "R0"])
    elif kind == 4 and lines_with(lines, "route"):
        lines.insert(rng.randint(1, len(lines)), lines[rng.choice(lines_with(lines, "route"))])
    elif kind == 5:
        routes = lines_with(lines, "route")
        links = lines[routes[0]].split(" ", 2)[2] if routes else names[0]
        lines[1:1] = [f"route k{i} {links}" for i in range(rng.choice([97, 98, 99, 100, 101]))]
    elif kind == 6:
        drop_end(rng, lines)
    elif kind == 7:
        swap_two(rng, lines, list(range(1, len(lines))))
    else:
        break_pieces(rng, lines, "rate", 1, ["r0", "r1"], idle)
