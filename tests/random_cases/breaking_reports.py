"""Reports that break one chosen rule of their reading, where they can."""
from .breaking import BAD_BYTES, swap_two
from .numerals import LARGEST, ODD_COUNTS, ODD_WORDS, chance
from .reports import CURVES, WITH_RATES

CAUSES = ["done", "done 1", "phases 1", "phases 01", "phases", "phases 1 1", "patterns 1 2", "patterns 1", "patterns 1 -", "patterns 3 4",
          "passed 1 slack - sum 1 2", "passed - slack - sum 1 2", "passed 1 slack 3 sum 1 2/4", "passed 1 x 3 sum 1 2", "passed x table 3 sum 1 2",
          "passed 1 quick 3 product -1/2 2", "passed 1 check 0 difference 0 0", "passed 0 load - quotient 1 0", "passed 1 load - plus 1 0",
          "passed 1 load - sum - 0", "nopattern 1", "nopattern", "nopattern 0", f"nopattern {2 ** 64}", f"nopattern {2 ** 64 - 1}", "x", "x 1 2 3",
          f"phases {2 ** 64}", "Done", "-", "x 1 2 3 4 5 6 7 8 9"]


def places_of(lines, keys):
    """The places of the lines that begin with one of the words."""
    return [i for i, line in enumerate(lines) if line.split(" ")[0] in keys]


def replaced(line, column, word):
    """The line with the word of a column replaced, if it has so many."""
    words = line.split(" ")
    if column < len(words):
        words[column] = word
    return " ".join(words)


def break_bytes(rng, lines, i):
    """A byte that no line may have."""
    lines[i] += rng.choice(BAD_BYTES)


def break_length(rng, lines, i):
    """A line of 1,001 bytes."""
    lines[i] += rng.choice([" ", "x", "#"]) * (1001 - len(lines[i]))


def break_spaces(rng, lines, i):
    """A line that is not its words joined by single spaces and ended by LF."""
    line = lines[i]
    lines[i] = rng.choice([line + " ", " " + line, line.replace(" ", "  ", 1), line.replace(" ", "\t", 1), line + " # note", "", line + "\r", "#"])


def break_head(rng, lines, i):
    """Another first line."""
    lines[0] = rng.choice(["report 1", "report 2", "report", "report 1 1", "report 01", "forever 1", "horizon 1"])


def break_key(rng, lines, i):
    """Another first word of a line, or first lines in another order."""
    if chance(rng, 0.4):
        swap_two(rng, lines, list(range(min(5, len(lines)))))
    else:
        lines[i] = replaced(lines[i], 0, rng.choice(["never", "cause", "Label", "exit", "horizon", "report", "labels", "end.", *CURVES]))


def break_count_of_words(rng, lines, i):
    """A word too many or too few."""
    words = lines[i].split(" ")
    if chance(rng, 0.5):
        words.insert(rng.randint(1, len(words)), rng.choice(["1", "-", "x"]))
    elif len(words) > 1:
        del words[rng.randrange(1, len(words))]
    lines[i] = " ".join(words)


def break_order(rng, lines, i):
    """A line in another place, doubled or gone."""
    kind, points = rng.randrange(6), places_of(lines, CURVES)
    states, never = places_of(lines, ["state"]), places_of(lines, ["never"])
    if kind == 0:
        swap_two(rng, lines, points)
    elif kind == 1:
        swap_two(rng, lines, states)
    elif kind == 2 and points:
        lines.insert(rng.randint(4, len(lines)), lines[rng.choice(points)])
    elif kind == 3 and states:
        lines.insert(rng.randint(4, len(lines)), lines[rng.choice(states)])
    elif kind == 4 and never:
        lines.insert(rng.randint(4, len(lines)), lines[rng.choice(never)])
    else:
        del lines[i]


def break_name(rng, lines, i):
    """Another name."""
    names = [line.split(" ")[1] for line in lines if line.count(" ") > 1]
    lines[i] = replaced(lines[i], 1, rng.choice(names + ["x", "s", "t"]))


def break_number(rng, lines, i):
    """A number that is none, is not in the printed form, or is at a limit."""
    lines[i] = replaced(lines[i], rng.randrange(2, 5), rng.choice(ODD_WORDS))


def break_cause(rng, lines, i):
    """Another cause, or an odd count in it."""
    if len(lines) > 3:
        lines[3] = f"cause {rng.choice(CAUSES)}"
        if chance(rng, 0.4):
            lines[3] = replaced(lines[3], rng.randint(1, 7), rng.choice(ODD_COUNTS))


def break_state(rng, lines, i):
    """Another state of a link."""
    states = places_of(lines, ["state"])
    if states:
        j = rng.choice(states)
        lines[j] = replaced(lines[j], 2, rng.choice(["full", "Tight", "x", "none", "zero", "tight"]))


def break_reach(rng, lines, i):
    """Another horizon or departure reached."""
    if len(lines) > 3:
        j = rng.choice([1, 2])
        lines[j] = replaced(lines[j], 1, rng.choice(["-1", "0", "1000", "1/7", str(LARGEST), "-1/2", "2/4", "-0"]))


def break_times(rng, lines, i):
    """Another time of a point."""
    lines[i] = replaced(lines[i], 2, rng.choice(["0", "1", "-1", "1/2", "1000"]))


def break_rates(rng, lines, i):
    """A rate on the last point, or none on another one; a point doubled or gone."""
    places = places_of(lines, WITH_RATES)
    if places:
        j, kind = rng.choice(places), rng.randrange(3)
        if kind == 0:
            lines[j] = replaced(lines[j], 4, rng.choice(["-", "0", "1"]))
        elif kind == 1:
            lines.insert(j, lines[j])
        else:
            del lines[j]


def break_end(rng, lines, i):
    """No `end`, or something behind it or before."""
    kind = rng.randrange(4)
    if kind == 0:
        del lines[-1]
    elif kind == 1:
        lines.append(rng.choice(["end", "x", "", "# x", "label s 0 0", "end 1", lines[i], "state e0 zero", "\x01"]))
    elif kind == 2:
        del lines[max(4, i):-1]
    else:
        lines.insert(i, rng.choice(["end", "state e0 tight", "state e0 x"]))


RULES = [break_bytes, break_length, break_spaces, break_head, break_key, break_count_of_words, break_order, break_order, break_name, break_number,
         break_number, break_cause, break_cause, break_state, break_reach, break_times, break_rates, break_end, break_end]


def break_report(rng, lines):
    """One of the rules is broken at some line, where it can be."""
    rng.choice(RULES)(rng, lines, rng.randrange(len(lines)))
