"""Reading loads, routes and flows files, by the rules L1 to L12, G1 to G17 and S1 to S11 of docs/FORMATS.md."""
from __future__ import annotations

from fractions import Fraction
from typing import Callable, Dict, Iterator, List, Optional, Sequence, Tuple, TypeVar

from .faults import Refused
from .given import Net, as_network
from .lines import PathLike, Text, as_bytes, broken, content_words, is_name, read_bytes, shown_name, split_lines
from .loading import Piece
from .near import near
from .networks import Network
from .numbers import file_number, hint, short
from .routing import in_order, walk_fault

MOST_ROUTES, MOST_PIECES = 100, 200
WORDS = {"rate": (4, 4), "flow": (3, 3), "slope": (3, 3), "route": (3, 1000), "end": (1, 1)}  # at least, at most

Loads = Dict[str, List[Piece]]
Routes = Dict[str, Tuple[List[str], List[Piece]]]
Values = Dict[str, Fraction]
Made = TypeVar("Made")


def lines_of(data: bytes, kind: str, letter: str, firsts: Sequence[str], last: str) -> Iterator[Tuple[int, List[str]]]:
    """The lines with words between the first one and `end`, by the rules 1 to 6 of the letter; `last` is the rule of a missing `end`."""
    lines, _ = split_lines(data, letter)
    content = [(number, words) for number, line in enumerate(lines, 1) if (words := content_words(line))]
    if not content or content[0][1] != [kind, "1"]:
        raise broken(f"{letter}3", f"the first line with words isn't `{kind} 1`", content[0][0] if content else 1)
    ended = False
    for number, words in content[1:]:
        if ended:
            raise broken(f"{letter}4", f"a line `{words[0][:40]}` stands after `end`", number)
        if words[0] not in (*firsts, "end"):
            raise broken(f"{letter}5", f"{words[0][:40]} begins no line of a {kind} file: {', '.join(firsts)} and end do", number)
        least, most = WORDS[words[0]]
        if not least <= len(words) <= most:
            raise broken(f"{letter}6", f"the line has {len(words)} words, and a line `{words[0]}` has {least}{' or more' * (most > least)}", number)
        ended = words[0] == "end"
        if not ended:
            yield number, words
    if not ended:
        raise broken(last, "there is no line `end`: is the file cut?")


def number_of(word: str, rule: str, line: int) -> Fraction:
    """The number of a word; Refused by the rule."""
    number = file_number(word, False)
    if number is None:
        raise broken(rule, f"{word[:40]} is no number: {hint(word)}", line)
    return number


def add_piece(pieces: List[Piece], words: Sequence[str], rules: Sequence[str], line: int) -> None:
    """Takes the start and the rate of a line; `rules` are those of numbers, of signs, of the order and of how many there are."""
    start, rate = number_of(words[2], rules[0], line), number_of(words[3], rules[0], line)
    if start < 0 or rate < 0:
        raise broken(rules[1], f"the rate {short(rate)} from {short(start)} on has a negative number", line)
    if pieces and start <= pieces[-1][0]:
        raise broken(rules[2], f"start {short(start)} isn't above the start before it, {short(pieces[-1][0])}", line)
    if len(pieces) == MOST_PIECES:
        raise broken(rules[3], f"it is rate {MOST_PIECES + 1} of {words[1]}, and {MOST_PIECES} are allowed (report_of_flows takes any number)", line)
    pieces.append((start, rate))


def loads_of(text: Text, net: Network) -> Loads:
    """The pieces (start, rate) by link of the text of a loads file; Refused by L1 to L12."""
    loads: Loads = {link.name: [] for link in net.used_links()}
    for line, words in lines_of(as_bytes(text), "loads", "L", ["rate"], "L12"):
        if words[1] not in loads:
            raise broken("L7", f"the network has no link {words[1][:40]} whose tail is reached{near(words[1], loads)}", line)
        add_piece(loads[words[1]], words, ("L8", "L9", "L10", "L11"), line)
    return {name: pieces for name, pieces in loads.items() if pieces}


def routes_of(text: Text, net: Network) -> Routes:
    """The links and the pieces (start, rate) of each route of the text of a routes file; Refused by G1 to G17."""
    routes: Routes = {}
    for line, words in lines_of(as_bytes(text), "routes", "G", ["route", "rate"], "G16"):
        if words[0] == "route":
            add_route(routes, words[1], words[2:], net, line)
        elif words[1] not in routes:
            raise broken("G8", f"no line above is of a route {words[1][:40]}{near(words[1], routes)}", line)
        else:
            add_piece(routes[words[1]][1], words, ("G9", "G13", "G14", "G15"), line)
    in_order([links for links, _ in routes.values()])
    return routes


def add_route(routes: Routes, name: str, links: List[str], net: Network, line: int) -> None:
    """Takes a route; Refused by G7 to G12."""
    used = {link.name for link in net.used_links()}
    unknown = [link for link in links if link not in used]
    if not is_name(name):
        raise broken("G7", f"{name[:40]} is no name of a route", line)
    if unknown:
        raise broken("G8", f"the network has no link {unknown[0][:40]} whose tail is reached{near(unknown[0], used)}", line)
    if name in routes:
        raise broken("G10", f"there are two routes {name}", line)
    if len(routes) == MOST_ROUTES:
        raise broken("G11", f"it is route {MOST_ROUTES + 1}, and {MOST_ROUTES} are allowed", line)
    why = walk_fault(net, links)
    if why:
        raise broken("G12", f"route {name} {why}", line)
    routes[name] = (links, [])


def flows_of(text: Text, net: Network) -> Tuple[Values, Values]:
    """The flows of links and the slopes of nodes of the text of a flows file, as far as they are named; Refused by S1 to S11."""
    names = {"flow": {link.name for link in net.used_links()}, "slope": set(net.nodes())}
    values: Dict[str, Values] = {"flow": {}, "slope": {}}
    for line, (first, name, word) in lines_of(as_bytes(text), "flows", "S", ["flow", "slope"], "S11"):
        if name not in names[first]:
            raise broken("S7", f"the network has no {'link' if first == 'flow' else 'node'} {name[:40]} that is reached{near(name, names[first])}", line)
        number = number_of(word, "S8", line)
        if number < 0:
            raise broken("S9", f"the {first} of {name} is negative", line)
        if name in values[first]:
            raise broken("S10", f"there are two lines `{first} {name}`", line)
        values[first][name] = number
    return values["flow"], values["slope"]


def _read(reader: Callable[[Text, Network], Made], path: PathLike, net: Net, data: Optional[bytes] = None) -> Made:
    """What a reader makes of a file, or of its bytes; faults name the file."""
    network = as_network(net)
    try:
        return reader(read_bytes(path) if data is None else data, network)
    except Refused as fault:
        raise fault.placed(shown_name(path)) from None


def read_loads(path: PathLike, net: Net) -> Loads:
    """The pieces (start, rate) by link of a loads file; `-` is standard input."""
    return _read(loads_of, path, net)


def read_routes(path: PathLike, net: Net) -> Routes:
    """The routes of a routes file; `-` is standard input."""
    return _read(routes_of, path, net)


def read_flows(path: PathLike, net: Net) -> Tuple[Values, Values]:
    """Flows of links and slopes of nodes of a flows file; `-` is standard input."""
    return _read(flows_of, path, net)


def read_sent(path: PathLike, net: Net) -> Tuple[Loads, Routes]:
    """The loads of a loads file, or the routes of a routes file, whichever it is; the other one is empty. `-` is standard input."""
    data = read_bytes(path)
    words = [words for line in data.decode("ascii", "replace").splitlines() if (words := content_words(line))]
    if words[:1] == [["routes", "1"]]:
        return {}, _read(routes_of, path, net, data)
    return _read(loads_of, path, net, data), {}
