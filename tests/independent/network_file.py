"""Reading a network file: the rules N1 to N22 in their order.

FORMATS.md, "The network file". What the rules ask for is a network of MODEL.md (`IsNetwork`, `ArePieces`) with names and
limits.
"""
from .exact import Passing, SLACK, ZERO, read_fraction, read_number
from .lines import Broken, body_lines, content_lines, is_name
from .network import Link, Network, least_transit_sums, reached_from

HEADS = [["nfot", "1"], ["nfot", "2"]]
COUNTS = {"source": [2], "sink": [2], "link": [6], "inflow": [3], "end": [1]}
MOST_NODES, MOST_LINKS, MOST_PIECES = 64, 200, 200
INF = "inf"


class Draft:
    """The parser's state: what the lines read so far say.

    Links are tuples of a name, the names of both ends, a transit time and a capacity.
    """

    def __init__(self, version):
        self.version = version
        self.ends = {}              # "source" and "sink" with their nodes
        self.names = set()          # of nodes
        self.links = []
        self.pieces = []


def read_network(text):
    """The network of a file's text; raises Broken with the first rule that the text breaks."""
    head, lines = content_lines(text, "N", HEADS)
    draft = Draft(version=head + 1)
    for line in body_lines(lines, "N", COUNTS, "N17"):
        rule = take_line(draft, line.words)
        if rule is not None:
            raise Broken(rule, line.number)
    rule = whole_file_rule(draft)
    if rule is not None:
        raise Broken(rule, 0)
    return numbered(draft)


def take_line(draft, words):
    """Reads a line; returns the lowest of the rules N7 to N16 that the line breaks, or None."""
    if words[0] == "link":
        return take_link(draft, *words[1:])
    if words[0] == "inflow":
        return take_inflow(draft, *words[1:])
    return take_end(draft, *words)


def take_end(draft, kind, node):
    """Reads a `source` or `sink` line: N7, N9, N10."""
    if not is_name(node):
        return "N7"
    if kind in draft.ends:
        return "N9"
    draft.ends[kind] = node
    return take_nodes(draft, [node])


def take_nodes(draft, nodes):
    """Adds names of nodes: N10."""
    draft.names.update(nodes)
    return "N10" if len(draft.names) > MOST_NODES else None


def take_link(draft, name, tail, head, transit_word, capacity_word):
    """Reads a `link` line: N7 to N11, N13, N14."""
    if not all(map(is_name, (name, tail, head))):
        return "N7"
    unbounded = draft.version == 2 and capacity_word == INF
    transit = read_word(draft, transit_word)
    capacity = None if unbounded else read_word(draft, capacity_word)
    if transit is None or (capacity is None and not unbounded):
        return "N8"
    if any(name == other[0] for other in draft.links):
        return "N9"
    rule = take_nodes(draft, [tail, head])
    if rule is not None:
        return rule
    if len(draft.links) == MOST_LINKS:
        return "N11"
    if transit < ZERO:
        return "N13"
    if capacity is not None and capacity <= ZERO:
        return "N14"
    draft.links.append((name, tail, head, transit, capacity))
    return None


def take_inflow(draft, start_word, rate_word):
    """Reads an `inflow` line: N8, N12, N15, N16."""
    start, rate = read_word(draft, start_word), read_word(draft, rate_word)
    if start is None or rate is None:
        return "N8"
    if len(draft.pieces) == MOST_PIECES:
        return "N12"
    if start < ZERO or rate < ZERO:
        return "N15"
    if draft.pieces and start <= draft.pieces[-1][0]:
        return "N16"
    draft.pieces.append((start, rate))
    return None


def read_word(draft, word):
    """The number of a word, or None. Only version 2 allows decimals."""
    return read_fraction(word) if draft.version == 1 else read_number(word)


def whole_file_rule(draft):
    """The first of the rules N18 to N22 that the file as a whole breaks, or None."""
    if len(draft.ends) < 2:
        return "N18"
    source, sink = draft.ends["source"], draft.ends["sink"]
    if source == sink:
        return "N19"
    reached = reached_nodes(draft)
    if (reached != draft.names) if draft.version == 1 else (sink not in reached):
        return "N20"
    if has_cycle([(tail, head) for _, tail, head, transit, _ in draft.links if transit == ZERO]):
        return "N21"
    hops = [(tail, head, transit) for _, tail, head, transit, _ in draft.links if tail in reached]
    if has_wide_sum(source, hops):
        return "N22"
    return None


def reached_nodes(draft):
    """The nodes to which a walk along links leads from the source."""
    return reached_from(draft.ends["source"], [(tail, head) for _, tail, head, _, _ in draft.links])


def has_cycle(pairs):
    """Whether some of these links, pairs of a tail and a head, form a cycle.

    A link whose head no link leaves is on no cycle. Such links are removed until none is left.
    """
    left = pairs
    while True:
        tails = {tail for tail, _ in left}
        kept = [(tail, head) for tail, head in left if head in tails]
        if len(kept) == len(left):
            return bool(left)
        left = kept


def has_wide_sum(source, hops):
    """Whether the sum of a hop's transit time and the least transit sum to its tail passes.

    A least transit sum beyond the bound breaks nothing.
    """
    least = least_transit_sums(source, hops)
    for tail, _, transit in hops:
        if least[tail].fits():
            try:
                SLACK.sum(least[tail], transit)
            except Passing:
                return True
    return False


def numbered(draft):
    """The network. Its nodes are the source, the sink, then the nodes of its links by first appearance; so are idle nodes.
    """
    source, sink = draft.ends["source"], draft.ends["sink"]
    reached = reached_nodes(draft)
    links = [link for link in draft.links if link[1] in reached]
    idle_links = [link for link in draft.links if link[1] not in reached]
    nodes = in_order([source, sink] + [node for link in links for node in link[1:3]])
    idle_nodes = in_order([node for link in idle_links for node in link[1:3] if node not in reached])
    number = {node: v for v, node in enumerate(nodes)}
    return Network(draft.version, nodes,
                   [Link(name, number[tail], number[head], transit, capacity)
                    for name, tail, head, transit, capacity in links],
                   draft.pieces, idle_nodes, idle_links)


def in_order(names):
    """Each name once, by first appearance."""
    return list(dict.fromkeys(names))
