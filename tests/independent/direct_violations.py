"""What the definitions give at the time of a violation that `check` answers. Each function returns pairs of left and right.
"""
from .direct import plain, supply, value


def is_explained(direct, violation):
    """Whether left is the report's value, right is that of the definitions, and they differ.

    Violations of C1 and C2 need no definition.
    """
    time, left, right = plain(violation.time), plain(violation.left), plain(violation.right)
    if left == right:
        return False
    if violation.rule in NODE_RULES:
        return (left, right) in NODE_RULES[violation.rule](direct, direct.net.node_number[violation.subject], time)
    if violation.rule in LINK_RULES:
        return (left, right) in LINK_RULES[violation.rule](direct, direct.net.link_number[violation.subject], time)
    return True


def label_values(direct, v, time):
    """C3: the printed label, and the least exit over the links into the node, entered at their tails' printed labels."""
    if v == direct.net.source:
        right = time
    else:
        right = min(direct.links[e].exit(value(direct.labels[direct.links[e].tail], time)) for e in direct.net.into[v])
    return [(value(direct.labels[v], time), right)]


def outflow_values(direct, e, time):
    """C4: the printed outflow, and that of the inflow."""
    return [(value(direct.outflows[e][0], time), direct.links[e].outflow(time))]


def queue_values(direct, e, time):
    """C5: the printed queue, and that of the inflow."""
    return [(value(direct.queues[e], time), direct.links[e].queue(time))]


def amounts(direct, v, time):
    """What has left the links into a node, and what has entered the links out of it."""
    return (sum(direct.links[e].outflow(time) for e in direct.net.into[v]),
            sum(direct.links[e].entered(time) for e in direct.net.out_of[v]))


def balance_values(direct, v, time):
    """C6: both amounts, with the supply at the source."""
    come, gone = amounts(direct, v, time)
    return [(come + (supply(direct.pieces, time) if v == direct.net.source else 0), gone)]


def sink_values(direct, sink, time):
    """C7: both amounts at the time itself, or both at the sink's printed label for that departure, with its supply."""
    come, gone = amounts(direct, sink, value(direct.labels[sink], time))
    return [amounts(direct, sink, time), (come, gone + supply(direct.pieces, time))]


def detour_values(direct, e, time):
    """C8: the link's exit at its tail's printed label, and its head's printed label."""
    link = direct.links[e]
    return [(link.exit(value(direct.labels[link.tail], time)), value(direct.labels[link.head], time))]


NODE_RULES = {"C3": label_values, "C6": balance_values, "C7": sink_values}
LINK_RULES = {"C4": outflow_values, "C5": queue_values, "C8": detour_values}
