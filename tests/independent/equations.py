"""The equations of a pattern, and their elimination.

LISTS.md, "The equations of a pattern" and the list Table.
"""
from .exact import ONE, TABLE, ZERO as NOTHING
from .patterns import FULL, TIGHT


class Equations:
    """A linear system with as many rows as unknowns.

    A row holds its entries other than 0 by their columns, and `right` holds the right sides.
    """

    def __init__(self):
        self.rows = []
        self.right = []

    def add(self, row, right):
        """Appends a row."""
        self.rows.append(row)
        self.right.append(right)


def equations(net, sets, rate, pattern):
    """The equations of a pattern (`Equations`, `Solves`), and the active links.

    The first columns are those of the nodes' slopes; those of the active links' flows follow.
    """
    active = [e for e in range(len(net.links)) if sets.active[e]]
    column = {e: len(net.nodes) + i for i, e in enumerate(active)}
    system = Equations()
    system.add({net.source: ONE}, ONE)
    for v in range(len(net.nodes)):
        if v != net.sink:
            system.add(conservation(net, v, active, column), rate if v == net.source else NOTHING)
    for e in active:
        full = sets.resetting[e] or pattern[e] == FULL
        system.add(link_equation(net.links[e], full, pattern[e] == TIGHT, column[e]), NOTHING)
    return system, active


def conservation(net, v, active, column):
    """The flow out of a node minus the flow into it. A link from a node to itself cancels."""
    row = {}
    for e in active:
        link = net.links[e]
        if link.tail != link.head and v in (link.tail, link.head):
            row[column[e]] = ONE if link.tail == v else -ONE
    return row


def link_equation(link, full, tight, flow_column):
    """The equation of an active link.

    On a resetting or Full link the flow is the capacity times the head's slope. A Tight link has equal slopes at its
    ends. On a Zero link the flow is 0.
    """
    if full:
        return {flow_column: ONE, link.head: -link.capacity}
    if tight:
        return {} if link.tail == link.head else {link.head: ONE, link.tail: -ONE}
    return {flow_column: ONE}


def eliminated(system):
    """The one solution of the equations, by Gauss-Jordan elimination, or None where there is not exactly one (the list
    Table)."""
    rows, right = system.rows, system.right
    pivots = []
    for column in range(len(rows)):
        holding = [r for r in range(len(rows)) if column in rows[r]]
        pivot = next((r for r in holding if r not in pivots), None)
        if pivot is None:
            return None
        pivots.append(pivot)
        later = sorted(c for c in rows[pivot] if c > column)
        for r in holding:
            if r != pivot:
                subtract_pivot(system, r, pivot, column, later)
    return [TABLE.quotient(right[pivot], rows[pivot][column]) for column, pivot in enumerate(pivots)]


def subtract_pivot(system, r, pivot, column, later):
    """Subtracts a multiple of the pivot's row from a row, so that the row's entry in the column becomes 0.

    `later` has the columns after it in which the pivot's row has an entry.
    """
    row, pivot_row = system.rows[r], system.rows[pivot]
    factor = TABLE.quotient(row.pop(column), pivot_row[column])
    for c in later:
        product = TABLE.product(factor, pivot_row[c])
        entry = TABLE.difference(row.pop(c, NOTHING), product)
        if entry != NOTHING:
            row[c] = entry
    if system.right[pivot] != NOTHING:
        product = TABLE.product(factor, system.right[pivot])
        system.right[r] = TABLE.difference(system.right[r], product)
