"""Where the crates of a room stand in its box: a column for each level, callees left of callers, and rows."""


def reduced(edges):
    """The edges, as node to set of nodes, that do not follow from others."""

    def reach(node, seen):
        for there in edges.get(node, ()):
            if there not in seen:
                seen.add(there)
                reach(there, seen)
        return seen

    out = {}
    for node, there in edges.items():
        further = set().union(*(reach(name, set()) for name in there)) if there else set()
        out[node] = there - further
    return out


def columns_of(edges):
    """Each node's column: one more than the last of what it leans on; what leans on nothing stands beside its first caller."""
    column = {}
    for node, there in edges.items():
        column[node] = 1 + max((column[name] for name in there), default=-1)
    for node, there in edges.items():
        callers = [column[name] for name, below in edges.items() if node in below]
        if not there and callers:
            column[node] = min(callers) - 1
    return column


def threads_of(edges, column):
    """The edges, each as the places that it passes: both ends, and a place in every column between."""
    threads = []
    for node, there in edges.items():
        for name in sorted(there, key=list(edges).index):
            between = [(name, node, k) for k in range(column[name] + 1, column[node])]
            threads.append([name, *between, node])
            column.update({place: place[2] for place in between})
    return threads


def rows_of(edges, column, threads):
    """Each place's row: that of what it leans on where it is free, else the next that is."""
    before = {}
    for thread in threads:
        for left, right in zip(thread, thread[1:]):
            before.setdefault(right, []).append(left)
    row, order = {}, list(edges)
    for k in range(1 + max(column.values(), default=-1)):
        taken = set()
        here = [place for place in column if column[place] == k]
        wish = {place: min((row[left] for left in before.get(place, ())), default=0) for place in here}
        for place in sorted(here, key=lambda p: (wish[p], isinstance(p, tuple), order.index(p) if p in order else 0)):
            row[place] = next(r for r in range(wish[place], wish[place] + 99) if r not in taken)
            taken.add(row[place])
    return row


def placed(edges):
    """The columns and rows of a room's crates, and its arrows as the places that they pass. Edges are in the list's order."""
    edges = reduced(edges)
    column = columns_of(edges)
    threads = threads_of(edges, column)
    return column, rows_of(edges, column, threads), threads
