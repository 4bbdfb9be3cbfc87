"""Where the crates stand in layers.svg: what a crate rests on stands lower, few lines cross, and none runs behind a crate.

A node is a crate's name, or a joint (name, level): the place at which all lines down to that crate pass a row between."""

ACROSS = 18


def below(rests, name):
    """All that a crate rests on, through others too."""
    return set(rests[name]).union(*(below(rests, other) for other in rests[name]))


def nearest(rests):
    """Of what each crate rests on, that which it does not rest on through another one too."""
    return {name: [other for other in others if not any(other in below(rests, third) for third in others if third != other)] for name, others in rests.items()}


def levels(near):
    """A crate stands over all that it rests on; where more rest on it than it rests on, as high as these allow."""
    level = {}

    def height(name):
        if name not in level:
            level[name] = 1 + max((height(other) for other in near[name]), default=-1)
        return level[name]

    for name in sorted(near, key=height, reverse=True):
        users = [level[other] for other in near if name in near[other]]
        if len(users) > len(near[name]):
            level[name] = min(users) - 1
    return level


def joined(near, level):
    """node -> the nodes of the next row below that its lines lead to."""
    down = {}

    def lead(node, at, other):
        end = other if level[other] == at - 1 else (other, at - 1)
        if end not in down.setdefault(node, []):
            down[node].append(end)
        if end != other:
            lead(end, at - 1, other)

    for name in near:
        down.setdefault(name, [])
        for other in near[name]:
            lead(name, level[name], other)
    return down


def crossings(rows, down):
    count = 0
    for row, lower in zip(rows[1:], rows):
        place = {node: i for i, node in enumerate(lower)}
        ends = [sorted(place[other] for other in down[node]) for node in row]
        for i, left in enumerate(ends):
            count += sum(1 for right in ends[i + 1:] for a in left for b in right if a > b)
    return count


def ordered(rows, down):
    """The rows, each ordered by the middle of what its nodes lead to, and by what leads to them, in turns; the order with the fewest crossings."""
    up = {}
    for node, ends in down.items():
        for end in ends:
            up.setdefault(end, []).append(node)

    def sort(row, beside, ends):
        place = {node: i for i, node in enumerate(beside)}
        at = {node: i for i, node in enumerate(row)}

        def middle(node):
            found = [place[other] for other in ends.get(node, ()) if other in place]
            return sum(found) / len(found) if found else at[node] * len(beside) / len(row)

        return sorted(row, key=middle)

    best = rows
    for turn in range(40):
        rows = list(rows)
        for i in range(1, len(rows)) if turn % 2 == 0 else range(len(rows) - 2, -1, -1):
            rows[i] = sort(rows[i], rows[i - 1], down) if turn % 2 == 0 else sort(rows[i], rows[i + 1], up)
        if crossings(rows, down) < crossings(best, down):
            best = rows
    return swapped(best, down)


def swapped(rows, down):
    """Neighbours change places as long as that leaves fewer crossings."""
    least, better = crossings(rows, down), True
    while better:
        better = False
        for row in rows:
            for i in range(len(row) - 1):
                row[i], row[i + 1] = row[i + 1], row[i]
                count = crossings(rows, down)
                if count < least:
                    least, better = count, True
                else:
                    row[i], row[i + 1] = row[i + 1], row[i]
    return rows


def spread(row, wanted, wide):
    """Places in the row's order, as near to the wanted ones as the widths allow: neighbours that would overlap form a block around their mean."""
    def room(node):
        return wide if isinstance(node, str) else 0

    blocks = []
    for node in row:
        blocks.append([[node], [0.0], wanted[node]])
        while len(blocks) > 1:
            (first, places, at), (second, more, then) = blocks[-2:]
            shift = places[-1] + (room(first[-1]) + room(second[0])) / 2 + ACROSS
            if at + shift <= then:
                break
            places = places + [shift + x for x in more]
            nodes = first + second
            blocks[-2:] = [[nodes, places, sum(wanted[n] - x for n, x in zip(nodes, places)) / len(nodes)]]
    return {node: at + x for nodes, places, at in blocks for node, x in zip(nodes, places)}


def placed(rests, wide):
    """The rows from the lowest, what each node leads to, and the middle of each node across, the leftmost at wide / 2."""
    near = nearest(rests)
    level = levels(near)
    down = joined(near, level)
    rows = [[node for node in down if (node[1] if isinstance(node, tuple) else level[node]) == i] for i in range(1 + max(level.values()))]
    rows = ordered(rows, down)
    links = {node: list(ends) for node, ends in down.items()}
    for node, ends in down.items():
        for end in ends:
            links[end].append(node)
    x = {}
    for row in rows:
        x.update(spread(row, {node: 0.0 for node in row}, wide))
    for turn in range(60):
        for row in rows if turn % 2 else reversed(rows):
            wanted = {node: sum(x[other] for other in links[node]) / len(links[node]) if links[node] else x[node] for node in row}
            x.update(spread(row, wanted, wide))
    least = min(x[node] - (wide / 2 if isinstance(node, str) else 0) for node in x)
    return rows, down, {node: x[node] - least for node in x}
