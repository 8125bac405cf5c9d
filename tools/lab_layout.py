"""Places for the nodes of a network: each gets a cell of its own, near its neighbours, the same at each run.

The distances on the page follow the numbers of hops (stress majorization from classical scaling). The outcome is turned so that most
links lie straight, and put into cells; then nodes move where that makes links shorter, or takes them off other nodes.
"""
from math import atan2, cos, hypot, pi, sin

# Above so many nodes they are put in columns by their hops from one of them: the rest would take too long.
MANY = 120
SWEEPS = 60
# What counts in a layout, in squares of a link's length: a node on a link, and two links that cross.
ON_LINK, CROSSING = 30, 3


def cells(names, edges):
    """A column and a row for each name, from 0 on; `edges` are pairs of names."""
    if not names:
        return {}
    near = {name: [] for name in names}
    for one, other in edges:
        near[one].append(other)
        near[other].append(one)
    hops = {name: hops_from(name, near) for name in names}
    if len(names) > MANY:
        places = columns(names, hops)
        return from_zero({name: places[name] for name in names})
    far = max(max(row.values()) for row in hops.values()) + 1
    wanted = [[hops[one].get(other, far) for other in names] for one in names]
    places = turned(relaxed(scaled(wanted), wanted), [(names.index(a), names.index(b)) for a, b in edges])
    edges = sorted(set(edges))
    tried = [in_cells(names, [(x * scale / 10, y * scale / 10) for x, y in places]) for scale in range(7, 15)]
    return from_zero(settled(min(tried, key=lambda it: cost(it, edges, set(names))), edges))


def hops_from(name, near):
    found, queue = {name: 0}, [name]
    for one in queue:
        for other in near[one]:
            if other not in found:
                found[other] = found[one] + 1
                queue.append(other)
    return found


def columns(names, hops):
    """A column for each number of hops from a node at the rim; what isn't joined to it follows in the same way."""
    left, places, begun = list(names), {}, 0
    while left:
        start = max(hops[left[0]], key=lambda it: (hops[left[0]][it], it))
        rows = {}
        for name in left:
            if name in hops[start]:
                column = hops[start][name]
                places[name] = (begun + column, rows.get(column, 0))
                rows[column] = places[name][1] + 1
        left = [name for name in left if name not in places]
        begun += max(rows) + 1
    return places


def scaled(wanted):
    """Places whose distances come near the ones wanted: the two first axes of classical scaling."""
    count = len(wanted)
    squares = [[value * value for value in row] for row in wanted]
    means = [sum(row) / count for row in squares]
    mean = sum(means) / count
    matrix = [[-(squares[i][j] - means[i] - means[j] + mean) / 2 for j in range(count)] for i in range(count)]
    axes = []
    for axis in range(2):
        vector = [((i * 0.618 + 0.3 * (axis + 1)) % 1) - 0.5 for i in range(count)]
        length = 0
        for _ in range(SWEEPS):
            vector = [sum(map(float.__mul__, row, vector)) for row in matrix]
            length = hypot(*vector) or 1
            vector = [value / length for value in vector]
        for i, row in enumerate(matrix):
            matrix[i] = [row[j] - length * vector[i] * vector[j] for j in range(count)]
        axes.append([value * length**0.5 for value in vector])
    return list(zip(*axes))


def relaxed(places, wanted):
    """The same places, moved so that near nodes have the distances wanted."""
    places = [(x + 0.001 * i, y + 0.001 * (i % 3)) for i, (x, y) in enumerate(places)]
    for _ in range(SWEEPS if len(places) > 2 else 1):
        for i, (x, y) in enumerate(places):
            sums = [0.0, 0.0, 0.0]
            for j, (a, b) in enumerate(places):
                if i != j:
                    weight = 1 / wanted[i][j] ** 2
                    part = wanted[i][j] / (hypot(x - a, y - b) or 1)
                    sums[0] += weight * (a + (x - a) * part)
                    sums[1] += weight * (b + (y - b) * part)
                    sums[2] += weight
            if sums[2]:
                places[i] = (sums[0] / sums[2], sums[1] / sums[2])
    return places


def turned(places, edges):
    """The places turned so that most edges lie along the axes, the wider way across, and the first node at the left above."""
    ways = [atan2(places[b][1] - places[a][1], places[b][0] - places[a][0]) for a, b in edges]
    angle = min(range(90), key=lambda it: round(sum(abs(sin(2 * (way - it * pi / 180))) for way in ways), 6)) * pi / 180
    x, y = ([cos(angle) * a + sin(angle) * b for a, b in places], [cos(angle) * b - sin(angle) * a for a, b in places])
    if max(x) - min(x) < max(y) - min(y) - 0.01:
        x, y = y, x
    if x[0] > (max(x) + min(x)) / 2 + 0.01:
        x = [-value for value in x]
    if y[0] > (max(y) + min(y)) / 2 + 0.01:
        y = [-value for value in y]
    return list(zip(x, y))


def in_cells(names, places):
    """The nearest free cell of each node, those in the middle first."""
    taken, given = set(), {}
    middle = [sum(it) / len(places) for it in zip(*places)]
    for name, (x, y) in sorted(zip(names, places), key=lambda it: round(hypot(it[1][0] - middle[0], it[1][1] - middle[1]), 3)):
        reach = 0
        free = []
        while not free:
            reach += 1
            around = range(-reach, reach + 1)
            free = [(round(x) + i, round(y) + j) for i in around for j in around if (round(x) + i, round(y) + j) not in taken]
        given[name] = min(free, key=lambda it: (round(hypot(it[0] - x, it[1] - y), 3), it))
        taken.add(given[name])
    return {name: given[name] for name in names}


def settled(places, edges):
    """Nodes move, or change places with another, as long as the layout gets better by it."""
    for _ in range(8):
        before = dict(places)
        for name in places:
            x, y = places[name]
            for i in range(-2, 3):
                for j in range(-2, 3):
                    try_move(places, edges, name, (x + i, y + j))
        if places == before:
            break
    return places


def try_move(places, edges, name, cell):
    old = places[name]
    other = next((it for it, place in places.items() if place == cell), None)
    moved = {name, other}
    if other == name:
        return
    before = cost(places, edges, moved)
    places[name] = cell
    if other:
        places[other] = old
    if cost(places, edges, moved) >= before:
        places[name] = old
        if other:
            places[other] = cell


def cost(places, edges, moved):
    """What the edges at moved nodes cost, and those that moved nodes lie on."""
    total = 0
    for one, other in edges:
        a, b = places[one], places[other]
        if one in moved or other in moved:
            total += (a[0] - b[0]) ** 2 + (a[1] - b[1]) ** 2
            total += ON_LINK * sum(is_on(place, a, b) for name, place in places.items() if name not in (one, other))
            total += CROSSING * sum(is_crossed(a, b, places[c], places[d]) for c, d in edges)
        else:
            total += ON_LINK * sum(is_on(places[name], a, b) for name in moved if name)
    return total


def is_on(place, a, b):
    """Whether a cell lies on the line between two others."""
    return side(place, a, b) == 0 and min(a, b) < place < max(a, b)


def is_crossed(a, b, c, d):
    return len({a, b, c, d}) == 4 and side(a, c, d) * side(b, c, d) < 0 and side(c, a, b) * side(d, a, b) < 0


def side(place, a, b):
    return (b[0] - a[0]) * (place[1] - a[1]) - (b[1] - a[1]) * (place[0] - a[0])


def from_zero(places):
    left, top = min(x for x, _ in places.values()), min(y for _, y in places.values())
    return {name: (x - left, y - top) for name, (x, y) in places.items()}
