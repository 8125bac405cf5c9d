"""Draws a network as SVG: routers and LANs in cells, edges with what is said of them beside, and a legend."""
from html import escape
from math import hypot

from lab_layout import cells
from lab_look import edges_of, fixed_lines

# A letter's width and a line's height, in the font of all lines but names.
LETTER, LINE = 6.7, 14
GAP, MARGIN, HEAD = 26, 24, 40
SAMPLES = 24
PLACES = (0.5, 0.44, 0.56, 0.38, 0.62, 0.32, 0.68, 0.26, 0.74)
# How much wider cells are made where lines would overlap, or lie on an edge.
WIDER = (1, 1.2, 1.5, 2, 3)
STATES = (
    ("up", "up at both ends, without flags; of a LAN: swept, or a member that sees itself"),
    ("flags", "up, and flags stand: LSPs are on their way or not acknowledged; of a LAN: not swept"),
    ("part", "up on one level, down on the other"),
    ("down", "not up at both ends; of a LAN: the member sees none"),
    ("none", "no level on which both ends can be neighbours"),
)
MORE = (
    "a bar of a router: a level that it runs; routers that agree on a level are one group and have one colour",
    "flags: LSPs that an end is still to send; ahead: LSP IDs of which an end holds a newer LSP; excepted: left out, an end let them go",
)
LIGHT = ("#cfe3ff", "#ffe0b8", "#d3f2cf", "#f9cfe0", "#e2d6fb", "#fff3a8", "#c9f0ef", "#e6dccf")
DARK = ("#1f4a7d", "#7a4a10", "#2b6030", "#7a2f52", "#50408a", "#6b5f10", "#1d6260", "#5c4f3f")
STYLE = """
text{font:11px "DejaVu Sans Mono",Menlo,Consolas,monospace;fill:#1b1f24}
.name{font-size:13px;font-weight:bold}
.paper,.label rect{fill:#ffffff}
.node>rect{fill:#f6f8fa;stroke:#57606a}
.lan>rect{fill:#e9edf1;stroke-dasharray:5 3}
.chip.plain rect,.note rect{fill:none}
.edge path{stroke-width:2;fill:none}
.edge.up path{stroke:#2e7d32}
.edge.flags path{stroke:#b86e00;stroke-width:4}
.edge.part path{stroke:#b86e00;stroke-dasharray:12 4 2 4}
.edge.down path{stroke:#b3261e;stroke-dasharray:7 5}
.edge.none path{stroke:#7a828b;stroke-dasharray:2 4}
"""
DARK_STYLE = """
text{fill:#e8ecf1}
.paper,.label rect{fill:#14181d}
.node>rect{fill:#20262d;stroke:#9aa4af}
.lan>rect{fill:#2a323a}
.edge.up path{stroke:#6cc070}
.edge.flags path,.edge.part path{stroke:#f0a63a}
.edge.down path{stroke:#ff8a80}
.edge.none path{stroke:#9aa4af}
"""


def style():
    """The rules of light and of dark pages; only classes that pictures have are named."""
    light, dark = ("".join(f".g{place} rect{{fill:{colour}}}\n" for place, colour in enumerate(it)) for it in (LIGHT, DARK))
    return STYLE + light + "@media (prefers-color-scheme:dark){" + DARK_STYLE + dark + "}\n"


class Box:
    """A place on the page, by its middle and its size."""

    def __init__(self, x, y, width, height):
        self.x, self.y, self.width, self.height = x, y, width, height
        self.left, self.top = x - width / 2, y - height / 2

    def overlaps(self, other, room=0):
        across = abs(self.x - other.x) < (self.width + other.width) / 2 + room
        return across and abs(self.y - other.y) < (self.height + other.height) / 2 + room

    def has(self, point, room=0):
        return abs(self.x - point[0]) < self.width / 2 + room and abs(self.y - point[1]) < self.height / 2 + room


class Picture:
    """The places of a script's nodes and edges, with room for what each of these looks says."""

    def __init__(self, script, looks, title):
        self.script, self.title = script, title
        self.edges, self.fixed = edges_of(script), fixed_lines(script)
        self.lines = {edge: max(len(look.edges[edge][1]) for look in looks) for edge in self.edges}
        self.slots = {name: max(len(look.nodes.get(name, [])) for look in looks) for name in self.fixed}
        self.sizes = {edge: self.size(edge, looks) for edge in self.edges}
        texts = [text for lines in self.fixed.values() for text in lines] + [text for look in looks for it in look.nodes.values() for _, text in it]
        self.node_width = max(map(len, texts), default=0) * LETTER * 1.1 + 20
        self.heights = {name: (len(lines) + self.slots[name]) * LINE + 14 for name, lines in self.fixed.items()}
        self.columns = cells(list(self.fixed), list(self.edges.values()))
        faults = {}
        for wider in WIDER:
            self.lay_out(wider)
            faults[wider] = len(self.overlaps()), self.covered()
            if faults[wider] == (0, 0):
                return
        self.lay_out(min(WIDER, key=faults.get))

    def lay_out(self, wider):
        self.places(wider)
        self.paths = {edge: self.path(edge) for edge in self.edges}
        self.samples = {edge: curve(path) for edge, path in self.paths.items()}
        self.labels = {}
        for edge in self.edges:
            self.labels[edge] = self.label(edge)

    def size(self, edge, looks):
        return max((len(text) for look in looks for text in look.edges[edge][1]), default=0) * LETTER + 8, self.lines[edge] * LINE + 6

    def places(self, wider):
        """A box for each node: cells are so large that the lines of edges go between them."""
        wide, high = (max((size[axis] for size in self.sizes.values()), default=0) for axis in (0, 1))
        pairs = [tuple(sorted(ends)) for ends in self.edges.values()]
        most = max(map(pairs.count, set(pairs)), default=1)
        across = (max(self.node_width + wide, most * wide if most > 1 else 0) + GAP) * wider
        down = (max(self.heights.values(), default=0) + high * most + GAP) * wider
        self.boxes = {}
        for name, (column, row) in self.columns.items():
            self.boxes[name] = Box(column * across, row * down, self.node_width, self.heights[name])

    def path(self, edge):
        """Where an edge begins, bends and ends: beside others of the same nodes, and clear of other nodes."""
        one, other = sorted(self.edges[edge])
        a, b = self.boxes[one], self.boxes[other]
        length = hypot(b.x - a.x, b.y - a.y)
        normal = (a.y - b.y) / length, (b.x - a.x) / length
        same = [it for it, ends in self.edges.items() if tuple(sorted(ends)) == (one, other)]
        width, height = (max(self.sizes[it][axis] for it in same) for axis in (0, 1))
        spread = abs(normal[0]) * width + abs(normal[1]) * height + 8
        begun = (same.index(edge) - (len(same) - 1) / 2) * spread
        others = [box for name, box in self.boxes.items() if name not in (one, other)]
        bends = [begun] + [begun + sign * by * 30 for by in range(1, 12) for sign in (1, -1)]
        tried = []
        for bend in bends:
            middle = (a.x + b.x) / 2 + 2 * bend * normal[0], (a.y + b.y) / 2 + 2 * bend * normal[1]
            tried.append(((a.x, a.y), middle, (b.x, b.y)))
            if not any(box.has(point, 5) for point in curve(tried[-1]) for box in others):
                return tried[-1]
        return tried[0]

    def label(self, edge):
        """The place of an edge's lines: the first beside it, or else on it, that is free."""
        near = [*self.boxes.values(), *self.labels.values()]
        width, height = self.sizes[edge]
        (ax, ay), _, (bx, by) = self.paths[edge]
        # at a right angle to the edge, to the right or upwards
        length = hypot(bx - ax, by - ay) * (1 if (by - ay, ax - bx) > (0.01, 0) or abs(by - ay) <= 0.01 and ax < bx else -1)
        beside = (by - ay) / length, (ax - bx) / length
        room = abs(beside[0]) * width / 2 + abs(beside[1]) * height / 2 + 3
        costs = []
        for place in PLACES:
            x, y = point_at(self.paths[edge], place)
            for side in (1, -1, 0):
                box = Box(x + side * room * beside[0], y + side * room * beside[1], width, height)
                cost = 100 * sum(box.overlaps(other, 2) for other in near) + (side == 0)
                cost += 3 * sum(any(box.has(point) for point in points) for points in self.samples.values())
                if not cost:
                    return box
                costs.append((cost, len(costs), box))
        return min(costs)[2]

    def overlaps(self):
        """Each two boxes that overlap: nodes, and lines of edges."""
        boxes = [*self.boxes.items(), *self.labels.items()]
        return [(a, b) for i, (a, one) in enumerate(boxes) for b, other in boxes[:i] if one.overlaps(other)]

    def covered(self):
        """How often the lines of an edge lie on an edge."""
        return sum(any(box.has(point) for point in points) for box in self.labels.values() for points in self.samples.values())

    def svg(self, look, report, is_page=False):
        """The picture of a look; in a page, with room for the lines of all looks, and with names for what changes."""
        parts = [self.edge_part(edge, look, is_page) for edge in self.edges]
        parts += [self.label_part(edge, look, is_page) for edge in self.edges]
        parts += [self.node_part(name, look, is_page) for name in self.boxes]
        boxes = [*self.boxes.values(), *self.labels.values()] or [Box(0, 0, 0, 0)]
        left, top = min(box.left for box in boxes) - MARGIN, min(box.top for box in boxes) - HEAD
        bottom = max(box.top + box.height for box in boxes) - top + MARGIN
        legend, below = ([], bottom) if is_page else legend_part(bottom, told(report))
        letters = len(self.title) if is_page else max(map(len, legend_texts(report)))
        width = max([box.left + box.width - left + MARGIN for box in boxes] + [letters * LETTER + 90])
        size = f'width="{width:.0f}" height="{below:.0f}" viewBox="0 0 {width:.0f} {below:.0f}"'
        title = escape(self.title)
        head = f'<svg xmlns="http://www.w3.org/2000/svg" {size} role="img"><title>{title}</title>'
        head += "" if is_page else f"<style>{style()}</style>"
        paper = f'<rect class="paper" width="{width:.0f}" height="{below:.0f}" rx="8" fill="#ffffff"/>'
        heading = f'<text class="name" x="{MARGIN}" y="24">{title}</text>'
        network = [f'<g transform="translate({-left:.1f} {-top:.1f})">', *parts, "</g>"]
        return "\n".join([head, paper, heading, *network, *legend, "</svg>\n"])

    def edge_part(self, edge, look, is_page):
        (ax, ay), (x, y), (bx, by) = self.paths[edge]
        name = f' data-edge="{edge}"' if is_page else ""
        return f'<g class="edge {look.edges[edge][0]}"{name}><path fill="none" stroke="#57606a" d="M{ax:.1f} {ay:.1f} Q{x:.1f} {y:.1f} {bx:.1f} {by:.1f}"/></g>'

    def label_part(self, edge, look, is_page):
        box, lines = self.labels[edge], look.edges[edge][1]
        name = f' data-label="{edge}"' if is_page else ""
        part = f'<g class="label"{name}>' + rect_part(box.left, box.top, box.width, box.height, 3)
        for place in range(self.lines[edge] if is_page else len(lines)):
            text = lines[place] if place < len(lines) else ""
            part += text_part(box.x, box.top + LINE * (place + 1), text)
        return part + "</g>"

    def node_part(self, node, look, is_page):
        box, lines = self.boxes[node], look.nodes.get(node, [])
        name = f' data-node="{node}"' if is_page else ""
        part = f'<g class="node{" lan" if node.startswith("/") else ""}"{name}>' + rect_part(box.left, box.top, box.width, box.height, 7)
        y = box.top + LINE + 3
        for place, text in enumerate(self.fixed[node]):
            part += text_part(box.x, y, text, "" if place else ' class="name"')
            y += LINE
        for place in range(self.slots[node] if is_page else len(lines)):
            kind, text = lines[place] if place < len(lines) else ("note", "")
            chip = rect_part(box.left + 8, y - 11, box.width - 16, LINE, 4)
            part += f'<g class="{kind}">{chip if kind != "note" or is_page else ""}{text_part(box.x, y, text)}</g>'
            y += LINE
        return part + "</g>"


def rect_part(x, y, width, height, round_by):
    return f'<rect x="{x:.1f}" y="{y:.1f}" width="{width:.1f}" height="{height:.1f}" rx="{round_by}" fill="#ffffff"/>'


def text_part(x, y, text, more=""):
    return f'<text x="{x:.1f}" y="{y:.1f}" text-anchor="middle"{more}>{escape(text)}</text>'


def point_at(path, place):
    """A point of a curve, from 0 to 1."""
    back = 1 - place
    return tuple(back * back * a + 2 * place * back * m + place * place * b for a, m, b in zip(*path))


def curve(path):
    return [point_at(path, step / SAMPLES) for step in range(SAMPLES + 1)]


def told(report):
    """The report's lines of the whole network; of very many only the first."""
    lines = report.whole
    return lines if len(lines) <= 12 else lines[:12] + [f"and {len(lines) - 12} lines more"]


def legend_texts(report):
    return [text for _, text in STATES] + list(MORE) + told(report)


def legend_list():
    """The legend as items of a list of a page."""
    sample = '<svg viewBox="0 0 44 14" aria-hidden="true">{}</svg>'
    items = [(sample.format(f'<g class="edge {state}"><path fill="none" stroke="#57606a" d="M2 8 h40"/></g>'), text) for state, text in STATES]
    bars = "".join(f'<g class="chip g{place}">{rect_part(2 + 21 * place, 1, 18, 12, 4)}</g>' for place in (0, 1))
    items += [(sample.format(bars if not place else ""), text) for place, text in enumerate(MORE)]
    dots = "".join(f'<circle class="packet {kind}" cx="{8 + 14 * place}" cy="7" r="5"/>' for place, kind in enumerate(("hello", "lsp", "snp")))
    items.append((sample.format(dots), "datagrams on their way: hellos, LSPs, and CSNPs or PSNPs; one that is lost ends before its receiver"))
    return "".join(f"<li>{drawn}<span>{escape(text)}</span></li>" for drawn, text in items)


def legend_part(top, lines):
    """The legend and the report's lines below the network, and where they end."""
    parts = []
    y = top + 8
    for state, text in STATES:
        parts.append(f'<g class="edge {state}"><path fill="none" stroke="#57606a" d="M{MARGIN} {y - 4:.1f} h40"/></g>')
        parts.append(f'<text x="{MARGIN + 52}" y="{y:.1f}">{escape(text)}</text>')
        y += LINE + 2
    parts.append(f'<g class="chip g0">{rect_part(MARGIN, y - 11, 18, LINE, 4)}</g><g class="chip g1">{rect_part(MARGIN + 22, y - 11, 18, LINE, 4)}</g>')
    for place, text in enumerate([*MORE, *lines]):
        y += 6 if place == len(MORE) else 0
        parts.append(f'<text x="{MARGIN + 52 if place < len(MORE) else MARGIN}" y="{y:.1f}">{escape(text)}</text>')
        y += LINE + 2
    return parts, y + 6
