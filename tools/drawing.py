"""A report as SVG, which is what `tools/picture` writes: where zones, boxes and arrows stand, and how they look."""
import re
import textwrap
from dataclasses import dataclass
from xml.sax.saxutils import escape, quoteattr

from graph import SET, Graph, Zone, worse
from presentation import code_text, name_text, set_text, time_text
from reasons import told_faults
from reports import MARKS, RRSIG

# in pixels; a sign of a font of one width is six tenths as wide as it is high
FONT, TITLE_FONT, LINE = 13, 17, 18
SIGN = 0.61
WRAP = 36
PAD, GAP, ROW_GAP, ZONE_GAP, LEVEL_GAP, MARGIN = 12, 26, 58, 36, 64, 24
WIDEST = 1100
# colour, width and dashes of the lines of each mark, and what fills a box
LOOKS = {"secure": ("#0b6e69", 2, "", "#e9f6f5"), "insecure": ("#555555", 2, "10 5", "#f4f4f4"),
         "bogus": ("#b00020", 3, "3 4", "#fdecee"), "indeterminate": ("#7a5f00", 2, "2 7", "#fffbe8")}
FONTS = "DejaVu Sans Mono, Menlo, Consolas, Liberation Mono, monospace"
SHAPES = ("Round ends: a key; with two lines around it, a trust anchor.", "Square ends: a DS record, or a set of records.",
          "An arrow: the key signed what it leads to, or the DS record has its digest.",
          "A broken arrow to a zone: no DS record of it counts.")


@dataclass
class Box:
    """Where something stands: its left upper corner and its size."""
    left: float
    top: float
    width: float
    height: float

    def center(self):
        return self.left + self.width / 2

    def bottom(self):
        return self.top + self.height


# ---- sizes and places

def wrapped(line, most):
    """A long line as several. A name that is too long is broken behind its dots; no other word is."""
    return textwrap.wrap(" ".join(part for word in line.split(" ") for part in parts_of(word, most)), most, break_on_hyphens=False,
                         break_long_words=False) or [""]


def parts_of(word, most):
    """A word that is too long, broken behind dots."""
    parts = [""]
    for piece in re.findall(r"(?:\\.|[^.\\])*\.?", word) if len(word) > most else [word]:
        if parts[-1] and len(parts[-1] + piece) > most:
            parts.append("")
        parts[-1] += piece
    return parts


def node_lines(node):
    first, *others = node.lines
    return [*wrapped(first, WRAP + 8), *(part for line in others for part in wrapped(line, WRAP))]


def size_of(node):
    lines = node_lines(node)
    sides = 2 * PAD + (14 if node.row != SET else 0)
    return max(map(len, lines)) * FONT * SIGN + sides, len(lines) * LINE + 2 * PAD - 4


def rows_of(zone):
    """The nodes of a zone, row by row; a row that gets too wide is broken."""
    rows = []
    for row in sorted({node.row for node in zone.nodes}):
        width = WIDEST
        for node in (node for node in zone.nodes if node.row == row):
            wide = size_of(node)[0] + GAP
            if width + wide > WIDEST:
                rows.append([])
                width = 0
            rows[-1].append(node)
            width += wide
    return rows


def zone_lines(zone):
    return wrapped("of no known zone" if zone.name is None else f"zone {name_text(zone.name)}", 2 * WRAP)


def head_of(zone):
    """How high the part of a zone is in which its name stands."""
    return 18 + 22 * len(zone_lines(zone))


class Layout:
    """The box of each zone and each node, by its identity; and in which level and zone a node stands."""

    def __init__(self, graph, top, least):
        self.boxes, self.homes, self.width, top = {}, {}, 0, top + 30
        levels = graph.levels()
        self.levels = [[id(zone) for zone in level] for level in levels]
        sizes = {id(zone): self.zone_size(zone) for level in levels for zone in level}
        widths = [sum(sizes[id(zone)][0] + ZONE_GAP for zone in level) - ZONE_GAP for level in levels]
        self.width = max([*widths, least]) + 2 * MARGIN
        for level, wide in zip(levels, widths):
            left = (self.width - wide) / 2
            for zone in level:
                self.place(zone, Box(left, top, *sizes[id(zone)]))
                left += sizes[id(zone)][0] + ZONE_GAP
            top += max(sizes[id(zone)][1] for zone in level) + LEVEL_GAP
        self.height = top - LEVEL_GAP + MARGIN

    def zone_size(self, zone):
        rows = [[size_of(node) for node in row] for row in rows_of(zone)]
        wide = [sum(width + GAP for width, _ in row) - GAP for row in rows]
        high = sum(max(height for _, height in row) for row in rows) + ROW_GAP * max(len(rows) - 1, 0)
        # an arrow comes in at the middle, and the name ends before it
        name = min(2 * max(map(len, zone_lines(zone))) + 3, 2 * WRAP + 20) * TITLE_FONT * SIGN
        return max([*wide, name]) + 2 * PAD + 16, high + head_of(zone) + 2 * PAD

    def place(self, zone, box):
        self.boxes[id(zone)] = box
        self.homes.update({id(node): id(zone) for node in zone.nodes})
        top = box.top + head_of(zone)
        for row in rows_of(zone):
            sizes = [size_of(node) for node in row]
            left = box.center() - (sum(width + GAP for width, _ in sizes) - GAP) / 2
            high = max(height for _, height in sizes)
            for node, (width, height) in zip(row, sizes):
                self.boxes[id(node)] = Box(left, top, width, height)
                left += width + GAP
            top += high + ROW_GAP


# ---- drawing

def text(left, top, said, size=FONT, weight="normal", fill="#1a1a1a"):
    place = f'x="{left:.1f}" y="{top:.1f}" xml:space="preserve"'
    return f'<text {place} font-size="{size}" font-weight="{weight}" fill="{fill}">{escape(said)}</text>'


def line_look(mark):
    colour, width, dashes, _ = LOOKS[mark]
    return f'stroke="{colour}" stroke-width="{width}"' + (f' stroke-dasharray="{dashes}"' if dashes else "")


def rectangle(box, mark, fill, corner):
    place = f'x="{box.left:.1f}" y="{box.top:.1f}" width="{box.width:.1f}" height="{box.height:.1f}"'
    return f'<rect {place} rx="{corner}" fill="{fill}" {line_look(mark)}/>'


def draw_name(zone, box):
    """The name and the mark of a zone, in front of the arrows."""
    lines, word = zone_lines(zone), zone.mark.capitalize()
    for place, line in enumerate(lines):
        left, top = box.left + PAD + 4, box.top + 25 + 22 * place
        yield (f'<rect x="{left - 3:.1f}" y="{top - 15:.1f}" width="{len(line) * TITLE_FONT * SIGN + 6:.1f}" height="20" '
               f'fill="#ffffff"/>')
        yield text(left, top, line, TITLE_FONT, "bold")
    left = box.left + box.width - PAD - 4 - len(word) * FONT * SIGN
    yield text(left, box.top + 24, word, FONT, "normal", LOOKS[zone.mark][0])


def draw_node(node, box):
    """A key has round ends, and an anchor a second line around it."""
    is_key, fill = node.row != SET or "DNSKEY" in node.lines[0].split()[:1], LOOKS[node.mark][3]
    corner = 26 if is_key else 4
    yield f"<g><title>{escape(node.tip)}</title>"
    if node.is_anchor:
        yield rectangle(Box(box.left - 5, box.top - 5, box.width + 10, box.height + 10), node.mark, "#ffffff", corner + 4)
    yield rectangle(box, node.mark, fill, corner)
    lines = node_lines(node)
    for place, line in enumerate(lines):
        is_mark = line.lower() == node.mark
        left = box.center() - len(line) * FONT * SIGN / 2
        weight = "bold" if place == 0 or is_mark else "normal"
        yield text(left, box.top + PAD + 10 + place * LINE, line, FONT, weight, LOOKS[node.mark][0] if is_mark else "#1a1a1a")
    yield "</g>"


def draw_arrows(graph, layout):
    """From below the start to above the end, around what lies between; arrows that share a place stand side by side."""
    routes = Routes(layout)
    for arrow, points in arrow_points(graph, layout, routes):
        path = f'<path d="{curve(points)}" fill="none" {line_look(arrow.mark)} marker-end="url(#{arrow.mark})"/>'
        yield f"<g><title>{escape(arrow.tip)}</title>{path}</g>"


def arrow_points(graph, layout, routes):
    """Each arrow with the points that it goes through."""
    leaving, coming = {}, {}
    for arrow in graph.arrows:
        leaving.setdefault(id(arrow.start), []).append(arrow)
        coming.setdefault(id(arrow.end), []).append(arrow)
    for arrow in graph.arrows:
        start, end = layout.boxes[id(arrow.start)], layout.boxes[id(arrow.end)]
        from_left = beside(arrow, leaving[id(arrow.start)], start, lambda one: layout.boxes[id(one.end)].center())
        to_left = beside(arrow, coming[id(arrow.end)], end, lambda one: layout.boxes[id(one.start)].center())
        if isinstance(arrow.end, Zone):
            to_left = min(max(from_left, end.left + 30), end.left + end.width - 30)
        yield arrow, routes.points(arrow, from_left, to_left)


def beside(arrow, arrows, box, place):
    """Where an arrow stands among those that share the edge of a box, in the order of their other ends."""
    ordered = sorted(arrows, key=place)
    step = min(26, (box.width - 2 * PAD) / len(ordered))
    return box.center() + (next(at for at, one in enumerate(ordered) if one is arrow) - (len(ordered) - 1) / 2) * step


class Routes:
    """Ways between boxes that lead through none of them: past each row of boxes and each level of zones in a lane between two, beside the lanes
    that other arrows have there."""

    def __init__(self, layout):
        self.layout, self.lanes = layout, []

    def points(self, arrow, from_left, to_left):
        start, end = self.layout.boxes[id(arrow.start)], self.layout.boxes[id(arrow.end)]
        top, bottom = start.bottom() + 2, end.top - 8 - 5 * getattr(arrow.end, "is_anchor", False)
        if end.top >= start.bottom():
            bands = self.bands(arrow, start.bottom() + 1, end.top - 1)
            return self.through(bands, (from_left, top), (to_left, bottom))
        return self.around(arrow, (from_left, top), (to_left, end.bottom() + 8))

    def bands(self, arrow, top, bottom):
        """What lies between, from above to below: of the zones that the arrow begins and ends in the boxes, of others the zones."""
        homes = {self.layout.homes[id(arrow.start)], self.layout.homes.get(id(arrow.end), id(arrow.end))}
        boxes = [self.layout.boxes[node] for node, home in self.layout.homes.items() if home in homes]
        boxes += [self.layout.boxes[zone] for level in self.layout.levels for zone in level if zone not in homes]
        bands = []
        for box in sorted((box for box in boxes if box.bottom() > top and box.top < bottom), key=lambda box: box.top):
            if bands and box.top < bands[-1][1] + 4:
                bands[-1] = bands[-1][0], max(bands[-1][1], box.bottom()), [*bands[-1][2], box]
            else:
                bands.append((box.top, box.bottom(), [box]))
        return [(max(high, top), min(low, bottom), some) for high, low, some in bands]

    def through(self, bands, first, last):
        """A lane through each band, as near as can be to the straight way."""
        points = [first]
        for high, low, boxes in bands:
            left = first[0] if high <= first[1] else last[0] if low >= last[1] else None
            if left is None:
                share = (high - points[-1][1]) / max(last[1] - points[-1][1], 1)
                left = self.lane(boxes, points[-1][0] + (last[0] - points[-1][0]) * share, high, low)
            points += [(left, max(high - 4, first[1])), (left, min(low + 4, last[1]))]
        return [*points, last]

    def lane(self, boxes, wished, high, low):
        """The free place nearest to a wished one, and not where another arrow has its own."""
        taken = [(box.left - 9, box.left + box.width + 9) for box in boxes]
        taken += [(at - 7, at + 7) for at, above, below in self.lanes if above < low and below > high]
        edges = [wished, *(edge for span in taken for edge in span)]
        free = [edge for edge in edges if 4 < edge < self.layout.width - 4 and not any(left < edge < right for left, right in taken)]
        chosen = min(free, key=lambda edge: abs(edge - wished), default=wished)
        self.lanes.append((chosen, high, low))
        return chosen

    def around(self, arrow, first, last):
        """To a box that stands beside, or above: below all of its row, and where it is above up in a lane past both zones."""
        bands = self.bands(arrow, min(last[1], first[1]) - 6, max(last[1], first[1]) + 6)
        below = max([first[1], last[1], *(low for high, low, _ in bands if high < first[1])]) + 16
        if abs(first[1] - last[1]) < 200 and not self.crosses(arrow, last, below):
            return [first, (first[0], below), (last[0], below), last]
        boxes = [box for _, _, some in self.bands(arrow, last[1], below) for box in some]
        left = self.lane(boxes, (first[0] + last[0]) / 2, last[1], below)
        return [first, (first[0], first[1] + 12), (left, first[1] + 12), (left, last[1] + 12), (last[0], last[1] + 12), last]

    def crosses(self, arrow, last, below):
        """Whether the way up to a box leads through another one."""
        boxes = [box for _, _, some in self.bands(arrow, last[1] + 1, below) for box in some]
        return any(box.left < last[0] < box.left + box.width for box in boxes if box.top > last[1])


def curve(points):
    """A path through points: straight where two stand above each other or beside, and a bow else."""
    path, (left, top) = [f"M{points[0][0]:.1f} {points[0][1]:.1f}"], points[0]
    for to_left, to_top in points[1:]:
        if abs(to_left - left) < 0.05 or abs(to_top - top) < 0.05:
            path.append(f"L{to_left:.1f} {to_top:.1f}")
        else:
            bend = (to_top - top) * 0.45
            path.append(f"C{left:.1f} {top + bend:.1f} {to_left:.1f} {to_top - bend:.1f} {to_left:.1f} {to_top:.1f}")
        left, top = to_left, to_top
    return " ".join(path)


def draw_legend(left, top):
    """A line of each mark with its word, and what the shapes are."""
    for mark in MARKS:
        yield f'<path d="M{left:.1f} {top:.1f} h52" fill="none" {line_look(mark)}/>'
        yield text(left + 60, top + 4, mark.capitalize())
        left += 60 + len(mark) * FONT * SIGN + 28
    yield from (text(MARGIN, top + LINE * (place + 1) + 6, line) for place, line in enumerate(SHAPES))


def title_lines(report, moment, session):
    """The query with what it came to, in as many lines as it needs; below these the time."""
    top = report.steps[-1] if report.steps else None
    query = session.query if session else (top.name, top.kind) if top else None
    asked = f"{set_text(*query)}: " if query else ""
    denied = "" if report.denial == ["none"] else f", denial {' '.join(report.denial)}"
    marks = {one.mark for one in report.records if one.section == "answer" and one.record.kind != RRSIG}
    answer = f", the answer is {worse(*marks).capitalize()}" if marks else ""
    below = f"judged at {time_text(moment)}" if moment is not None else "the time isn't known"
    below += "" if top else "; a report without a trail"
    return wrapped(f"{asked}{code_text(report.code)}{answer}{denied}", 2 * WRAP), below


def picture(report, moment, session=None):
    told_faults(report, session)
    graph = Graph(report, moment)
    titles, below = title_lines(report, moment, session)
    least = max(max(map(len, titles)) * TITLE_FONT, max(map(len, (*SHAPES, below))) * FONT) * SIGN
    top = MARGIN + 24 * len(titles)
    layout = Layout(graph, top, least)
    parts = [text(MARGIN, MARGIN + 17 + 24 * place, line, TITLE_FONT, "bold") for place, line in enumerate(titles)]
    parts.append(text(MARGIN, top + 12, below))
    zones = [zone for level in graph.levels() for zone in level]
    parts += [rectangle(layout.boxes[id(zone)], zone.mark, "#ffffff", 10) for zone in zones]
    parts += draw_arrows(graph, layout)
    parts += [part for zone in zones for part in draw_name(zone, layout.boxes[id(zone)])]
    parts += [part for zone in zones for node in zone.nodes for part in draw_node(node, layout.boxes[id(node)])]
    foot = layout.height + LINE
    signs = int((layout.width - 2 * MARGIN) / FONT / SIGN)
    failed = [part for line in graph.failed for part in wrapped(line, signs)]
    if failed:
        parts.append(text(MARGIN, foot, "Queries without an answer to judge by", FONT, "bold"))
        parts += [text(MARGIN, foot + (place + 1) * LINE, line) for place, line in enumerate(failed)]
        foot += (len(failed) + 2) * LINE
    parts += draw_legend(MARGIN, foot)
    return whole(layout.width, foot + (len(SHAPES) + 2) * LINE, titles[0], parts)


def whole(width, height, title, parts):
    head = 'viewBox="0 0 10 10" refX="2" refY="5" markerWidth="11" markerHeight="11" orient="auto" markerUnits="userSpaceOnUse"'
    tip = '<path d="M0 0 L10 5 L0 10 z"'
    markers = [f'<marker id="{mark}" {head}>{tip} fill="{look[0]}"/></marker>' for mark, look in LOOKS.items()]
    size = f'width="{width:.0f}" height="{height:.0f}" viewBox="0 0 {width:.0f} {height:.0f}"'
    return "\n".join([
        f'<svg xmlns="http://www.w3.org/2000/svg" {size} font-family={quoteattr(FONTS)} role="img">',
        f"<title>{escape(title)}</title>", "<defs>", *markers, "</defs>", '<rect width="100%" height="100%" fill="#ffffff"/>',
        *parts, "</svg>"]) + "\n"
