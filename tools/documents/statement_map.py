"""The map of a statement: its chapters as boxes with their lines, from the top calls down, and
which of them stands on which."""
import collections
import html

Box = collections.namedtuple("Box", "number title kind row lines")
WIDTHS = {"wide": (960, 10), "narrow": (360, 3)}  # how wide, and how many boxes in a row at most
HEIGHT, GAP, BETWEEN, MARGIN, MOST = 43, 8, 26, 16, 300


def reduced(edges):
    """The edges without those that two others or more lead along."""
    below = collections.defaultdict(set)
    for upper, lower in edges:
        below[upper].add(lower)

    def reaches(start, goal, first):
        todo, seen = [first], set()
        while todo:
            at = todo.pop()
            if at == goal:
                return True
            if at not in seen:
                seen.add(at)
                todo += below[at]
        return False

    return [(upper, lower) for upper, lower in sorted(edges)
            if not any(reaches(upper, lower, other) for other in below[upper] - {lower})]


def placed(boxes, width, most):
    """Where each box stands, by its number: left, top and width; how high all are together; and for
    each row that takes several lines the place of all of it, with its height."""
    rows, found, blocks, top = collections.defaultdict(list), {}, {}, 1
    for box in boxes:
        rows[box.row].append(box)
    inner = width - 2 * MARGIN
    for row in sorted(rows):
        members, begin = rows[row], top
        lines = -(-len(members) // most)
        each = -(-len(members) // lines)
        for start in range(0, len(members), each):
            part = members[start:start + each]
            size = min(MOST, (inner - GAP * (len(part) - 1)) / len(part))
            left = (width - size * len(part) - GAP * (len(part) - 1)) / 2
            for place, box in enumerate(part):
                found[box.number] = (left + place * (size + GAP), top, size)
            top += HEIGHT + (GAP if start + each < len(members) else BETWEEN)
        if lines > 1:
            blocks[row] = (MARGIN, begin, inner, top - BETWEEN - begin)
    return found, top - BETWEEN + 1, blocks


def drawn_edges(boxes, edges, places, blocks):
    """A line for each edge. Of a row that takes several lines there is one for all its boxes; one
    that would go behind boxes goes around them: on the left, or below those between two of a
    row."""
    row = {box.number: box.row for box in boxes}
    order = {number: place for place, number in enumerate(sorted(set(row.values())))}
    lefts = collections.defaultdict(list)
    for number in row:
        lefts[row[number]].append(places[number][0])

    def place(number):
        return blocks.get(row[number], (*places[number], HEIGHT))

    found, lane = {}, MARGIN
    for upper, lower in edges:
        above, below = place(upper), place(lower)
        if above == below or (above, below) in found:
            continue
        if order[row[lower]] - order[row[upper]] > 1:
            lane -= 5
            first = below[0] <= min(lefts[row[lower]])
            made = around(above, below, max(lane, 2) - MARGIN + min(above[0], *lefts[row[lower]]),
                          first)
        elif row[lower] == row[upper]:
            made = beside(*sorted((above, below)), lefts[row[lower]])
        else:
            made = downward(above, below)
        found[above, below] = f'<path d="{made}"/>'
    return found.values()


def downward(above, below):
    x, y = above[0] + above[2] / 2, above[1] + above[3]
    to_x, to_y = below[0] + below[2] / 2, below[1]
    middle = (y + to_y) / 2
    return f"M{x:.1f} {y}C{x:.1f} {middle} {to_x:.1f} {middle} {to_x:.1f} {to_y}"


def around(above, below, x, first):
    """On the left of all between; to the first of a row from the left, to another from above."""
    y, to_y = above[1] + above[3] / 2, below[1] + below[3] / 2
    if first:
        return f"M{above[0]:.1f} {y}H{x:.1f}V{to_y}H{below[0]:.1f}"
    to_x = below[0] + below[2] / 2
    return f"M{above[0]:.1f} {y}H{x:.1f}V{below[1] - BETWEEN / 2}H{to_x:.1f}V{below[1]}"


def beside(left, right, lefts):
    """Between two boxes of a row, whose boxes begin here; below those that stand between them."""
    if not any(left[0] < other < right[0] for other in lefts):
        return f"M{left[0] + left[2]:.1f} {left[1] + HEIGHT / 2}H{right[0]:.1f}"
    x, to_x, y = right[0] + right[2] / 2, left[0] + left[2] / 2, left[1] + HEIGHT
    deep = y + BETWEEN / 2
    return f"M{x:.1f} {y}C{x:.1f} {deep} {to_x:.1f} {deep} {to_x:.1f} {y}"


def drawn_box(box, place, most_lines):
    left, top, size = place
    middle, bar = left + size / 2, (size - 16) * box.lines / most_lines
    small = ' class="small"' if len(box.title) * 8 > size - 10 else ""
    if len(box.title) * 6.5 > size - 8:
        small += f' textLength="{size - 8:.1f}" lengthAdjust="spacingAndGlyphs"'
    return (f'<a href="#chapter{box.number}" class="{box.kind}">'
            f'<rect x="{left:.1f}" y="{top}" width="{size:.1f}" height="{HEIGHT}" rx="5"/>'
            f'<text{small} x="{middle:.1f}" y="{top + 16}">{html.escape(box.title)}</text>'
            f'<text class="lines" x="{middle:.1f}" y="{top + 30}">{box.lines:,} lines</text>'
            f'<rect class="bar" x="{left + 8:.1f}" y="{top + HEIGHT - 7}" width="{bar:.1f}" '
            f'height="3"/></a>')


def picture(boxes, edges, form):
    """The map in one of its forms."""
    width, most = WIDTHS[form]
    places, height, blocks = placed(boxes, width, most)
    most_lines = max(box.lines for box in boxes)
    return "".join([
        f'<svg class="map {form}" viewBox="0 0 {width} {height}" role="group" '
        f'aria-label="The map of chapters">',
        *drawn_edges(boxes, reduced(edges), places, blocks),
        *(drawn_box(box, places[box.number], most_lines) for box in boxes), "</svg>"])
