#!/usr/bin/env python3
"""Writes the pictures of the documents beside itself, as SVG. Run it from any folder; it needs nothing but Python.

A dart is drawn as a stroke along its side with its number beside it. Where two darts lie along one side, link 0 is the small
gap between them; link 1 is the arc at a corner, and link 2 is a bar across.
"""
import math
import pathlib

HERE = pathlib.Path(__file__).resolve().parent
INK, DART, LINK1, LINK2, FACE, NEW = "#1d2733", "#1d2733", "#c2571a", "#1f6fb2", "#f3f0e6", "#2c8a4b"
FONT = "font-family='DejaVu Sans, Verdana, sans-serif'"


class Picture:
    """The lines of a picture, drawn in their order."""

    def __init__(self, width, height):
        self.lines = [
            f"<svg xmlns='http://www.w3.org/2000/svg' width='{width}' height='{height}' viewBox='0 0 {width} {height}'>",
            "<defs><marker id='tip' viewBox='0 0 10 10' refX='9' refY='5' markerWidth='4.6' markerHeight='4.6' orient='auto'>"
            f"<path d='M0,0 L10,5 L0,10 z' fill='{DART}'/></marker></defs>",
            f"<rect width='{width}' height='{height}' fill='white'/>",
        ]

    def line(self, p, q, color=INK, width=2.0, more=""):
        self.lines.append(f"<line x1='{p[0]:.1f}' y1='{p[1]:.1f}' x2='{q[0]:.1f}' y2='{q[1]:.1f}' "
                          f"stroke='{color}' stroke-width='{width}' stroke-linecap='round' {more}/>")

    def area(self, points, color):
        told = " ".join(f"{x:.1f},{y:.1f}" for x, y in points)
        self.lines.append(f"<polygon points='{told}' fill='{color}'/>")

    def bow(self, p, control, q, color, width=2.0, more=""):
        self.lines.append(f"<path d='M{p[0]:.1f},{p[1]:.1f} Q{control[0]:.1f},{control[1]:.1f} {q[0]:.1f},{q[1]:.1f}' "
                          f"fill='none' stroke='{color}' stroke-width='{width}' stroke-linecap='round' {more}/>")

    def text(self, p, words, size=15, color=INK, anchor="middle", more=""):
        words = words.replace("&", "&amp;").replace("<", "&lt;")
        self.lines.append(f"<text x='{p[0]:.1f}' y='{p[1]:.1f}' font-size='{size}' fill='{color}' text-anchor='{anchor}' "
                          f"{FONT} {more}>{words}</text>")

    def box(self, x, y, width, height, fill, stroke="#b9b29a"):
        self.lines.append(f"<rect x='{x}' y='{y}' width='{width}' height='{height}' rx='6' fill='{fill}' stroke='{stroke}'/>")

    def write(self, name):
        (HERE / name).write_text("\n".join(self.lines + ["</svg>", ""]))


def between(p, q, part):
    return p[0] + (q[0] - p[0]) * part, p[1] + (q[1] - p[1]) * part


def toward(p, q, length):
    size = math.dist(p, q)
    return p[0] + (q[0] - p[0]) * length / size, p[1] + (q[1] - p[1]) * length / size


def middle(points):
    return sum(x for x, _ in points) / len(points), sum(y for _, y in points) / len(points)


def number(picture, p, q, heart, at, told, away=15, color=INK):
    """A number beside the stroke from p to q, on the side of the face's middle."""
    spot = between(p, q, at)
    nx, ny = -(q[1] - p[1]), q[0] - p[0]
    size = math.hypot(nx, ny)
    nx, ny = nx / size, ny / size
    if (heart[0] - spot[0]) * nx + (heart[1] - spot[1]) * ny < 0:
        nx, ny = -nx, -ny
    picture.text((spot[0] + nx * away, spot[1] + ny * away + 5), str(told), 15, color)


def alpha_face(picture, corners, numbers, fill=FACE, fresh=()):
    """A face of a generalized map. `numbers` has two darts for each side, in order: answers where the darts lie."""
    heart = middle(corners)
    picture.area(corners, fill)
    spots = {}
    count = len(corners)
    for side in range(count):
        p, q = corners[side], corners[(side + 1) % count]
        first, second = numbers[2 * side], numbers[2 * side + 1]
        ends = toward(p, q, 16), between(p, q, 0.5 - 4 / math.dist(p, q))
        spots[first] = ends
        starts = between(p, q, 0.5 + 4 / math.dist(p, q)), toward(q, p, 16)
        spots[second] = (starts[1], starts[0])
        for dart, (a, b) in ((first, ends), (second, starts)):
            picture.line(a, b, NEW if dart in fresh else DART, 3.2)
            number(picture, a, b, heart, 0.5, dart, color=NEW if dart in fresh else INK)
    for side in range(count):
        before = spots[numbers[(2 * side - 1) % (2 * count)]][0]
        after = spots[numbers[2 * side]][0]
        picture.bow(before, toward(corners[side], heart, -6), after, LINK1, 2.2)
    return spots


def across(picture, one, other):
    """A bar for link 2 between the middles of two darts."""
    p, q = between(*one, 0.5), between(*other, 0.5)
    picture.line(toward(p, q, 3), toward(q, p, 3), LINK2, 2.4)


def legend(picture, x, y, entries):
    for kind, words in entries:
        if kind == "dart":
            picture.line((x, y - 5), (x + 34, y - 5), DART, 3.2)
        elif kind == "arrow":
            picture.line((x, y - 5), (x + 34, y - 5), DART, 3.2, "marker-end='url(#tip)'")
        elif kind == "gap":
            picture.line((x, y - 5), (x + 13, y - 5), DART, 3.2)
            picture.line((x + 21, y - 5), (x + 34, y - 5), DART, 3.2)
        elif kind == "one":
            picture.bow((x + 4, y + 1), (x + 17, y - 18), (x + 30, y + 1), LINK1, 2.2)
        elif kind == "two":
            picture.line((x + 17, y - 14), (x + 17, y + 4), LINK2, 2.4)
        elif kind == "fresh":
            picture.line((x, y - 5), (x + 34, y - 5), NEW, 3.2)
        picture.text((x + 46, y), words, 14, INK, "start")
        y += 26


def two_triangles(gap):
    """Two triangles side by side whose shared side is upright: left top, left bottom, left tip, and the same on the right."""
    top, bottom = (300, 40), (300, 290)
    left = [(top[0] - gap, top[1]), (bottom[0] - gap, bottom[1]), (60, 165)]
    right = [(top[0] + gap, top[1]), (bottom[0] + gap, bottom[1]), (540, 165)]
    return left, right


def generalized():
    picture = Picture(900, 330)
    left, right = two_triangles(22)
    # dart 1 at the start of the first side; the first side of each triangle is the shared one
    one = alpha_face(picture, left, [1, 2, 3, 4, 5, 6])
    two = alpha_face(picture, right, [7, 8, 9, 10, 11, 12])
    across(picture, one[1], two[7])
    across(picture, one[2], two[8])
    legend(picture, 590, 70, [("dart", "a dart, with its number"), ("gap", "link 0: the other dart of the side"),
                              ("one", "link 1: the next side of the face"), ("two", "link 2: the other face")])
    picture.text((590, 200), "Link 2 is free elsewhere.", 14, INK, "start")
    picture.text((590, 226), "The shared edge has the", 14, INK, "start")
    picture.text((590, 246), "darts 1, 2, 7 and 8.", 14, INK, "start")
    picture.write("generalized.svg")


def beta_face(picture, corners, numbers, fill=FACE):
    """A face of a combinatorial map, with one dart for each side that leads from its corner to the next."""
    heart = middle(corners)
    picture.area(corners, fill)
    count = len(corners)
    spots = {}
    for side, dart in enumerate(numbers):
        p, q = corners[side], corners[(side + 1) % count]
        a, b = toward(p, q, 16), toward(q, p, 16)
        picture.line(a, b, DART, 3.2, "marker-end='url(#tip)'")
        number(picture, a, b, heart, 0.5, dart)
        spots[dart] = (a, b)
    for side in range(count):
        picture.bow(spots[numbers[side - 1]][1], toward(corners[side], heart, -6), spots[numbers[side]][0], LINK1, 2.2)
    return spots


def combinatorial():
    picture = Picture(900, 330)
    left, right = two_triangles(22)
    one = beta_face(picture, left, [1, 2, 3])
    two = beta_face(picture, [right[1], right[0], right[2]], [4, 5, 6])
    across(picture, one[1], two[4])
    legend(picture, 590, 70, [("arrow", "a dart, with its number"), ("one", "link 1: the next dart of the face"),
                              ("two", "link 2: the other face")])
    picture.text((590, 174), "Link 0 leads back along link 1.", 14, INK, "start")
    picture.text((590, 200), "Link 2 is free elsewhere.", 14, INK, "start")
    picture.text((590, 226), "The shared edge has the darts", 14, INK, "start")
    picture.text((590, 246), "1 and 4, which lead opposite ways.", 14, INK, "start")
    picture.write("combinatorial.svg")


def small_pair(picture, x, gap, sewn, values, words):
    """Two triangles as in `generalized`, half as large, with a value on one edge or on two."""
    top, bottom = (x + 110, 34), (x + 110, 174)
    left = [(top[0] - gap, top[1]), (bottom[0] - gap, bottom[1]), (x - gap, 104)]
    right = [(top[0] + gap, top[1]), (bottom[0] + gap, bottom[1]), (x + 220 + gap, 104)]
    for corners in left, right:
        picture.area(corners, FACE)
        for side in range(3):
            p, q = corners[side], corners[(side + 1) % 3]
            picture.line(p, q, LINK2 if side == 0 else DART, 4 if side == 0 else 2.2)
    if sewn:
        for part in 0.25, 0.75:
            picture.line(between(left[0], left[1], part), between(right[0], right[1], part), LINK2, 2.4)
    for told, spot in zip(values, [(top[0] - gap - 16, 110), (top[0] + gap + 16, 110)]):
        if told is not None:
            picture.text(spot, told, 18, LINK2, more="font-weight='bold'")
    picture.text((top[0], 206), words, 14)


def values():
    picture = Picture(900, 226)
    small_pair(picture, 34, 14, False, ["5", "2"], "two edges, with 5 and with 2")
    small_pair(picture, 340, 5, True, [None, "7"], "after sew 2 1 7: one edge, with 7")
    small_pair(picture, 646, 14, False, ["4", "3"], "after unsew 2 1: 4 and 3 of the 7")
    for x in 299, 605:
        picture.line((x - 12, 104), (x + 12, 104), INK, 2.6, "marker-end='url(#tip)'")
    picture.write("values.svg")


def insertion():
    picture = Picture(900, 320)

    def square(x):
        return [(x, 40), (x + 220, 40), (x + 220, 260), (x, 260)]

    alpha_face(picture, square(50), [1, 2, 3, 4, 5, 6, 7, 8])
    picture.text((160, 156), "7", 22, LINK2, more="font-weight='bold'")
    picture.text((160, 300), "one face, with 7", 14)
    picture.line((306, 150), (344, 150), INK, 2.6, "marker-end='url(#tip)'")
    a, b, c, d = square(390)
    slip = 9
    upper = [(a[0] + slip, a[1] - slip), (b[0] + slip, b[1] - slip), (c[0] + slip, c[1] - slip)]
    lower = [(c[0] - slip, c[1] + slip), (d[0] - slip, d[1] + slip), (a[0] - slip, a[1] + slip)]
    one = alpha_face(picture, upper, [1, 2, 3, 4, 10, 9], fresh=(9, 10))
    two = alpha_face(picture, lower, [5, 6, 7, 8, 12, 11], fresh=(11, 12))
    across(picture, one[10], two[11])
    across(picture, one[9], two[12])
    picture.text((548, 106), "4", 22, LINK2, more="font-weight='bold'")
    picture.text((452, 208), "3", 22, LINK2, more="font-weight='bold'")
    picture.text((500, 300), "after edge 1 4: two faces, with 4 and 3 of the 7", 14)
    legend(picture, 690, 90, [("dart", "a dart"), ("fresh", "a new dart"), ("one", "link 1"), ("two", "link 2")])
    picture.write("insertion.svg")


# The rows of the house, from above. A crate stands on crates of rows below, or of its own.
ROWS = [
    ("code", [
        ("laws, example, tests", ["map_laws", "first_map", "map_rows", "map_calls", "link_calls", "text_calls"]),
        ("program", ["cellmap", "map_run", "script_text"]),
        ("the map", ["map_soak", "map_core", "valued_map", "undo_journal", "mesh_build"]),
        ("plans", ["kind_edit", "alpha_edit", "beta_edit", "map_close", "face_center"]),
        ("and their parts", ["cell_edit", "sewing", "dual_map", "orient_half"]),
        ("text", ["list_text", "off_text"]),
        ("values", ["transport", "attr_pool", "hook_book", "attr_rules"]),
        ("words, lines", ["text_lines", "text_words", "map_io"]),
        ("rows", ["cell_walk", "link_rows", "dart_arena", "flat_lists", "map_kind"]),
    ]),
    ("laws", [
        ("texts, totals", ["off_laws", "listing_laws", "reading_laws", "total_laws"]),
        ("the machine", ["answer_laws", "trail_laws", "label_laws", "machine_laws", "loading_laws", "journal_laws"]),
        ("maps, meshes", ["half_laws", "back_laws", "kept_laws", "center_laws", "remove_laws", "insert_laws"]),
        ("and values", ["value_laws", "row_laws", "dual_laws", "mesh_laws", "edit_laws", "link_laws"]),
    ]),
    ("definitions", [
        ("", ["machine_defs", "store_defs", "half_defs", "map_defs"]),
    ]),
]
FILLS = {"code": ("#eaf1f8", "#cfe0ef"), "laws": ("#f6efe2", "#ecdfc4"), "definitions": ("#e6f2e8", "#c9e2ce")}
TESTS = ("map_rows", "map_calls", "link_calls", "text_calls")
WORDS = {
    "machine_defs": "what the program does",
    "store_defs": "words between layers",
    "half_defs": "halves and doubles",
    "map_defs": "what maps are",
}


def layers():
    heights = [34 * len(rows) + 18 + (14 if band == "definitions" else 0) for band, rows in ROWS]
    picture = Picture(900, sum(heights) + 14 * len(ROWS) + 14)
    top = 14
    for (band, rows), height in zip(ROWS, heights):
        fill, inner = FILLS[band]
        picture.box(10, top, 880, height, fill, inner)
        picture.text((26, top + height / 2 + 5), band, 15, INK, "start", "font-weight='bold'")
        y = top + 9
        for name, crates in rows:
            picture.text((236, y + 21), name, 13, "#55606c", "end")
            wide = band == "definitions"
            x, step = 250, 157 if wide else 105
            for crate in crates:
                dashed = " stroke-dasharray='4 3'" if crate in TESTS else ""
                picture.lines.append(f"<rect x='{x}' y='{y}' width='{step - 7}' height='{42 if wide else 28}' rx='5' fill='white' "
                                     f"stroke='{INK}' stroke-width='0.9'{dashed}/>")
                picture.text((x + (step - 7) / 2, y + 19), crate, 12.5)
                if wide:
                    picture.text((x + (step - 7) / 2, y + 35), WORDS[crate], 10.5, "#55606c")
                x += step
            y += 34
        top += height + 14
    picture.write("layers.svg")


def main():
    generalized()
    combinatorial()
    values()
    insertion()
    layers()


main()
