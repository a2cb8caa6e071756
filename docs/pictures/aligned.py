#!/usr/bin/env python3
"""Draws aligned.svg: two lists lined up, and their paired walk taken from both ends."""
from pathlib import Path

CELL, HEIGHT, GAP, LEFT = 74, 40, 10, 150
LISTS = [("left list", "#dbeafe", ["1", "2", "3", "4", "5"]), ("right list", "#dcfce7", ["'a'", "'b'", "'c'"])]
ITEMS = ["Both(1, 'a')", "Both(2, 'b')", "Both(3, 'c')", "Left(4)", "Left(5)"]
WIDTH = LEFT + 5 * (CELL + GAP) + 20


def text(x, y, words, size=14, anchor="middle", fill="#1f2937"):
    return f'<text x="{x}" y="{y}" font-size="{size}" text-anchor="{anchor}" fill="{fill}">{words}</text>'


def box(x, y, fill, dashed=False):
    dash = ' stroke-dasharray="4 3"' if dashed else ""
    return f'<rect x="{x}" y="{y}" width="{CELL}" height="{HEIGHT}" rx="5" fill="{fill}" stroke="#6b7280"{dash}/>'


def column(index):
    return LEFT + index * (CELL + GAP)


def arrow(x, y, words, forward):
    tip = 60 if forward else -60
    return [
        f'<line x1="{x}" y1="{y}" x2="{x + tip}" y2="{y}" stroke="#b45309" stroke-width="2" marker-end="url(#tip)"/>',
        text(x + tip / 2, y + 20, words, 13, fill="#b45309"),
    ]


def draw():
    out = [
        f'<svg xmlns="http://www.w3.org/2000/svg" viewBox="0 0 {WIDTH} 245" width="{WIDTH}" height="245" font-family="sans-serif">',
        "<title>Two lists lined up, and taken from both ends</title>",
        f'<rect width="{WIDTH}" height="245" fill="#ffffff"/>',
        '<defs><marker id="tip" markerWidth="8" markerHeight="8" refX="6" refY="4" orient="auto"><path d="M0,0 L8,4 L0,8 z" fill="#b45309"/></marker></defs>',
    ]
    for row, (name, fill, values) in enumerate(LISTS):
        y = 15 + row * (HEIGHT + GAP)
        out.append(text(LEFT - 15, y + 26, name, anchor="end"))
        for index in range(5):
            absent = index >= len(values)
            out.append(box(column(index), y, "#ffffff" if absent else fill, absent))
            if not absent:
                out.append(text(column(index) + CELL / 2, y + 26, values[index]))
    y = 140
    out.append(text(LEFT - 15, y + 26, "into_iter_swap()", anchor="end"))
    for index, words in enumerate(ITEMS):
        out.append(box(column(index), y, "#fef3c7"))
        out.append(text(column(index) + CELL / 2, y + 25, words, 11.5))
    out += arrow(column(0), 205, "next()", True)
    out += arrow(column(4) + CELL, 205, "next_back()", False)
    out.append("</svg>")
    return "\n".join(out) + "\n"


if __name__ == "__main__":
    (Path(__file__).parent / "aligned.svg").write_text(draw())
