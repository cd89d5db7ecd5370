"""Pictures as text: Graphviz's language, TikZ, SVG, and what a notebook shows."""
from __future__ import annotations

import html as escaping
import shutil
import subprocess
from typing import TYPE_CHECKING

from .picture import COLOURS, Node, Picture, TooLarge, is_barred, picture

if TYPE_CHECKING:
    from .crystal import Crystal

GAP_ACROSS, GAP_DOWN, CELL, NEAR = 26, 64, 18, 8


def colour(index: int) -> str:
    """The colour of an index."""
    return COLOURS[index - 1]


# ---- Graphviz


def dot(shown: Picture, label: str = "word") -> str:
    """The picture in Graphviz's language: highest weights on top, filled vertices gold."""
    lines = ["digraph crystal {", '  node [shape=box, style="rounded,filled", fillcolor=white, fontname="Helvetica"];']
    lines.append('  edge [fontname="Helvetica", fontsize=11, arrowsize=0.7];')
    for node in shown.nodes.values():
        fill = ", fillcolor=gold" if node.is_filled else ""
        lines.append(f"  {node.rank} [label={_dot_label(node, label)}{fill}];")
    lines.append(f"  {{ rank=min; {' '.join(map(str, shown.tops()))} }}")
    for source, i, target in shown.arrows:
        lines.append(f'  {source} -> {target} [label="{i}", color="{colour(i)}", fontcolor="{colour(i)}"];')
    return "\n".join(lines + ["}"]) + "\n"


def _dot_label(node: Node, label: str) -> str:
    if label != "tableau" or not node.rows:
        return '"' + node.label(label).replace("\n", "\\n") + '"'
    from .picture import overlined

    rows = "".join("<TR>" + "".join(f"<TD>{overlined(token)}</TD>" for token in row) + "</TR>" for row in node.rows)
    return f'<<TABLE BORDER="0" CELLBORDER="1" CELLSPACING="0">{rows}</TABLE>>, shape=none, margin=0, style="filled"'


# ---- LaTeX

HEAD = r"""\documentclass[border=4pt]{standalone}
\usepackage{tikz}
"""


def tex(tokens: tuple[str, ...]) -> str:
    """A word for LaTeX: negative letters have a bar."""
    return r"\,".join(rf"\overline{{{token[1:]}}}" if is_barred(token) else f"{{{token}}}" for token in tokens)


def _tex_label(node: Node, label: str) -> str:
    if label == "none":
        return ""
    if label == "rank":
        return str(node.rank)
    if label == "weight":
        return f"$({','.join(node.weight.split())})$"
    if label == "tableau" and node.rows:
        return r"\begin{ytableau}" + r"\\".join("&".join(_tex_letter(token) for token in row) for row in node.rows) + r"\end{ytableau}"
    return f"${tex(node.word)}$"


def _tex_letter(token: str) -> str:
    return rf"\overline{{{token[1:]}}}" if is_barred(token) else token


def tikz(shown: Picture, label: str = "word", standalone: bool = False) -> str:
    """The picture for LaTeX's package tikz; the distances go by the longest label, so that nothing overlaps."""
    wide, high = _label_size(shown, label)
    lines = [rf"\begin{{tikzpicture}}[>=stealth, x={wide:.1f}cm, y={high:.1f}cm, vertex/.style={{draw, rounded corners}}]"]
    names = {c: f"crystal{n}" for n, c in enumerate(COLOURS, 1) if c.startswith("#")}
    lines += [rf"  \definecolor{{{name}}}{{HTML}}{{{c[1:].upper()}}}" for c, name in names.items()]
    if label == "tableau":
        lines.append(r"  \ytableausetup{smalltableaux}")
    for node in shown.nodes.values():
        fill = ", fill=yellow!60" if node.is_filled else ""
        style = "inner sep=1pt" if label == "tableau" else "vertex"
        place = f"({shown.across[node.rank]:g}, {-shown.rows[node.rank]})"
        lines.append(rf"  \node[{style}{fill}] (v{node.rank}) at {place} {{{_tex_label(node, label)}}};")
    for source, i, target in shown.arrows:
        one = names.get(colour(i), colour(i))
        lines.append(rf"  \draw[->, {one}] (v{source}) -- node[auto, font=\scriptsize] {{{i}}} (v{target});")
    text = "\n".join(lines + [r"\end{tikzpicture}"]) + "\n"
    needed = "\\usepackage{ytableau}\n" if label == "tableau" else ""
    return f"{HEAD}{needed}\\begin{{document}}\n{text}\\end{{document}}\n" if standalone else text


def _label_size(shown: Picture, label: str) -> tuple[float, float]:
    """The distances between places, in centimetres, for the largest label."""
    wide = high = 1
    for node in shown.nodes.values():
        lines = node.label(label).replace("\u0305", "").split("\n")
        wide, high = max(wide, *map(len, lines)), max(high, len(lines))
    return 0.8 + 0.19 * wide, 1.1 + 0.42 * high


# ---- SVG, with a layout of its own


def svg(shown: Picture, label: str = "word") -> str:
    """The picture as SVG, placed in rows from the highest weights down; no other program is needed."""
    sizes = {rank: _box(node, label) for rank, node in shown.nodes.items()}
    widest = max((w for w, _ in sizes.values()), default=0) + GAP_ACROSS
    highest = max((h for _, h in sizes.values()), default=0) + GAP_DOWN
    left = min(shown.across.values(), default=0.0)
    right = max(shown.across.values(), default=0.0)
    width = (right - left + 1) * widest
    height = (max(shown.rows.values(), default=0) + 1) * highest
    at = {rank: ((shown.across[rank] - left + 0.5) * widest, (shown.rows[rank] + 0.5) * highest) for rank in shown.nodes}
    parts = [
        f'<svg xmlns="http://www.w3.org/2000/svg" viewBox="0 0 {width:.0f} {height:.0f}" width="{width:.0f}" '
        f'height="{height:.0f}" font-family="Helvetica, Arial, sans-serif" font-size="13">',
        f"<title>{escaping.escape(shown.title)}</title>",
        "<defs>" + "".join(_head(i) for i in sorted({i for _, i, _ in shown.arrows})) + "</defs>",
    ]
    parts += [_arrow(at, sizes, *arrow) for arrow in shown.arrows]
    parts += [_vertex(node, label, at[rank], sizes[rank]) for rank, node in shown.nodes.items()]
    return "\n".join([*parts, "</svg>"]) + "\n"


def _box(node: Node, label: str) -> tuple[float, float]:
    """The width and height of a vertex."""
    if label == "tableau" and node.rows:
        return len(node.rows[0]) * CELL + 4, len(node.rows) * CELL + 4
    text = node.label(label).replace("\u0305", "")
    return (max(18.0, 7.4 * len(text) + 12), 24.0) if text else (12.0, 12.0)


def _head(index: int) -> str:
    return (
        f'<marker id="head{index}" viewBox="0 0 8 8" refX="7" refY="4" markerWidth="7" markerHeight="7" orient="auto">'
        f'<path d="M0,0 L8,4 L0,8 z" fill="{colour(index)}"/></marker>'
    )


def _arrow(at: dict, sizes: dict, source: int, index: int, target: int) -> str:
    (x, y), (u, v) = at[source], at[target]
    y, v = y + sizes[source][1] / 2, v - sizes[target][1] / 2
    across, down = _beside((x, y), (u, v))
    return (
        f'<g class="arrow" data-index="{index}" data-from="{source}" data-to="{target}">'
        f'<line x1="{x:.1f}" y1="{y:.1f}" x2="{u:.1f}" y2="{v:.1f}" stroke="{colour(index)}" marker-end="url(#head{index})"/>'
        f'<text x="{across:.1f}" y="{down + 4:.1f}" text-anchor="middle" fill="{colour(index)}" font-size="11">{index}</text></g>'
    )


def _beside(start: tuple[float, float], end: tuple[float, float]) -> tuple[float, float]:
    """The middle of an arrow's label: beside its line on the outer side, near its start, since arrows cross further on."""
    (x, y), (u, v) = start, end
    length = ((u - x) ** 2 + (v - y) ** 2) ** 0.5 or 1.0
    away = NEAR if u >= x else -NEAR
    return x + (u - x) * 0.3 + away * (v - y) / length, y + (v - y) * 0.3 - away * (u - x) / length


def _vertex(node: Node, label: str, at: tuple[float, float], size: tuple[float, float]) -> str:
    (x, y), (w, h) = at, size
    fill = "gold" if node.is_filled else "white"
    parts = [f'<g class="vertex" data-rank="{node.rank}"><title>{escaping.escape(" ".join(node.word))} | {node.weight}</title>']
    if label == "tableau" and node.rows:
        left, top = x - w / 2 + 2, y - h / 2 + 2
        for r, row in enumerate(node.rows):
            for c, token in enumerate(row):
                box = f'x="{left + c * CELL:.1f}" y="{top + r * CELL:.1f}" width="{CELL}" height="{CELL}"'
                parts.append(f'<rect {box} fill="{fill}" stroke="black"/>')
                parts.append(_text(left + (c + 0.5) * CELL, top + (r + 0.5) * CELL, node.rows[r][c : c + 1]))
    else:
        parts.append(f'<rect x="{x - w / 2:.1f}" y="{y - h / 2:.1f}" width="{w:.1f}" height="{h:.1f}" rx="6" fill="{fill}" stroke="black"/>')
        if label in ("rank", "weight"):
            parts.append(_text(x, y, (node.label(label),)))
        elif label != "none":
            parts.append(_text(x, y, node.word))
    return "".join(parts) + "</g>"


def _text(x: float, y: float, tokens: tuple[str, ...]) -> str:
    spans = " ".join(
        f'<tspan text-decoration="overline">{token[1:]}</tspan>' if is_barred(token) else escaping.escape(token) for token in tokens
    )
    return f'<text x="{x:.1f}" y="{y + 4.5:.1f}" text-anchor="middle" fill="black">{spans}</text>'


# ---- notebooks


def drawn(crystal: Crystal, label: str | None = None, **choices) -> str:
    """A crystal as SVG: by Graphviz where it is installed, else by this package's own layout. A shape's elements are
    labelled by tableaux."""
    shown = picture(crystal._graph, shape=crystal.job.shape, order=crystal.job.order, **choices)
    named = label or ("tableau" if crystal.job.shape else "word")
    if shutil.which("dot"):
        made = subprocess.run(["dot", "-Tsvg"], input=dot(shown, named), capture_output=True, text=True)
        if made.returncode == 0:
            return made.stdout[made.stdout.index("<svg") :]
    return svg(shown, named)


def html(crystal: Crystal) -> str:
    """What a notebook shows: the picture, or a sentence where there are too many vertices for one."""
    try:
        return drawn(crystal)
    except TooLarge:
        return f"<p>{escaping.escape(repr(crystal))}; too many for a picture: choose a depth, as in <code>B.draw(depth=3)</code></p>"
