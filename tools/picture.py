"""The waves of a run as a picture: a row a wave, a column a cycle."""
from itertools import groupby

ROW, COLUMN, TOP, HIGH = 20, 44, 30, 12
LINE, FILL, GRID, HEAD = "#1f4e8c", "#cfe0f5", "#e6e6e6", "#555555"
STYLE = f"""text {{ font: 12px Helvetica, Arial, sans-serif }}
.head {{ font-weight: bold; fill: {HEAD} }} .cycle {{ text-anchor: middle; fill: {HEAD} }}
.value {{ text-anchor: middle; font-size: 11px; fill: {LINE} }}
.wave {{ fill: none; stroke: {LINE}; stroke-width: 1.5 }} .on {{ fill: {FILL} }} .grid {{ stroke: {GRID} }}"""


def picture(waves, cycles):
    """An SVG drawing of the waves."""
    left = 24 + 8 * max(len(wave.name) for wave in waves)
    width = left + COLUMN * (cycles + 1) + 10
    parts, y = [], TOP
    for group, rows in groupby(waves, key=lambda wave: wave.group):
        parts.append(f'<text class="head" x="8" y="{y + HIGH}">{group}</text>')
        y += ROW
        for wave in rows:
            parts.append(f'<text x="16" y="{y + HIGH}">{wave.name}</text>')
            parts += bit_row(wave.values, left, y) if wave.bits == 1 else count_row(wave.values, left, y)
            y += ROW
        y += 6
    rules = [f'<path class="grid" d="M{left + COLUMN * k} {TOP - 6}V{y}"/>' for k in range(cycles + 2)]
    heads = [f'<text class="cycle" x="{left + COLUMN * k + COLUMN // 2}" y="{TOP - 12}">{k or "fresh"}</text>'
             for k in range(cycles + 1)]
    return "\n".join([f'<svg xmlns="http://www.w3.org/2000/svg" width="{width}" height="{y + 4}" '
                      f'viewBox="0 0 {width} {y + 4}">', f"<style>{STYLE}</style>",
                      f'<rect width="{width}" height="{y + 4}" fill="white"/>', *rules, *heads, *parts, "</svg>", ""])


def stretches(values):
    """The values one after the other, each with its first cycle and how many cycles it stays."""
    at = 0
    for value, same in groupby(values):
        count = len(list(same))
        yield value, at, count
        at += count


def bit_row(values, left, y):
    """A line that is high where the bit is 1."""
    line, parts = "", []
    for value, at, count in stretches(values):
        x, level = left + COLUMN * at, y + (0 if value else HIGH)
        line += f"{'V' if line else f'M{x} '}{level}H{x + COLUMN * count}"
        if value:
            parts.append(f'<rect class="on" x="{x}" y="{y}" width="{COLUMN * count}" height="{HIGH}"/>')
    return parts + [f'<path class="wave" d="{line}"/>']


def count_row(values, left, y):
    """A box with the number where there is one, a low line for 0."""
    parts = []
    for value, at, count in stretches(values):
        x, long = left + COLUMN * at, COLUMN * count
        if value:
            parts.append(f'<rect class="on" x="{x}" y="{y}" width="{long}" height="{HIGH}"/>'
                         f'<path class="wave" d="M{x} {y}h{long}v{HIGH}h-{long}z"/>'
                         f'<text class="value" x="{x + long / 2:g}" y="{y + HIGH - 2}">{value}</text>')
        else:
            parts.append(f'<path class="wave" d="M{x} {y + HIGH}h{long}"/>')
    return parts
