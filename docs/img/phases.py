"""Draws phases.svg: the five phases of a slot and the steps between them.

    python3 docs/img/phases.py > docs/img/phases.svg

The picture has a pale ground of its own, so that it is legible on any page.
"""

WIDTH, HEIGHT = 1000, 930
GROUND, INK, FAINT, CODE = "#f7f8fa", "#1b1f24", "#4a5058", "#b00020"
LEFT, RIGHT, RAIL = 330, 610, 45
MIDDLE = (LEFT + RIGHT) // 2

# Each phase: number, name, what it means, top, height, colour.
PHASES = [
    (0, "idle", "the slot is all zero", 60, 76, "#e3e6ea"),
    (1, "open", "reads and writes go to the logs", 206, 84, "#cfe3f7"),
    (2, "locking", "holds the cells taken so far", 360, 84, "#f8e7bd"),
    (3, "twilight", "holds all cells of its write log", 514, 178, "#e2d3f3"),
    (4, "publishing", "committed; holds the rest", 762, 84, "#cdeacf"),
]

# The arrows down: label, codes.
DOWN = [("begin", ""), ("close", ""), ("enter, no lock is missing", "12"), ("finish, otherwise: committed", "")]

# The arrows back to idle: height, label, outcome.
BACK = [
    (248, "give up", ""),
    (402, "give up", ""),
    (546, "give up", ""),
    (602, "finish, a mark and no flag:", "13"),
    (658, "finish, no writes: committed", ""),
    (804, "publish, the last cell", ""),
]

# The steps that stay: phase, then step, remark, codes.
STAY = {
    1: [("read", "", "5 9 14 10"), ("write", "", "5 6 7 9")],
    2: [("lock", "one is missing", "11")],
    3: [("reread", "", "5 8"), ("update", "", "5 6 7 8"), ("ask", "", "5 8"), ("reload", "", "11 12"), ("ignore", "", "15")],
    4: [("publish", "more are left", "")],
}

NOTES = [
    "A red number: a code that the step can get there. 13 is an outcome; all others refuse and change nothing.",
    "In any phase: 1, 2 and 3. A step that has no arrow in the slot's phase gets 4.",
]


def text(x, y, words, size=16, colour=INK, anchor="start", bold=False):
    weight = ' font-weight="bold"' if bold else ""
    return f'<text x="{x}" y="{y}" font-size="{size}" fill="{colour}" text-anchor="{anchor}"{weight}>{words}</text>'


def path(d, head=True):
    end = ' marker-end="url(#head)"' if head else ""
    return f'<path d="{d}" fill="none" stroke="{INK}" stroke-width="2"{end}/>'


def codes(x, y, numbers):
    return [text(x, y, numbers, 16, CODE, bold=True)] if numbers else []


def box(number, name, meaning, top, height, colour):
    y = top + height // 2
    return [
        f'<rect x="{LEFT}" y="{top}" width="{RIGHT - LEFT}" height="{height}" rx="12" fill="{colour}" stroke="{INK}" stroke-width="2"/>',
        text(MIDDLE, y - 4, f"{number} {name}", 22, anchor="middle", bold=True),
        text(MIDDLE, y + 22, meaning, 15, FAINT, "middle"),
    ]


def down(above, below, label, numbers):
    start, end = above[3] + above[4], below[3]
    y = (start + end) // 2 + 4
    lines = [path(f"M{MIDDLE} {start} V{end - 3}"), text(MIDDLE + 14, y, label)]
    return lines + codes(MIDDLE + 14 + round(8 * len(label)) + 8, y, numbers)


def back():
    lowest, idle = BACK[-1][0], PHASES[0][3] + PHASES[0][4] // 2
    lines = [path(f"M{LEFT} {lowest} H{RAIL} V{idle} H{LEFT - 3}")]
    for y, label, outcome in BACK:
        if y != lowest:
            lines.append(path(f"M{LEFT} {y} H{RAIL + 3}"))
        lines.append(text(RAIL + 16, y - 9, label))
        lines += codes(RAIL + 16 + round(7.9 * len(label)) + 6, y - 9, outcome)
    return lines


def stay(phase, steps):
    top, height = phase[3], phase[4]
    y, reach = top + height // 2, 22
    lines = [path(f"M{RIGHT} {y - reach} C{RIGHT + 62} {y - reach - 8} {RIGHT + 62} {y + reach + 8} {RIGHT + 4} {y + reach}")]
    first = y - 13 * (len(steps) - 1) + 5
    for place, (step, remark, numbers) in enumerate(steps):
        at = first + 26 * place
        lines.append(text(RIGHT + 66, at, step, bold=True))
        if remark:
            lines.append(text(RIGHT + 146, at, remark, 16))
        lines += codes(RIGHT + (280 if remark else 146), at, numbers)
    return lines


def picture():
    lines = [
        f'<svg xmlns="http://www.w3.org/2000/svg" viewBox="0 0 {WIDTH} {HEIGHT}" '
        'font-family="DejaVu Sans, Verdana, Arial, sans-serif" role="img">',
        "<title>The five phases of a slot and the steps between them</title>",
        f'<defs><marker id="head" viewBox="0 0 10 10" refX="8" refY="5" markerWidth="7" markerHeight="7" orient="auto">'
        f'<path d="M0 0 L10 5 L0 10 Z" fill="{INK}"/></marker></defs>',
        f'<rect width="{WIDTH}" height="{HEIGHT}" rx="16" fill="{GROUND}"/>',
        text(RAIL, 36, "back to idle, all its cells free", 15, FAINT),
        text(RIGHT + 66, 36, "steps that stay in the phase", 15, FAINT),
    ]
    lines += back()
    for above, below, (label, numbers) in zip(PHASES, PHASES[1:], DOWN):
        lines += down(above, below, label, numbers)
    for phase in PHASES:
        lines += box(*phase)
        lines += stay(phase, STAY[phase[0]]) if phase[0] in STAY else []
    for place, note in enumerate(NOTES):
        lines.append(text(RAIL, 884 + 26 * place, note, 15))
    return "\n".join(lines + ["</svg>"])


print(picture())
