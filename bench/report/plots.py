"""The plots: ratios of each operation, and growth with n, U, T and k."""

from results import ARCHIVE, CONTENDERS, GROWTH, geometric_mean, ratios
from svg import COLOURS, Drawing, EvenScale, LogScale
from tables import GROUPS, PEER_MOST

PANEL_WIDTH, PANEL_HEIGHT = 330, 220
MARGIN_LEFT, MARGIN_TOP, GAP_X, GAP_Y = 80, 64, 90, 84


def number_text(value):
    """Large powers of two or ten as such, else the number with commas."""
    if isinstance(value, int) and value >= 8192 and value & (value - 1) == 0:
        return f"2^{value.bit_length() - 1}"
    return f"{value:,.10g}" if value < 1e6 else f"{value:.0e}".replace("e+0", "e")


def ratio_plot(path, measurements):
    """For each operation and contender a dot at the geometric mean, and a line from the least ratio to the greatest."""
    operations = [o for _, group in GROUPS for o in group if any(m.operation == o for m in measurements)]
    present = [c for c in CONTENDERS if any(c in m.ns for m in measurements)]
    left, top, width = 190, 70, 640
    heights = {o: 10 + 13 * sum(any(c in m.ns for m in measurements if m.operation == o) for c in present)
               for o in operations}
    drawing = Drawing(left + width + 40, top + sum(heights.values()) + 60)
    drawing.text(left, 24, "Archive's time over each contender's: left of 1 the archive is faster", 15)
    drawing.legend(left, 48, present)
    every = [r for c in present for r in ratios(measurements, c)]
    scale = LogScale(min(every), max(every), left, left + width)
    bottom = top + sum(heights.values())
    for value, x in scale.ticks():
        drawing.line(x, top, x, bottom)
        drawing.text(x, bottom + 18, number_text(value), anchor="middle")
    drawing.line(scale.place(1), top, scale.place(1), bottom, "#000", 1.5)
    drawing.line(scale.place(PEER_MOST), top, scale.place(PEER_MOST), bottom, COLOURS["peer"], 1, "4 3")
    drawing.text(left + width / 2, bottom + 42,
                 f"ratio, logarithmic (dashed: {PEER_MOST}, the most allowed against the peer)", anchor="middle")
    y = top
    for operation in operations:
        ratio_rows(drawing, scale, operation, [m for m in measurements if m.operation == operation], present, y)
        drawing.text(left - 10, y + heights[operation] / 2 + 4, operation, anchor="end")
        y += heights[operation]
        drawing.line(left, y, left + width, y, "#e4e4e4")
    drawing.frame(left, top, width, bottom - top)
    drawing.save(path)


def ratio_rows(drawing, scale, operation, measurements, present, y):
    y += 11.5
    for contender in present:
        values = ratios(measurements, contender)
        if values:
            drawing.line(scale.place(min(values)), y, scale.place(max(values)), y, COLOURS[contender], 2)
            drawing.dot(scale.place(geometric_mean(values)), y, COLOURS[contender], 4.5)
            y += 13


def panel(drawing, left, top, title, x_label, y_label, series, x_scale):
    """One panel: a line for each contender, time upwards on a logarithmic scale."""
    right, bottom = left + PANEL_WIDTH, top + PANEL_HEIGHT
    times = [ns for points in series.values() for _, ns in points]
    y_scale = LogScale(min(times), max(times), bottom, top)
    drawing.text(left, top - 8, title, 13)
    for value, y in y_scale.ticks():
        drawing.line(left, y, right, y)
        drawing.text(left - 6, y + 4, number_text(value), 11, "end")
    for value, x in x_scale.ticks():
        drawing.line(x, top, x, bottom, "#eee")
        drawing.text(x, bottom + 16, number_text(value), 11, "middle")
    for contender, points in series.items():
        places = [(x_scale.place(x), y_scale.place(ns)) for x, ns in points]
        drawing.path(places, COLOURS[contender])
        for x, y in places:
            drawing.dot(x, y, COLOURS[contender], 3)
    drawing.frame(left, top, PANEL_WIDTH, PANEL_HEIGHT)
    drawing.text((left + right) / 2, bottom + 36, x_label, anchor="middle")
    drawing.text(left - 52, (top + bottom) / 2, y_label, anchor="middle", turn=-90)


def series_of(measurements, parameter):
    """For each contender its points: the parameter and the time."""
    series = {}
    for contender in [ARCHIVE] + CONTENDERS:
        points = [(m.value(parameter), m.ns[contender]) for m in measurements if contender in m.ns]
        if points:
            series[contender] = points
    return series


def growth_plot(path, measurements, title, panels):
    """Panels two in a row; each is an operation, the parameter that grows, and the label of its axis."""
    rows = (len(panels) + 1) // 2
    drawing = Drawing(MARGIN_LEFT + 2 * PANEL_WIDTH + GAP_X + 30, MARGIN_TOP + rows * (PANEL_HEIGHT + GAP_Y) + 10)
    drawing.text(MARGIN_LEFT - 50, 22, title, 15)
    shown = set()
    for index, (operation, parameter, x_label) in enumerate(panels):
        chosen = [m for m in measurements if m.operation == operation and m.family == GROWTH + parameter]
        if not chosen:
            continue
        series = series_of(chosen, parameter)
        shown |= set(series)
        left = MARGIN_LEFT + (index % 2) * (PANEL_WIDTH + GAP_X)
        top = MARGIN_TOP + 14 + (index // 2) * (PANEL_HEIGHT + GAP_Y)
        values = [x for x, _ in series[ARCHIVE]]
        small = max(values) <= 16
        scale = (EvenScale(min(values), max(values), left, left + PANEL_WIDTH) if small
                 else LogScale(min(values), max(values), left, left + PANEL_WIDTH, 2))
        panel(drawing, left, top, operation, x_label, f"ns for one {chosen[0].unit}", series, scale)
    drawing.legend(MARGIN_LEFT - 50, 46, [c for c in [ARCHIVE] + CONTENDERS if c in shown])
    drawing.save(path)


def write_all(folder, measurements):
    ratio_plot(f"{folder}/ratios.svg", [m for m in measurements if not m.is_growth and not m.is_size])
    lists = ["write a list", "check a list", "element by rank", "fresh seek"]
    growth_plot(f"{folder}/growth-n.svg", measurements, "Growth with the length of a list, U = 2^24",
                [(operation, "n", "n, numbers in the list") for operation in lists])
    growth_plot(f"{folder}/growth-u.svg", measurements, "Growth with U, the list's limit, n = 2^12",
                [(operation, "U", "U") for operation in lists])
    growth_plot(f"{folder}/growth-t-k.svg", measurements, "Growth with the words of a card and of a question",
                [("word lookup", "T", "T, words on the card"), ("common pages", "k", "k, words in the question")])
