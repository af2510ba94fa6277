"""TABLE.md: what was measured, as tables, with the aims and whether they are met."""

from results import ARCHIVE, CONTENDERS, FIRST_EDITION, LOWER_BOUND, WHOLE_LISTS, geometric_mean, ratios

DENSE_COMMON = "seek in dense common pages"
DENSE_WORDS = [DENSE_COMMON, "seek in mixed common pages", "dense page by rank", "dense fresh seek",
               "write a dense word", "check a dense word"]

GROUPS = [
    ("One list", ["write a list", "check a list"]),
    ("Reading one list", ["element by rank", "fresh seek"]),
    ("Intersections", ["common pages", "seek in common pages", "pages of one word"]),
    ("Dense words, in edition 2", DENSE_WORDS),
    ("Screens of 10 pages", ["check before a screen", "screen with the check", "screen alone"]),
    ("Phrases", ["phrase", "phrase with gaps"]),
    ("Word lookup", ["word lookup"]),
    ("Words and cards", ["write words", "check words", "close a card", "check a card"]),
    ("Words written in runs", ["write in runs of 256", "write in runs of 1"]),
    ("Runs of questions, the check included", ["run of questions"]),
    ("The program, from start to end", ["program"]),
]

INTERSECTIONS = {"common pages", "seek in common pages", DENSE_COMMON, "seek in mixed common pages"}
PEER_MOST = 1.2
PEER_MOST_INTERSECTION = 1.0
# the most of the time for whole lists that a word written in runs may take
WHOLE_LISTS_MOST = {"write in runs of 256": 1.3, "write in runs of 1": 3.0}
# the most of edition 1's time that a seek in common pages of dense words may take
FIRST_EDITION_MOST = 0.5
DENSE = ("3 in 4", "1 in 2", "1 in 16")

NOTES = """\
- Ratios are the archive's time over the contender's, in the same run: below 1.00 the archive is faster.
- `archive` is target/staticlib/libjundefola.a, called as a host calls it; `peer` is bench/peer, the same calls in Rust \
without proofs; `sdsl` is its sd_vector; `CRoaring` its bitmap after run_optimize; `galloping` a plain sorted array, \
which is neither compressed nor checked. Everything is compiled at -O3 for plain x86-64, but the program, which the toolchain \
builds for x86-64-v2.
- All answers and all blocks are compared before anything is timed; a difference ends the run.
- In each repetition every contender runs once, in turn, and its smallest time counts. The time is the thread's own, \
which leaves out what other processes take of the core; for the program it is the time of day.
- Buffers are warm: the same lists, cards, questions and rooms in each repetition; a room is zeroed beforehand and used \
again, large enough that no pages need counting beforehand. Lists and questions come from fixed seeds.
- Each run of questions checks its card first. So one question is (a run of M questions, less a run of none on that \
card) / M, where M is such that the questions take about as long as the check, or longer. The others have no check.
- Phrases are drawn from the manual's text; those with gaps leave words out between, at the offsets 0, 2 and 0, 2, 3, 5.
- A word written in runs is announced, handed over in runs of 256 pages or of one page, and closed; `whole lists` is \
the archive's own writer, handed the same word at once.
- A screen has 10 common pages of two words, from bound 0 on, from the middle one on, or the last ones. Each call \
checks its card. `all pages` is the archive's kind 3 for the same words. The check is timed as a screen of no pages, \
which is refused behind it; before each run checks, kind 3 and the same run go uncounted, so that all find the \
processor alike. `screen alone` is the median of what a call took beyond the check in the same repetition, for cards \
whose check is short; in a long one a screen is lost. `seeks` and `looks` are the screen's own, those with `all-` kind \
3's.
- CRoaring's seek is by its iterator, which is faster than rank and select, and finds no rank.
- All cards are of edition 1 but those of dense words: there `archive` and `peer` have cards of edition 2, in which \
dense pages are bitmaps, and `edition 1` is the archive on the same words in edition 1. `just dense` is n = U div 4 + \
1, the fewest pages that are a bitmap. In mixed common pages one list is thin and the others are of 1 in 2. A seek is \
a question's time over its seeks, which both editions have alike. CRoaring, whose bitmaps are crossed whole, and \
`plain bitmap`, an `and` of words without counts or a check, make none; their time is divided by the same number. A \
dense word stands once on each of its pages; it is written and checked with its counts and positions, and the time is \
that of one page.\
"""


def duration(ns):
    """Nanoseconds with the unit that suits them, in three figures."""
    for size, unit in ((1e6, "ms"), (1e3, "µs")):
        if ns >= size:
            return f"{ns / size:.3g} {unit}" if ns < 1000 * size else f"{ns / size:.0f} {unit}"
    return f"{ns:.3g} ns"


def speed(measurement, contender):
    """Megabytes a second."""
    return f"{1000 * measurement.bytes / measurement.ns[contender]:.0f}"


def parameter_text(parameters):
    """Numbers that are powers of two, from 8,192 on, as powers; others with commas."""

    def number(text):
        value = int(text)
        power = value.bit_length() - 1
        return f"2^{power}" if value >= 8192 and value == 1 << power else f"{value:,}"

    return ", ".join(f"{name} = {number(value)}" for name, value in (p.split("=") for p in parameters.split()))


def ratio_text(ratio):
    """Two places, or four where these would hardly tell it from 0."""
    return f"{ratio:.2f}" if ratio >= 0.01 else f"{ratio:.4f}"


def row(cells):
    return "| " + " | ".join(cells) + " |"


def operation_table(measurements):
    present = [c for c in CONTENDERS if any(c in m.ns for m in measurements)]
    has_bytes = measurements[0].bytes > 0
    head = ["lists", "parameters", ARCHIVE] + [name for c in present for name in (c, "ratio")]
    if has_bytes:
        head += ["archive MB/s", "peer MB/s"]
    lines = [row(head), row(["---"] * 2 + ["---:"] * (len(head) - 2))]
    for m in measurements:
        cells = [m.family, parameter_text(m.parameters), duration(m.ns[ARCHIVE])]
        for c in present:
            cells += [duration(m.ns[c]), ratio_text(m.ratio(c))] if c in m.ns else ["", ""]
        if has_bytes:
            cells += [speed(m, ARCHIVE), speed(m, "peer")]
        lines.append(row(cells))
    means = [ratio_text(geometric_mean(ratios(measurements, c))) for c in present]
    cells = ["geometric mean", "", ""] + [cell for mean in means for cell in ("", mean)]
    lines.append(row(cells + [""] * (len(head) - len(cells))))
    return lines


def size_table(measurements):
    """The bytes of dense pages as a bitmap, beside edition 1's and the fewest that tell such a list from all others."""
    head = ["lists", "parameters", "bitmap", FIRST_EDITION, "ratio", LOWER_BOUND, "ratio"]
    lines = [row(head), row(["---"] * 2 + ["---:"] * (len(head) - 2))]
    for m in measurements:
        cells = [m.family, parameter_text(m.parameters), f"{m.ns[ARCHIVE]:,.0f}"]
        for other in (FIRST_EDITION, LOWER_BOUND):
            cells += [f"{m.ns[other]:,.0f}", ratio_text(m.ratio(other)) if m.ns[other] else ""]
        lines.append(row(cells))
    return lines


def summary_table(measurements):
    lines = [row(["operation"] + CONTENDERS), row(["---"] + ["---:"] * len(CONTENDERS))]
    for _, operations in GROUPS:
        for operation in operations:
            chosen = [m for m in measurements if m.operation == operation]
            if chosen:
                lines.append(row([operation] + [summary_cell(ratios(chosen, c)) for c in CONTENDERS]))
    return lines


def summary_cell(values):
    if not values:
        return ""
    return f"{ratio_text(geometric_mean(values))} ({ratio_text(min(values))} to {ratio_text(max(values))})"


def met(aim, over):
    """The line of an aim; `over` are the measurements that miss it, as texts."""
    if not over:
        return f"- {aim}: met."
    return f"- {aim}: not met, {len(over)} above it: " + "; ".join(over) + "."


def misses(measurements, contender, most):
    """For each operation that has a ratio above `most`: how many have, and the worst."""
    texts = []
    for operation in dict.fromkeys(m.operation for m in measurements):
        values = ratios([m for m in measurements if m.operation == operation], contender)
        above = [v for v in values if v > most]
        if above:
            texts.append(f"{operation} ({len(above)} of {len(values)}, up to {max(above):.2f})")
    return texts


def is_dense(measurement):
    return measurement.operation in DENSE_WORDS or any(measurement.family.endswith(name) for name in DENSE)


def aims(measurements):
    others = [m for m in measurements if m.operation not in INTERSECTIONS]
    crossing = [m for m in measurements if m.operation in INTERSECTIONS]
    thin = [m for m in measurements if not is_dense(m)]
    lines = [
        met(f"Peer, no operation above {PEER_MOST}", misses(others, "peer", PEER_MOST)),
        met(f"Peer, intersections at or below {PEER_MOST_INTERSECTION}",
            misses(crossing, "peer", PEER_MOST_INTERSECTION)),
    ]
    for operation, most in WHOLE_LISTS_MOST.items():
        streamed = [m for m in measurements if m.operation == operation]
        if streamed:
            lines.append(met(f"{operation[0].upper()}{operation[1:]}, at most {most} of whole lists",
                             misses(streamed, WHOLE_LISTS, most)))
    crossed = [m for m in measurements if m.operation == DENSE_COMMON]
    if crossed:
        lines.append(met(f"{DENSE_COMMON[0].upper()}{DENSE_COMMON[1:]}, at most {FIRST_EDITION_MOST} of edition 1",
                         misses(crossed, FIRST_EDITION, FIRST_EDITION_MOST)))
    if any("sdsl" in m.ns for m in measurements):
        lines.append(met("sdsl, faster everywhere", misses(measurements, "sdsl", 1)))
    if any("CRoaring" in m.ns for m in measurements):
        lines.append(met("CRoaring, faster where lists are sparse or clustered", misses(thin, "CRoaring", 1)))
    return lines


def write(path, measurements, machine):
    chosen = [m for m in measurements if not m.is_growth and not m.is_size]
    sizes = [m for m in measurements if m.is_size]
    lines = ["# What was measured", "", machine, "", NOTES, "", "## All operations", "",
             "Ratios archive / contender: geometric mean over all lists (least to greatest).", ""]
    lines += summary_table(chosen) + ["", "![ratios](ratios.svg)", "", "## Aims", ""] + aims(chosen)
    for title, operations in GROUPS:
        lines += ["", f"## {title}"]
        for operation in operations:
            rows = [m for m in chosen if m.operation == operation]
            if rows:
                lines += ["", f"### {operation}, time for one {rows[0].unit}", ""] + operation_table(rows)
    if sizes:
        lines += ["", "## Bytes of dense pages", "", "The list block as a bitmap, in edition 1, and the lower bound: log2 "
                  "of how many lists of n numbers below U there are, in whole bytes.", ""] + size_table(sizes)
    lines += ["", "## Growth", "", "With n at U = 2^24, with U at n = 2^12; words looked up on a card of T words; common "
              "pages of k words. The numbers are in results.csv.", "", "![growth with n](growth-n.svg)", "",
              "![growth with U](growth-u.svg)", "", "![growth with T and k](growth-t-k.svg)"]
    with open(path, "w") as file:
        file.write("\n".join(lines) + "\n")
