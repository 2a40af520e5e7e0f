"""The figures of `run`, as a table for the screen, as a page and as a picture."""

import os
from dataclasses import dataclass, field

WHAT = {
    "scalar": "a random number generator in A and S registers",
    "memory": "words read, added to and stored, through A and S registers",
    "vector": "sums, logic and merges of whole vectors, read and stored",
    "blocks": "64 B or T registers read or stored at once",
    "search": "a table searched for its own words, drawn at random",
    "hash": "shifts, sums and exclusive ors of S registers",
    "pair, turns of 64": "`scalar` and `memory` at once, through the library, 64 steps of each"
    " in turn",
    "pair, turns of 2": "the same, 2 steps of each in turn",
    "pair, turns of 1": "the same, changing at each step",
}


def pair_name(turn):
    return f"pair, turns of {turn}"


@dataclass
class Row:
    """A workload: host instructions and, if they are measured, nanoseconds for a step, ours
    and the peer's; the most instructions; the most time beside the peer's, if it has a limit."""

    name: str
    limit: int
    slowest: float
    counts: list
    times: list

    @property
    def count(self):
        return self.counts[0]

    @property
    def share(self):
        """Host instructions beside the peer's."""
        return self.counts[0] / self.counts[1]

    @property
    def ratio(self):
        """Time beside the peer's."""
        return self.times[0] / self.times[1]


CALL = {"steps": "a call of one step", "starts": "a start and one step"}


@dataclass
class Call:
    """What is called on the memory of a workload; the host instructions of a step of a run, or
    of a call, on the smallest and the largest memory; the most on the smallest, if limited."""

    what: str
    workload: str
    costs: list
    limit: int

    @property
    def name(self):
        return f"a step of `{self.workload}`" if self.what == "run" else CALL[self.what]


LINE = {
    "assemble": "a line assembled",
    "list": "a line listed",
    "fill": "a line listed, in no spare room",
}


@dataclass
class Line:
    """What is done with a line of CAL; its host instructions on the text once and
    twice; the most of them, if there is a limit."""

    what: str
    costs: list
    limit: int

    @property
    def name(self):
        return LINE[self.what]


@dataclass
class Cal:
    """How many lines a text of CAL has, and what one costs."""

    lines: int
    rows: list


@dataclass
class Library:
    """Pair runs by the length of a turn; steps of a run of each workload, and calls of one
    step; lines of CAL."""

    pair: dict
    calls: list
    cal: Cal

    def cost(self, what, workload):
        """On the smallest memory."""
        found = (call for call in self.calls if (call.what, call.workload) == (what, workload))
        return next(found).costs[0]

    @property
    def change(self):
        """What a pair run pays to change processor: from often and seldom, what a change adds."""
        often, seldom = min(self.pair), max(self.pair)
        more = self.pair[often].count - self.pair[seldom].count
        return more / (1 / often - 1 / seldom)

    @property
    def beside_run(self):
        """What a step of a pair run costs more than one of a run, where none changes."""
        seldom = max(self.pair)
        alone = self.pair[seldom].count - self.change / seldom
        return alone - (self.cost("run", "scalar") + self.cost("run", "memory")) / 2


@dataclass
class Figures:
    rows: list
    library: Library
    inlining: int
    spare: int
    over: list = field(default_factory=list)

    @property
    def all_rows(self):
        return self.rows + (list(self.library.pair.values()) if self.library else [])

    @property
    def are_timed(self):
        return all(row.times for row in self.rows)


# The screen.


def text(figures):
    """What is printed."""
    lines = steps_text(figures)
    if figures.library:
        lines += ["", *library_text(figures.library)]
    if figures.inlining is not None:
        left = f"left of the inliner's budget: {figures.inlining:,}"
        lines += ["", f"{left}, at least {figures.spare:,}"]
    lines += [""] + [f"OVER: {line}" for line in figures.over]
    lines.append("over a limit" if figures.over else "all within their limits")
    return "\n".join(line.rstrip() for line in lines)


def steps_text(figures):
    lines = [
        "                  host instructions a step",
        "workload            ours  limit    peer  ratio",
    ]
    if figures.are_timed:
        lines[0] += "           nanoseconds a step"
        lines[1] += "      ours    peer  ratio  limit"
    for row in figures.all_rows:
        ours, peers = row.counts
        line = f"{row.name:18}{ours:6.1f}{row.limit:7}{peers:8.1f}{row.share:7.2f}"
        if figures.are_timed:
            line += f"{row.times[0]:10.2f}{row.times[1]:8.2f}{row.ratio:7.2f}{row.slowest or '':7}"
        lines.append(line)
    return lines


def library_text(library):
    head = "through the library, host instructions"
    lines = [f"{head}    4,096 words  4,194,304 words  limit"]
    lines += [measured(call) for call in library.calls]
    cal = library.cal
    lines += ["", f"{head}{cal.lines:>9,} lines{2 * cal.lines:>11,} lines  limit"]
    return lines + [measured(line) for line in cal.rows]


def measured(row):
    return f"{row.name:38}{row.costs[0]:15.1f}{row.costs[1]:17.1f}{row.limit or '':7}"


# The page.


def write(figures, folder):
    """Writes the page and the picture."""
    for name, content in (("SPEED.md", markdown(figures)), ("speed.svg", picture(figures))):
        with open(os.path.join(folder, name), "w") as file:
            file.write(content)


def markdown(figures):
    parts = [
        "# Speed",
        "`bench/run` makes this page and its picture, and fails if a limit is exceeded.",
        f"![{TITLE}, by workload](speed.svg)",
        "A bar is the host instructions of a step divided by those of the peer, the independent"
        " interpreter in `trials/peer`, written by hand in safe Rust. Shorter is less work.",
        "## Workloads",
        workloads(figures),
    ]
    if not figures.are_timed:
        parts.append("Times were not measured for this page: they want an x86-64 machine.")
    if figures.over:
        parts.append("**Over a limit:**\n\n" + "\n".join(f"- {line}" for line in figures.over))
    parts.append(METHOD)
    if figures.are_timed:
        parts.append(TIMING)
    parts.append(BUILDS)
    if figures.library:
        parts += [library_page(figures.library), pair_page(figures.library)]
        parts.append(cal_page(figures.library.cal))
    if figures.inlining is not None:
        parts.append(inliner_page(figures))
    return "\n\n".join(parts) + "\n"


def workloads(figures):
    heads = ["workload", "what it does", "host instructions a step", "at most", "the peer's"]
    if figures.are_timed:
        heads += ["time beside the peer's", "at most"]
    rows = []
    for row in figures.all_rows:
        cells = [f"`{row.name}`", WHAT[row.name], f"{row.count:.1f}", row.limit]
        cells.append(f"{row.counts[1]:.1f}")
        if figures.are_timed:
            cells += [f"{row.ratio:.2f}", row.slowest or ""]
        rows.append(cells)
    return table(heads, 2, rows)


def table(heads, words, rows):
    """A table whose first columns hold words, and the others numbers."""
    rule = ["---"] * words + ["---:"] * (len(heads) - words)
    lines = ["| " + " | ".join(str(cell) for cell in cells) + " |" for cells in [heads, *rows]]
    return "\n".join([lines[0], "|" + "|".join(rule) + "|", *lines[1:]])


def costs(rows):
    """The cells of rows that have two costs and perhaps a limit."""
    return [
        [row.name, f"{row.costs[0]:.1f}", f"{row.costs[1]:.1f}", row.limit or ""] for row in rows
    ]


METHOD = """## How it is measured

**Workloads.** Each is a case sheet in `bench`, a loop that never ends, so that the budget alone \
stops it. Both programs must take all steps and give the same answer.

**Host instructions.** The instructions of a whole run of `sheet` are counted, with 200,000 and \
with 1,000,000 steps; the difference is divided by 800,000. What is done once, as reading the \
sheet, drops out. On x86-64 `valgrind --tool=callgrind` counts, elsewhere Debian's emulator of an \
x86-64 processor with the plugin `bench/counter.c`. The count depends on the compiler, but not on \
the machine's load. It depends on the processor only where the C library works, which copies and \
clears by the widest instructions that there are: at a start, and in the peer's `vector` and \
`blocks`."""

TIMING = """\
**Time.** Processor time, as the system counts it, of a run of 1,000,000 steps less that of a run \
of none. Both programs run in turn, many rounds, and the least of each counts. The ratio differs \
a little from one machine to another."""

BUILDS = """\
**Builds.** Both are compiled for any x86-64 processor with full optimisation, the peer as one \
unit with its library. Both move the words of a block or vector at once where they stand in a row \
inside of their field, and else test each."""


def library_page(library):
    heads = ["host instructions", "on 4,096 words", "on 4,194,304 words", "at most"]
    call, step = library.cost("steps", "memory"), library.cost("run", "memory")
    start = library.cost("starts", "memory") - call
    return f"""## Through the library

{table(heads, 1, costs(library.calls))}

`bench/library.c` makes these calls, those of one step on the memory of `memory`. Counts are \
differences of two runs as above: 200,000 and 1,000,000 steps, or 2,000 and 10,000 calls. On the \
largest memory none may cost over 1 in 100 more.

A run and a pair run are compiled apart, each with the code of a step in its own loop. So a step \
of a run costs what it costs in `sheet`, and the limits are the same.

A processor is 672 words that the caller lends. A call copies none of them: it checks that their \
numbers fit, once for all its steps, and then works on them where they stand. Of the {call:.0f} \
instructions of a call of one step, {step:.0f} are the step; the rest is the check and the call \
itself. A start writes all 672 words, and takes {start:.0f}."""


def pair_page(library):
    return f"""## A pair run

A pair run is one loop over its schedule. A step in it costs about {library.beside_run:.0f} \
instructions more than in a run: it looks at its byte of the schedule, finds its processor's \
words, and the host's registers do not hold all that two processors need. To change processor \
costs about {library.change:.1f} instructions: P of the one goes to its word, and P and the \
fields of the other are taken up. That is what shorter turns cost more."""


def cal_page(cal):
    heads = ["host instructions", f"{cal.lines:,} lines", f"{2 * cal.lines:,} lines", "at most"]
    return f"""## CAL

{table(heads, 1, costs(cal.rows))}

The text has a line for each first parcel that is spelled, with 177777 as its second parcel where \
it takes one, which makes the longest numbers; the independent program lists it. \
`bench/library.c` assembles it, or lists its parcels, once and twice in one process, and the \
difference is divided by the lines. What is done once, as reading the text, drops out. On twice \
the text a line may not cost over 1 in 100 more: the work grows as the text does.

Nothing is written before all lines are known to be good and to fit, so a text is gone through \
twice. Parcels are so only where the room has less than 16 bytes for each: the third row."""


def inliner_page(figures):
    return f"""## The inliner's budget

A step is inlined into the loop of a burst. The compiler does that for a function with one call as \
long as its cost is under a budget of 15,250 units; over it, a step would cost some 40 \
instructions more. Where it is tightest, {figures.inlining:,} units are left, and at least \
{figures.spare:,} are wanted. The figure comes from the compiler's own remarks \
(`-Rpass=inline`)."""


# The picture.

TITLE = "Host instructions of a step beside the peer's"
LEFT, UNIT, ROW, TOP = 130, 360, 26, 34


def picture(figures):
    """A bar for each workload, with a line at the peer."""
    rows = figures.all_rows
    most = max([1] + [row.share for row in rows])
    width = round(LEFT + most * UNIT + 60)
    bottom = TOP + ROW * len(rows)
    bars = "".join(bar(n, row) for n, row in enumerate(rows))
    head = HEAD.format(width=width, height=bottom + 12, title=TITLE)
    return head + mark(1, "peer", bottom) + bars + "</svg>\n"


def mark(at, word, bottom):
    x = LEFT + at * UNIT
    return (
        f'<line class="mark" x1="{x:g}" x2="{x:g}" y1="{TOP - 6}" y2="{bottom}"/>\n'
        f'<text class="middle" x="{x:g}" y="{TOP - 12}">{word} {at:g}</text>\n'
    )


def bar(n, row):
    top = TOP + ROW * n
    long = row.share * UNIT
    return (
        f'<text class="end" x="{LEFT - 8}" y="{top + 17}">{row.name}</text>\n'
        f'<rect class="bar" x="{LEFT}" y="{top + 4}" width="{long:.1f}" height="18" rx="2"/>\n'
        f'<text class="number" x="{LEFT + long + 6:.1f}" y="{top + 17}">{row.share:.2f}</text>\n'
    )


HEAD = """\
<svg xmlns="http://www.w3.org/2000/svg" width="{width}" height="{height}" \
viewBox="0 0 {width} {height}" role="img">
<title>{title}</title>
<style>
text {{ font: 13px sans-serif; fill: #24292f }}
.back {{ fill: #ffffff }}
.bar {{ fill: #2f7bbf }}
.mark {{ stroke: #8c959f; stroke-dasharray: 3 3 }}
.end {{ text-anchor: end }}
.middle {{ text-anchor: middle }}
.number {{ font-weight: bold; paint-order: stroke; stroke: #ffffff; stroke-width: 4px }}
@media (prefers-color-scheme: dark) {{
text {{ fill: #e6edf3 }}
.back {{ fill: #0d1117 }}
.bar {{ fill: #58a6ff }}
.number {{ stroke: #0d1117 }}
}}
</style>
<rect class="back" width="{width}" height="{height}" rx="6"/>
"""
