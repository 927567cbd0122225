"""The Markdown tables of what was measured, and on what."""

import math
import platform

# The largest slope that is still linear.
SLOPE_ALLOWED = 1.1
# For GLIBC_TUNABLES: else memset and memcpy of the C library have one instruction for a large piece, which valgrind counts once for each byte.
NO_REP = "glibc.cpu.x86_rep_stosb_threshold=4294967296:glibc.cpu.x86_rep_movsb_threshold=4294967296"


class Series:
    """Runs of growing size, each with the run of an empty file on the same namespace."""

    def __init__(self, title, runs, empties):
        self.title = title
        self.runs = runs
        self.empties = empties

    def pairs(self):
        return list(zip(self.runs, self.empties))

    def own(self, field):
        """What each run took above that of its empty file."""
        return [getattr(run, field) - getattr(empty, field) for run, empty in self.pairs()]

    def whole(self, field):
        return [getattr(run, field) for run in self.runs]

    def slope(self, values):
        """The slope of these values over the runs' sizes."""
        return line_slope([run.size for run in self.runs], values)


def line_slope(sizes, values):
    """The slope of the straight line through the logarithms of sizes and values, by least squares."""
    if min(values) <= 0:
        return math.nan
    xs = [math.log(size) for size in sizes]
    ys = [math.log(value) for value in values]
    x = sum(xs) / len(xs)
    y = sum(ys) / len(ys)
    return sum((a - x) * (b - y) for a, b in zip(xs, ys)) / sum((a - x) ** 2 for a in xs)


def milliseconds(seconds):
    return f"{seconds * 1e3:.1f}"


def table(heads, rows):
    print("| " + " | ".join(heads) + " |")
    print("|" + "|".join(" --- " if place == 0 else " ---: " for place in range(len(heads))) + "|")
    for row in rows:
        print("| " + " | ".join(str(cell) for cell in row) + " |")
    print()


def print_runs(all_series, tools):
    rows = []
    for series in all_series:
        for run, empty in series.pairs():
            touched, fresh = tools.copy_times(run.moved)
            own = run.processor - empty.processor
            rows.append(
                [
                    series.title,
                    f"{run.size:,}",
                    milliseconds(run.wall),
                    milliseconds(run.processor),
                    milliseconds(own),
                    f"{own / touched:.1f}",
                    f"{own / fresh:.1f}",
                    f"{run.memory / 1e6:.1f}",
                    f"{(run.memory - empty.memory) / run.moved:.2f}",
                ]
            )
    heads = [
        "Run",
        "size",
        "wall ms",
        "processor ms",
        "the same above an empty file",
        "that / memcpy",
        "that / memcpy into fresh memory",
        "peak MB",
        "peak above an empty file / block bytes",
    ]
    table(heads, rows)


def print_slopes(all_series, with_instructions):
    rows = []
    for series in all_series:
        slopes = [
            series.slope(series.whole("wall")),
            series.slope(series.whole("processor")),
            series.slope(series.own("processor")),
            series.slope(series.whole("memory")),
            series.slope(series.own("memory")),
        ]
        if with_instructions:
            slopes.append(series.slope(series.own("instructions")))
        # The wall time alone isn't judged: it counts what else the machine does.
        kept = all(value <= SLOPE_ALLOWED for value in slopes[1:])
        rows.append([series.title] + [f"{value:.2f}" for value in slopes] + ["yes" if kept else "no"])
    heads = [
        "Slope of",
        "wall time",
        "processor time",
        "the same above an empty file",
        "peak memory",
        "the same above an empty file",
    ]
    if with_instructions:
        heads.append("instructions above an empty file")
    table(heads + [f"all but wall time at most {SLOPE_ALLOWED}"], rows)


def print_units(large, hot, little, with_instructions):
    rows = []
    base = little.own("processor")[-1]
    base_instructions = little.own("instructions")[-1]
    for name, series in [
        ("65,536 blocks, spread", large),
        ("65,536 blocks, all into block 0", hot),
        ("32 blocks", little),
    ]:
        own, size = series.own("processor")[-1], series.runs[-1].size
        row = [name, f"{own / size * 1e6:.2f}", f"{own / base:.2f}"]
        if with_instructions:
            count = series.own("instructions")[-1]
            row += [f"{count / size:,.0f}", f"{count / base_instructions:.2f}"]
        rows.append(row)
    heads = ["Unit of", "µs of processor time a Write", "to that of 32 blocks"]
    if with_instructions:
        heads += ["instructions a Write", "to those of 32 blocks"]
    table(heads, rows)


def print_deallocates(rows, with_instructions):
    """What one Deallocate costs: title, run, what is taken off, and the units met of each row."""
    lines = []
    for title, run, base, units in rows:
        own = (run.processor - base.processor) / run.count
        line = [title, f"{run.cleared:,}", f"{run.ranges:,}", f"{units:,}", f"{own * 1e6:,.1f}", f"{own / run.cleared * 1e9:,.0f}"]
        if with_instructions:
            count = (run.instructions - base.instructions) / run.count
            line += [f"{count:,.0f}", f"{count / run.cleared:,.0f}", f"{count / run.ranges / units:,.0f}"]
        line.append(f"{(run.memory - base.memory) / run.count / 1e3:,.1f}")
        lines.append(line)
    heads = ["A Deallocate of", "blocks cleared", "ranges", "units met", "µs of processor time", "ns a block"]
    if with_instructions:
        heads += ["instructions", "a block", "a range and unit"]
    table([*heads, "peak KB"], lines)


def model():
    """The processor's name, where the system gives it."""
    try:
        with open("/proc/cpuinfo") as file:
            for line in file:
                if line.startswith("model name"):
                    return line.split(":", 1)[1].strip()
    except OSError:
        pass
    return platform.processor()
