#!/usr/bin/env python3
"""Writes the benchmark's result: report.py WORK DOCS

WORK is the folder of what was measured: messages, and rows of hidden calls; counts and times, as `measure` printed them; dump.N, callgrind's
dumps for the counts; of the program replay records-COUNT, its memory-COUNT in kB, its dump-replay and microseconds, one line for each run.
DOCS is the folder of PERFORMANCE.md and performance.svg. The tables stand between the two marker lines of PERFORMANCE.md; the rest of that
file stays as it is.
"""
import math
import os
import platform
import statistics
import subprocess
import sys

BEGIN = "<!-- bench/run writes from here -->"
END = "<!-- bench/run writes up to here -->"
NAMES = ["mishkolar", "second", "osip", "sofia"]
TITLES = {"mishkolar": "Mishkolar", "second": "second", "osip": "libosip2", "sofia": "sofia-sip"}
COLOURS = {"mishkolar": "#0b5fa5", "second": "#7a7a7a", "osip": "#c2571a", "sofia": "#2d7d46"}
SHAPES = ["folds", "quoted", "parameters", "bare", "folded", "tags", "privacy", "fields"]
WORDS = {
    "call": "the build description's call", "call-open": "the call without Privacy", "call-bye": "the BYE of the call",
    "call-two": "the call with a sip and a tel identity in one field", "call-fields": "the same in two fields", "call-200": "a 200 to it", "call-180": "a 180 to it", "invite": "INVITE with a body",
    "invite-200": "a 200 to it with a body", "folds": "folds", "quoted": "one quoted string", "parameters": "parameters",
    "bare": "short parameters", "folded": "a fold before each parameter", "tags": "required tags", "privacy": "tokens of Privacy",
    "fields": "96 fields", "empty": "80 empty fields",
    "refused-3": "the INVITE refused early: start line", "refused-4": "refused in the middle: a field without colon", "refused-12": "refused late: no Allow",
    "calling": "calling number", "count": "count of Via", "reading": "reading of the first Via",
    "home": "parameter at home", "abroad": "parameter not at home", "home-back": "caller of the parameter at home",
    "abroad-back": "caller of the parameter not at home", "status": "status of cause 17",
}
CALLS = ["call", "call-200", "call-180", "call-open", "call-bye", "call-two", "call-fields", "invite", "invite-200"]
CALLS += ["refused-3", "refused-4", "refused-12"]
# Rows of hidden calls.
HIDDEN = {
    "side-0": "the call to side 0", "entered": "the call, none held: its pair is entered", "open": "the call without Privacy, none held",
    "held": "the call, its pair held alone", "held-last": "the call, its pair the last of 32 usual ones",
    "bye": "its BYE, the pair held alone: it is removed", "bye-last": "its BYE, the pair the last of 32 usual ones: it is removed",
    "bye-unknown": "its BYE, none held", "bye-others": "its BYE, 32 others held", "full": "18: the call, 32 others held",
    "full-alike": "18: the longest pairs, all alike but for the last byte",
    "full-sums": "18: the longest pairs, all alike but for two bytes of the same sum",
    "full-inside": "18: the same, where these two bytes stand inside the tag",
    "end": "the end of a call, its pair held alone", "end-last": "the end of a call, its pair the last of 32 usual ones",
    "end-unknown": "19: the end of a call, none held", "end-others": "19: the end of a call, 32 others held",
}
# Tasks of the libraries alone; those that read no message, with the bytes that they read; and those that judge: a refusal is their answer.
ALONE = ["calling", "count", "reading", "home", "abroad"]
BACK = {"home-back": 7, "abroad-back": 8, "status": 0}
JUDGES = ["mishkolar", "second"]
# The most that one record of the call may take, in screenings of it.
MOST_FOR_A_RECORD = 1.5
FEW, MANY = 1000, 100000
LENGTHS = [1000, 2000, 3000, 4000, 6000, 8192]


def said(*words):
    """The first line that a command prints, or a dash."""
    try:
        return subprocess.run(words, stdout=subprocess.PIPE, stderr=subprocess.DEVNULL, text=True).stdout.splitlines()[0].strip()
    except (OSError, IndexError):
        return "-"


def instructions(dump):
    with open(dump) as f:
        for line in f:
            if line.startswith("summary:"):
                return int(line.split()[1])
    sys.exit(f"{dump} has no summary")


def read(work):
    """Instructions and nanoseconds by message or row and task; None where a message is not taken, unless it is meant to be refused."""
    result = {}
    for file, key in (("counts", "instructions"), ("times", "nanoseconds")):
        with open(os.path.join(work, file)) as f:
            for line in f:
                path, name, taken, number = line.split()
                message = os.path.basename(path)
                number = instructions(os.path.join(work, f"dump.{number}")) if key == "instructions" else int(number)
                answered = taken == "1" or message in HIDDEN or (message.startswith("refused-") and name in JUDGES)
                result[(message, name, key)] = number if answered else None
    return result


def number(value):
    return "refused" if value is None else f"{value:,}"


def ratio(result, message, name, key):
    own, other = result[(message, "mishkolar", key)], result[(message, name, key)]
    return "-" if not own or other is None else f"{other / own:.2f}"


def words(message):
    return WORDS[message] if message in WORDS else WORDS[message.split("-")[0]]


def row_of_all(result, folder, message, key):
    size = os.path.getsize(os.path.join(folder, message))
    own = result[(message, "mishkolar", key)]
    cells = [words(message), f"{size:,}"] + [number(result[(message, name, key)]) for name in NAMES]
    cells.append("-" if own is None else f"{own / size:.1f}")
    return cells + [ratio(result, message, name, key) for name in NAMES[1:]]


def row_of_own(title, size, own):
    """A function of one of the libraries alone: the other cells are empty."""
    each = "-" if own is None else f"{own / size:.1f}" if size else ""
    return [title, f"{size:,}" if size else "", number(own)] + [""] * 3 + [each] + [""] * 3


def row_of_alone(result, folder, message, task, key):
    size = os.path.getsize(os.path.join(folder, message))
    return row_of_own(f"{WORDS[task]}: {words(message)}", size, result[(message, task, key)])


def table(result, folder, key):
    lines = [
        "| Message | Bytes | " + " | ".join(TITLES[name] for name in NAMES) + " | Mishkolar for each byte | second / M. | libosip2 / M. | sofia-sip / M. |",
        "|---|--:|" + "--:|" * 8,
    ]
    rows = [row_of_all(result, folder, message, key) for message in CALLS]
    rows += [row_of_alone(result, folder, message, task, key) for task in ALONE for message in ("call", "invite")]
    rows += [row_of_own(WORDS[task], size, result[("call", task, key)]) for task, size in BACK.items()]
    shaped = ["empty"] + [f"{shape}-{length}" for shape in SHAPES for length in LENGTHS]
    rows += [row_of_all(result, folder, message, key) for message in shaped]
    return lines + ["| " + " | ".join(cells) + " |" for cells in rows]


def table_of_hidden(result):
    lines = ["| Hidden calls | Mishkolar | second | Mishkolar, ns | second, ns |", "|---|" + "--:|" * 4]
    for row, title in HIDDEN.items():
        cells = [title] + [number(result[(row, name, key)]) for key in ("instructions", "nanoseconds") for name in JUDGES]
        lines.append("| " + " | ".join(cells) + " |")
    return lines


def numbers(work, file):
    with open(os.path.join(work, file)) as f:
        return [int(line) for line in f]


def table_of_records(result, folder):
    lines = [
        "| Message | Bytes | Screening | One record | record / screening | Screening, ns | One record, ns |",
        "|---|--:|" + "--:|" * 5,
    ]
    for message in CALLS + ["empty"] + [f"{shape}-{LENGTHS[-1]}" for shape in SHAPES]:
        size = os.path.getsize(os.path.join(folder, message))
        cells = [words(message), f"{size:,}"] + [number(result[(message, task, "instructions")]) for task in ("mishkolar", "record")]
        cells.append(ratio(result, message, "record", "instructions"))
        cells += [number(result[(message, task, "nanoseconds")]) for task in ("mishkolar", "record")]
        lines.append("| " + " | ".join(cells) + " |")
    return lines


def table_of_program(work):
    sizes = [os.path.getsize(os.path.join(work, f"records-{count}")) for count in (FEW, MANY)]
    memory = [numbers(work, f"memory-{count}")[0] for count in (FEW, MANY)]
    second = MANY * 1e6 / statistics.median(numbers(work, "microseconds"))
    return [
        f"| The program `replay` | {FEW:,} records | {MANY:,} records |",
        "|---|--:|--:|",
        f"| bytes of the file | {sizes[0]:,} | {sizes[1]:,} |",
        f"| instructions a record, the whole run counted by callgrind | | {instructions(os.path.join(work, 'dump-replay')) / MANY:,.0f} |",
        f"| records a second, by the median of 15 runs from the file | | {second:,.0f} |",
        f"| the most memory held, kB | {memory[0]:,} | {memory[1]:,} |",
    ]


def package(name):
    return said("dpkg-query", "-W", "-f", "${Version}", name)


def machine():
    model = "-"
    with open("/proc/cpuinfo") as f:
        for line in f:
            if line.startswith("model name"):
                model = line.split(":", 1)[1].strip()
                break
    load = " ".join(f"{value:.1f}" for value in os.getloadavg())
    return [
        f"Machine: {model}, {os.cpu_count()} processors, {platform.system()} {platform.release()}; load {load} at the end of the run.",
        f"Tools: {said('cc', '--version')}; {said('rustc', '--version')}; {said('valgrind', '--version')}; Rattle kit {said('rt', 'version')}.",
        f"Beside it: libosip2 {package('libosip2-dev')}, sofia-sip {package('libsofia-sip-ua-dev')} (Debian's packages, as built there).",
    ]


def document(result, work):
    folder = os.path.join(work, "messages")
    lines = [""] + machine()
    lines += ["", "Instructions of one screening (or one parsing and writing, or the function named), counted by callgrind inside the measured function:", ""]
    lines += table(result, folder, "instructions")
    lines += ["", "Nanoseconds, the median of 201 batches of at least 50 microseconds each:", ""]
    lines += table(result, folder, "nanoseconds")
    lines += ["", "One screening, or one end of a call, with the table of hidden calls named, in instructions and in nanoseconds as above:", ""]
    lines += table_of_hidden(result)
    lines += ["", "One record counted by the library, beside the screening of the same message, in instructions and in nanoseconds as above:", ""]
    lines += table_of_records(result, folder)
    lines += ["", "The program `replay` on mixed records of these messages:", ""]
    lines += table_of_program(work)
    return lines + [""]


def put_between_markers(path, lines):
    with open(path) as f:
        text = f.read()
    if text.count(BEGIN) != 1 or text.count(END) != 1:
        sys.exit(f"{path} lacks its two marker lines")
    before, rest = text.split(BEGIN)
    after = rest.split(END)[1]
    with open(path, "w") as f:
        f.write(before + BEGIN + "\n" + "\n".join(lines) + "\n" + END + after)


# The plot: one panel for each shape, one line for each implementation, both axes from the smallest to the largest number met.

PANEL_WIDTH, PANEL_HEIGHT, LEFT, TOP, GAP_X, GAP_Y = 270, 190, 60, 60, 70, 70
COLUMNS = 3


class Axes:
    def __init__(self, column, row, low, high):
        self.x0 = LEFT + column * (PANEL_WIDTH + GAP_X)
        self.y0 = TOP + row * (PANEL_HEIGHT + GAP_Y)
        self.low, self.high = math.log10(low), math.log10(high)

    def x(self, length):
        return self.x0 + length / 8500 * PANEL_WIDTH

    def y(self, value):
        return self.y0 + PANEL_HEIGHT - (math.log10(value) - self.low) / (self.high - self.low) * PANEL_HEIGHT


def text(x, y, words, anchor="middle", size=12, colour="#222222", weight="normal"):
    return f'<text x="{x:.1f}" y="{y:.1f}" text-anchor="{anchor}" font-size="{size}" fill="{colour}" font-weight="{weight}">{words}</text>'


def line(x1, y1, x2, y2, colour="#cccccc", width=1):
    return f'<line x1="{x1:.1f}" y1="{y1:.1f}" x2="{x2:.1f}" y2="{y2:.1f}" stroke="{colour}" stroke-width="{width}"/>'


def panel(axes, shape, points):
    out = [text(axes.x0 + PANEL_WIDTH / 2, axes.y0 - 8, WORDS[shape], weight="bold", size=13)]
    power = math.floor(axes.low)
    while power <= axes.high:
        for step in (1, 2, 5):
            value = step * 10 ** power
            if axes.low <= math.log10(value) <= axes.high:
                out.append(line(axes.x0, axes.y(value), axes.x0 + PANEL_WIDTH, axes.y(value)))
                label = f"{value / 1e6:g} M" if value >= 1e6 else f"{value / 1e3:g} k"
                out.append(text(axes.x0 - 6, axes.y(value) + 4, label, "end", 11))
        power += 1
    for length in (0, 2000, 4000, 6000, 8000):
        out.append(line(axes.x(length), axes.y0 + PANEL_HEIGHT, axes.x(length), axes.y0 + PANEL_HEIGHT + 4, "#555555"))
        out.append(text(axes.x(length), axes.y0 + PANEL_HEIGHT + 18, f"{length:,}", size=11))
    out.append(line(axes.x0, axes.y0 + PANEL_HEIGHT, axes.x0 + PANEL_WIDTH, axes.y0 + PANEL_HEIGHT, "#555555"))
    for name, values in points.items():
        places = " ".join(f"{axes.x(length):.1f},{axes.y(value):.1f}" for length, value in values)
        width = 2.5 if name == "mishkolar" else 1.5
        out.append(f'<polyline points="{places}" fill="none" stroke="{COLOURS[name]}" stroke-width="{width}"/>')
        out += [f'<circle cx="{axes.x(length):.1f}" cy="{axes.y(value):.1f}" r="{width + 0.5}" fill="{COLOURS[name]}"/>' for length, value in values]
    return out


def plot(result, path):
    points = {}
    for shape in SHAPES:
        points[shape] = {}
        for name in NAMES:
            values = [(length, result[(f"{shape}-{length}", name, "instructions")]) for length in LENGTHS]
            points[shape][name] = [(length, value) for length, value in values if value]
    every = [value for lines in points.values() for values in lines.values() for _, value in values]
    low, high = min(every) / 1.3, max(every) * 1.3
    # The cell after the last panel is the legend's.
    rows = len(SHAPES) // COLUMNS + 1
    width, height = LEFT + COLUMNS * (PANEL_WIDTH + GAP_X) - GAP_X + 30, TOP + rows * (PANEL_HEIGHT + GAP_Y) - GAP_Y + 50
    out = [
        f'<svg xmlns="http://www.w3.org/2000/svg" width="{width}" height="{height}" viewBox="0 0 {width} {height}" font-family="sans-serif">',
        f'<rect width="{width}" height="{height}" fill="#ffffff"/>',
        text(width / 2, 24, "Instructions of one call against the length of the message in bytes (logarithmic upwards)", size=15),
    ]
    for place, shape in enumerate(SHAPES):
        out += panel(Axes(place % COLUMNS, place // COLUMNS, low, high), shape, points[shape])
    corner = Axes(len(SHAPES) % COLUMNS, len(SHAPES) // COLUMNS, low, high)
    for place, name in enumerate(NAMES):
        y = corner.y0 + 30 + place * 26
        out.append(line(corner.x0 + 20, y, corner.x0 + 60, y, COLOURS[name], 3))
        out.append(text(corner.x0 + 70, y + 4, TITLES[name], "start", 13))
    out.append("</svg>")
    with open(path, "w") as f:
        f.write("\n".join(out) + "\n")


def main():
    if len(sys.argv) != 3:
        sys.exit(__doc__)
    work, docs = sys.argv[1:]
    result = read(work)
    put_between_markers(os.path.join(docs, "PERFORMANCE.md"), document(result, work))
    plot(result, os.path.join(docs, "performance.svg"))
    if result[("call", "record", "instructions")] > MOST_FOR_A_RECORD * result[("call", "mishkolar", "instructions")]:
        sys.exit(f"one record of the call takes more than {MOST_FOR_A_RECORD} times the instructions of its screening")


main()
