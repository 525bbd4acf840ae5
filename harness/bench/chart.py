#!/usr/bin/env python3
"""chart.py TIMES MD SVG: makes the tables and the bar chart from what bench printed.

MD keeps its own words: what stands between the two marks is made anew, the rest stays. An MD that is not there is begun.
"""
import os
import platform
import re
import subprocess
import sys
from xml.sax.saxutils import escape

BEGIN, END = "<!-- figures: written by harness/bench/run -->", "<!-- end of figures -->"
GROUPS = {"read": "Read", "round": "Read, then write", "utf8": "UTF-8 checked alone, and copying as the limit"}
OWN = {"read": "Lanternrung read", "round": "Lanternrung", "utf8": "Lanternrung utf8"}
KINDS = {"records": "Small records", "nested": "Small nested texts", "jaxn": "Small JAXN texts"}
SIZES = {"50": "50 bytes", "1k": "1 KiB", "4k": "4 KiB", "16k": "16 KiB"}
WHOLE = "RapidJSON, UTF-8 checked, numbers kept whole"
RUST = "Rust str::from_utf8"
OURS, PEER, INK, GREY, LINE = "#c2410c", "#94a3b8", "#1f2937", "#64748b", "#e2e8f0"
BAR, GAP, LABEL, WIDTH, SPACE = 15, 5, 310, 185, 60


def load(path):
    """By the medians, in the order of TIMES: {(group, name): {file: MB/s}} of the files, {kind: {name: {size: (ns, MB/s)}}} of the small texts."""
    rows, small = {}, {}
    with open(path) as f:
        for line in f:
            file, group, name, texts, size, median, _ = line.rstrip("\n").split("\t")
            speed, call = int(size) / 1e6 / float(median), float(median) / int(texts) * 1e9
            if not file.endswith(".seq"):
                rows.setdefault((group, name), {})[file] = speed
                continue
            kind, length = file[:-4].split("-")
            label = name if name.startswith("Lanternrung ") else name + (", read" if group == "read" else ", read then write")
            small.setdefault(kind, {}).setdefault(label, {})[SIZES[length]] = (call, speed)
    return rows, small


def said(command, pattern):
    """What a program says of its version; nothing where it is not there."""
    try:
        text = subprocess.run(command, capture_output=True, text=True).stdout
    except OSError:
        return ""
    found = re.search(pattern, text)
    return found.group(0) if found else ""


def machine():
    """Processor and compilers, as far as Linux tells them."""
    try:
        with open("/proc/cpuinfo") as f:
            lines = [line.split(":", 1) for line in f if ":" in line]
    except OSError:
        lines = []
    names = {key.strip(): value.strip() for key, value in lines}
    parts = {"0xd0c": "Neoverse N1", "0xd40": "Neoverse V1", "0xd49": "Neoverse N2", "0xd4f": "Neoverse V2"}
    part = names.get("CPU part", "")
    processor = names.get("model name", parts.get(part, part))
    gcc = said([os.environ.get("CXX", "g++"), "--version"], r"\d+\.\d+\.\d+")
    rust = said(["rustc", "--version"], r"rustc \d+\.\d+\.\d+")
    return f"{platform.machine()} ({processor}), {os.cpu_count()} cores, g++ {gcc}, {rust}"


def unique(items):
    return list(dict.fromkeys(items))


def names(rows, group):
    """Lanternrung first, then the peers, the fastest first."""
    first = [n for g, n in rows if g == group and n.startswith("Lanternrung")]
    peers = [n for g, n in rows if g == group and n not in first]
    files = files_of(rows, group)
    return first + sorted(peers, key=lambda n: -sum(rows[group, n].get(f, 0) / rows[group, OWN[group]][f] for f in files))


def files_of(rows, group):
    """The files on which peers ran."""
    return unique(f for (g, n), speeds in rows.items() if g == group and not n.startswith("Lanternrung") for f in speeds)


def table(rows, group):
    files = files_of(rows, group)
    out = ["", f"## {GROUPS[group]}", "", "| MB/s (Lanternrung is so many times as fast) | " + " | ".join(files) + " |", "|---" * (len(files) + 1) + "|"]
    for name in names(rows, group):
        cells = []
        for file in files:
            speed, own = rows[group, name].get(file), rows[group, OWN[group]].get(file)
            cells.append("" if speed is None else f"{speed:.0f}" if name == OWN[group] else f"{speed:.0f} ({own / speed:.2f})")
        out.append(f"| {'**' + name + '**' if name == OWN[group] else name} | " + " | ".join(cells) + " |")
    return out


def small_table(kind, lines):
    sizes = list(SIZES.values())
    out = ["", f"### {KINDS[kind]}", "", "| ns a call (MB/s) | " + " | ".join(sizes) + " |", "|---" * (len(sizes) + 1) + "|"]
    for name, cells in sorted(lines.items(), key=lambda line: "write" in line[0]):
        shown = f"**{name}**" if name.startswith("Lanternrung") else name
        out.append(f"| {shown} | " + " | ".join("{:.0f} ({:.0f})".format(*cells[size]) for size in sizes) + " |")
    return out


def small_tables(small):
    out = ["", "## Small texts", "", "What plants have: many different texts of about each size, one call for each. Nanoseconds a call, and MB/s in brackets."]
    for kind, lines in small.items():
        out += small_table(kind, lines)
    return out if small else []


def aims(rows):
    """The three aims as ratios; 1 or more is met."""
    read, round_ = rows["read", OWN["read"]], rows["round", OWN["round"]]
    trees = [n for n in names(rows, "round") if not n.startswith("Lanternrung")]
    out = ["", "## The aims, as ratios", "", "| Lanternrung's speed over | " + " | ".join(files_of(rows, "read")) + " |", "|---" * (len(files_of(rows, "read")) + 1) + "|"]
    line = [f"{read[f] / rows['read', WHOLE][f]:.2f}" for f in files_of(rows, "read")]
    out.append(f"| read, over {WHOLE} | " + " | ".join(line) + " |")
    for title, peers in (("the fastest peer", trees), ("the fastest but simdjson", [n for n in trees if n != "simdjson"])):
        line = []
        for f in files_of(rows, "read"):
            best = max(peers, key=lambda n: rows["round", n][f])
            line.append(f"{round_[f] / rows['round', best][f]:.2f} ({best})")
        out.append(f"| read, then write, over {title} | " + " | ".join(line) + " |")
    ascii_ = {f: rows["utf8", RUST][f] / rows["utf8", OWN["utf8"]][f] for f in files_of(rows, "utf8")}
    out += ["", "Time of `utf8` over that of Rust's own check (aimed at: 0.35 or less on strings.json, 1.5 or less on ASCII): "
            + ", ".join(f"{ratio:.2f} on {f}" for f, ratio in ascii_.items()) + "."]
    return out


def parts_table(rows):
    """The check in parts beside measure: MB/s, and the ratio of the speeds."""
    own = rows["parts", "Lanternrung measure"]
    out = ["", "## Checked in parts, beside measure", "", "| MB/s (over measure's speed) | " + " | ".join(own) + " |", "|---" * (len(own) + 1) + "|"]
    for (group, name), speeds in rows.items():
        if group == "parts":
            cells = [f"{speeds[f]:.0f}" if speeds is own else f"{speeds[f]:.0f} ({speeds[f] / own[f]:.2f})" for f in own]
            out.append(f"| {name.replace('Lanternrung ', '')} | " + " | ".join(cells) + " |")
    return out


def own_only(rows):
    """Files that only Lanternrung reads."""
    out = []
    for file in unique(f for speeds in rows.values() for f in speeds):
        if file not in files_of(rows, "read") + files_of(rows, "utf8"):
            parts = [f"{n.replace('Lanternrung ', '') if n != 'Lanternrung' else 'read, then write JAXN'} {s[file]:.0f} MB/s" for (g, n), s in rows.items()
                     if file in s and g != "parts"]
            out += ["", f"`{file}` (the records with comments, unquoted keys, single quotes and trailing commas): " + ", ".join(parts) + "."]
    return out


def figures(rows, small):
    out = [BEGIN, "", f"One run on {machine()}."]
    out += aims(rows)
    for group in GROUPS:
        out += table(rows, group)
    return "\n".join(out + own_only(rows) + parts_table(rows) + small_tables(small) + ["", END])


def page(path, rows, small):
    try:
        with open(path) as f:
            before = f.read()
    except OSError:
        before = ""
    if BEGIN not in before:
        before = f"# Speed beside peers\n\n![Bar chart](benchmark.svg)\n\n{BEGIN}\n{END}\n"
    head, tail = before.split(BEGIN)[0], before.split(END)[1]
    return head + figures(rows, small) + tail


def panel(title, files, speeds, y):
    """Names at the left, a column of bars for each file. speeds: {name: {file: MB/s}}."""
    out = [f'<text x="20" y="{y + 14}" font-size="14" font-weight="600">{escape(title)}</text>']
    y += 24
    for i, file in enumerate(files):
        x = 20 + LABEL + i * (WIDTH + SPACE)
        out.append(f'<text x="{x}" y="{y + 12}" fill="{GREY}">{escape(file)}</text>')
    y += 20
    for name, cells in speeds.items():
        ours = name.startswith("Lanternrung")
        weight = ' font-weight="600"' if ours else ""
        out.append(f'<text x="{20 + LABEL - 10}" y="{y + 12}" text-anchor="end"{weight}>{escape(name)}</text>')
        for i, file in enumerate(files):
            x = 20 + LABEL + i * (WIDTH + SPACE)
            if file in cells:
                length = max(1.0, WIDTH * cells[file] / max(s[file] for s in speeds.values() if file in s))
                out.append(f'<rect x="{x}" y="{y}" width="{length:.1f}" height="{BAR}" rx="2" fill="{OURS if ours else PEER}"/>')
                out.append(f'<text x="{x + length + 5:.1f}" y="{y + 12}" fill="{GREY}">{cells[file]:.0f}</text>')
        y += BAR + GAP
    return out, y + 22


def panels(rows, small):
    """(title, files, speeds) of each panel."""
    out = [(title, files_of(rows, group), {n: rows[group, n] for n in names(rows, group)}) for group, title in GROUPS.items()]
    for kind, lines in small.items():
        lines = dict(sorted(lines.items(), key=lambda line: "write" in line[0]))
        out.append((KINDS[kind], list(SIZES.values()), {n: {size: speed for size, (_, speed) in cells.items()} for n, cells in lines.items()}))
    return out


def chart(rows, small):
    width = 40 + LABEL + 4 * (WIDTH + SPACE)
    out, y = [], 66
    for title, files, speeds in panels(rows, small):
        part, y = panel(title, files, speeds, y)
        out += part
    head = [f'<svg xmlns="http://www.w3.org/2000/svg" viewBox="0 0 {width} {y}" width="{width}" height="{y}" '
            f'font-family="system-ui, sans-serif" font-size="12" fill="{INK}">',
            f'<rect width="{width}" height="{y}" fill="white"/>',
            '<text x="20" y="28" font-size="17" font-weight="600">Lanternrung beside peers, MB/s of input (longer is faster)</text>',
            f'<text x="20" y="47" fill="{GREY}">{escape(machine())}; medians of interleaved rounds in one run</text>',
            f'<line x1="20" y1="57" x2="{width - 20}" y2="57" stroke="{LINE}"/>']
    return "\n".join(head + out + ["</svg>"]) + "\n"


def main():
    times, md, svg = sys.argv[1:]
    rows, small = load(times)
    text, image = page(md, rows, small), chart(rows, small)
    with open(md, "w") as f:
        f.write(text)
    with open(svg, "w") as f:
        f.write(image)


main()
