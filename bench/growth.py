#!/usr/bin/env python3
"""From what bench/compile prints: growth.gnuplot in the folder of the first argument, which draws microseconds of a compile against states, proved and plain
C, for each family of files."""
import re
import sys

FAMILY = re.compile(r"^(\S.*?)\s+states  proved us")
ROW = re.compile(r"^  .*?(?:Adaptive|Basic)\s+(\d+)\s+([\d.]+)\s+([\d.]+)\s+[\d.]+\s")
COLOURS = ["#1b6ca8", "#c0392b", "#2e7d32"]

families, name = {}, None
for line in sys.stdin:
    if family := FAMILY.match(line):
        name = family[1]
    elif (row := ROW.match(line)) and name and "heavy" not in name:
        families.setdefault(name, []).append(tuple(map(float, row.groups())))

folder = sys.argv[1]
plots = []
for k, (name, rows) in enumerate(families.items()):
    path = f"{folder}/growth-{k}"
    with open(path, "w") as file:
        file.writelines(f"{states} {proved} {plain}\n" for states, proved, plain in rows)
    plots.append(f"'{path}' using 1:2 with linespoints lw 2 lc rgb '{COLOURS[k % 3]}' title '{name}, proved'")
    plots.append(f"'{path}' using 1:3 with linespoints dt 2 lc rgb '{COLOURS[k % 3]}' title '{name}, plain C'")
if not plots:
    sys.exit("growth.py: no family of files")
with open(f"{folder}/growth.gnuplot", "w") as file:
    file.write(
        "set terminal svg size 760,480 font 'sans-serif,12' background 'white'\n"
        "set logscale xy 2\nset key left top\nset grid\nset xlabel 'states'\nset ylabel 'microseconds of a compile'\n"
        "plot " + ", \\\n  ".join(plots) + "\n"
    )
