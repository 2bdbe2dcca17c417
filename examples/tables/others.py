#!/usr/bin/env python3
"""Which labels of the marching cubes tables that other tools ship fail a rule: others.py [TOOL=FILE ..]

It reads the files of tools that are installed, or the files that the words name, makes table files of what stands in
them, and asks the program (FAULTS, or `faults`). It ships no table of another tool.

A table of another tool has numbers of corners and edges of its own, and takes the bits of a label for samples above or
below. So the two ways to set the corners, the two of edges 10 and 11, the two signs and the two turns are tried, and the
best answers are printed: one for each sign."""
import base64
import glob
import itertools
import os
import re
import subprocess
import sys
import tempfile

PROGRAM = os.environ.get("FAULTS", "faults")
PYTHON = "/usr/lib/python3/dist-packages"
# The tools: the pattern of the file's name, and the words behind which the table stands in it.
TOOLS = {
    "scikit-image": (f"{PYTHON}/skimage/measure/_marching_cubes_lewiner_luts.py", "CASESCLASSIC"),
    "pyqtgraph": (f"{PYTHON}/pyqtgraph/functions.py", "triTable = ["),
    "vispy": (f"{PYTHON}/vispy/geometry/isosurface.py", "triTable = ["),
    "octave": ("/usr/share/octave/*/m/plot/draw/private/__marching_cube__.m", "\n  tri_table = ["),
    "cimg": ("/usr/include/CImg.h", "int triangles[256][16]"),
    "pcl": ("/usr/include/pcl-*/pcl/surface/marching_cubes.h", "int triTable[256][16]"),
    "gnuplot": ("", "triangle_table[256][13]"),
    "gnuplot-quads": ("", "[256][13]"),
}
# Corners of the usual numbering, and those with two axes exchanged.
CORNERS = [(0, 0, 0), (1, 0, 0), (1, 1, 0), (0, 1, 0), (0, 0, 1), (1, 0, 1), (1, 1, 1), (0, 1, 1)]
MIRRORED = [(x, z, y) for x, y, z in CORNERS]
EDGES = [(0, 1), (1, 2), (2, 3), (3, 0), (4, 5), (5, 6), (6, 7), (7, 4), (0, 4), (1, 5), (2, 6), (3, 7)]
EXCHANGED = [*EDGES[:10], EDGES[11], EDGES[10]]
# The edges of the cube in a table file, by the numbers of their corners.
OURS = {(0, 1): 0, (0, 2): 1, (1, 3): 2, (2, 3): 3, (0, 4): 4, (1, 5): 5, (2, 6): 6, (3, 7): 7, (4, 5): 8, (4, 6): 9, (5, 7): 10, (6, 7): 11}


def read_rows(path, marker, quads=False):
    """The 256 rows of edge numbers of a tool's table, in its own numbering, three for each triangle."""
    with open(path, encoding="utf-8", errors="replace") as file:
        text = file.read()
    text = text[text.index(marker) + len(marker) :]
    if marker == "CASESCLASSIC":
        data = base64.b64decode(re.search(r'"""(.*?)"""', text, re.S)[1])
        numbers = [it - 256 * (it > 127) for it in data]
        rows = [numbers[i : i + 16] for i in range(0, len(numbers), 16)]
    elif path.endswith(".m"):
        rows = [[int(it) for it in re.findall(r"-?\d+", row)] for row in text[: text.index("]")].split(";")]
    else:
        rows = [[int(it) for it in re.findall(r"-?\d+", row)] for row in re.findall(r"[\[{]([-\d,\s]*)[\]}]", text)]
    if quads:
        rows = [[it for i in range(0, 12, 4) for it in cut(row[i : i + 4])] for row in rows]
    return [[it for it in row if it >= 0] for row in rows[:256]]


def cut(corners):
    """The triangles of a triangle or a quadrilateral."""
    a, b, c, d = corners
    return [a, b, c, a, c, d] if d >= 0 else [a, b, c]


def entries(rows, corners, edges, negative, turned):
    """The entries of a table file, from a tool's rows, by these readings of its numbers."""
    number = [x + 2 * y + 4 * z for x, y, z in corners]
    edge = [OURS[tuple(sorted((number[a], number[b])))] for a, b in edges]
    found = [None] * 256
    for bits, row in enumerate(rows):
        label = sum(1 << number[k] for k in range(8) if (bits >> k & 1) != negative)
        triangles = [tuple(edge[it] for it in row[i : i + 3]) for i in range(0, len(row), 3)]
        found[label] = [(a, c, b) if turned else (a, b, c) for a, b, c in triangles]
    return found


def table_bytes(found):
    out = b"HULLTAB1" + bytes((0, 3, 8, 12)) + (256).to_bytes(4, "big")
    for entry in found:
        out += len(entry).to_bytes(4, "big") + bytes(itertools.chain.from_iterable(entry))
    return out


def faults(found):
    """The labels that fail a rule, in order, each with its least rule; none of an accepted table."""
    with tempfile.NamedTemporaryFile(suffix=".tab") as file:
        file.write(table_bytes(found))
        file.flush()
        ran = subprocess.run([PROGRAM, f"table={file.name}"], capture_output=True, text=True)
    if ran.returncode not in (0, 6):
        sys.exit(f"{PROGRAM}: {ran.stderr}")
    return [tuple(map(int, it)) for it in re.findall(r"^label (\d+) rule (\d+)", ran.stdout, re.M)]


def asked(rows):
    """For each sign the best answer: the labels that fail."""
    answers = []
    for negative in (0, 1):
        tried = []
        for corners, edges, turned in itertools.product((CORNERS, MIRRORED), (EDGES, EXCHANGED), (False, True)):
            found = entries(rows, corners, edges, negative, turned)
            failed = faults(found)
            first = (1, -failed[0][0], -failed[0][1]) if failed else (0,)
            tried.append((first, failed, found, corners is MIRRORED, edges is EXCHANGED))
        _, failed, found, mirrored, exchanged = min(tried, key=lambda it: it[0])
        answers.append((failed, mirrored, exchanged, open_pairs(found)))
    return answers


def traces(found, axis, side):
    """For each label the pairs of edges in a facet of which triangles have both, with their numbers. Corners are those of
    the upper facet."""
    ends = {number: pair for pair, number in OURS.items()}
    out = []
    for entry in found:
        count = {}
        for a, b, c in entry:
            for pair in ((a, b), (b, c), (c, a)):
                corners = [k for it in pair for k in ends[it]]
                if all(k >> axis & 1 == side for k in corners):
                    key = frozenset(tuple(k | 1 << axis for k in ends[it]) for it in pair)
                    count[key] = count.get(key, 0) + 1
        out.append(count)
    return out


def open_pairs(found):
    """Of all pairs of labels that two cubes with a common facet may have, those where an edge in it is not in two triangles."""
    pairs = 0
    for axis in range(3):
        upper, lower = traces(found, axis, 1), traces(found, axis, 0)
        for one, other in itertools.product(range(256), repeat=2):
            if all((one >> (k | 1 << axis) & 1) == (other >> k & 1) for k in range(8) if not k >> axis & 1):
                keys = upper[one].keys() | lower[other].keys()
                pairs += any(upper[one].get(it, 0) + lower[other].get(it, 0) != 2 for it in keys)
    return pairs


def said(failed):
    if not failed:
        return "accepted"
    label, rule = failed[0]
    return f"label {label} rule {rule}; {len(failed)} labels fail, by the rules {sorted({it for _, it in failed})}"


def main():
    given = dict(it.split("=", 1) for it in sys.argv[1:])
    for tool, (pattern, marker) in TOOLS.items():
        paths = [given[tool]] if tool in given else sorted(glob.glob(pattern))
        if not paths:
            print(f"{tool}: passed over, as its file is not there")
            continue
        rows = read_rows(paths[0], marker, tool == "gnuplot-quads")
        if len(rows) != 256:
            sys.exit(f"{tool}: {paths[0]} has {len(rows)} rows behind {marker!r}")
        for sign, (failed, mirrored, exchanged, opened) in zip(("bits above", "bits below"), asked(rows)):
            told = f"{tool}: {sign}: {said(failed)}; {opened} of 12288 pairs of cubes have an open edge"
            print(told + "; axes mirrored" * mirrored + "; edges 10 and 11 exchanged" * exchanged)


if __name__ == "__main__":
    main()
