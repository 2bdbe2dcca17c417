#!/usr/bin/env python3
"""Joins the meshes of blocks that overlap in one slice: join.py MESH.off OFFSET MESH.off OFFSET .. > whole.off

The blocks are cut along the last axis and given in its order, each with the number of slices below it. Vertices on the
slice that two blocks share are the last of the lower and the first of the upper one, in the same order, so they are
counted off and compared. The other vertices are to be off the slices of their block's sides, by a millionth and more:
so no sample may equal the isovalue, and samples have at most 16 bits before they are doubled for cubes and simplices, and
8 bits before they are taken times 16 for pyramids. The result has the same bytes as the mesh of the whole grid."""
import sys


def read(path):
    with open(path) as file:
        head = [file.readline()]
        if head[0] == "nOFF\n":
            head.append(file.readline())
        vertices, simplices, _ = map(int, file.readline().split())
        rows = [file.readline().split() for _ in range(vertices)]
        tuples = [list(map(int, file.readline().split())) for _ in range(simplices)]
    return head, rows, tuples


def moved(row, offset):
    whole, part = row[-1].split(".")
    return [*row[:-1], f"{int(whole) + offset}.{part}"]


def main():
    words = sys.argv[1:]
    head, places, simplices = [], [], []
    for path, offset in zip(words[::2], map(int, words[1::2])):
        head, rows, tuples = read(path)
        rows = [moved(row, offset) for row in rows]
        side = f"{offset}.000000"
        lower = [row for row in places if row[-1] == side]
        upper = [row for row in rows if row[-1] == side] if places else []
        if lower != upper:
            sys.exit(f"{path} does not fit the block below it")
        start = len(places) - len(upper)
        places += rows[len(upper) :]
        simplices += [[first, *(start + i for i in others)] for first, *others in tuples]
    out = [*head, f"{len(places)} {len(simplices)} 0\n"]
    out += [" ".join(row) + "\n" for row in places]
    out += [" ".join(map(str, simplex)) + "\n" for simplex in simplices]
    sys.stdout.writelines(out)


main()
