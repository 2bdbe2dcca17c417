#!/usr/bin/env python3
"""Counts what a mesh has, apart from the program: closed.py MESH.off

It prints the numbers of vertices, simplices, faces on the boundary, different places of vertices and connected parts,
and where there is no boundary what is inside, negative where the normals point inward. It ends with status 1 where a
face lies in more than two simplices, or in two that are not oppositely oriented."""
import sys


def read(path):
    words = open(path).read().split()
    dimension, at = (3, 1) if words[0] == "OFF" else (int(words[1]), 2)
    vertices, simplices = int(words[at]), int(words[at + 1])
    at += 3
    rows = words[at : at + vertices * dimension]
    places = [tuple(rows[i : i + dimension]) for i in range(0, len(rows), dimension)]
    rows = words[at + vertices * dimension :]
    step = dimension + 1
    return dimension, places, [tuple(map(int, rows[i + 1 : i + step])) for i in range(0, simplices * step, step)]


def parity(numbers):
    swaps = sum(a > b for i, a in enumerate(numbers) for b in numbers[i + 1 :])
    return -1 if swaps % 2 else 1


def turn(rows):
    if len(rows) == 1:
        return rows[0][0]
    minor = lambda i: [row[1:] for k, row in enumerate(rows) if k != i]
    return sum((-1) ** i * row[0] * turn(minor(i)) for i, row in enumerate(rows))


def parts(vertices, simplices):
    above = list(range(vertices))

    def top(i):
        while above[i] != i:
            above[i] = above[above[i]]
            i = above[i]
        return i

    for first, *others in simplices:
        for other in others:
            above[top(other)] = top(first)
    return len({top(i) for i in range(vertices)})


def main():
    dimension, places, simplices = read(sys.argv[1])
    count, total = {}, {}
    for simplex in simplices:
        for i in range(dimension):
            face = simplex[:i] + simplex[i + 1 :]
            key = tuple(sorted(face))
            count[key] = count.get(key, 0) + 1
            total[key] = total.get(key, 0) + (-1) ** i * parity(face)
    bad = sum(n > 2 or n == 2 and total[key] != 0 for key, n in count.items())
    border = sum(n == 1 for n in count.values())
    told = f"vertices {len(places)} simplices {len(simplices)} boundary {border} places {len(set(places))} parts {parts(len(places), simplices)}"
    if border == 0:
        points = [tuple(map(float, place)) for place in places]
        size = sum(turn([points[i] for i in simplex]) for simplex in simplices)
        for i in range(2, dimension + 1):
            size /= i
        told += f" inside {size:.1f}"
    print(told)
    if bad:
        print(f"bad faces {bad}")
    return 1 if bad else 0


sys.exit(main())
