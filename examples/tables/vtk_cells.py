#!/usr/bin/python3
"""What the check says of the contours that VTK makes in single cells: vtk_cells.py (needs python3-vtk9)

VTK's tables stand in its compiled libraries. So each cell is contoured for each labelling of its corners by +1 and -1: the
vertices are then at the midpoints of edges, and the simplices are the entries of a table file."""
import itertools
import os
import subprocess
import tempfile

from vtkmodules.util.numpy_support import vtk_to_numpy
from vtkmodules.vtkCommonCore import vtkDoubleArray, vtkIdList, vtkPoints
from vtkmodules.vtkCommonDataModel import vtkImageData, vtkUnstructuredGrid
from vtkmodules.vtkFiltersCore import vtkContourGrid, vtkFlyingEdges3D, vtkMarchingCubes

PROGRAM = os.environ.get("ISO", "iso")
KINDS = {"cube": 0, "simplex": 1, "pyramid": 2}


def corners_of(kind, dim):
    """The corners of a cell of a table file."""
    if kind == "cube":
        return [tuple(2 * (k >> i & 1) for i in range(dim)) for k in range(2**dim)]
    if kind == "simplex":
        return [tuple(2 * (i < j) for i in range(dim)) for j in range(dim + 1)]
    return [(0, 0, 0), (2, 0, 0), (0, 2, 0), (2, 2, 0), (1, 1, 1)]


def edges_of(kind, corners):
    """The number of each edge, by twice its midpoint."""
    pairs = list(itertools.combinations(range(len(corners)), 2))
    if kind != "simplex":
        pairs = [(a, b) for a, b in pairs if len(corners) == 5 and b == 4 or sum(x != y for x, y in zip(corners[a], corners[b])) == 1]
    middles = [tuple(x + y for x, y in zip(corners[a], corners[b])) for a, b in pairs]
    if kind != "simplex":
        middles.sort(key=lambda it: it[::-1])
    return {it: number for number, it in enumerate(middles)}


def in_grid(cell_type, corners, order, signs):
    """The contour of one cell of an unstructured grid."""
    points, ids, values = vtkPoints(), vtkIdList(), vtkDoubleArray()
    points.SetDataTypeToDouble()
    for place, corner in enumerate(order):
        points.InsertNextPoint(*corners[corner], *[0] * (3 - len(corners[corner])))
        ids.InsertNextId(place)
        values.InsertNextValue(signs[corner])
    grid = vtkUnstructuredGrid()
    grid.SetPoints(points)
    grid.InsertNextCell(cell_type, ids)
    grid.GetPointData().SetScalars(values)
    return run(vtkContourGrid(), grid)


def in_image(make, signs):
    """The contour of an image of one cube."""
    values = vtkDoubleArray()
    for sign in signs:
        values.InsertNextValue(sign)
    image = vtkImageData()
    image.SetDimensions(2, 2, 2)
    image.SetSpacing(2, 2, 2)
    image.GetPointData().SetScalars(values)
    return run(make(), image)


def run(contour, data):
    contour.SetInputData(data)
    contour.SetValue(0, 0.0)
    contour.ComputeNormalsOff() if hasattr(contour, "ComputeNormalsOff") else None
    contour.Update()
    return contour.GetOutput()


def tuples(found, edges, dim):
    """The simplices of a contour, as tuples of edges."""
    if found.GetNumberOfCells() == 0:
        return []
    points = [edges[tuple(round(2 * x) for x in it[:dim])] for it in vtk_to_numpy(found.GetPoints().GetData())]
    cells = found.GetLines() if dim == 2 else found.GetPolys()
    flat = [points[it] for it in vtk_to_numpy(cells.GetConnectivityArray())]
    return [tuple(flat[i : i + dim]) for i in range(0, len(flat), dim)]


def check(kind, dim, corners, edges, entries):
    data = b"HULLTAB1" + bytes((KINDS[kind], dim, corners, edges)) + len(entries).to_bytes(4, "big")
    for entry in entries:
        data += len(entry).to_bytes(4, "big") + bytes(itertools.chain.from_iterable(entry))
    with tempfile.NamedTemporaryFile(suffix=".tab") as file:
        file.write(data)
        file.flush()
        ran = subprocess.run([PROGRAM, "check", f"table={file.name}"], capture_output=True, text=True)
    return (ran.stdout + ran.stderr).strip().removeprefix("table refused: ")


def ask(name, kind, dim, contour):
    """Asks of both signs, each with the turn that is not refused at label 1 by rule 4."""
    corners = corners_of(kind, dim)
    edges = edges_of(kind, corners)
    answers = []
    for flip in (1, -1):
        entries = []
        for label in range(2 ** len(corners)):
            signs = [flip if label >> k & 1 else -flip for k in range(len(corners))]
            entries.append(tuples(contour(corners, signs), edges, dim))
        turned = [[(*it[:-2], it[-1], it[-2]) for it in entry] for entry in entries]
        both = [check(kind, dim, len(corners), len(edges), it) for it in (entries, turned)]
        answers.append(next((it for it in both if it != "label 1 rule 4"), both[0]))
    print(f"{name}: {answers[0]}; the other sign: {answers[1]}")


def main():
    grid = lambda cell, order: lambda corners, signs: in_grid(cell, corners, order, signs)
    image = lambda make: lambda corners, signs: in_image(make, signs)
    ask("vtkMarchingCubes", "cube", 3, image(vtkMarchingCubes))
    ask("vtkFlyingEdges3D", "cube", 3, image(vtkFlyingEdges3D))
    ask("vtkVoxel", "cube", 3, grid(11, range(8)))
    ask("vtkHexahedron", "cube", 3, grid(12, (0, 1, 3, 2, 4, 5, 7, 6)))
    ask("vtkTetra", "simplex", 3, grid(10, range(4)))
    ask("vtkPyramid", "pyramid", 3, grid(14, (0, 1, 3, 2, 4)))
    ask("vtkPixel", "cube", 2, grid(8, range(4)))
    ask("vtkQuad", "cube", 2, grid(9, (0, 1, 3, 2)))
    ask("vtkTriangle", "simplex", 2, grid(5, range(3)))


main()
