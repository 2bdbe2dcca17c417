#!/usr/bin/python3
"""Makes a grid file of a NIfTI, MRC or CCP4, NetCDF or TIFF file: grid.py IN OUT.nrrd [FACTOR] [VARIABLE]

Samples are multiplied by FACTOR (1 where it is left out), rounded down and stored as whole numbers of 32 bits: with a
factor of 1000 the isovalue is a thousand times the value, too. The slope of a NIfTI file is applied first. Samples that
are no numbers become the least one that is. VARIABLE names the one of a NetCDF file. For NIfTI nibabel is needed, for the
others mrcfile, netCDF4 or tifffile.

It prints the grid's sizes and its least and greatest sample, and the twelve numbers that examples/place takes, from samples
to the units of the file: of NIfTI the affine, of MRC the cell and its origin, else the numbers that change nothing."""
import sys

import numpy


def read_nifti(path, _):
    import nibabel

    image = nibabel.load(path)
    return numpy.asarray(image.dataobj).T, image.affine[:3]


def read_mrc(path, _):
    import mrcfile

    with mrcfile.open(path, permissive=True) as file:
        size, origin = file.voxel_size, file.header.origin
        start = file.header.nxstart, file.header.nystart, file.header.nzstart
        matrix = numpy.zeros((3, 4))
        for axis, name in enumerate("xyz"):
            matrix[axis, axis] = size[name] or 1
            matrix[axis, 3] = origin[name] or int(start[axis]) * matrix[axis, axis]
        return file.data.copy(), matrix


def read_netcdf(path, name):
    import netCDF4

    values = netCDF4.Dataset(path)[name][:]
    return numpy.ma.filled(values.astype("f8"), numpy.nan), None


def read_tiff(path, _):
    import tifffile

    return tifffile.imread(path), None


READERS = {".nii": read_nifti, ".mrc": read_mrc, ".map": read_mrc, ".ccp4": read_mrc, ".nc": read_netcdf, ".tif": read_tiff, ".tiff": read_tiff}


def main():
    if len(sys.argv) not in (3, 4, 5):
        sys.exit(__doc__)
    path, out, factor, name = [*sys.argv[1:], *["1", ""][len(sys.argv) - 3 :]]
    end = next((it for it in READERS if path.removesuffix(".gz").endswith(it)), None)
    if end is None:
        sys.exit(f"grid.py knows files that end in {', '.join(READERS)}, and of NIfTI with .gz")
    values, matrix = READERS[end](path, name)
    values = numpy.floor(numpy.squeeze(values).astype("f8") * float(factor))
    values = numpy.where(numpy.isnan(values), numpy.nanmin(values), values)
    if not 2 <= values.ndim <= 4 or numpy.abs(values).max() >= 2**31:
        sys.exit(f"axes {values.ndim}, greatest size of a sample {numpy.abs(values).max()}: 2 to 4 and below 2^31 are taken")
    sizes = values.shape[::-1]
    with open(out, "wb") as file:
        file.write(b"NRRD0004\ntype: int32\ndimension: %d\n" % len(sizes))
        file.write(b"sizes: %s\nendian: little\nencoding: raw\n\n" % " ".join(map(str, sizes)).encode())
        file.write(values.astype("<i4").tobytes())
    print("sizes", *sizes, "least", int(values.min()), "greatest", int(values.max()))
    if len(sizes) == 3:
        print(*(f"{it:.6g}" for it in (numpy.eye(3, 4) if matrix is None else matrix).flatten()))


main()
