"""Stores by other writers, in a folder each: zarr-python, GDAL and netCDF-C.

Without zarr-python it ends the script, once the system's own Python was asked for it too.
"""

import os
import shutil
import sys

from lib.files import write
from lib.running import ended

# The Python for which the system's packages are, where another one is found first.
SYSTEM_PYTHON = shutil.which("python3", path=os.defpath)

try:
    import numcodecs
    import numpy
    import zarr
except ImportError:
    if SYSTEM_PYTHON and "INTEROP" not in os.environ:
        os.execve(SYSTEM_PYTHON, [SYSTEM_PYTHON, *sys.argv], {**os.environ, "INTEROP": "1"})
    sys.exit("bench/compare/interop: zarr-python is absent: install Debian's python3-zarr")

NETCDF = """netcdf weather {
dimensions: t = 4; y = 3; x = 2;
variables:
  int elevation(y, x); elevation:units = "m"; elevation:_FillValue = -1;
  short temperature(t, y, x); temperature:long_name = "air";
  :title = "netcdf";
data: elevation = 1, 2, 3, 4, 5, 6;
group: inner {
  variables: ubyte mask(y, x);
  group: leaf { variables: int64 count(t); }
}
}
"""


def by_zarr_python(folder):
    """A store with what zarr-python has of version 2, and its `.zmetadata`."""
    store = zarr.DirectoryStore(folder)
    root = zarr.group(store=store)
    root.attrs.update({"title": "weather", "levels": [1, 2, 3], "source": {"orbit": 18446744073709551615, "least": -9223372036854775808}})
    zstd = numcodecs.Blosc(cname="zstd")
    root.create_dataset("temperature", shape=(4, 6), chunks=(2, 3), dtype="f4", fill_value=None, compressor=zstd)
    group = root.create_group("old/waves")
    group.attrs.update({"units": "m", "n": 3})
    delta, zlib = [numcodecs.Delta("<i2")], numcodecs.Zlib(1)
    group.create_dataset("height", shape=(10,), chunks=(5,), dtype="<i2", filters=delta, compressor=zlib, fill_value=0)
    group.create_dataset("names", shape=(3,), dtype=object, object_codec=numcodecs.VLenUTF8())
    group.create_dataset("pairs", shape=(3,), dtype=[("x", "<i4"), ("y", "<f8")])
    group.create_dataset("flag", shape=(3,), dtype="?", fill_value=True)
    group.create_dataset("slash", shape=(3, 3), dtype="|u1", dimension_separator="/", order="F")
    group.create_dataset("nan", shape=(3,), dtype="<f8", fill_value=numpy.nan)
    group.create_dataset("infinite", shape=(3,), dtype=">f8", fill_value=-numpy.inf)
    group.create_dataset("when", shape=(3,), dtype="M8[ns]")
    group.create_dataset("scalar", shape=(), dtype="<c16", fill_value=None)
    group.create_dataset("raw", shape=(2,), dtype="|V5")
    group.create_dataset("fixed", shape=(2,), dtype="<U7")
    for name in ("a-b", "a", "a.b", "é", "z z", "_x"):
        root.create_group(name)
        root.create_dataset(f"{name}/here", shape=(1,), dtype="<u8", fill_value=7)
    consolidate(folder)
    return ""


def by_zarr_python_with_a_fraction(folder):
    """A store with an attribute that is not whole."""
    store = zarr.DirectoryStore(folder)
    root = zarr.group(store=store)
    root.create_group("a").attrs["scale"] = 0.5
    consolidate(folder)
    return "a/.zattrs"


def run(words):
    """Runs a command of another program, and ends where it fails."""
    done = ended(words)
    if done.returncode != 0:
        sys.exit(f"bench/compare/interop: {' '.join(words)}: {done.stderr}")


def consolidate(folder):
    """The `.zmetadata` of a store, by zarr-python."""
    zarr.consolidate_metadata(zarr.DirectoryStore(folder))


def raster(folder, place=(), options=()):
    """A raster by GDAL, with options for its place and for what is made of it."""
    image = folder + ".tif"
    run(["gdal_create", "-q", "-of", "GTiff", "-outsize", "20", "10", "-bands", "2", "-burn", "1", *place, image])
    run(["gdal_translate", "-q", "-of", "ZARR", *options, image, folder])


def netcdf(folder, text, mode):
    """A store by netCDF-C in a mode."""
    write(folder + ".cdl", text)
    run(["ncgen", "-4", "-lb", "-o", f"file://{folder}#mode={mode},file", folder + ".cdl"])


def by_gdal(folder):
    """A raster without a reference system."""
    raster(folder)
    return ""


def by_gdal_with_a_reference(folder):
    """A raster with a reference system, whose `projjson` has fractions."""
    raster(folder, ["-a_srs", "EPSG:4326", "-a_ullr", "0", "10", "20", "0"])
    return "/.zattrs"


def by_netcdf(mode):
    """Makes stores by netCDF-C in a mode."""

    def made(folder):
        netcdf(folder, NETCDF, mode)
        return ""

    return made


# Each way of making a store, and the command that it needs. It answers the end of the key of a document that is refused, or no text.
MAKERS = {
    "zarr-python": (by_zarr_python, None),
    "zarr-python, a fraction": (by_zarr_python_with_a_fraction, None),
    "GDAL": (by_gdal, "gdal_translate"),
    "GDAL, a reference system": (by_gdal_with_a_reference, "gdal_translate"),
    "netCDF-C, NCZarr": (by_netcdf("nczarr"), "ncgen"),
    "netCDF-C, Zarr": (by_netcdf("zarr"), "ncgen"),
}
