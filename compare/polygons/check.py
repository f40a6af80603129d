"""check.py LIBRARY: the library's polygons, as GEOS sees them. Each is read back by the library too."""
import ctypes
import random
import sys

import shapely
from shapely import wkt
from shapely.geometry import Polygon
from shapely.ops import unary_union

library = ctypes.CDLL(sys.argv[1])
AREA = 8.0  # of a cell, in units of the lattice
WHOLE = 7  # the finest resolution at which neighbors are tried and cells put together
FINEST = 9  # the finest at which every cell is read
text = (ctypes.c_uint8 * 106)()
length = (ctypes.c_uint64 * 1)()
triple = (ctypes.c_int32 * 3)()


def size(n):
    return ctypes.c_size_t(n)


def polygon(r, cell):
    status = library.hb_wkt_write(r, *cell, text, size(106), length, size(1))
    assert status == 0, (r, cell, status)
    status = library.hb_wkt_read(r, text, size(length[0]), triple, size(3))
    assert status == 0 and tuple(triple) == cell, (r, cell, status, tuple(triple))
    shape = wkt.loads(bytes(text[: length[0]]).decode())
    assert shape.is_valid and shape.area == AREA, (r, cell, shape.wkt)
    return shape


def cells(r):
    """The triples in bounds: x and z from -y to 0, with sum 0 or 1."""
    for y in range(2**r):
        for x in range(-y, 1):
            for parity in (0, 1):
                z = parity - x - y
                if max(parity - y, -y) <= z <= 0 and parity - y <= x:
                    yield (x, y, z)


def neighbors(cell):
    """From a cell of sum 0, the three cells of sum 1 beside it."""
    x, y, z = cell
    return ((x + 1, y, z), (x, y + 1, z), (x, y, z + 1)) if x + y + z == 0 else ()


def meet(a, b):
    """Along an edge, and nowhere else."""
    edge = a.intersection(b)
    return a.touches(b) and edge.geom_type == "LineString" and edge.length > 0


read = tried = 0
for r in range(FINEST + 1):
    shapes = {cell: polygon(r, cell) for cell in cells(r)}
    assert len(shapes) == 4**r
    read += len(shapes)
    if r > WHOLE:
        continue
    for cell, shape in shapes.items():
        for other in neighbors(cell):
            if other in shapes:
                assert meet(shape, shapes[other]), (r, cell, other)
                tried += 1
    side = 4 * 2**r
    wedge = Polygon([(0, 0), (side, -side), (side, 0)])
    assert sum(shape.area for shape in shapes.values()) == wedge.area
    assert unary_union(list(shapes.values())).equals(wedge), r

random.seed(1)
for _ in range(20000):
    r = random.randrange(10, 31)
    y = random.randrange(2**r)
    x = -random.randrange(y + 1)
    cell = (x, y, -x - y)
    shape = polygon(r, cell)
    read += 1
    for other in neighbors(cell):
        if other[0] <= 0 and other[2] <= 0 and other[1] < 2**r:
            assert meet(shape, polygon(r, other)), (r, cell, other)
            tried += 1
print(f"shapely {shapely.__version__}: {read} polygons valid, of area 8 and read back; {tried} pairs of neighbors meet along an edge")
print(f"at resolutions 0 to {WHOLE} all cells are the wedge's triangle")
