"""Random floats, grids, triangles and settings for `generate`: single precision throughout, and mostly awkward."""
import random
import struct

LIMIT = 262144.0
SIZES = [1.0, 0.5, 0.25, 2.0, 0.3, 0.6, 0.1, 1 / 3, 0.7, 2.5, 7.0, 1 / 1024, 1024.0]
DIAGONALS = [(1, 1), (1, -1), (2, 1), (1, 2), (3, -1), (1, 0), (0, 1)]


def f32(x):
    return struct.unpack("<f", struct.pack("<f", x))[0]


def bits(x):
    return "0x%08x" % struct.unpack("<I", struct.pack("<f", x))


def nudge(x, steps):
    """The float that many floats further on."""
    at = struct.unpack("<i", struct.pack("<f", x))[0]
    at = (at if at >= 0 else -0x80000000 - at) + steps
    return struct.unpack("<f", struct.pack("<i", at if at >= 0 else -0x80000000 - at))[0]


def held(x):
    return max(-LIMIT, min(LIMIT, x))


def cells(lo, hi, size):
    """How many cells the rules count between two sides of the box."""
    return int(f32(f32(f32(hi - lo) / size) + 0.5))


class Grid:
    """Eight floats, and the numbers of columns and rows they stand for."""

    def __init__(self, lo, hi, size, high):
        self.lo, self.hi, self.size, self.high = lo, hi, size, high
        self.width = cells(lo[0], hi[0], size)
        self.height = cells(lo[2], hi[2], size)
        self.columns = self.width * self.height

    def line(self):
        return "grid " + " ".join(bits(x) for x in (*self.lo, *self.hi, self.size, self.high))

    def step(self, axis):
        return self.high if axis == 1 else self.size

    def count(self, axis):
        if axis == 1:
            return max(1, int((self.hi[1] - self.lo[1]) / self.high))
        return self.width if axis == 0 else self.height


class Draw(random.Random):
    def size(self):
        return f32(self.choice(SIZES) if self.random() < 0.7 else 2 ** self.uniform(-8, 6))

    def steps(self):
        return self.choice((0, 0, 0, 0, 1, -1, 1, -1, 2, -2, 3, -5))

    def whole(self, most=6):
        """A height, climb or threshold: mostly small, at times at the end of what may be."""
        way = self.random()
        if way < 0.75:
            return self.randrange(most)
        if way < 0.93:
            return self.randrange(40)
        return self.choice((254, 255, 256, 65534, 65535, self.randrange(65536)))

    def start(self, step):
        way = self.random()
        if way < 0.35:
            return self.choice((0.0, -0.0))
        if way < 0.65:
            return f32(self.randrange(-5, 5) * step)
        return f32(self.uniform(-20, 20) * step)

    def side(self, lo, count, step):
        """The other side of the box, at or beside so many steps."""
        rest = self.choice((0, 0, 0, 0.45, -0.45, self.uniform(-0.45, 0.45)))
        return nudge(f32(lo + max(0.55, count + rest) * step), self.choice((0, 0, 0, 1, -1)))

    def grid(self, most=8, levels=40):
        size, high = self.size(), self.size()
        lo = [self.start(size), self.start(high), self.start(size)]
        return self.around(lo, self.randint(1, most), self.randint(1, most), self.randint(0, levels), size, high)

    def around(self, lo, width, height, levels, size, high):
        lo = [held(x) for x in lo]
        top = f32(lo[1] + (levels + self.choice((0, self.random()))) * high)
        hi = [self.side(lo[0], width, size), top, self.side(lo[2], height, size)]
        grid = Grid(lo, [max(a, held(b)) for a, b in zip(lo, hi)], size, high)
        if grid.width < 1 or grid.height < 1 or grid.columns > 16384:
            return self.grid()
        return grid

    def far_grid(self):
        """Far from the origin, where a cell can be narrower than the step from one float to the next."""
        size, high = f32(self.choice((1 / 1024, 1 / 64, 0.01, 0.1, 1.0))), self.size()
        lo = [f32(self.choice((-1, 1)) * self.uniform(50000, 262000)) for _ in range(3)]
        return self.around(lo, self.choice((1, 5, 16, 32)), self.choice((1, 4, 16)), self.randint(0, 9), size, high)

    def wide_grid(self):
        width, height = self.choice(((4096, 1), (1, 4096), (128, 128), (700, 3), (2, 1500), (64, 100)))
        size, high = f32(self.choice((0.05, 0.25, 0.3, 1.0))), self.size()
        lo = [self.start(size), 0.0, self.start(size)]
        hi = [f32(lo[0] + width * size), f32(20 * high), f32(lo[2] + height * size)]
        return Grid(lo, hi, size, high)

    # ---- a coordinate

    def border(self, g, axis, first=-2, past=3):
        """On a border between cells, or a few floats beside it."""
        k = self.randrange(first, g.count(axis) + past)
        return held(nudge(f32(g.lo[axis] + f32(k * g.step(axis))), self.steps()))

    def loose(self, g, axis):
        room = 1.5 * g.step(axis)
        return held(f32(self.uniform(g.lo[axis] - room, g.hi[axis] + room)))

    def inside(self, g, axis):
        return held(f32(self.uniform(g.lo[axis], g.hi[axis])))

    def huge(self, g, axis):
        if self.random() < 0.2:
            return self.choice((-LIMIT, LIMIT))
        return f32(self.choice((-1, 1)) * 2 ** self.uniform(-3, 18))

    def mixed(self, g, axis):
        way = self.random()
        if way < 0.5:
            return self.border(g, axis)
        if way < 0.85:
            return self.loose(g, axis)
        if way < 0.9:
            return self.choice((0.0, -0.0))
        return nudge(self.choice((g.lo, g.hi))[axis], self.steps()) if way < 0.97 else self.huge(g, axis)

    def level(self, g):
        """A height, sometimes out of the box."""
        way = self.random()
        if way < 0.4:
            return self.border(g, 1)
        if way < 0.9:
            return self.loose(g, 1)
        return self.huge(g, 1)

    # ---- a triangle, as three corners

    def corners(self, g, pick):
        return [[pick(g, 0), self.level(g), pick(g, 2)] for _ in range(3)]

    def borders(self, g):
        return self.corners(g, self.border)

    def anywhere(self, g):
        return self.corners(g, self.mixed)

    def left(self, g):
        """Starts left of the box and hardly reaches it."""
        def x():
            if self.random() < 0.5:
                return self.border(g, 0, -3, 1 - g.count(0))
            return held(f32(g.lo[0] + self.uniform(-3, 1) * g.size))
        return [[x(), self.inside(g, 1), self.mixed(g, 2)] for _ in range(3)]

    def diagonal(self, g):
        """A sliver along a line that runs through corners of cells."""
        i, j = self.randrange(-1, g.width + 1), self.randrange(-1, g.height + 1)
        di, dj = self.choice(DIAGONALS)
        at = []
        for _ in range(3):
            t = self.randrange(-3, 10) if self.random() < 0.8 else self.uniform(-2, 8)
            x, z = f32(g.lo[0] + f32((i + di * t) * g.size)), f32(g.lo[2] + f32((j + dj * t) * g.size))
            at.append([held(nudge(x, self.steps())), self.inside(g, 1), held(nudge(z, self.steps()))])
        return at

    def degenerate(self, g):
        a, b, c = self.corners(g, self.choice((self.border, self.mixed, self.loose)))
        way = self.randrange(6)
        if way == 0:
            b = list(a)
        elif way == 1:
            c = list(b)
        elif way == 2:
            b, c = list(a), list(a)
        elif way == 3:
            c = [f32((p + q) / 2) for p, q in zip(a, b)]
        else:
            axis = 0 if way == 4 else 2
            b[axis] = c[axis] = a[axis]
            if self.random() < 0.3:
                b[2 - axis] = c[2 - axis] = a[2 - axis]
        return [a, b, c]

    def large(self, g):
        at = self.corners(g, self.huge)
        for corner in at[: self.choice((0, 0, 1, 2))]:
            corner[:] = [self.loose(g, 0), self.loose(g, 1), self.loose(g, 2)]
        return at

    def heights(self, g):
        def y():
            way = self.randrange(5)
            if way == 0:
                return self.choice((-LIMIT, LIMIT, 0.0, -0.0))
            if way == 1:
                return held(f32(self.choice((g.lo, g.hi))[1] + self.uniform(-30, 30) * g.high))
            return nudge(self.choice((g.lo, g.hi))[1], self.steps()) if way == 2 else self.border(g, 1)
        return [[self.loose(g, 0), held(y()), self.loose(g, 2)] for _ in range(3)]
