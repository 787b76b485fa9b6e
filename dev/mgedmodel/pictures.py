"""Views, the pictures of them, the overlaps on their rays, and the areas and edges of what their pixels present."""

from collections import Counter, namedtuple

from .kept import tile_names
from .refused import Refused, refuse_unless
from .shots import first_overlaps, presented, regions_of_names, seen_first
from .solids import RAY_LENGTH, Ray, box_about
from .words import MILLIMETRE

WORLD = 524_288 * MILLIMETRE
MOST_SIDE = 2_048
TILE_SIDE = 16

# For each direction of rays, that of the next column's ray and that of the next row's.
ACROSS_AND_DOWN = {
    (1, 0, 0): ((0, -1, 0), (0, 0, -1)),
    (-1, 0, 0): ((0, 1, 0), (0, 0, -1)),
    (0, 1, 0): ((1, 0, 0), (0, 0, -1)),
    (0, -1, 0): ((-1, 0, 0), (0, 0, -1)),
    (0, 0, 1): ((-1, 0, 0), (0, -1, 0)),
    (0, 0, -1): ((1, 0, 0), (0, -1, 0)),
}


class View(namedtuple("View", "corner along cell width height")):
    def ray(self, column, row):
        across, down = ACROSS_AND_DOWN[self.along]
        start = tuple(corner + self.cell * (column * u + row * v) for corner, u, v in zip(self.corner, across, down))
        return Ray(start, self.along)

    def rays(self):
        """Each pixel's column, row and ray, row by row from the top."""
        return ((column, row, self.ray(column, row)) for row in range(self.height) for column in range(self.width))

    def tile_boxes(self):
        """The box of the rays of each tile, row by row."""
        return [self.box_of_rays(column, row) for row in range(0, self.height, TILE_SIDE) for column in range(0, self.width, TILE_SIDE)]

    def box_of_rays(self, column, row):
        """The box of the rays of the tile whose first pixel is this one."""
        last = self.ray(min(column + TILE_SIDE, self.width) - 1, min(row + TILE_SIDE, self.height) - 1)
        starts = [self.ray(column, row).start, last.start]
        return box_about(starts + [tuple(part + RAY_LENGTH * step for part, step in zip(start, self.along)) for start in starts])

    def refuse_faulty(self):
        refuse_unless(self.width and self.height, "view pixels")
        refuse_unless(max(self.width, self.height) <= MOST_SIDE, "view side")
        refuse_unless(self.cell >= 1, "view cell")
        ends = self.ray(0, 0).start + self.ray(self.width - 1, self.height - 1).start
        refuse_unless(all(abs(part) <= WORLD for part in ends), "view world")


def picture(directory, file, view, names, session):
    """The line of a picture, and its file. It is refused before any ray is shot where both take more bytes than the session has
    left. All tiles are shot here: one that is kept has to have the same pixels, and the list of those that are kept says only
    how many may be reused."""
    regions = regions_of_names(directory, names)
    tiles = tile_names(view, regions)
    reused = session.kept.found(tiles)
    line = f"picture {file} {view.width} {view.height} tiles {len(tiles)} shot {len(tiles) - len(reused)} reused {len(reused)}"
    head = head_of(view)
    if len(line) + 1 + len(head) + 3 * view.width * view.height > session.room():
        raise Refused("quota")
    session.kept.take(tiles)
    pixels = b"".join(pixel(regions, ray) for _, _, ray in view.rays()) if regions else bytes(3 * view.width * view.height)
    return [line], [(file, head + pixels)]


def head_of(view):
    return b"P6\n%d %d\n255\n" % (view.width, view.height)


def pixel(regions, ray):
    seen = seen_first(regions, ray)
    if seen is None:
        return bytes(3)
    region, level = seen
    return bytes(part * level // 255 for part in region.colour)


def overlap_report(directory, view, names):
    """A line for each pair of regions that overlaps on a ray of the view."""
    regions, pairs = regions_of_names(directory, names), {}
    for column, row, ray in view.rays() if len(regions) > 1 else ():
        for pair, (start, end) in first_overlaps(regions, ray).items():
            pairs.setdefault(pair, [0, f"first {column} {row} {start} {end}"])[0] += 1
    return [overlap_line(regions, *pair, *pairs[pair]) for pair in sorted(pairs)]


def overlap_line(regions, one, two, rays, first):
    return f"overlap {one} {regions[one - 1].path} {two} {regions[two - 1].path} rays {rays} {first}"


def places_presented(regions, view):
    """The place of the region that each pixel presents, or 0: a list of these for each row."""
    if not regions:
        return [[0] * view.width] * view.height
    return [[presented(regions, view.ray(column, row)) for column in range(view.width)] for row in range(view.height)]


def area_report(directory, view, names):
    """A line for each region that some pixel of the view presents, with how many do."""
    regions = regions_of_names(directory, names)
    pixels = Counter(place for row in places_presented(regions, view) for place in row)
    return [f"area {place} {region.path} {pixels[place]}" for place, region in enumerate(regions, 1) if pixels[place]]


def edge_picture(directory, file, view, names, _session):
    """The line of a picture of edges, and its file."""
    places = places_presented(regions_of_names(directory, names), view)
    edges = [is_edge(places, column, row) for row in range(view.height) for column in range(view.width)]
    line = f"edges {file} {view.width} {view.height} white {sum(edges)}"
    return [line], [(file, head_of(view) + b"".join(b"\xff\xff\xff" if edge else bytes(3) for edge in edges))]


def is_edge(places, column, row):
    """Whether the pixel to the right or the one below is in the picture and presents another region."""
    beside = places[row][column + 1 : column + 2] + [below[column] for below in places[row + 1 : row + 2]]
    return any(other != places[row][column] for other in beside)
