"""Circles for the third opinion: of the four steps those along the way round, and of these the one that keeps closest.

No square root and no sign of a coordinate: what is along the way is told by a product with it.
"""
PLANES = ((0, 1), (0, 2), (1, 2))
STEPS = [(which, sign) for which in (0, 1) for sign in (1, -1)]
DIRECTIONS = [[a, b] for a in (1, -1) for b in (1, -1)]


def fits(plane, axes):
    """Whether each axis of the plane is set."""
    return all(axes & 1 << a for a in PLANES[plane])


def in_range(v, low, high):
    """Length, D and start; the speed and the directions are asked elsewhere."""
    length, _, unused, u, w = v[:5]
    starts = abs(u) <= 4000000 and abs(w) <= 4000000 and (u or w)
    return 0 <= length <= 8388607 and low <= unused <= high and starts


def along(point, direction):
    """The steps that go along the way round at a point: clockwise from (0, 1) is towards (1, 0)."""
    u, v = point
    way = (v, -u) if direction == 0 else (-v, u)
    return [(which, sign) for which, sign in STEPS if way[which] * sign > 0]


def moved(point, step):
    return tuple(c + step[1] if which == step[0] else c for which, c in enumerate(point))


def from_centre(point):
    return sum(c * c for c in point)


def path(start, direction):
    """The steps of a circle without end."""
    point, value = tuple(start), from_centre(start)
    while True:
        left = lambda step: (abs(from_centre(moved(point, step)) - value), step[0])
        step = min(along(point, direction), key=left)
        point = moved(point, step)
        yield step


def expected(start, direction):
    """For each axis the sign of the first step along the way, at the start or else behind the first pulse."""
    behind = moved(start, next(path(start, direction)))
    seen = along(start, direction) + along(behind, direction)
    return [next(sign for which, sign in seen if which == axis) for axis in (0, 1)]


def leaves(position, start, low, high):
    """Whether the reach to a side of the centre, the radius without its fraction and one more, ends outside. That sum is more than a room
    exactly if the radius is not less than it: the root of a square below the room's is."""
    value = from_centre(start)
    centres = [p - s for p, s in zip(position, start)]
    rooms = [room for c in centres for room in (high - c, c - low)]
    return any(room <= 0 or value >= room * room for room in rooms)
