"""Bounding boxes of what the machine paints. Here the matrices of a painting's list are multiplied, in floating point.

A painting is a number of polygons: for a filled path its subpaths, for a stroke a rectangle for each piece of line with its
joins and caps, for a text the outlines of its characters. Curves are cut into straight pieces. The clip is a number of
convex polygons, by the rule of `clip` or `eoclip`; each polygon of the painting is cut by each of these. All by the
Reference: 4.3 (matrices), 4.4 (paths, clips), 4.5 (painting), and 5 (text).
"""
import math
import subprocess
from machine import Literal, Number, Segment, Stopped

IDENTITY = (1.0, 0.0, 0.0, 1.0, 0.0, 0.0)
PIECES = 150
SECONDS = 300


def weights(pieces):
    return [((1 - t) ** 3, 3 * (1 - t) ** 2 * t, 3 * (1 - t) * t * t, t**3) for t in (i / pieces for i in range(1, pieces + 1))]


# The weights of the four points of a curve at the end of each of its pieces. One piece is enough to find where it ends.
WEIGHTS = {pieces: weights(pieces) for pieces in (1, PIECES)}


def times(m, n):
    """First m, then n."""
    a, b, c, d, e, f = m
    g, h, i, j, k, l = n
    return (a * g + b * i, a * h + b * j, c * g + d * i, c * h + d * j, e * g + f * i + k, e * h + f * j + l)


def at(m, x, y):
    return (m[0] * x + m[2] * y + m[4], m[1] * x + m[3] * y + m[5])


def inverse(m):
    a, b, c, d, e, f = m
    size = a * d - b * c
    if not size:
        raise Stopped("a matrix that has no inverse")
    return (d / size, -b / size, -c / size, a / size, (c * f - d * e) / size, (b * e - a * f) / size)


def values(call):
    """The operands as numbers, in the order of the Reference."""
    return [o.value for o in reversed(call.operands) if isinstance(o, Number)]


def matrix_of(call):
    if call.name in (b"concat", b"setmatrix"):
        return tuple(float(o.value) for o in call.operands[0].items)
    numbers = values(call)
    if call.name == b"translate":
        return (1.0, 0.0, 0.0, 1.0, *numbers)
    if call.name == b"scale":
        return (numbers[0], 0.0, 0.0, numbers[1], 0.0, 0.0)
    angle = math.radians(numbers[0])
    return (math.cos(angle), math.sin(angle), -math.sin(angle), math.cos(angle), 0.0, 0.0)


def product(chain, known={}):
    """The effect of a list of matrices: the innermost, which is last, comes first."""
    if not chain:
        return IDENTITY
    # By identity, and the list is kept: states share their lists.
    if id(chain) not in known:
        done = IDENTITY
        for call in reversed(chain):
            done = times(done, matrix_of(call))
        known[id(chain)] = chain, done
    return known[id(chain)][1]


# Paths.


class Subpath:
    """A subpath in default coordinates."""

    def __init__(self, start):
        self.points, self.closed = [start], False


class Path:
    def __init__(self, path, fonts, point=None, pieces=PIECES):
        self.subpaths, self.point, self.fonts, self.pieces = [], point, fonts, pieces
        for segment in path:
            self.add(segment)

    def add(self, segment):
        name, m, v = segment.call.name, product(segment.chain), values(segment.call)
        if name == b"moveto":
            self.move(at(m, *v))
        elif name in (b"arc", b"arcn"):
            self.arc(m, *v, clockwise=name == b"arcn")
        elif name == b"append":
            self.append(segment)
        elif self.point is None:
            raise Stopped(f"no current point for {name.decode()}")
        elif name == b"closepath":
            if self.subpaths:
                self.subpaths[-1].closed = True
                self.point = self.subpaths[-1].points[0]
        elif name in (b"lineto", b"curveto"):
            self.draw([at(m, x, y) for x, y in zip(v[::2], v[1::2])])
        elif name in (b"rlineto", b"rcurveto"):
            self.draw([self.moved(m, x, y) for x, y in zip(v[::2], v[1::2])])
        elif name == b"rmoveto":
            self.move(self.moved(m, *v))
        else:
            self.move(shown(segment, self.point, self.fonts, outlined=False)[1])

    def append(self, segment):
        """A path in default coordinates that further operators have computed."""
        for kind, *points in segment.call.operands:
            if kind == "m":
                self.move(points[0])
            elif kind == "l":
                self.draw(points)
            else:
                self.subpaths[-1].closed = True

    def moved(self, m, x, y):
        return (self.point[0] + m[0] * x + m[2] * y, self.point[1] + m[1] * x + m[3] * y)

    def move(self, point):
        if self.subpaths and len(self.subpaths[-1].points) == 1 and not self.subpaths[-1].closed:
            self.subpaths.pop()
        self.subpaths.append(Subpath(point))
        self.point = point

    def draw(self, points):
        if not self.subpaths or self.subpaths[-1].closed:
            self.subpaths.append(Subpath(self.point))
        if len(points) == 3:
            points = curve(self.pieces, self.point, *points)
        self.subpaths[-1].points += points
        self.point = points[-1]

    def arc(self, m, x, y, radius, start, stop, clockwise):
        if clockwise:
            while stop > start:
                stop -= 360
        else:
            while stop < start:
                stop += 360
        pieces = max(2, math.ceil(abs(stop - start) * 2))
        angles = [math.radians(start + (stop - start) * i / pieces) for i in range(pieces + 1)]
        points = [at(m, x + radius * math.cos(angle), y + radius * math.sin(angle)) for angle in angles]
        if self.point is None:
            self.move(points[0])
        for point in points:
            self.draw([point])


def curve(pieces, p, q, r, s):
    return [(k * p[0] + l * q[0] + m * r[0] + n * s[0], k * p[1] + l * q[1] + m * r[1] + n * s[1]) for k, l, m, n in WEIGHTS[pieces]]


# Settings: the latest of a kind counts.

DEFAULTS = {b"setlinewidth": [1], b"setlinecap": [0], b"setlinejoin": [0], b"setmiterlimit": [10], b"setgray": [0]}
COLOURS = {b"setgray": (1,), b"setrgbcolor": (1, 1, 1), b"setcmykcolor": (0, 0, 0, 0), b"sethsbcolor": None, b"setcolor": None}


def setting(settings, name):
    for call in reversed(settings):
        if call.name == name:
            return values(call)
    return DEFAULTS[name]


def is_white(settings):
    """Ghostscript's bbox device ignores what is painted in white."""
    for call in reversed(settings):
        if call.name in COLOURS:
            white = COLOURS[call.name]
            return white is not None and tuple(min(1, max(0, v)) for v in values(call)) == white
    return False


def dash_of(settings):
    for call in reversed(settings):
        if call.name == b"setdash":
            array = [float(o.value) for o in call.operands[1].items]
            return (array, float(call.operands[0].value)) if sum(array) > 0 else ([], 0.0)
    return [], 0.0


# Strokes, in user space (4.5.1 and `stroke`).


def stroked(subpaths, m, settings):
    """Convex polygons, in default coordinates."""
    back = inverse(m)
    width, cap, join, limit = (setting(settings, name)[0] for name in (b"setlinewidth", b"setlinecap", b"setlinejoin", b"setmiterlimit"))
    array, offset = dash_of(settings)
    polygons = []
    for subpath in subpaths:
        points = [at(back, *p) for p in subpath.points]
        if subpath.closed:
            points.append(points[0])
        elif len(points) == 1:
            continue
        lines = dashed(points, array, offset, subpath.closed) if array else [(points, subpath.closed)]
        for line, closed in lines:
            polygons += outline(line, closed, abs(width) / 2, cap, join, limit)
    return [[at(m, *p) for p in polygon] for polygon in polygons]


def without_repeats(points):
    """A point that nearly equals the one before it has no direction from there."""
    return [p for i, p in enumerate(points) if i == 0 or math.dist(p, points[i - 1]) > 1e-7]


def circle(p, half):
    return [(p[0] + half * math.cos(i * math.pi / 18), p[1] + half * math.sin(i * math.pi / 18)) for i in range(36)]


def outline(points, closed, half, cap, join, limit):
    points = without_repeats(points)
    if len(points) == 1:
        # a dot, if caps are round or the point was closed
        return [circle(points[0], half)] if cap == 1 else []
    polygons = []
    ends = len(points) - 2
    for i, (p, q) in enumerate(zip(points, points[1:])):
        length = math.dist(p, q)
        dx, dy = (q[0] - p[0]) / length * half, (q[1] - p[1]) / length * half
        before = 1 if cap == 2 and i == 0 and not closed else 0
        behind = 1 if cap == 2 and i == ends and not closed else 0
        p, q = (p[0] - dx * before, p[1] - dy * before), (q[0] + dx * behind, q[1] + dy * behind)
        polygons.append([(p[0] - dy, p[1] + dx), (p[0] + dy, p[1] - dx), (q[0] + dy, q[1] - dx), (q[0] - dy, q[1] + dx)])
    corners = list(zip(points, points[1:], points[2:]))
    if closed and len(points) > 2:
        corners.append((points[-2], points[0], points[1]))
    elif cap == 1:
        polygons += [circle(points[0], half), circle(points[-1], half)]
    for p, q, r in corners:
        polygons.append(circle(q, half) if join == 1 else corner(p, q, r, half, limit if join == 0 else 0))
    return polygons


def corner(p, q, r, half, limit):
    """The outer side of a join: a miter, or a bevel if the miter were longer than the limit."""
    a, b = math.atan2(q[1] - p[1], q[0] - p[0]), math.atan2(r[1] - q[1], r[0] - q[0])
    turn = (b - a + math.pi) % (2 * math.pi) - math.pi
    side = -1 if turn > 0 else 1
    first = (q[0] - side * half * math.sin(a), q[1] + side * half * math.cos(a))
    second = (q[0] - side * half * math.sin(b), q[1] + side * half * math.cos(b))
    shape = [q, first, second]
    cosine = math.cos(turn / 2)
    if cosine > 1e-9 and 1 / cosine <= limit:
        middle = a + turn / 2
        shape.insert(2, (q[0] - side * half / cosine * math.sin(middle), q[1] + side * half / cosine * math.cos(middle)))
    return shape


def dashed(points, array, offset, closed):
    """The pieces of the line that are drawn (4.3.1, Line dash pattern)."""
    if len(array) % 2:
        array = array * 2
    at_dash, offset = 0, math.fmod(offset, sum(array))
    if offset < 0:
        offset += sum(array)
    while offset >= array[at_dash] and offset > 0:
        offset -= array[at_dash]
        at_dash = (at_dash + 1) % len(array)
    left, lines = array[at_dash] - offset, []
    line = [points[0]] if at_dash % 2 == 0 else None
    for p, q in zip(points, points[1:]):
        length, done = math.dist(p, q), 0.0
        while length - done > left:
            done += left
            point = (p[0] + (q[0] - p[0]) * done / length, p[1] + (q[1] - p[1]) * done / length)
            if line is not None:
                lines.append((line + [point], False))
            at_dash = (at_dash + 1) % len(array)
            left, line = array[at_dash], [point] if at_dash % 2 == 0 else None
        left -= length - done
        if line is not None:
            line.append(q)
    if line is not None and len(line) > 1:
        # The Reference doesn't say whether the last dash of a closed path and the first one are joined. Ghostscript joins them.
        if closed and lines and lines[0][0][0] == points[0] and math.dist(line[-1], points[0]) < 1e-9:
            return [(line + lines[0][0][1:], False), *lines[1:]]
        lines.append((line, False))
    return lines


# Convex pieces: clips, and paintings that a clip cuts.


def area(polygon):
    return sum(p[0] * q[1] - q[0] * p[1] for p, q in zip(polygon, polygon[1:] + polygon[:1])) / 2


def is_convex(polygon):
    turns = set()
    for i, p in enumerate(polygon):
        q, r = polygon[i - 1], polygon[i - 2]
        turn = (q[0] - r[0]) * (p[1] - q[1]) - (q[1] - r[1]) * (p[0] - q[0])
        if abs(turn) > 1e-9:
            turns.add(turn > 0)
    if len(turns) > 1:
        return False
    # a star also turns to one side, but more than once around
    xs = [p[0] for p in polygon]
    changes = [b > a for a, b in zip(xs, xs[1:] + xs[:1]) if a != b]
    return sum(a != b for a, b in zip(changes, changes[1:] + changes[:1])) <= 2


def box_of(points):
    xs, ys = [p[0] for p in points], [p[1] for p in points]
    return (min(xs), min(ys), max(xs), max(ys))


def apart(a, b):
    return a[2] < b[0] or b[2] < a[0] or a[3] < b[1] or b[3] < a[1]


def cut(polygon, piece):
    """The part of a convex polygon within a convex piece."""
    if area(piece) < 0:
        piece = piece[::-1]
    for a, b in zip(piece, piece[1:] + piece[:1]):
        sides = [(b[0] - a[0]) * (p[1] - a[1]) - (b[1] - a[1]) * (p[0] - a[0]) for p in polygon]
        if all(side >= 0 for side in sides):
            continue
        out = []
        for i, (p, side) in enumerate(zip(polygon, sides)):
            q, other = polygon[i - 1], sides[i - 1]
            if (side >= 0) != (other >= 0):
                t = other / (other - side)
                out.append((q[0] + (p[0] - q[0]) * t, q[1] + (p[1] - q[1]) * t))
            if side >= 0:
                out.append(p)
        polygon = out
        if not polygon:
            break
    return polygon


def trapezoids(polygons, even_odd):
    """Convex pieces of what is inside these polygons (4.5.2, insideness)."""
    edges = [(p, q) for polygon in polygons for p, q in zip(polygon, polygon[1:] + polygon[:1]) if p[1] != q[1]]
    ys = {p[1] for polygon in polygons for p in polygon}
    for i, (p, q) in enumerate(edges):
        for r, s in edges[:i]:
            y = crossing(p, q, r, s)
            if y is not None:
                ys.add(y)
    rows, pieces = sorted(ys), []
    for low, high in zip(rows, rows[1:]):
        if high - low < 1e-9:
            continue
        middle = (low + high) / 2
        found = sorted((x_at(edge, middle), edge) for edge in edges if min(edge[0][1], edge[1][1]) < middle < max(edge[0][1], edge[1][1]))
        winding = 0
        for (_, left), (_, right) in zip(found, found[1:]):
            winding += 1 if left[1][1] > left[0][1] else -1
            if winding % 2 if even_odd else winding:
                corners = [(x_at(left, low), low), (x_at(right, low), low), (x_at(right, high), high), (x_at(left, high), high)]
                pieces.append(without_repeats(corners))
    return pieces


def x_at(edge, y):
    (px, py), (qx, qy) = edge
    return px + (qx - px) * (y - py) / (qy - py)


def crossing(p, q, r, s):
    d = (q[0] - p[0]) * (s[1] - r[1]) - (q[1] - p[1]) * (s[0] - r[0])
    if abs(d) < 1e-12:
        return None
    t = ((r[0] - p[0]) * (s[1] - r[1]) - (r[1] - p[1]) * (s[0] - r[0])) / d
    u = ((r[0] - p[0]) * (q[1] - p[1]) - (r[1] - p[1]) * (q[0] - p[0])) / d
    return p[1] + t * (q[1] - p[1]) if 0 <= t <= 1 and 0 <= u <= 1 else None


def convex_pieces(polygons, even_odd):
    """A shape as convex polygons."""
    if not polygons:
        return []
    polygons = [without_repeats(p) for p in polygons]
    if len(polygons) == 1 and is_convex(polygons[0]):
        return polygons
    return trapezoids(polygons, even_odd)


# Texts.


def font_of(settings):
    """The latest font: its name or dictionary, its matrix."""
    for call in reversed(settings):
        if call.name == b"selectfont":
            size = float(call.operands[0].value)
            return call.operands[1].name, (size, 0.0, 0.0, size, 0.0, 0.0)
        if call.name == b"setfont":
            made_of = call.operands[0].made_of
            m = IDENTITY
            for part in made_of[1:]:
                m = times(m, (part.value, 0.0, 0.0, part.value, 0.0, 0.0) if isinstance(part, Number) else part)
            return made_of[0].name if isinstance(made_of[0], Literal) else made_of[0], m
    raise Stopped("a text, and no font")


def point_of(path, fonts):
    """The current point, from the last segment that has one. After `closepath` it is where the subpath begins."""
    for i in range(len(path) - 1, -1, -1):
        call = path[i].call
        if call.name in (b"closepath", b"append"):
            break
        if call.name in (b"moveto", b"lineto", b"curveto"):
            return Path(path[i + 1 :], fonts, at(product(path[i].chain), *values(call)[-2:]), pieces=1).point
    start = max((i for i, segment in enumerate(path) if segment.call.name == b"moveto"), default=0)
    return Path(path[start:], fonts, pieces=1).point


def shown(segment, point, fonts, outlined=True):
    """The outlines of a text that begins here, and the point after it (`show`, `ashow`, `widthshow`, `awidthshow`)."""
    name, m = segment.call.name, product(segment.chain)
    font, scale = font_of(segment.settings)
    text = bytes(segment.call.operands[0].data)
    v = values(segment.call)
    every = v[-2:] if name in (b"ashow", b"awidthshow") else [0, 0]
    wide, special = (v[0:2], v[2]) if name in (b"widthshow", b"awidthshow") else ([0, 0], None)
    characters, outlines = fonts.characters(font), []
    for code in text:
        advance, polygons = characters[code]
        glyph = times(scale, (m[0], m[1], m[2], m[3], *point))
        if outlined and polygons:
            outlines.append(Glyph(glyph, polygons, fonts.hull(font, code)))
        end = at(glyph, *advance)
        dx, dy = every[0] + (wide[0] if code == special else 0), every[1] + (wide[1] if code == special else 0)
        point = (end[0] + m[0] * dx + m[2] * dy, end[1] + m[1] * dx + m[3] * dy)
    return outlines, point


ASK = rb"""
/s 1 string def /n { ( ) print 20 string cvs print } def
/tell { /f exch def f 1000 scalefont setfont 4 setflat
  0 1 255 { s 0 3 -1 roll put
    newpath 0 0 moveto (c) print { s stringwidth exch n n } stopped { clear ( 0 0) print } if (\n) print
    newpath 0 0 moveto { s false charpath flattenpath } stopped not {
      { exch (m) print n n (\n) print } { exch (l) print n n (\n) print } {} { } pathforall } { clear } ifelse
  } for } def
"""


class Glyph:
    """A character: the key of its outlines, the outlines, and their convex hull, which has the same box in every rotation."""

    def __init__(self, matrix, polygons, hull):
        self.matrix, self.polygons, self.hull = matrix, polygons, [at(matrix, *p) for p in hull]

    def outlines(self):
        return [[at(self.matrix, *p) for p in polygon] for polygon in self.polygons]


def hull_of(points):
    points = sorted(set(points))
    if len(points) < 3:
        return points

    def half(points):
        out = []
        for p in points:
            while len(out) > 1 and (out[-1][0] - out[-2][0]) * (p[1] - out[-2][1]) - (out[-1][1] - out[-2][1]) * (p[0] - out[-2][0]) <= 0:
                out.pop()
            out.append(p)
        return out[:-1]

    return half(points) + half(points[::-1])


class Fonts:
    """Outlines of characters, for fonts by name, as Ghostscript has them. Fonts of the document aren't here."""

    def __init__(self):
        self.known, self.hulls = {}, {}

    def hull(self, font, code):
        if (font, code) not in self.hulls:
            self.hulls[font, code] = hull_of([p for polygon in self.characters(font)[code][1] for p in polygon])
        return self.hulls[font, code]

    def characters(self, font):
        if font not in self.known:
            self.known[font] = self.asked(font)
        return self.known[font]

    def asked(self, font):
        if isinstance(font, bytes):
            key, make = font, b"/%s findfont" % font
        else:
            key, make = font.name, font.making()
        script = ASK + make + b" tell\n"
        ran = subprocess.run(["gs", "-q", "-dSAFER", "-dBATCH", "-dNOPAUSE", "-sDEVICE=nullpage", "-r720", "-"], input=script, capture_output=True)
        if ran.returncode:
            raise Stopped(f"no outlines of the font {key.decode('latin-1')}")
        found = []
        for line in ran.stdout.splitlines():
            kind, *numbers = line[:1], *(float(word) / 1000 for word in line[1:].split())
            if kind == b"c":
                found.append((tuple(numbers), []))
            elif kind == b"m":
                found[-1][1].append([tuple(numbers)])
            elif kind == b"l":
                found[-1][1][-1].append(tuple(numbers))
        if len(found) != 256:
            raise Stopped(f"no outlines of the font {key.decode('latin-1')}")
        return [(advance, [p for p in polygons if len(p) > 2]) for advance, polygons in found]


# Paintings.


class Reader:
    """Reads pictures: boxes of paintings on a paper of these sides, whose lower left corner is the origin."""

    def __init__(self, paper, fonts=None):
        self.fonts = fonts or Fonts()
        width, height = paper
        self.paper = [[(0.0, 0.0), (width, 0.0), (width, height), (0.0, height)]]
        self.clips = {}

    def clip(self, clip):
        if not clip:
            return self.paper
        if id(clip) not in self.clips:
            last, polygons = clip[-1], []
            if last.path:
                polygons = [s.points for s in Path(last.path, self.fonts).subpaths if len(s.points) > 2]
            pieces = convex_pieces(polygons, last.name == b"eoclip") if polygons else []
            outer = self.clip(clip[:-1])
            cuts = [cut(piece, other) for piece in pieces for other in outer if not apart(box_of(piece), box_of(other))]
            self.clips[id(clip)] = clip, [piece for piece in cuts if len(piece) > 2 and abs(area(piece)) > 1e-6]
        return self.clips[id(clip)][1]

    def groups(self, painting):
        """The polygons of a painting, grouped by shape, and whether each of them is convex."""
        name, g = painting.call.name, painting.graphics
        m = product(g.chain)
        if name in (b"fill", b"eofill"):
            subpaths = Path(g.path, self.fonts).subpaths if g.path else []
            return [[s.points for s in subpaths if len(s.points) > 1]], False
        if name == b"stroke":
            return [[p] for p in stroked(Path(g.path, self.fonts).subpaths if g.path else [], m, g.settings)], True
        if name in (b"rectfill", b"rectstroke"):
            subpaths = rectangles(m, values(painting.call))
            if name == b"rectfill":
                return [[s.points] for s in subpaths], True
            return [[p] for p in stroked(subpaths, m, g.settings)], True
        if name in (b"image", b"imagemask", b"colorimage"):
            return [[[at(m, *p) for p in image_corners(painting.call)]]], True
        point = point_of(g.path, self.fonts)
        if point is None:
            raise Stopped("a text, and no current point")
        return shown(Segment(painting.call, g.chain, g.settings), point, self.fonts)[0], False

    def boxes(self, painting):
        """The visible part of a painting: the box that it has to fill, and the box that it has to stay in; None if there is none.

        For most paintings they are the same. For a text the first one is that of its outlines, and the second one that of its
        characters' boxes, turned with them: Ghostscript's bbox device reports the second one for characters that it keeps as
        bitmaps. The same holds for strokes with square caps: there it reports a box around the path, with its dashes and gaps."""
        if is_white(painting.graphics.settings) and painting.call.name not in (b"image", b"colorimage"):
            return None, None
        groups, convex = self.groups(painting)
        inner = self.box(groups, convex, painting)
        if painting.call.name.endswith(b"stroke") and setting(painting.graphics.settings, b"setlinecap")[0] == 2:
            return inner, self.box(self.round_stroke(painting), True, painting)
        if not painting.call.name.endswith(b"show"):
            return inner, inner
        return inner, self.box([self.character_box(painting, polygons) for polygons in groups], True, painting)

    def round_stroke(self, painting):
        g, m = painting.graphics, product(painting.graphics.chain)
        subpaths = Path(g.path, self.fonts).subpaths if painting.call.name == b"stroke" else rectangles(m, values(painting.call))
        left, low, right, high = box_of([p for s in subpaths for p in s.points])
        most = setting(g.settings, b"setlinewidth")[0] * math.sqrt(0.5)
        x, y = (abs(m[0]) + abs(m[2])) * most, (abs(m[1]) + abs(m[3])) * most
        return [[[(left - x, low - y), (right + x, low - y), (right + x, high + y), (left - x, high + y)]]]

    def character_box(self, painting, glyph):
        points = glyph.hull
        m = times(font_of(painting.graphics.settings)[1], product(painting.graphics.chain))
        left, low, right, high = box_of([at(inverse(m), *p) for p in points])
        return [[at(m, *p) for p in ((left, low), (right, low), (right, high), (left, high))]]

    def box(self, groups, convex, painting):
        pieces = [(piece, box_of(piece)) for piece in self.clip(painting.graphics.clip)]
        found = []
        for polygons in groups:
            points = polygons.hull if isinstance(polygons, Glyph) else [p for polygon in polygons for p in polygon]
            whole = box_of(points) if points else None
            near = [] if whole is None else [piece for piece, box in pieces if not apart(whole, box)]
            if any(holds(piece, whole) for piece in near):
                found += points
            elif near:
                polygons = polygons.outlines() if isinstance(polygons, Glyph) else polygons
                shape = polygons if convex else convex_pieces([p for p in polygons if len(p) > 2], painting.call.name == b"eofill")
                found += [p for polygon in shape for piece in near for p in cut(polygon, piece)]
        return box_of(found) if found else None


def image_corners(call):
    """An image with this many samples, and its matrix from user space to them (4.10.3). Without operands it fills the unit square."""
    x, y, back = 1, 1, IDENTITY
    if call.operands:
        _, by, _, height, width = call.operands
        x, y, back = width.value, height.value, inverse(tuple(float(o.value) for o in by.items))
    return [at(back, 0, 0), at(back, x, 0), at(back, x, y), at(back, 0, y)]


def rectangles(m, v):
    subpaths = []
    for x, y, w, h in zip(v[::4], v[1::4], v[2::4], v[3::4]):
        subpath = Subpath(at(m, x, y))
        subpath.points += [at(m, x + w, y), at(m, x + w, y + h), at(m, x, y + h)]
        subpath.closed = True
        subpaths.append(subpath)
    return subpaths


def holds(piece, box):
    """Whether the box is within the convex piece."""
    corners = [(box[0], box[1]), (box[2], box[1]), (box[2], box[3]), (box[0], box[3])]
    if area(piece) < 0:
        piece = piece[::-1]
    return all((b[0] - a[0]) * (p[1] - a[1]) - (b[1] - a[1]) * (p[0] - a[0]) >= -1e-9
               for a, b in zip(piece, piece[1:] + piece[:1]) for p in corners)


def union(boxes):
    boxes = [box for box in boxes if box is not None]
    if not boxes:
        return None
    return (min(b[0] for b in boxes), min(b[1] for b in boxes), max(b[2] for b in boxes), max(b[3] for b in boxes))


# Ghostscript's.

# Each painting is put out alone, and the page is then empty again, so its own box is reported.
PAINTS = "fill eofill stroke rectfill rectstroke show ashow widthshow awidthshow image imagemask colorimage".split()
PREFACE = "".join(f"/{name} {{ //{name} //copypage //erasepage }} def\n" for name in PAINTS).encode()


def by_ghostscript(text, paper, each=False):
    """The boxes that Ghostscript's bbox device reports, one for each page that is put out, and whether it ended without an error."""
    words = ["gs", "-q", "-dSAFER", "-dBATCH", "-dNOPAUSE", "-dFIXEDMEDIA", "-sDEVICE=bbox", f"-dDEVICEWIDTHPOINTS={paper[0]}",
             f"-dDEVICEHEIGHTPOINTS={paper[1]}", "-"]
    ran = subprocess.run(words, input=(PREFACE if each else b"") + text, capture_output=True, timeout=SECONDS)
    boxes = []
    for line in (ran.stderr + ran.stdout).splitlines():
        if line.startswith(b"%%HiResBoundingBox:"):
            box = tuple(float(word) for word in line.split()[1:5])
            boxes.append(None if box == (0.0, 0.0, 0.0, 0.0) else box)
    return boxes, ran.returncode == 0
