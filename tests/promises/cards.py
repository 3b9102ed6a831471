"""The cards of tests/promises/check: drawn in named kinds, changed, and made smaller. All that is random comes from `dice`. Every number of a card is inside
its range, so every card has to be accepted."""
import math
import random
import struct

LIMIT, LEAST = 2.0**20, 2.0**-20  # the largest coordinate and radius; the smallest radius
dice = random.Random()


class Card:
    """A layout's input: circles are lists of x, y and radius; regions are areas by mask."""

    def __init__(self, circles, regions=(), factor=0.0, proportion=1.618):
        self.circles, self.regions, self.factor, self.proportion = circles, dict(regions), factor, proportion

    def copied(self):
        return Card([list(circle) for circle in self.circles], self.regions, self.factor, self.proportion)

    def inks(self):
        return [(40503 * i + 65521) % 65536 for i in range(len(self.circles))]

    def packed(self):
        """As feed.c takes it."""
        n, m, masks = len(self.circles), len(self.regions), sorted(self.regions)
        circles = [value for circle, ink in zip(self.circles, self.inks()) for value in (*circle, ink)]
        return struct.pack(f"<QQdd{'dddQ' * n}{m}Q{m}d", n, m, self.factor, self.proportion, *circles, *masks, *(self.regions[mask] for mask in masks))

    def __str__(self):
        """As docs/make-card takes it. A card file has no proportion, so that is a comment."""
        lines = [f"factor {self.factor} # proportion {self.proportion}"]
        lines += [f"circle {x} {y} {r} {ink}" for (x, y, r), ink in zip(self.circles, self.inks())]
        lines += [f"region {' '.join(str(i) for i in range(64) if mask >> i & 1)} {self.regions[mask]}" for mask in sorted(self.regions)]
        return "\n".join(lines) + "\n"

    def without_circle(self, i):
        """Circle i goes, and with it its bit."""
        del self.circles[i]
        low = (1 << i) - 1
        self.regions = {mask & low | mask >> 1 & ~low: area for mask, area in self.regions.items()}

    def within(self):
        """The card with each number put inside its range."""
        self.circles = [[max(-LIMIT, min(LIMIT, x)), max(-LIMIT, min(LIMIT, y)), max(LEAST, min(LIMIT, r))] for x, y, r in self.circles]
        self.factor, self.proportion = max(0.0, min(1.0, self.factor)), max(0.25, min(4.0, self.proportion))
        return self


# ---- numbers


def ulps(x, steps):
    """The f64 so many after x."""
    (place,) = struct.unpack("<q", struct.pack("<d", x))
    place = (place if place >= 0 else -(place + (1 << 63))) + steps
    return struct.unpack("<d", struct.pack("<q", place if place >= 0 else -place - (1 << 63)))[0]


def steps():
    return dice.choice((0, 1, 1, 2, 3, 2 ** dice.randrange(40)))


def few():
    return dice.choice((-1, 1)) * steps()


def coordinate():
    sizes = LIMIT, ulps(LIMIT, -steps()), dice.uniform(0, LIMIT), 2.0 ** dice.uniform(-30, 20), float(dice.randrange(2**20))
    return dice.choice((-1, 1)) * dice.choice(sizes)


def radius():
    return dice.choice((LIMIT, ulps(LIMIT, -steps()), LEAST, 2.0 ** dice.uniform(-20, 20), dice.uniform(1, LIMIT), 2.0 ** dice.randrange(-20, 21)))


def factor():
    return dice.choice((1.0, 1.0, ulps(1.0, -steps()), dice.random(), 0.0, 2.0 ** dice.uniform(-60, 0), 5e-324))


def proportion():
    return dice.choice((0.25, 4.0, 1.618, 1.0, 2.0, ulps(0.25, steps()), ulps(4.0, -steps()), dice.uniform(0.25, 4)))


def size(least=1):
    return dice.randint(least, 10) if dice.random() < 0.92 else dice.randint(16, 40)


def circle(x=None, y=None):
    return [coordinate() if x is None else x, coordinate() if y is None else y, radius()]


def circles(n):
    return [circle() for _ in range(n)]


# ---- regions


def joined(members):
    """Regions that make one cluster of these circles: one for all, or a chain of pairs in any order."""
    members = dice.sample(members, len(members))
    if dice.random() < 0.5:
        return {sum(1 << i for i in members): dice.uniform(1, 100)}
    return {1 << i | 1 << j: dice.uniform(1, 100) for i, j in zip(members, members[1:])}


def some_groups(n):
    ends, regions = sorted(dice.sample(range(n + 1), dice.randint(0, min(n, 6)))), {}
    for low, high in zip(ends, ends[1:]):
        regions.update(joined(range(low, high)))
    return regions


def family(parents, child_circles):
    """Each parent with a child that shares a region with it alone, in a random order; of half the families the parents are one cluster."""
    order = dice.sample(range(2 * len(parents)), 2 * len(parents))
    placed, regions = dict(zip(order, parents + child_circles)), {}
    for p, i in zip(order, order[len(parents) :]):
        regions[1 << p], regions[1 << p | 1 << i] = dice.uniform(5, 50), dice.choice((3.0, 1e-3, dice.uniform(0.1, 60)))
    if dice.random() < 0.5:
        regions.update(joined(order[: len(parents)]))
    return [placed[i] for i in range(len(order))], regions


# ---- kinds


def small_random():
    n = size()
    small = [[dice.uniform(-50, 50), float(dice.randint(-50, 50)), dice.uniform(0.5, 20)] for _ in range(n)]
    return small, {dice.randrange(1, 1 << n): dice.uniform(0, 30) for _ in range(dice.randint(0, 2 * n))}


def many_clusters():
    n, alike = size(2), radius()
    return [[*circle()[:2], dice.choice((alike, radius()))] for _ in range(n)], dice.choice(({}, some_groups(n)))


def one_cluster():
    n = size(2)
    return circles(n), joined(range(n))


def tiny_and_far():
    n = size(2)
    return [[*circle()[:2], LEAST * dice.choice((1, 2, dice.uniform(1, 9)))] for _ in range(n)], some_groups(n)


def coinciding():
    n, spots = size(2), circles(2)
    return [[*dice.choice(spots)[:2], dice.choice((spots[0][2], radius()))] for _ in range(n)], some_groups(n)


def nearly_coinciding():
    n, (x, y, r) = size(2), circle(dice.choice((0.0, coordinate())), dice.choice((0.0, coordinate())))
    return [[ulps(x, few()), ulps(y, few()), ulps(r, few())] for _ in range(n)], dice.choice((joined(range(n)), some_groups(n)))


def children():
    parents = [[dice.uniform(-90, 90), dice.uniform(-90, 90), dice.uniform(1, 40)] for _ in range(dice.randint(1, 5))]
    shares = [(dice.choice((0, dice.uniform(-1, 1))), dice.choice((0, dice.uniform(-1, 1))), dice.choice((1, 0.5, 0.001, dice.random()))) for _ in parents]
    return family(parents, [[x + a * r, y + b * r, c * r] for (x, y, r), (a, b, c) in zip(parents, shares)])


def children_at_the_edge():
    """Parents as large as they can be side by side, and children that are brought from anywhere, some of them as large as their parents."""
    across = dice.choice((2, 2, 2, 3, 4))
    step, spots = 2 * LIMIT / (across - 1), [(i, j) for i in range(across) for j in range(across)]
    wide = step / 2 * dice.choice((1, 1, 1, dice.random()))
    parents = [[i * step - LIMIT, j * step - LIMIT, wide] for i, j in dice.sample(spots, dice.randint(1, len(spots)))]
    if dice.random() < 0.5:
        parents = [[ulps(x, few()), ulps(y, few()), r] for x, y, r in parents]
    return family(parents, [[*circle()[:2], wide * dice.choice((1, 1, 1 - 2.0**-40, 0.5, dice.random(), 2.0**-40))] for _ in parents])


def tight_children():
    """Children that have next to no room: as far past the edge as rounding takes them."""
    parents = [[dice.uniform(-LIMIT, LIMIT), dice.uniform(-LIMIT, LIMIT), 2.0 ** dice.uniform(-10, 18)] for _ in range(dice.choice((1, 1, 1, 4)))]
    return family(parents, [[*circle()[:2], r - 2.0 ** dice.uniform(-36, -22)] for _, _, r in parents])


def nearly_level():
    """The second circle is about as high above the first as makes no turn."""
    n, y, left = size(2), dice.choice((0.0, 0.0, coordinate() * 2.0 ** -dice.randrange(30))), dice.choice((-LIMIT, coordinate()))
    wide = min(2.0 ** dice.uniform(0, 21), LIMIT - left)
    lift = dice.choice((-1, 1)) * ulps(1e-10 * wide, dice.choice((0, -steps(), few())))
    regions, group = {}, dice.randint(2, n)
    regions.update(joined(range(group)))
    if group < n:
        regions.update(joined(range(group, n)))
    return [circle(left, y), circle(left + wide, y + lift)] + [circle(None, dice.choice((y, coordinate()))) for _ in range(n - 2)], regions


def level_children():
    """The first two are moved outward, to 3 * 2^20 apart at most, and the parents' heights differ by about as much as makes no turn."""
    inward, wide = dice.choice((0.01, 0.005, 1.0, dice.uniform(0.003, 9))), LIMIT * (1 - dice.choice((0, 0, dice.random() ** 3)))
    child, y = dice.choice((LEAST, 1.0, wide * dice.random())), dice.choice((0.0, 0.0, coordinate() * LEAST))
    apart = 2 * LIMIT - inward + wide - child
    lift = dice.choice((-1, 1)) * 1e-10 * apart * (1 - dice.choice((0, 2.0**-50, 2.0**-40, 2.0**-30, dice.random() ** 4)))
    four = [[-LIMIT, y, child], [LIMIT, y + lift, child], [inward - LIMIT, y, wide], [LIMIT, y + lift, wide]]
    return four, {0b0100: 10.0, 0b1000: 10.0, 0b0101: 3.0, 0b1010: 3.0, 0b1100: 1.0}


def nearly_symmetrical():
    """The first circle is about in the middle of pairs that lie opposite each other."""
    (x, y, _), far = circle(dice.choice((0.0, coordinate() / 2)), dice.choice((0.0, coordinate() / 2))), 2.0 ** dice.uniform(0, 19)
    points = [(x + few() * far * 2.0**-52, y + few() * far * 2.0**-52)]
    for _ in range(dice.randint(1, 4)):
        a, b = dice.uniform(-far, far), dice.choice((0.0, dice.uniform(-far, far)))
        points += [(x + a, y + b), (x - a, y - b)]
    return [circle(*point) for point in points], joined(range(len(points)))


def first_on_the_middle():
    grain = dice.choice((1.0, LEAST, 2.0**-32))
    x, y, a, b = (grain * dice.randint(-round(LIMIT / 2 / grain), round(LIMIT / 2 / grain)) for _ in range(4))
    return [circle(x, y), circle(x + a, y), circle(x - a, y + b), circle(x, y - b)] + circles(dice.choice((0, 0, 1, 4))), joined(range(4))


def odd_areas():
    """Areas that are no numbers, infinite, not above 0 or next to the tolerance, of any bits, beside those of another card."""
    some, regions = dice.choice((small_random, children))()
    most, more = dice.choice((1.0, 100.0, 1e300)), dice.choice((1, 2, 3, 8, 20, 2048 if dice.random() < 0.1 else 9))
    near = [ulps(1e-10 * most, by) for by in (-1, 0, 1)]
    odd = [math.nan, math.nan, dice.choice((math.inf, 7.0)), dice.choice((-math.inf, -7.0, -7.0)), 0.0, -0.0, -1.0, most, -most, 5e-324, *near, 1.0]
    while more > 0 and len(regions) < 2048:
        pair = 1 << dice.randrange(len(some)) | 1 << dice.randrange(len(some))
        regions[dice.choice((pair, dice.getrandbits(64), dice.getrandbits(len(some)), pair | 1 << dice.randrange(64)))] = dice.choice(odd)
        more -= 1
    return some, regions


def one_circle():
    return circles(1), dice.choice(({}, {1: 1.0}, {2: 1.0}))


def large_pairs():
    """Clusters as large as two circles can make them."""
    pairs = dice.choice((2, 3, 5, 8, 16, 32))
    corners = [(r, dice.choice((-1, 1)) * ulps(LIMIT, -steps())) for r in (dice.choice((LIMIT, LIMIT, radius())) for _ in range(pairs))]
    return [c for r, y in corners for c in ([-LIMIT, -y, r], [LIMIT, y, r])], {3 << 2 * i: 1.0 for i in range(pairs)}


def sixty_four_clusters():
    alike = dice.choice(([LIMIT], [radius()], [radius(), radius()], [radius() for _ in range(64)]))
    return [[*circle()[:2], dice.choice(alike)] for _ in range(64)], {}


def sixty_four_in_one():
    return circles(64), joined(range(64))


# Of 100 cards so many are of each kind.
KINDS = {
    small_random: 13, many_clusters: 9, one_cluster: 7, tiny_and_far: 5, coinciding: 5, nearly_coinciding: 5, children: 10, children_at_the_edge: 8,
    tight_children: 5, nearly_level: 8, level_children: 4, nearly_symmetrical: 8, first_on_the_middle: 4, odd_areas: 5, one_circle: 1, large_pairs: 1,
    sixty_four_clusters: 1, sixty_four_in_one: 1,
}


# The share of a kind that has company, 0.02 of the others: what rounding does to these shows best in a large grid.
COMPANY = {tight_children: 0.6, nearly_symmetrical: 0.3, first_on_the_middle: 0.6, one_circle: 0}


def drawn(kind):
    card = Card(*kind(), factor(), proportion())
    if dice.random() < COMPANY.get(kind, 0.02):
        new_company(card)
    return card.within()


# ---- changes


def held(card):
    """The circles that a region holds, or all where there are none: where most stand alone, it is these that count."""
    masks = 0
    for mask in card.regions:
        masks |= mask
    return [c for i, c in enumerate(card.circles) if masks >> i & 1] or card.circles


def new_digits(card):
    """Other last digits for all circles that are held, so that all is rounded anew."""
    digits = dice.randrange(48)
    for one in held(card):
        one[:2] = (ulps(value, dice.randrange(-1 << digits, 1 << digits)) for value in one[:2])


def new_number(card):
    """One number of a circle: by ulps, by a digit, in its last digits, cut short, to a power of two, drawn anew, or as another circle has it."""
    one, k, digits, grain = dice.choice(dice.choice((card.circles, held(card)))), dice.randrange(3), dice.randrange(48), 2.0 ** dice.randrange(-30, 18)
    value, other = one[k], dice.choice(card.circles)[k]
    near = ulps(value, few()), ulps(value, 1 << digits), ulps(value, dice.randrange(-1 << digits, 1 << digits)), value + dice.uniform(-1, 1) * grain
    far = grain * (value // grain), math.copysign(2.0 ** dice.randrange(-20, 21), value), circle()[k], other, -other, value * dice.choice((0.5, 2.0))
    one[k] = dice.choice(dice.choice((near, far)))


def new_order(card):
    i, j = dice.randrange(len(card.circles)), dice.randrange(len(card.circles))
    card.circles[i], card.circles[j] = card.circles[j], card.circles[i]


def new_place(card):
    """All circles: larger or smaller, turned, shifted."""
    scale, turn = dice.choice((1, 1, 2, 0.5, dice.uniform(0.5, 2))), dice.choice((0, 0, 1e-10, 2.0**-30, dice.uniform(-4, 4)))
    cosine, sine, x, y = scale * math.cos(turn), scale * math.sin(turn), dice.choice((0, dice.random(), coordinate())), dice.choice((0, coordinate()))
    card.circles = [[cosine * a - sine * b + x, sine * a + cosine * b + y, scale * r] for a, b, r in card.circles]


def new_grid(card):
    card.factor = dice.choice((card.factor, ulps(card.factor, few()), factor()))
    card.proportion = dice.choice((card.proportion, ulps(card.proportion, few()), proportion()))


def new_region(card):
    if card.regions and dice.random() < 0.7:
        mask = dice.choice(sorted(card.regions))
        area = card.regions.pop(mask)
        if dice.random() < 0.6:
            card.regions[mask] = area * dice.choice((0.5, 2.0, dice.random()))
    elif len(card.regions) < 2048:
        card.regions[1 << dice.randrange(len(card.circles)) | 1 << dice.randrange(len(card.circles))] = 2.0 ** dice.uniform(-20, 40)


def new_circle(card):
    if dice.random() < 0.5 and len(card.circles) > 1:
        card.without_circle(dice.randrange(len(card.circles)))
    elif len(card.circles) < 64:
        card.circles.append(list(dice.choice(card.circles)))
        new_number(card)


def new_company(card):
    """Large circles in a corner, up to 64 circles: clusters of their own, mostly, which make the grid as large as it gets."""
    x, y = dice.choice((-LIMIT, LIMIT)), dice.choice((-LIMIT, LIMIT))
    card.circles += [[x, y, LIMIT] for _ in range(dice.choice((64, 64, 64, dice.randint(8, 64))) - len(card.circles))]
    card.factor, card.proportion = dice.choice((1.0, 1.0, card.factor)), dice.choice((4.0, 0.25, card.proportion))


CHANGES = (new_number, new_number, new_number, new_number, new_digits, new_digits, new_order, new_place, new_grid, new_region, new_circle)


def changed(card):
    card = card.copied()
    for change in dice.choices(CHANGES, k=dice.choice((1, 1, 1, 2, 4))):
        change(card)
    if dice.random() < 0.01:
        new_company(card)
    return card.within()


def smaller(card, still):
    """The card with circles, regions and digits left out, as long as it is `still` what it was."""

    def attempts():
        for i in reversed(range(len(card.circles))):
            yield lambda trial: trial.without_circle(i)
        for mask in sorted(card.regions):
            yield lambda trial: trial.regions.pop(mask)
        for i in range(len(card.circles)):
            for k in range(3):
                for grain in (2.0**20, 2.0**10, 1.0, 2.0**-10, 2.0**-20):
                    yield lambda trial: trial.circles[i].__setitem__(k, grain * round(trial.circles[i][k] / grain))

    for attempt in attempts():
        trial = card.copied()
        attempt(trial)
        if trial.circles and str(trial.within()) != str(card) and still(trial):
            card = trial
    return card
