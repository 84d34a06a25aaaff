"""Small lists of zones, and for each the bands of its pairs, listed departure by departure.

Writes lists.txt: lines `zone A B C D E F`, then `band FROM TO KIND NUMBER KIND NUMBER`, then `end`.
The numbers of a zone are its bounds on the departure, the arrival and their difference.
"""
import random


def pairs_of(zone):
    a, b, c, d, e, f = zone
    return {(t, u) for t in range(a, b + 1) for u in range(c, d + 1) if e <= u - t <= f}


def runs_at(pairs, t):
    arrivals = sorted(u for s, u in pairs if s == t)
    runs = []
    for u in arrivals:
        if runs and runs[-1][1] == u - 1:
            runs[-1][1] = u
        else:
            runs.append([u, u])
    return [tuple(run) for run in runs]


def end_of(values, departure):
    if len(values) == 1 or values[1] == values[0]:
        return ("fixed", values[0])
    return ("moving", values[0] - departure)


def bands_of(pairs):
    if not pairs:
        return []
    rows = []  # each a list of (departure, low, high)
    for t in range(min(pairs)[0], max(pairs)[0] + 1):
        for low, high in runs_at(pairs, t):
            for row in rows:
                s, l, h = row[-1]
                step = (low - l, high - h)
                if s == t - 1 and step[0] in (0, 1) and step[1] in (0, 1):
                    if len(row) == 1 or step == (l - row[-2][1], h - row[-2][2]):
                        row.append((t, low, high))
                        break
            else:
                rows.append([(t, low, high)])
    rows.sort(key=lambda row: (row[0][0], row[0][1]))
    bands = []
    for row in rows:
        low = end_of([l for _, l, _ in row], row[0][0])
        high = end_of([h for _, _, h in row], row[0][0])
        bands.append((row[0][0], row[-1][0], low, high))
    return bands


def at(end, t):
    return end[1] if end[0] == "fixed" else t + end[1]


def check(pairs, bands):
    """The five conditions, each by itself."""
    held = []
    for first, last, low, high in bands:
        assert first <= last
        for t in range(first, last + 1):
            assert (at(low, t), at(high, t)) in runs_at(pairs, t)
            held += [(t, u) for u in range(at(low, t), at(high, t) + 1)]
        if first == last:
            assert low[0] == high[0] == "fixed"
        for l, h in runs_at(pairs, last + 1):
            if l - at(low, last) in (0, 1) and h - at(high, last) in (0, 1):
                assert first < last and (at(low, last + 1), at(high, last + 1)) != (l, h)
    assert len(held) == len(set(held)) and set(held) == pairs
    starts = [(first, at(low, first)) for first, _, low, _ in bands]
    assert starts == sorted(set(starts))


def random_zone(rng):
    a = rng.randint(-4, 6)
    b = a + rng.choice([0, 0, 1, 2, 3, 5, 9])
    kind = rng.randint(0, 2)
    if kind == 0:  # a rectangle
        c = rng.randint(-4, 8)
        return (a, b, c, c + rng.choice([0, 0, 1, 2, 4]), -30, 30)
    e = rng.randint(-3, 3)
    f = e + rng.choice([0, 0, 1, 2])
    if kind == 1:  # along the diagonal
        return (a, b, -30, 30, e, f)
    c = a + rng.randint(-2, 2)
    return (a, b, c, c + rng.choice([1, 3, 5, 7]), e, f + rng.choice([0, 3]))


def cases():
    rng = random.Random(11)
    yield []
    yield [(0, 9, 0, 9, 0, 0), (5, 5, 6, 6, 1, 1)]
    yield [(0, 9, 0, 9, 0, 0), (10, 20, 10, 20, 0, 0)]
    yield [(0, 20, 0, 20, 0, 12)]
    for _ in range(116):
        yield [random_zone(rng) for _ in range(rng.choice([1, 2, 2, 3, 3, 4, 5, 7, 10]))]


def crowded_zone(rng, last):
    """A zone that is active at most departures from 0 to `last`."""
    a = rng.choice([0, 0, rng.randint(0, last // 3)])
    b = rng.choice([last, last, rng.randint(2 * last // 3, last)])
    kind = rng.randint(0, 3)
    c = rng.randint(0, 3 * last)
    if kind == 0:  # a stripe
        return (a, b, c, c + rng.choice([0, 0, 1, 2]), -900, 900)
    if kind == 1:  # along the diagonal
        e = rng.randint(-last, 4 * last)
        return (a, b, -900, 900, e, e + rng.choice([0, 0, 1]))
    if kind == 2:  # its low end stays and then moves
        return (a, b, c, c + last, c - rng.randint(0, last), c + rng.randint(0, 2))
    return (a, b, c, c + rng.randint(0, 6), -900, c - rng.randint(-3, last))  # its high end moves and then stays


def crowded_lists(rng):
    """Lists with 50 to 500 zones active at a time, in eight shapes; each twentieth is large and has few departures."""
    for i in range(200):
        large = i % 20 == 0
        count = 480 if large else rng.choice([60, 60, 70, 80, 100, 120])
        last = 4 if large else rng.choice([6, 9, 12, 15])
        low = [4 * k - 2 * count for k in range(count)]
        shape = i % 8 if not large else i // 20 % 8
        if shape == 0:  # of all kinds
            yield [crowded_zone(rng, last) for _ in range(count)]
        elif shape == 1:  # on parallels, each within the one before
            yield [(k * (last // 3) // count, last - k * (last // 3) // count, -900, 900, k % 3, k % 3) for k in range(count)]
        elif shape == 2:  # stripes that overlap or don't, each of which ends by itself
            yield [(0, rng.randint(last // 2, last), c, c + rng.randint(2, 5), -900, 900) for c in low]
        elif shape == 3:  # stripes, and one line through all
            yield [(0, last, c // 2, c // 2, -900, 900) for c in low] + [(0, last, -900, 900, 0, 1)]
        elif shape == 4:  # stripes and lines that cross
            yield [(0, last, c, c + 1, -900, 900) if c % 8 else (0, last, -900, 900, c + c % 3, c + c % 3 + 1) for c in low]
        elif shape == 5:  # moments, each led to from all moments up to one of its own
            yield [(0, rng.randint(last // 2, last), u, u, -900, 900) for u in rng.sample(range(2 * count), count)]
        elif shape == 6:  # each of some zones more than once
            zones = [crowded_zone(rng, last) for _ in range(count // 4)]
            yield zones + [rng.choice(zones) for _ in range(3 * count // 4)]
        else:  # wide ones
            yield [(0, last, k, k + rng.randint(0, 40), -900, rng.randint(k, 900)) for k in range(count)]


def most_active(zones):
    """How many zones have pairs at the departure at which most do."""
    spans = [(min(pairs)[0], max(pairs)[0]) for pairs in map(pairs_of, zones) if pairs]
    return max(sum(a <= t <= b for a, b in spans) for t in range(16))


def lists():
    yield from cases()
    for zones in crowded_lists(random.Random(13)):
        assert 50 <= most_active(zones) <= 500
        yield zones


def main():
    with open("lists.txt", "w") as out:
        for zones in lists():
            pairs = set().union(*[pairs_of(z) for z in zones]) if zones else set()
            bands = bands_of(pairs)
            check(pairs, bands)
            for zone in zones:
                print("zone", *zone, file=out)
            for first, last, low, high in bands:
                print("band", first, last, *low, *high, file=out)
            print("end", file=out)


main()
