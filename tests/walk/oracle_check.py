"""The check at 9 for the third opinion: every fault of a program, by sets of ranges."""


def faults(program):
    """Every fault as its letter and place, each condition looked at by itself, with sets of ranges."""
    ranges, ways = {}, []
    for place, (code, v) in enumerate(program):
        if code == "3" and v[0] > 0:
            ranges[place] = set(range(place + v[1], place + 1))
        elif code in "32":
            ways.append((place, place + v[1]))
    holding = lambda p: [i for i, r in ranges.items() if p in r]
    crossing = lambda i, j: ranges[i] & ranges[j] and not ranges[i] <= ranges[j] and not ranges[j] <= ranges[i]
    reachable = lambda t: 0 <= t <= len(program)
    return ([("a", p) for p, t in ways if not reachable(t)]
            + [("b", p) for p, r in ranges.items() if min(r) < 0]
            + [("c", max(i, j)) for i in ranges for j in ranges if crossing(i, j)]
            + [("d", p) for p in range(len(program)) if len(holding(p)) > 7]
            + [("e", p) for p, t in ways if reachable(t) and holding(p) != holding(t)])
