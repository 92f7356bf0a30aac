"""Open graphs, their flows, and what is made of them, by other means than the program's.

A set of vertices is a Python set. Whether a set exists is asked of a solver over bits; the least one is found by asking
it once for each candidate, from the last one down, whether there is one without it.
"""
from itertools import combinations

# the member of a signal that stands for an outcome that is always 1
CONSTANT = -1


# ---- texts

def read_graph(lines):
    names, edges, angles, fixed, inputs, out = [], set(), {}, [], 0, []
    number = names.index
    for word, *rest in lines:
        if word == "in":
            names += rest
            inputs = len(rest)
        elif word == "n":
            names.append(rest[0])
        elif word == "e":
            edges.add(frozenset(map(number, rest)))
        elif word == "m":
            angles[number(rest[0])] = int(rest[1])
        elif word in ("x", "z"):
            fixed.append((number(rest[0]), word))
        elif word == "out":
            out = [number(name) for name in rest]
        elif word == "end":
            break
    return {"kind": "graph", "names": names, "inputs": inputs, "edges": edges, "angles": angles,
            "fixed": fixed, "out": out}


def rising_edges(graph):
    return sorted(tuple(sorted(edge)) for edge in graph["edges"])


def graph_lines(graph, half):
    names = graph["names"]
    turn = ["turn", "16"] if half == 8 else []
    lines = [["graph", "2" if graph["fixed"] else "1"] + turn, ["in"] + names[:graph["inputs"]]]
    lines += [["n", name] for name in names[graph["inputs"]:]]
    lines += [["e", names[a], names[b]] for a, b in rising_edges(graph)]
    lines += [["m", names[v], str(graph["angles"][v] % (2 * half))] for v in sorted(graph["angles"])]
    lines += [["out"] + [names[v] for v in graph["out"]]]
    return lines + [[word, names[v]] for v, word in sorted(graph["fixed"])] + [["end"]]


def row(names, words, vertices):
    return words + [":"] + [names[v] for v in sorted(vertices)]


def flow_lines(names, flow):
    lines = [["flow", "1"], ["depth", str(max((layer for layer, _, _ in flow), default=0))]]
    return lines + [row(names, ["g", str(layer), names[v]], s) for layer, v, s in sorted(flow)] + [["end"]]


def refuter_lines(names, refuter):
    return [["noflow", "1"]] + [row(names, ["y", names[v]], s) for v, s in sorted(refuter)] + [["end"]]


def stuck_lines(names, stuck):
    return [["nocausal", "1"], ["b"] + [names[v] for v in sorted(stuck)], ["end"]]


def bound_lines(graph, flow):
    names = graph["names"]
    lines = [["least", "1"], ["depth", str(max((layer for layer, _, _ in flow), default=0))]]
    lines += [["l", str(layer), names[v]] for layer, v, _ in sorted(flow)]
    return lines + [row(names, ["y", str(k), names[u]], y) for k, u, y in bound_of(graph, flow)] + [["end"]]


# ---- graphs

def graph_of(pattern, half):
    """What is entangled an odd number of times, and the angles and corrections at outcomes that are all 0."""
    count = len(pattern["names"])
    edges, angles, x, z = set(), {}, [0] * count, [0] * count
    for item in pattern["items"]:
        if item[0] == "e":
            a, b = item[1:3]
            edges ^= {frozenset((a, b))}
            z[a], z[b] = z[a] ^ x[b], z[b] ^ x[a]
        elif item[0] in ("x", "z"):
            bits = x if item[0] == "x" else z
            bits[item[1]] ^= CONSTANT in item[2]
        elif item[0] == "m":
            _, q, angle, s, t = item
            sign, turn = x[q] ^ (CONSTANT in s), z[q] ^ (CONSTANT in t)
            angles[q] = ((-angle if sign else angle) + half * turn) % (2 * half)
    fixed = [(v, word) for v in pattern["out"] for word, bits in (("x", x), ("z", z)) if bits[v]]
    return {**pattern, "kind": "graph", "edges": edges, "angles": angles, "fixed": fixed}


def fixed_items(graph):
    return [(word, v, {CONSTANT}) for v, word in sorted(graph["fixed"])]


def zero_pattern(graph):
    items = [("n", v) for v in range(graph["inputs"], len(graph["names"]))]
    items += [("e", a, b) for a, b in rising_edges(graph)]
    items += [("m", v, graph["angles"][v], set(), set()) for v in sorted(graph["angles"])]
    return {**graph, "kind": "pattern", "items": items + fixed_items(graph)}


def neighbours(graph):
    near = {v: set() for v in range(len(graph["names"]))}
    for a, b in rising_edges(graph):
        near[a].add(b)
        near[b].add(a)
    return near


def odd(near, vertices):
    total = set()
    for v in vertices:
        total ^= near[v]
    return total


def is_sum(columns, wanted):
    """Whether a set is the sum of some of the columns."""
    pivots = {}

    def rest(column):
        column = set(column)
        while column and max(column) in pivots:
            column ^= pivots[max(column)]
        return column

    for column in columns:
        left = rest(column)
        if left:
            pivots[max(left)] = left
    return not rest(wanted)


def least(candidates, column_of, wanted):
    """The least set of candidates whose columns sum to what is wanted, lacking the last one in which two differ."""
    if not is_sum(map(column_of, candidates), wanted):
        return None
    chosen, target, left = set(), set(wanted), list(candidates)
    while left:
        last = left.pop()
        if not is_sum(map(column_of, left), target):
            chosen.add(last)
            target ^= column_of(last)
    return chosen


def chosen_flow(graph):
    """The rows of the chosen flow as layer, vertex and set, and the vertices that have none."""
    near, inner = neighbours(graph), set(graph["angles"])
    layer = {v: 0 for v in graph["out"]}
    rows, rest, depth = [], set(inner), 0
    while rest:
        depth += 1
        able = sorted((v for v in layer if v >= graph["inputs"]), key=lambda v: (layer[v], v))
        found = [(u, least(able, lambda v: near[v] & inner, {u})) for u in sorted(rest)]
        taken = [(depth, u, members) for u, members in found if members is not None]
        if not taken:
            break
        rows += taken
        layer.update({u: depth for _, u, _ in taken})
        rest -= {u for _, u, _ in taken}
    return rows, rest


def refuter_of(graph, rest):
    """For each vertex of the rest the least even set within the rest that holds it."""
    near = neighbours(graph)
    outside = {v for v in near if v >= graph["inputs"] and v not in rest}
    rows = []
    for u in sorted(rest):
        members = least([v for v in sorted(rest) if v != u], lambda v: near[v] & outside, near[u] & outside)
        rows.append((u, members | {u}))
    return rows


def bound_of(graph, flow):
    """For each layer but the last, and each vertex above it, the least even set of vertices from there on that holds it."""
    near, layer = neighbours(graph), {v: n for n, v, _ in flow}
    rows = []
    for k in range(1, max(layer.values(), default=0)):
        inside = [v for v in sorted(layer) if layer[v] >= k]
        asked = {v for v in near if v >= graph["inputs"] and layer.get(v, 0) < k}
        for u in sorted(v for v in layer if layer[v] > k):
            rest = least([v for v in inside if v != u], lambda v: near[v] & asked, near[u] & asked)
            rows.append((k, u, rest | {u}))
    return rows


def causal_flow(graph):
    near, rest, depth = neighbours(graph), set(graph["angles"]), 0
    rows = []
    while rest:
        depth += 1
        outside = [v for v in near if v >= graph["inputs"] and v not in rest]
        taken = [(depth, u, {min(v for v in outside if near[v] & rest == {u})})
                 for u in sorted(rest) if any(near[v] & rest == {u} for v in outside)]
        if not taken:
            break
        rows += taken
        rest -= {u for _, u, _ in taken}
    return rows, rest


# ---- what is made of them

def flow_pattern(graph, flow):
    near = neighbours(graph)
    pattern = zero_pattern(graph)
    items = [item for item in pattern["items"] if item[0] in ("n", "e")]
    for _, v, members in sorted(flow, key=lambda r: (-r[0], r[1])):
        items.append(("m", v, graph["angles"][v], set(), set()))
        items += [("x", w, {v}) for w in sorted(members)]
        items += [("z", w, {v}) for w in sorted(odd(near, members) - {v})]
    return {**pattern, "items": items + fixed_items(graph)}


def extracted(graph, flow, half):
    near, next_of = neighbours(graph), {v: min(members) for _, v, members in flow}
    first = [v for v in near if v not in next_of.values()]
    wires = list(range(graph["inputs"])) + [v for v in first if v >= graph["inputs"]]
    wire = {v: i for i, v in enumerate(wires)}
    now, gates = set(wires), []
    for a, b in combinations(sorted(now), 2):
        if b in near[a]:
            gates.append(("cz", wire[a], wire[b]))
    for _, v, _ in sorted(flow, key=lambda r: (-r[0], r[1])):
        w = next_of[v]
        gates.append(("j", wire[v], -graph["angles"][v] % (2 * half)))
        wire[w] = wire[v]
        now = now - {v}
        for u in sorted(now & near[w]):
            a, b = sorted((u, w))
            gates.append(("cz", wire[a], wire[b]))
        now.add(w)
    for v, word in sorted(graph["fixed"]):
        gates += [("j", wire[v], a) for a in ((0, half) if word == "x" else (half, 0))]
    return {"kind": "circuit", "names": [graph["names"][v] for v in wires], "inputs": graph["inputs"],
            "items": gates, "out": [wire[v] for v in graph["out"]]}
