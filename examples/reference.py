#!/usr/bin/env python3
"""Works out what mcalc prints for an example, apart from the program and by other means.

The standard form is taken by its closed sums over the places of the list, the shifted form by solving for the old
outcomes in terms of the new ones, and amplitudes by sums over all paths with exact whole coordinates; graphs and flows
are in `reference_graphs.py`. Nothing here is proved and nothing is shared with the program: it is a second opinion on a
few documents.

`known` prints the table of a gate from its formula alone, without its circuit.

usage: examples/reference.py COMMAND < DOCUMENT, or examples/reference.py known NAME
"""
import sys

import reference_graphs as graphs

# the steps of half a turn; a header with `turn 16` sets it to 8
HALF = 4
# the member of a signal that stands for an outcome that is always 1
CONSTANT = -1
PHASES = {"z": 4, "s": 2, "sdg": 6, "t": 1, "tdg": 7}


# ---- texts

def lines_of(text):
    lines = [line.split("#")[0].split() for line in text.splitlines()]
    return [line for line in lines if line]


def fresh(names):
    n = 1
    while f"q{n}" in names:
        n += 1
    return f"q{n}"


def read(text):
    """A document as a dictionary; qubits, wires and vertices are numbers."""
    global HALF
    lines = lines_of(text)
    kind, body = lines[0][0], lines[1:]
    if lines[0][2:] == ["turn", "16"]:
        HALF = 8
    if kind == "graph":
        return graphs.read_graph(body)
    if kind == "gates":
        return read_gates(body)
    return read_items(kind, body)


def read_gates(lines):
    names, items, inputs, out = [], [], 0, []
    for word, *rest in lines:
        if word in ("in", "plus"):
            names += rest
            inputs += len(rest) if word == "in" else 0
        elif word == "out":
            out = [names.index(w) for w in rest]
        elif word != "end":
            items.append((word,) + tuple(map(names.index, rest)))
    return {"kind": "gates", "names": names, "inputs": inputs, "items": items, "out": out}


def read_two(text):
    """Two patterns, one behind the other."""
    lines = text.splitlines()
    end = [line.split("#")[0].split() for line in lines].index(["end"]) + 1
    return read("\n".join(lines[:end])), read("\n".join(lines[end:]))


def member(number, word):
    return CONSTANT if word == "!" else number(word)


def read_items(kind, body):
    names, items, inputs, out = [], [], 0, []
    number = names.index
    for word, *rest in body:
        if word in ("in", "plus"):
            names += rest
            inputs += len(rest) if word == "in" else 0
        elif word == "n":
            names.append(rest[0])
            items.append(("n", number(rest[0])))
        elif word in ("e", "cz"):
            items.append((word, number(rest[0]), number(rest[1])))
        elif word == "j":
            items.append(("j", number(rest[0]), int(rest[1]) % (2 * HALF)))
        elif word == "m":
            s, t, into = set(), set(), None
            for w in rest[2:]:
                if w in ("s:", "t:"):
                    into = s if w == "s:" else t
                else:
                    into.add(member(number, w))
            items.append(("m", number(rest[0]), int(rest[1]) % (2 * HALF), s, t))
        elif word in ("x", "z"):
            items.append((word, number(rest[0]), {member(number, w) for w in rest[1:]}))
        elif word == "out":
            out = [number(w) for w in rest]
        elif word == "end":
            break
    return {"kind": kind, "names": names, "inputs": inputs, "items": items, "out": out}


def members(names, signal):
    return [names[q] for q in sorted(signal - {CONSTANT})] + ["!"] * (CONSTANT in signal)


def has_constant(signals):
    return any(CONSTANT in signal for signal in signals)


def header(kind, version):
    return [kind, str(version)] + (["turn", "16"] if HALF == 8 else [])


def signals_of(item):
    return item[3:] if item[0] == "m" else item[2:] if item[0] in ("x", "z") else ()


def print_pattern(p):
    names = p["names"]
    version = 2 if any(has_constant(signals_of(item)) for item in p["items"]) else 1
    lines = [header("pattern", version), ["in"] + names[: p["inputs"]]]
    for item in p["items"]:
        if item[0] == "n":
            lines.append(["n", names[item[1]]])
        elif item[0] == "e":
            lines.append(["e", names[item[1]], names[item[2]]])
        elif item[0] == "m":
            _, q, angle, s, t = item
            line = ["m", names[q], str(angle)]
            line += ["s:"] + members(names, s) if s else []
            line += ["t:"] + members(names, t) if t else []
            lines.append(line)
        else:
            lines.append([item[0], names[item[1]]] + members(names, item[2]))
    lines += [["out"] + [names[q] for q in p["out"]], ["end"]]
    return "".join(" ".join(line) + "\n" for line in lines)


def print_circuit(c):
    names = c["names"]
    lines = [header("circuit", 1), ["in"] + names[: c["inputs"]]]
    if len(names) > c["inputs"]:
        lines.append(["plus"] + names[c["inputs"]:])
    for item in c["items"]:
        if item[0] == "j":
            lines.append(["j", names[item[1]], str(item[2])])
        else:
            lines.append(["cz", names[item[1]], names[item[2]]])
    lines += [["out"] + [names[q] for q in c["out"]], ["end"]]
    return "".join(" ".join(line) + "\n" for line in lines)


# ---- passes

def translate(c):
    names = list(c["names"])
    items = [("n", q) for q in range(c["inputs"], len(names))]
    at = list(range(len(names)))
    for gate in c["items"]:
        if gate[0] == "j":
            _, v, angle = gate
            q, r = at[v], len(names)
            names.append(fresh(names))
            items += [("n", r), ("e", q, r), ("m", q, -angle % (2 * HALF), set(), set()), ("x", r, {q})]
            at[v] = r
        else:
            items.append(("e", at[gate[1]], at[gate[2]]))
    return {"kind": "pattern", "names": names, "inputs": c["inputs"], "items": items, "out": [at[v] for v in c["out"]]}


def standard(p):
    items, count = p["items"], len(p["names"])

    def x_before(place, q):
        total = set()
        for item in items[:place]:
            if item[0] == "x" and item[1] == q:
                total ^= item[2]
        return total

    first = [set() for _ in range(count)]
    second = [set() for _ in range(count)]
    edges = {}
    for place, item in enumerate(items):
        if item[0] == "x":
            first[item[1]] ^= item[2]
        elif item[0] == "z":
            second[item[1]] ^= item[2]
        elif item[0] == "m":
            first[item[1]] ^= item[3]
            second[item[1]] ^= item[4]
        elif item[0] == "e":
            a, b = item[1], item[2]
            second[a] ^= x_before(place, b)
            second[b] ^= x_before(place, a)
            pair = (min(a, b), max(a, b))
            edges[pair] = edges.get(pair, 0) + 1
    out = [item for item in items if item[0] == "n"]
    out += [("e", a, b) for (a, b) in sorted(edges) if edges[(a, b)] % 2]
    out += [("m", i[1], i[2], first[i[1]], second[i[1]]) for i in items if i[0] == "m"]
    gone = {item[1] for item in items if item[0] == "m"}
    for q in range(count):
        if q not in gone:
            out += [("x", q, first[q])] if first[q] else []
            out += [("z", q, second[q])] if second[q] else []
    return {**p, "items": out}


def shift(p):
    """`old[q]` is the old outcome of `q` as a sum of new ones."""
    old, change, out = {CONSTANT: {CONSTANT}}, [], []

    def in_new(signal):
        total = set()
        for q in signal:
            total ^= old[q]
        return total

    for item in p["items"]:
        if item[0] == "m":
            _, q, angle, s, t = item
            change.append((q, t))
            out.append(("m", q, angle, in_new(s), set()))
            old[q] = {q} ^ in_new(t)
        elif item[0] in ("x", "z"):
            out.append((item[0], item[1], in_new(item[2])))
        else:
            out.append(item)
    return {**p, "items": out}, change


def print_change(p, change):
    version = "2" if has_constant(t for _, t in change) else "1"
    lines = [["change", version]] + [["o", p["names"][q]] + members(p["names"], t) for q, t in change] + [["end"]]
    return "".join(" ".join(line) + "\n" for line in lines)


# ---- amplitudes: whole coordinates of 1, w, w^2, .., by HALF of them, with w^HALF = -1

def zero():
    return (0,) * HALF


def one():
    return (1,) + (0,) * (HALF - 1)


def plus(a, b):
    return tuple(x + y for x, y in zip(a, b))


def turned(a, k):
    for _ in range(k % (2 * HALF)):
        a = (-a[-1],) + a[:-1]
    return a


def reduced(a, halves):
    """The same value over the least power of the root of two, which is an eighth of a turn less three of them."""
    eighth = HALF // 4
    while halves > 0 and a != zero():
        product = plus(turned(a, eighth), turned(a, 3 * eighth + HALF))
        if any(x % 2 for x in product):
            break
        a, halves = tuple(x // 2 for x in product), halves - 1
    return a, 0 if a == zero() else halves


def bits(count):
    return [tuple((n >> (count - 1 - i)) & 1 for i in range(count)) for n in range(2 ** count)]


def carried_out(document, outcomes, inputs):
    """The amplitudes of all settings of the qubits that are there, by one input, as a dictionary."""
    count = len(document["names"])
    there = list(range(document["inputs"]))
    state = {inputs: one()}
    if document["kind"] == "circuit":
        there = list(range(count))
        state = {inputs + rest: one() for rest in bits(count - document["inputs"])}
    scale = count - document["inputs"] if document["kind"] == "circuit" else 0
    outcomes = {**outcomes, CONSTANT: 1}
    for item in document["items"]:
        word, new = item[0], {}
        if word == "n":
            there.append(item[1])
            scale += 1
            state = {x + (b,): a for x, a in state.items() for b in (0, 1)}
            continue
        at = there.index(item[1])
        if word in ("e", "cz"):
            other = there.index(item[2])
            state = {x: turned(a, HALF * (x[at] & x[other])) for x, a in state.items()}
        elif word == "x":
            flip = sum(outcomes[q] for q in item[2]) % 2
            state = {x[:at] + (x[at] ^ flip,) + x[at + 1:]: a for x, a in state.items()}
        elif word == "z":
            sign = sum(outcomes[q] for q in item[2]) % 2
            state = {x: turned(a, HALF * (x[at] & sign)) for x, a in state.items()}
        elif word == "j":
            scale += 1
            for x, a in state.items():
                for b in (0, 1):
                    y = x[:at] + (b,) + x[at + 1:]
                    new[y] = plus(new.get(y, zero()), turned(a, x[at] * (item[2] + HALF * b)))
            state = new
        else:
            scale += 1
            _, q, angle, s, t = item
            s, t = (sum(outcomes[p] for p in signal) % 2 for signal in (s, t))
            turn = -((-angle if s else angle) + HALF * t) + HALF * outcomes[q]
            for x, a in state.items():
                y = x[:at] + x[at + 1:]
                new[y] = plus(new.get(y, zero()), turned(a, x[at] * turn))
            state = new
            there.pop(at)
    order = [there.index(q) for q in document["out"]]
    return {tuple(x[i] for i in order): a for x, a in state.items()}, scale


def word_of(values):
    return "".join(map(str, values)) or "-"


def table_of(document, outcomes):
    rows, scale = [], 0
    for b in bits(document["inputs"]):
        state, scale = carried_out(document, outcomes, b)
        rows += [(y, b, state.get(y, zero())) for y in bits(len(document["out"]))]
    return rows, scale


def lines_of_table(rows, scale):
    out = []
    for y, b, a in rows:
        value, halves = reduced(a, scale)
        out.append(amplitude(y, b, value, halves))
    return out


def amplitude(y, b, value, halves):
    return " ".join(["amp", word_of(y), word_of(b)] + [str(x) for x in value] + ["/", str(halves)])


def print_run(document):
    if document["kind"] == "circuit":
        return "\n".join(["table 1"] + lines_of_table(*table_of(document, {})) + ["end", ""])
    measured = [item[1] for item in document["items"] if item[0] == "m"]
    lines, first, alike = ["branches 1"], None, True
    for values in bits(len(measured)):
        rows, scale = table_of(document, dict(zip(measured, values)))
        first = first or rows
        phases = [k for k in range(2 * HALF) if all(r[2] == turned(f[2], k) for r, f in zip(rows, first))]
        alike = alike and bool(phases)
        lines.append("branch %s phase %s" % (word_of(values), phases[0] if phases else "none"))
        lines += lines_of_table(rows, scale)
    return "\n".join(lines + ["alike " + ("yes" if alike else "no"), "end", ""])


# ---- gates that are known: the entry at output y and input b as a phase over a power of the root of two, or none

def weight(bits):
    return sum(bit << i for bit, i in zip(bits, (2, 1, 0)))


def fourier(y, b):
    return None if y[3] else (weight(y) * weight(b) % 8, 3)


KNOWN = {
    "teleportation": (1, 1, lambda y, b: (0, 0) if y == b else None),
    "controlled_not": (2, 2, lambda y, b: (0, 0) if y == (b[0], b[1] ^ b[0]) else None),
    "ghz": (3, 0, lambda y, b: (0, 1) if len(set(y)) == 1 else None),
    "toffoli": (3, 3, lambda y, b: (0, 0) if y == (b[0], b[1], b[2] ^ (b[0] & b[1])) else None),
    "fourier": (4, 3, fourier),
    "fourier_sixteenths": (3, 3, lambda y, b: (2 * weight(y) * weight(b) % 16, 3)),
    "grover": (2, 0, lambda y, b: (4, 0) if y == (1, 1) else None),
    "bernstein_vazirani": (4, 0, lambda y, b: (4 * y[3], 1) if y[:3] == (1, 0, 1) else None),
    "teleported": (3, 1, lambda y, b: (0, 2) if y[2] == b[0] else None),
}


def print_known(name):
    global HALF
    HALF = 8 if name == "fourier_sixteenths" else 4
    outputs, inputs, entry = KNOWN[name]
    lines = ["table 1"]
    for b in bits(inputs):
        for y in bits(outputs):
            known = entry(y, b)
            value, halves = (turned(one(), known[0]), known[1]) if known else (zero(), 0)
            lines.append(amplitude(y, b, value, halves))
    return "\n".join(lines + ["end", ""])


# ---- commands

def text_of(lines):
    return "".join(" ".join(line) + "\n" for line in lines)


def print_graph(graph):
    return text_of(graphs.graph_lines(graph, HALF))


def print_gates(g):
    names = g["names"]
    lines = [["gates", "1"], ["in"] + names[: g["inputs"]]]
    lines += [["plus"] + names[g["inputs"]:]] if len(names) > g["inputs"] else []
    lines += [[item[0]] + [names[q] for q in item[1:]] for item in g["items"]]
    return text_of(lines + [["out"] + [names[q] for q in g["out"]], ["end"]])


def print_document(document):
    printers = {"circuit": print_circuit, "pattern": print_pattern, "graph": print_graph, "gates": print_gates}
    return printers[document["kind"]](document)


# ---- two patterns, and lists of gates

def placed(item, to):
    """A command on other qubits."""
    word, *rest = item
    if word == "m":
        return ("m", to[rest[0]], rest[1]) + tuple({to[q] for q in signal} for signal in rest[2:])
    if word in ("x", "z"):
        return (word, to[rest[0]], {to[q] for q in rest[1]})
    return (word,) + tuple(to[q] for q in rest)


def composed(first, second, shares):
    """The second behind the first, where the outputs of the first may be the inputs of the second."""
    here, there, k = len(first["names"]), len(second["names"]), second["inputs"]
    new = list(range(k)) if not shares else []
    # the inputs of the first, those of the second, the others of the first, the others of the second
    old = list(range(here))
    order = [("one", q) for q in old[: first["inputs"]]] + [("two", q) for q in new]
    order += [("one", q) for q in old[first["inputs"]:]] + [("two", q) for q in range(k, there)]
    at = {q: i for i, q in enumerate(order)}
    one = {CONSTANT: CONSTANT, **{q: at["one", q] for q in old}}
    two = {CONSTANT: CONSTANT, **{q: at["two", q] for q in range(there) if ("two", q) in at}}
    two.update({q: one[first["out"][q]] for q in range(k)} if shares else {})
    taken, names = list(first["names"]), [None] * len(order)
    for q in old:
        names[one[q]] = first["names"][q]
    for q in range(k if shares else 0, there):
        name = second["names"][q]
        names[two[q]] = name if name not in taken else fresh(taken)
        taken.append(names[two[q]])
    items = [placed(item, one) for item in first["items"]] + [placed(item, two) for item in second["items"]]
    out = [two[q] for q in second["out"]]
    out = out if shares else [one[q] for q in first["out"]] + out
    inputs = first["inputs"] + (0 if shares else k)
    return {"kind": "pattern", "names": names, "inputs": inputs, "items": items, "out": out}


def print_product(first, second):
    """The table of the branch of the chain whose outcomes are all 0: the product of the tables of the two."""
    (one, scale), (two, more) = table_of(first, zeros(first)), table_of(second, zeros(second))
    left, right = {(y, b): a for y, b, a in one}, {(y, b): a for y, b, a in two}
    rows = []
    for b in bits(first["inputs"]):
        for y in bits(len(second["out"])):
            total = zero()
            for c in bits(second["inputs"]):
                total = plus(total, times(right[y, c], left[c, b]))
            rows.append((y, b, total))
    name = word_of([0] * (len(zeros(first)) + len(zeros(second))))
    return "\n".join(["table 1", "branch " + name] + lines_of_table(rows, scale + more) + ["end", ""])


def zeros(pattern):
    return {item[1]: 0 for item in pattern["items"] if item[0] == "m"}


def times(a, b):
    total = zero()
    for k, x in enumerate(a):
        total = plus(total, tuple(x * y for y in turned(b, k)))
    return total


def lowered(g):
    at, items = list(range(len(g["names"]))), []

    def flip(p, q):
        items.extend([("j", at[q], 0), ("cz", at[p], at[q]), ("j", at[q], 0)])

    def toffoli(a, b, c):
        for p, angle in ((b, 7), (a, 1), (b, 7), (a, 1)):
            items.extend([("cz", p, c), ("j", c, 0), ("j", c, angle)])
        items.extend([("j", b, 1), ("cz", a, b), ("j", b, 0), ("j", b, 7), ("cz", a, b), ("j", b, 0)])
        items.extend([("j", a, 1), ("j", a, 0)])

    for word, *qs in g["items"]:
        if word == "h":
            items.append(("j", at[qs[0]], 0))
        elif word == "x":
            items.extend([("j", at[qs[0]], 0), ("j", at[qs[0]], 4)])
        elif word in PHASES:
            items.extend([("j", at[qs[0]], PHASES[word]), ("j", at[qs[0]], 0)])
        elif word == "cx":
            flip(*qs)
        elif word == "cz":
            items.append(("cz", at[qs[0]], at[qs[1]]))
        elif word == "swap":
            at[qs[0]], at[qs[1]] = at[qs[1]], at[qs[0]]
        else:
            toffoli(*(at[q] for q in qs))
    return {**g, "kind": "circuit", "items": items, "out": [at[q] for q in g["out"]]}


def print_shift(source):
    shifted, change = shift(standard(source))
    return print_pattern(shifted) + print_change(shifted, change)


def with_flow(graph, answer):
    """The answer made of the chosen flow, or the graph with its chosen refuter."""
    flow, rest = graphs.chosen_flow(graph)
    if rest:
        return print_graph(graph) + text_of(graphs.refuter_lines(graph["names"], graphs.refuter_of(graph, rest)))
    return answer(flow)


def print_flow(graph):
    return with_flow(graph, lambda flow: print_graph(graph) + text_of(graphs.flow_lines(graph["names"], flow)))


def print_made(graph):
    return with_flow(graph, lambda flow: print_pattern(graphs.flow_pattern(graph, flow)))


def print_compiled(graph):
    return with_flow(graph, lambda flow: print_pattern(shift(standard(graphs.flow_pattern(graph, flow)))[0]))


def print_least(graph):
    return with_flow(graph, lambda flow: print_graph(graph) + text_of(graphs.bound_lines(graph, flow)))


def print_extracted(graph):
    flow, stuck = graphs.causal_flow(graph)
    if stuck:
        return print_graph(graph) + text_of(graphs.stuck_lines(graph["names"], stuck))
    return print_circuit(graphs.extracted(graph, flow, HALF))


OF_PATTERNS = {"translate": print_pattern, "standard": lambda p: print_pattern(standard(p)), "shift": print_shift}
OF_GRAPHS = {"graph": print_graph, "flow": print_flow, "make": print_made, "compile": print_compiled,
             "extract": print_extracted, "least": print_least}


def answer(command, document):
    if command == "print":
        return print_document(document)
    if command == "run":
        return print_run(graphs.zero_pattern(document) if document["kind"] == "graph" else document)
    source = translate(document) if document["kind"] == "circuit" else document
    if command in OF_PATTERNS:
        return OF_PATTERNS[command](source)
    graph = source if source["kind"] == "graph" else graphs.graph_of(source, HALF)
    return OF_GRAPHS[command](graph)


def main():
    if sys.argv[1] == "known":
        sys.stdout.write(print_known(sys.argv[2]))
    elif sys.argv[1] in ("chain", "beside"):
        first, second = read_two(sys.stdin.read())
        sys.stdout.write(print_pattern(composed(first, second, sys.argv[1] == "chain")))
    elif sys.argv[1] == "product":
        sys.stdout.write(print_product(*read_two(sys.stdin.read())))
    elif sys.argv[1] == "lower":
        sys.stdout.write(print_circuit(lowered(read(sys.stdin.read()))))
    else:
        sys.stdout.write(answer(sys.argv[1], read(sys.stdin.read())))


main()
