#!/usr/bin/env python3
"""A simulator of patterns by floating numbers, written by the manual's chapter for those who write simulators, and by that
alone. It carries out each pattern at every outcome list and input, and compares each amplitude with what `run` prints.
Patterns that are past the limits of `run` are passed over. Prints each difference.

usage: examples/simulate.py PROGRAM PATTERN..
"""
import cmath
import subprocess
import sys

ROOT = 2 ** 0.5


def lines_of(text):
    """The lines of the first section, as words."""
    lines = [line.split("#")[0].split() for line in text.splitlines()]
    lines = [words for words in lines if words]
    return lines[:lines.index(["end"])]


def signals_of(words):
    """The members behind `s:` and behind `t:`."""
    found, mark = {"s:": [], "t:": []}, None
    for word in words:
        mark = word if word in found else mark
        found[mark] += [word] if word not in found else []
    return found["s:"], found["t:"]


def measured(state, at, outcome, factor):
    """The amplitudes without a qubit that is measured: the one with it at 0 plus a factor times the one with it at 1."""
    left = {}
    for setting, value in state.items():
        rest = setting[:at] + setting[at + 1:]
        left[rest] = left.get(rest, 0) + (factor if setting[at] else 1) * value / ROOT
    return left


def carried_out(lines, outcomes, inputs):
    """The amplitudes of the outputs, by their bits."""
    half = 8 if lines[0][2:] == ["turn", "16"] else 4
    there, state, known, left = lines[1][1:], {inputs: 1}, {"!": 1}, list(outcomes)
    for word, *rest in lines[2:]:
        if word == "n":
            there = there + rest
            state = {setting + (bit,): value / ROOT for setting, value in state.items() for bit in (0, 1)}
            continue
        if word == "out":
            order = [there.index(name) for name in rest]
            return {tuple(setting[i] for i in order): value for setting, value in state.items()}
        at = there.index(rest[0])
        if word == "e":
            other = there.index(rest[1])
            state = {setting: -value if setting[at] and setting[other] else value for setting, value in state.items()}
        elif word == "m":
            first, second = ([known[name] for name in names] for names in signals_of(rest[2:]))
            angle = (-1) ** sum(first) * int(rest[1]) + half * (sum(second) % 2)
            outcome = known[rest[0]] = left.pop(0)
            state = measured(state, at, outcome, (-1) ** outcome * cmath.exp(-1j * cmath.pi * angle / half))
            there = there[:at] + there[at + 1:]
        elif sum(known[name] for name in rest[1:]) % 2:
            if word == "x":
                state = {s[:at] + (1 - s[at],) + s[at + 1:]: value for s, value in state.items()}
            else:
                state = {setting: -value if setting[at] else value for setting, value in state.items()}


def number(words):
    """The amplitude of a line that `run` prints."""
    value = [int(word) for word in words[3:-2]]
    return sum(c * cmath.exp(1j * cmath.pi * i / len(value)) for i, c in enumerate(value)) / ROOT ** int(words[-1])


def bits(word):
    return () if word == "-" else tuple(map(int, word))


def differences(program, text):
    """How many of the amplitudes that the program prints are others than those that are worked out here."""
    done = subprocess.run([program, "run"], input=text, capture_output=True, text=True)
    lines, count, outcomes, columns = lines_of(text), 0, (), {}
    for words in map(str.split, done.stdout.splitlines()):
        if words[0] == "branch":
            outcomes, columns = bits(words[1]), {}
        elif words[0] == "amp":
            inputs = bits(words[2])
            if inputs not in columns:
                columns[inputs] = carried_out(lines, outcomes, inputs)
            count += abs(number(words) - columns[inputs].get(bits(words[1]), 0)) > 1e-9
    return count


def main():
    wrong = 0
    for path in sys.argv[2:]:
        with open(path) as file:
            text = file.read()
        count = differences(sys.argv[1], text)
        if count:
            print("%s: %d amplitudes are others than those of the manual's rules" % (path, count))
            wrong += 1
    return 1 if wrong else 0


sys.exit(main())
