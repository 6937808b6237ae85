#!/usr/bin/env python3
"""Writes the sample drawings beside this script, each as one .net file of records.

A record is a body length, a kind and a body; every number takes two bytes, low byte first,
and an axiom's delay takes four. The kinds are 1 axiom, 2 tensor, 3 par and 4 cut.
A link comes after the links that conclude its premises.
"""
import struct
from pathlib import Path


def axiom(link, positive, negative, atom=1, delay=0):
    return record(1, struct.pack("<4HI", link, positive, negative, atom, delay))


def tensor(link, left, right, conclusion):
    return record(2, struct.pack("<4H", link, left, right, conclusion))


def par(link, left, right, conclusion):
    return record(3, struct.pack("<4H", link, left, right, conclusion))


def cut(link, left, right):
    return record(4, struct.pack("<3H", link, left, right))


def record(kind, body):
    return struct.pack("<2H", len(body), kind) + body


TWO_WIRES = [axiom(1, 1, 2), axiom(2, 3, 4)]

DRAWINGS = {
    # correct: one wire
    "one-wire": [axiom(1, 1, 2)],
    # a tensor over both ends of a wire: cyclic
    "wire-and-tensor": [axiom(1, 1, 2), tensor(2, 1, 2, 3)],
    # a par over both ends of a wire: correct
    "wire-and-par": [axiom(1, 1, 2), par(2, 1, 2, 3)],
    # two wires that nothing joins: apart
    "two-wires-apart": TWO_WIRES,
    # a par over one end of each wire, and a tensor on it: only the left side of the par is bad
    "left-side-bad": TWO_WIRES + [par(3, 1, 3, 5), tensor(4, 5, 2, 6)],
    # the same with the par's premises exchanged: only its right side is bad
    "right-side-bad": TWO_WIRES + [par(3, 3, 1, 5), tensor(4, 5, 2, 6)],
    # a cut of a wire's own two ends: cyclic
    "cut-on-its-own-wire": [axiom(1, 1, 2), cut(2, 1, 2)],
    # two wires with delays and a cut between them: one step leaves a wire with their sum
    "two-wires-cut": [axiom(1, 1, 2, delay=5), axiom(2, 3, 4, delay=7), cut(3, 1, 4)],
    # a tensor cut against a par, between four wires with delays: three steps
    "tensor-against-par": [
        axiom(1, 1, 2, atom=1, delay=5),
        axiom(2, 3, 4, atom=2, delay=7),
        tensor(3, 1, 3, 5),
        axiom(4, 6, 7, atom=1, delay=11),
        axiom(5, 8, 9, atom=2, delay=13),
        tensor(7, 6, 8, 11),
        par(6, 7, 9, 10),
        cut(8, 5, 10),
    ],
}

if __name__ == "__main__":
    here = Path(__file__).parent
    for name, records in DRAWINGS.items():
        (here / f"{name}.net").write_bytes(b"".join(records))
