#!/usr/bin/env python3
"""Brings the repository's own definitions and lemmas to the spelling of today's Rattle, after port.py has run.

usage: python3 tools/respell_names.py [--list]      at the top of the repository; --list only prints old and new

Words are in snake case: a dash or a capital inside a name that begins small becomes an underscore. A name that begins
with a capital is a type's, or a lemma's named after a type, and stays; so do the names of goals, which Rattle makes,
and whatever is Rust: functions, parameters, constants, exported names, strings. A new name that is taken already stops
the script, so that no two names fall together.
"""
import glob
import re
import sys

WORD = r"[^\s(){}\[\],;.λ→×≡⟨⟩\"|]+"
DEFINED = re.compile(
    r"^[ \t]*(?:(?:pub|abbrev|unfoldable|ruleset|data|record|private)[ \t]+)*(" + WORD + r")"
    r"(?:[ \t]*[({][^\n]*?[)}])*[ \t]*:(?=\s)", re.M)
COMMENT = {"antt": "--", "rt": "//"}


def texts():
    for kind in ("specs", "proofs"):
        yield from sorted(glob.glob(f"crates/*/{kind}/**/*.antt", recursive=True))


def sources():
    yield from sorted(glob.glob("crates/*/src/**/*.rt", recursive=True))


def parts(path, text):
    """Runs of (is code, text): comments and strings are left as they are."""
    mark = COMMENT[path.rsplit(".", 1)[1]]
    hidden = re.compile(r'"(?:[^"\\\n]|\\.)*"|' + re.escape(mark) + r"[^\n]*")
    at = 0
    for m in hidden.finditer(text):
        # in antt a dash pair inside a word begins no comment
        if mark == "--" and m.group().startswith("--") and m.start() and not text[m.start() - 1].isspace():
            continue
        yield True, text[at:m.start()]
        yield False, m.group()
        at = m.end()
    yield True, text[at:]


def code(path):
    with open(path, encoding="utf-8") as f:
        t = f.read()
    return t, "".join(p if is_code else " " for is_code, p in parts(path, t))


def snake(name):
    if not re.match(r"[a-z]", name):
        return name
    name = re.sub(r"(?<=[a-z0-9])([A-Z])(?=[a-z]|$|-|_|')", lambda m: "_" + m.group(1).lower(), name)
    return re.sub(r"(?<=[\w'])-(?=\w)", "_", name)


# two that would fall together with another name of their file
BY_HAND = {"isAxiom": "is_axiom_lem", "lane-of": "lane_there"}


def functions():
    """The Rust functions of each crate: a definition or lemma of that crate with such a name gets '_lem' after it."""
    found = {}
    for path in sources():
        _, t = code(path)
        found.setdefault(path.split("/")[1], set()).update(re.findall(r"\bfn (\w+)", t))
    return found


def main():
    defined, goals, words = {}, set(), {}
    paths = list(texts()) + list(sources())
    for path in paths:
        _, t = code(path)
        words[path] = set(re.findall(WORD, re.sub(r"Rattle\.[\w.+]+", " ", t)))
        if path.endswith(".antt"):
            goals |= set(re.findall(r"goal\.(" + WORD + ")", t))
            for m in DEFINED.finditer(t):
                defined.setdefault(m.group(1), set()).add(path.split("/")[1])
    own = functions()
    new = {}
    for n, crates in defined.items():
        m = BY_HAND.get(n, snake(n))
        if n not in goals and m != n:
            new[n] = m + "_lem" if any(m in own.get(c, ()) for c in crates) else m
    wrong = 0
    for n, m in sorted(new.items()):
        if "--list" in sys.argv:
            print(n, m, *sorted(defined[n]))
        for path in paths:
            others = {x for x in words[path] if new.get(x, x) == m and x != n}
            if n in words[path] and others:
                print(f"{path}: {n} would be {m}, as {' '.join(sorted(others))}", file=sys.stderr)
                wrong = 1
    if "--list" in sys.argv:
        return
    if wrong:
        raise SystemExit(1)
    word = re.compile(WORD)
    for path in paths:
        with open(path, encoding="utf-8") as f:
            t = f.read()
        u = "".join(word.sub(lambda m: new.get(m.group(), m.group()), p) if is_code else p for is_code, p in parts(path, t))
        if u != t:
            with open(path, "w", encoding="utf-8") as f:
                f.write(u)
    print(f"{len(new)} names respelled")


main()
