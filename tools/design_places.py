#!/usr/bin/env python3
"""Lists the places in src/ that each point of docs/DESIGN-PASS.md speaks of: `tools/design_places.py [CHECKOUT] [POINT..]`.

A place is found by its text alone, so a list has false finds; the page says of each what became of it.
"""
import difflib
import pathlib
import re
import sys

FOLDERS = [word for word in sys.argv[1:] if not word.isdigit()]
TOP = pathlib.Path(FOLDERS[0]).resolve() if FOLDERS else pathlib.Path(__file__).resolve().parent.parent
FILES = sorted(TOP.glob("crates/*/src/**/*.rt"))


def lines():
    for path in FILES:
        for number, line in enumerate(path.read_text().split("\n"), 1):
            yield f"{path.relative_to(TOP / 'crates')}:{number}", line


def grep(pattern):
    found = re.compile(pattern)
    return [f"{at}: {line.strip()}" for at, line in lines()
            if found.search(line) and not line.strip().startswith(("//", "ghost use"))]


def functions():
    """Each function with its name, its parameters, its clauses and its body, as text."""
    for path in FILES:
        text = path.read_text()
        for found in re.finditer(r"\bfn (\w+)(<[^{(]*>)?\(", text):
            at = depth = 0
            end = found.end()
            depth = 1
            while depth:
                depth += {"(": 1, ")": -1}.get(text[end], 0)
                end += 1
            params = text[found.end():end - 1]
            body = re.search(r"\n\s*\{\n|\) (?:-> [^{;]+)?\{\n|\{\}|;\n", text[end - 1:])
            start = end - 1 + body.start() if body else end
            close = start
            depth = 0
            while close < len(text):
                depth += {"{": 1, "}": -1}.get(text[close], 0)
                close += 1
                if depth == 0 and text[close - 1] in "};":
                    break
            name = f"{path.relative_to(TOP / 'crates')}:{found.group(1)}"
            yield name, " ".join(params.split()), text[end:start], text[start:close]


def words(body):
    """The body's words; names of values and numbers are all alike, so that twins read the same."""
    body = re.sub(r"//[^\n]*", "", body)
    return ["n" if re.fullmatch(r"[0-9_]+|[a-z]\w*", word) and word not in KEYWORDS else word
            for word in re.findall(r"\w+|[^\w\s]", body)]


KEYWORDS = {"if", "else", "match", "for", "in", "while", "loop", "return", "let", "mut", "as", "self", "true", "false"}


def own_enums():
    return grep(r"\benum \w+") + grep(r"&mut .*-> bool|^\s*\) -> bool") + grep(r"^\s*(pub )?\w+: bool,") + \
        grep(r"(return|=>|\{) 0[,;]|(return|=>) 0 \}|else \{ 0 \}|^\s+0$|[!=]= 0\b|unwrap_or\(0\)|NO_SIDE") + grep(r"=> \d+,|^\s+\d+ => ")


def twins():
    known = [(name, words(body)) for name, _, _, body in functions() if len(words(body)) >= 16]
    found = []
    for i, (name, body) in enumerate(known):
        for other, other_body in known[i + 1:]:
            if abs(len(body) - len(other_body)) > len(body) // 4:
                continue
            ratio = difflib.SequenceMatcher(None, body, other_body, autojunk=False).ratio()
            if ratio >= 0.86:
                found.append(f"{ratio:.2f} {name} ~ {other}")
    return sorted(found, reverse=True)


def loops():
    return grep(r"^\s*('\w+: )?(for|while|loop)\b")


def by_hand():
    return grep(r"\bfn (number|same|kind|rank|lanes|from_\w+|to_\w+|as_\w+|eq|cmp|fmt|clone|digits|push_decimal|width|wide)\b") + \
        grep(r"b'0' \+|from_le_bytes|to_le_bytes| % 256\) as u8| / 256\) as u8") + \
        [f"{at}: {line.strip()}" for at, line in lines() if re.search(r"#\[derive\(Clone, Copy\)\]", line)]


def together():
    clauses, groups = {}, {}
    for name, params, contract, _ in functions():
        for text in re.findall(r"requires \w*\s*\{([^}]*)\}", contract):
            clauses.setdefault(re.sub(r"\.(old|now|new)\b", "", " ".join(text.split())), []).append(name)
        pairs = sorted(p.strip() for p in re.split(r",(?![^<]*>)", params) if ":" in p)
        for i, one in enumerate(pairs):
            for other in pairs[i + 1:]:
                groups.setdefault(f"({one}, {other})", []).append(name)
    many = [f"{len(at)} requires {{{text}}}: {', '.join(at)}" for text, at in clauses.items() if len(at) >= 3]
    return many + [f"{len(at)} {text}: {', '.join(at)}" for text, at in groups.items() if len(at) >= 3]


def buffers():
    return grep(r"^\s*(pub )?len: usize,|^\s*(pub )?at: usize,") + grep(r"^\s*(pub )?\w+: \[.*\],") + grep(r"= \[.*; ?\w+\];")


def switches():
    return grep(r"\bfn\(|\bdyn |\bFn(Once|Mut)?\(") + grep(r"match .*(code|\[0\]|as_slice\(\))")


def answers():
    counts = {}
    for path in sorted(TOP.glob("crates/*/proofs/**/*.antt")):
        if path.name == "Answers.antt":
            crate = path.relative_to(TOP / "crates").parts[0]
            counts[crate] = counts.get(crate, 0) + len(re.findall(r"^[a-z][\w-]* .*=", path.read_text(), re.M))
    return [f"{number} {crate}" for crate, number in counts.items()] + [f"{sum(counts.values())} in all"]


POINTS = {"1": own_enums, "2": twins, "3": loops, "4": by_hand, "5": together, "6": buffers, "7": switches, "8": answers}

for point in [word for word in sys.argv[1:] if word.isdigit()] or POINTS:
    found = POINTS[point]()
    print(f"point {point}: {len(found)}")
    for place in found:
        print("  " + place)
