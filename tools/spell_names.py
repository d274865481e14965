#!/usr/bin/env python3
"""Spells the repository's own names in specs/, proofs/ and contracts as today's Rattle does.

usage: python3 tools/spell_names.py [--list]     at the top of the checkout; once, after the kit's port.py

Names with a dash that the repository defines itself (definitions, lemmas, fields, constructors, parameters, local names) become snake
case, and types upper camel case. Names that Rattle makes (`goal.returns-in-x`, `c.loop-x`) and names of its library stay. It stops
where two of the repository's names would fall together. With --list it only prints what it would turn.
"""
import collections
import glob
import re
import sys

SKIP = re.compile(r'--.*|//.*|b?"(?:[^"\\]|\\.)*"' + r"|b'(?:[^'\\]|\\.)'")
SKIP_RT = re.compile(r'//.*|b?"(?:[^"\\]|\\.)*"' + r"|b'(?:[^'\\]|\\.)'")
SKIP_ANTT = re.compile(r'--.*|"(?:[^"\\]|\\.)*"')
WORD = re.compile(r"[^\s(){}\[\],;.«»λ|]+")
DASHED = re.compile(r"[A-Za-z0-9_]+(?:-[A-Za-z0-9_']+)+'*$")
# names of types that would fall together with a type of the code, or of one of its variants
APART = {"Black-box": "BlackBoxHolds", "Wrong-code": "HasWrongCode", "Alert-read": "ReadsAlert", "Nothing-written": "Unwritten"}
OWN_CRATES = ()


def texts(kind):
    if kind == "antt":
        return sorted(glob.glob("crates/*/specs/**/*.antt", recursive=True) + glob.glob("crates/*/proofs/**/*.antt", recursive=True))
    return sorted(glob.glob("crates/*/src/**/*.rt", recursive=True))


def pieces(path, text):
    """The text in turns: what may be turned, and what may not (comments, strings)."""
    skip = SKIP_ANTT if path.endswith(".antt") else SKIP_RT
    at = 0
    for m in skip.finditer(text):
        yield True, text[at:m.start()]
        yield False, m.group(0)
        at = m.end()
    yield True, text[at:]


def code(path):
    with open(path, encoding="utf-8") as f:
        text = f.read()
    return "".join(p if turn else " " * len(p) for turn, p in pieces(path, text))


def library(paths):
    """Names that are imported from elsewhere."""
    names = set()
    for p in paths:
        for m in re.finditer(r"use ([\w.+]+)\.\{([^}]*)\}", code(p)):
            crate = m.group(1).split(".")[1] if m.group(1).startswith("Rattle.") else ""
            if crate not in OWN_CRATES:
                names |= {w.strip() for w in m.group(2).split(",")}
    return names


def defined(paths):
    """Names that the repository defines: of definitions and lemmas, fields, constructors, parameters and local names."""
    names = collections.defaultdict(set)
    head = re.compile(r"^[ ]*(?:(?:abbrev|unfoldable|pattern|pub|record|data|module) +)*([^\s:(){}]+)(?: *[({][^\n]*?[)}])* *:(?!:)[ ]*(.*)$")
    for p in paths:
        text = code(p)
        for line in text.split("\n"):
            m = head.match(line)
            if m and not m.group(2).startswith("goal.") and not line.lstrip().startswith("use "):
                names[m.group(1)].add(p)
        for m in re.finditer(r"λ ([^.]*)\.", text):
            for w in m.group(1).split():
                names[w.strip("()")].add(p)
        for m in re.finditer(r"\blet ([^:=]+)[:=]", text):
            for w in WORD.findall(m.group(1)):
                names[w].add(p)
        for m in re.finditer(r" as ([^\s,}]+)[,}]", text):
            names[m.group(1)].add(p)
        for m in re.finditer(r"^[ ]*[\w'-]+((?: +[\w'(),-]+)+) =$|^[ ]*[\w'-]+((?: +[\w'(),-]+)+) = ", text, re.M):
            if not m.group(0).lstrip().startswith(("use ", "let ", "record ", "pub ")):
                for w in WORD.findall(m.group(1) or m.group(2)):
                    names[w].add(p)
        for m in re.finditer(r"[({]([^(){}:=]+) : ", text):
            for w in m.group(1).split():
                names[w].add(p)
    return {w: fs for w, fs in names.items() if DASHED.match(w)}


def spelled(w):
    if w in APART:
        return APART[w]
    if w[0].isupper():
        return "".join(part[:1].upper() + part[1:] for part in w.split("-"))
    return w.replace("-", "_")


def main(argv):
    global OWN_CRATES
    OWN_CRATES = tuple(p.split("/")[1] for p in glob.glob("crates/*/src"))
    antt, rt = texts("antt"), texts("rt")
    taken_from = library(antt + rt)
    own = {w: fs for w, fs in defined(antt).items() if w not in taken_from}
    to = {w: spelled(w) for w in own}
    together = collections.defaultdict(list)
    for w, s in to.items():
        together[s].append(w)
    bad = [(s, ws) for s, ws in together.items() if len(ws) > 1]
    for s, ws in bad:
        print("fall together:", s, ws)
    for p in antt + rt:
        here = set(WORD.findall(code(p)))
        for w, s in sorted(to.items()):
            if w in here and s in here:
                print("met in one file:", w, "->", s, "in", p)
    if "--list" in argv:
        for w, s in sorted(to.items()):
            print(w, s, len(own[w]))
        rest = collections.Counter()
        for p in antt + rt:
            for w in WORD.findall(code(p)):
                if DASHED.match(w) and w not in to:
                    rest[w] += 1
        print("not turned:", " ".join(sorted(rest)))
        return 0
    if bad:
        return 1
    for p in antt + rt:
        with open(p, encoding="utf-8") as f:
            text = f.read()
        new = "".join(WORD.sub(lambda m: to.get(m.group(0), m.group(0)), t) if turn else t for turn, t in pieces(p, text))
        if new != text:
            with open(p, "w", encoding="utf-8") as f:
                f.write(new)
    print(f"{len(to)} names turned")
    return 0


if __name__ == "__main__":
    raise SystemExit(main(sys.argv[1:]))
