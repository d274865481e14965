#!/usr/bin/env python3
"""design_places.py [FOLDER]: lists, in crates/*/src of FOLDER (else of this repository), the places that the design pass looks at.

Each point has its own search, by the text of the functions; a place that it prints is a place to look at, not yet a fault."""
import os, re, sys
from collections import defaultdict

TOP = sys.argv[1] if len(sys.argv) > 1 else os.path.join(os.path.dirname(os.path.abspath(__file__)), "..")
COMMENT = re.compile(r"//.*")
TOKEN = re.compile(r"b?\"(?:[^\"\\]|\\.)*\"|b?'(?:[^'\\]|\\.)'|[A-Za-z_][A-Za-z0-9_]*|[0-9][0-9A-Za-z_]*|\S")
NUMBERS = r"(?:u8|u16|u32|u64|usize|i8|i16|i32|i64)"

def sources():
    for root, _, files in sorted(os.walk(os.path.join(TOP, "crates"))):
        parts = os.path.relpath(root, TOP).split(os.sep)
        if len(parts) > 2 and parts[2] == "src":
            for name in sorted(files):
                path = os.path.join(root, name)
                yield os.path.relpath(path, TOP), [COMMENT.sub("", line) for line in open(path, encoding="utf-8").read().split("\n")]

def closing(lines, start):
    """The line in which the braces that open from `start` on are closed."""
    depth = opened = 0
    for at in range(start, len(lines)):
        for mark in lines[at]:
            depth += (mark == "{") - (mark == "}")
            opened |= mark == "{"
        if opened and depth == 0 and (at + 1 == len(lines) or not re.match(r"\s*(requires|ensures|\{)", lines[at + 1])):
            return at
        if not opened and lines[at].rstrip().endswith(";"):
            return at
    return len(lines) - 1

class Function:
    def __init__(self, path, lines, start):
        self.path, self.line = path, start + 1
        self.text = lines[start:closing(lines, start) + 1]
        self.name = re.search(r"fn (\w+)", self.text[0]).group(1)
        self.clauses = [line.strip() for line in self.text if re.match(r"\s*(requires|ensures)", line)]
        plain = [line for line in self.text if not re.match(r"\s*(requires|ensures)", line)]
        body = "\n".join(plain)
        opening = body.find("(")
        depth, at = 0, opening
        while at < len(body):
            depth += body[at] in "(<[" and not body[at - 1:at + 1] == "->"
            depth -= body[at] in ")]" or (body[at] == ">" and body[at - 1] != "-")
            if depth == 0 and body[at] == ")":
                break
            at += 1
        self.parameters = [p.strip() for p in re.split(r",(?![^<(\[]*[>)\]])", " ".join(body[opening + 1:at].split())) if p.strip()]
        rest = body[at + 1:]
        self.result = rest[:rest.find("{")].strip()
        self.body = rest[rest.find("{"):]
        self.crate = path.split(os.sep)[1]

    def place(self):
        return f"{self.path}:{self.line} {self.name}"

def functions(path, lines):
    return [Function(path, lines, at) for at, line in enumerate(lines) if re.match(r"\s*(pub(\(crate\))? )?(extern \"C\" )?fn \w+", line)]

def enums(path, lines):
    for at, line in enumerate(lines):
        found = re.match(r"\s*(?:pub )?enum (\w+)", line)
        if found:
            yield at + 1, found.group(1), "\n".join(lines[at:closing(lines, at) + 1])

def shape(body):
    """The tokens of a body with names, numbers and texts left out."""
    kinds = []
    for token in TOKEN.findall(body):
        if token[0].isalpha() or token[0] == "_":
            kinds.append(token if token in ("match", "if", "else", "let", "return", "for", "in", "while", "Ok", "Err", "Some", "None") else "name")
        elif token[0].isdigit() or token[-1] in "\"'":
            kinds.append("value")
        else:
            kinds.append(token)
    return " ".join(kinds)

def show(point, title, places):
    print(f"{point} {title}: {len(places)}")
    for place in places:
        print("    " + place)

def main():
    files = list(sources())
    every = [f for path, lines in files for f in functions(path, lines)]
    refusing = re.compile(r"\b(\w*Refused|Misfit|Nothing|None|Missing|Unknown|Failed|Error)\b")
    show("1a", "enums with a refusal or a nothing among their cases", [
        f"{path}:{at} {name}" for path, lines in files for at, name, text in enums(path, lines)
        if not re.search(r"Refusal|Fault|Misfit|Unknown", name) and refusing.search(text.split("{", 1)[1])])
    show("1b", "flags: fields and parameters of type bool, and a state beside a value", [
        f"{path}:{at + 1} {line.strip()}" for path, lines in files for at, line in enumerate(lines)
        if re.search(r"\b\w+: (bool|BoxState)\b", line) and not re.match(r"\s*(ghost|requires|ensures)", line)])
    show("1c", "functions that give a number for a kind, by a match", [
        f.place() for f in every if re.search(r"\b" + NUMBERS + r"$", f.result.strip()) and re.search(r"=>\s*(\{\s*)?-?[0-9]", f.body)])
    show("1d", "numbers for kinds as constants", [
        f"{path}:{at + 1} {line.strip()}" for path, lines in files for at, line in enumerate(lines) if re.match(r"\s*(pub )?const \w+: u8 =", line)])
    alike = defaultdict(list)
    for f in every:
        if len(shape(f.body).split()) >= 12:
            alike[shape(f.body)].append(f)
    show("2", "groups of functions whose bodies are alike but for names and values", [
        ", ".join(f.place() for f in group) for group in alike.values() if len(group) > 1])
    show("3", "functions with a loop that is no `for`, or that count by hand", [
        f.place() for f in every if re.search(r"\bwhile\b|\bloop\b|[+-]= 1\b", f.body)])
    show("4a", "functions that choose a text by a match or an if", [
        f.place() for f in every if re.search(r"-> &'static", f.result) or (re.search(r"=>\s*b?\"", f.body) and f.name != "fmt")])
    show("4b", "functions that make a value of a number, a text or bytes alone", [
        f.place() for f in every if f.name not in ("from", "try_from", "from_str") and len(f.parameters) == 1
        and re.search(r": (\[?" + NUMBERS + r"(; \d+\])?|&str|&\[u8\])$", f.parameters[0])
        and re.search(r"-> (Option<|Result<)?[A-Z]\w+", f.result) and not re.search(r"<\(|<u64|<\[|Option<u8>|Result<u64|Result<i64", f.result)])
    show("4c", "digits and bytes of a number by hand", [
        f"{path}:{at + 1} {line.strip()}" for path, lines in files for at, line in enumerate(lines)
        if re.search(r"b'[0A]' \+|% (10|16|256)\b|/ (10|16|256)\b", line) and not re.match(r"\s*(ghost|requires|ensures)", line)])
    show("4d", "equality, order, copying or hashing by hand", [
        f"{path}:{at + 1} {line.strip()}" for path, lines in files for at, line in enumerate(lines)
        if re.search(r"\bimpl\b.*\b(PartialEq|Eq|PartialOrd|Ord|Clone|Copy|Hash|Debug|Default)\b", line)])
    clauses = defaultdict(set)
    for f in every:
        for clause in f.clauses:
            clauses[f.crate, re.sub(r"^(requires|ensures) *\w* *", "", clause)].add(f.place())
    show("5a", "clauses that stand in three or more functions of a crate", [
        f"{crate}: {clause}: {len(places)}" for (crate, clause), places in sorted(clauses.items()) if len(places) > 2])
    pairs = defaultdict(set)
    for f in every:
        names = [p for p in f.parameters if ":" in p and not re.search(r"self|HostRuntime|Global", p)]
        for i, a in enumerate(names):
            for b in names[i + 1:]:
                pairs[f.crate, a, b].add(f.place())
    show("5b", "pairs of parameters that stand in three or more functions of a crate", [
        f"{crate}: {a}, {b}: {len(places)}" for (crate, a, b), places in sorted(pairs.items()) if len(places) > 2])
    show("6", "arrays with a length written out (fields, locals, constants), and indices made by functions", [
        f"{path}:{at + 1} {line.strip()}" for path, lines in files for at, line in enumerate(lines)
        if re.search(r"\[[\w<>' ]+; \w+\]", line) and not re.match(r"\s*(ghost|requires|ensures)", line)])
    show("7", "dyn, function pointers, boxes", [
        f"{path}:{at + 1} {line.strip()}" for path, lines in files for at, line in enumerate(lines) if re.search(r"\bdyn\b|\bfn\(|\bBox<", line)])
    count = defaultdict(lambda: [0, 0, 0])
    for root, _, names in os.walk(os.path.join(TOP, "crates")):
        parts = os.path.relpath(root, TOP).split(os.sep)
        if len(parts) > 2 and parts[2] == "proofs":
            for name in names:
                row = count[parts[1]]
                row[0] += name in ("Answers.antt", "Invariants.antt")
                row[1] += name not in ("Answers.antt", "Invariants.antt", "Lib.antt")
                row[2] += open(os.path.join(root, name), encoding="utf-8").read().count("\n")
    show("8", "proofs: files of answers and invariants, files of lemmas, lines", [f"{crate}: {a}, {b}, {n}" for crate, (a, b, n) in sorted(count.items())])

main()
