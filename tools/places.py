#!/usr/bin/env python3
"""Lists the places in src/ where an older form may stand, by the points of docs/DESIGN-PASS.md.

    python3 tools/places.py [FOLDER]      every point, of the repository in FOLDER (default: this one)
    python3 tools/places.py FOLDER 3      one point

It lists candidates: which of them are places is said in docs/DESIGN-PASS.md.
"""

import collections
import pathlib
import re
import sys

FOLDER = pathlib.Path(sys.argv[1] if len(sys.argv) > 1 else ".")
CRATES = ["interning", "families", "rules", "memos", "diagrams", "calls", "quorums", "examples", "conformance"]


class Function:
    def __init__(self, path, line, text):
        self.path, self.line = path, line
        head, _, self.body = text.partition("\n{") if "\n{" in text else text.partition("{\n")
        self.head = head
        self.name = re.search(r"fn (\w+)", text).group(1)
        signature = re.split(r"\n\s+(?:requires|ensures)", text)[0]
        self.signature = re.sub(r"\s+", " ", signature.split("{\n")[0]).strip()
        self.clauses = [re.sub(r"\s+", " ", c).strip() for c in re.findall(r"(?:requires|ensures)\*?(?: \w+)? \{ (.*) \}", text)]
        self.requires = len(re.findall(r"^\s*requires", text, re.M))


def sources():
    for crate in CRATES:
        for path in sorted((FOLDER / "crates" / crate / "src").rglob("*.rt")):
            yield path, path.read_text()


def functions():
    for path, text in sources():
        lines = text.split("\n")
        for i, line in enumerate(lines):
            match = re.match(r"(\s*)(pub(\(\w+\))? )?fn \w+", line)
            if not match:
                continue
            indent = match.group(1)
            end = i
            while end < len(lines) and not (lines[end].startswith(indent + "}") or (end > i and lines[end] == indent + "{}") or (lines[end].endswith(";") and "fn " in lines[i] and end == i)):
                end += 1
            yield Function(path, i + 1, "\n".join(lines[i : end + 1]))


def grep(pattern):
    for path, text in sources():
        for number, line in enumerate(text.split("\n"), 1):
            if not line.lstrip().startswith("//") and re.search(pattern, line):
                yield f"{path.relative_to(FOLDER / 'crates')}:{number}: {line.strip()}"


def enums(wanted):
    for path, text in sources():
        for match in re.finditer(r"enum (\w+)(?:<[^>]*>)? \{\n(.*?)\n\}", text, re.S):
            body = re.sub(r"//.*", "", match.group(2))
            variants = re.findall(r"^    (\w+)", body, re.M)
            if wanted(variants, body):
                line = text[: match.start()].count("\n") + 1
                yield f"{path.relative_to(FOLDER / 'crates')}:{line}: enum {match.group(1)}: {', '.join(variants)}"


def where(function):
    return f"{function.path.relative_to(FOLDER / 'crates')}:{function.line}: {function.signature}"


def point_1():
    yield from enums(lambda variants, body: len(variants) == 2)
    yield from (where(f) for f in functions() if "-> bool" in f.signature and "&mut" in f.signature)
    yield from (where(f) for f in functions() if re.search(r"-> u8$", f.signature))
    yield from grep(r"^\s+(pub(\(crate\))? )?(kind|code|past): u\d+,|^\s+\w+: bool,")


def point_2():
    shapes = collections.defaultdict(list)
    for function in functions():
        tokens = re.findall(r"\w+|[^\w\s]", re.sub(r"//.*", "", function.body))
        if len(tokens) >= 8:
            shapes["".join("_" if re.match(r"\w", t) and t not in KEPT else t for t in tokens)].append(function)
    for group in shapes.values():
        if len(group) > 1:
            yield "; ".join(f"{f.path.relative_to(FOLDER / 'crates')}:{f.line} {f.name}" for f in group)


KEPT = {"if", "else", "match", "for", "in", "return", "let", "mut", "Some", "None", "Ok", "Err", "while", "loop"}


def point_3():
    yield from grep(r"^\s*('\w+: )?(while|for) .*(\.\.|while )|\[\w+( as usize)?\] = |chunks\(")


def point_4():
    yield from grep(r"fn (same|eq|ne|cmp|partial_cmp|clone|default|from|try_from|fmt)\(|-> &'static str| as u(8|16|32|64|size)\b")


def point_5():
    clauses = collections.defaultdict(set)
    for function in functions():
        for clause in function.clauses:
            for part in re.split(r" × ", clause):
                clauses[part.strip("() ")].add(f"{function.path.stem}::{function.name}")
    for clause, names in clauses.items():
        if len(names) >= 3:
            yield f"{len(names)} functions: {clause}"
    pairs = collections.defaultdict(set)
    for function in functions():
        inside = re.search(r"\((.*?)\)(?: ->|$)", function.signature)
        parameters = [p.strip() for p in inside.group(1).split(", ")] if inside else []
        parameters = [re.sub(r"^mut ", "", p) for p in parameters if ":" in p]
        for i, first in enumerate(parameters):
            for second in parameters[i + 1 :]:
                pairs[f"{first}, {second}"].add(f"{function.path.stem}::{function.name}")
    for pair, names in pairs.items():
        if len(names) >= 3:
            yield f"{len(names)} functions: {pair}"


def point_6():
    yield from grep(r"^\s+(pub(\(crate\))? )?\w+: (\[|&'?\w* ?(mut )?\[)|^\s+(len|depth|used|at): (usize|u32),")
    yield from (where(f) for f in functions() if len(re.findall(r": &('\w+ )?(?:mut )?\[", f.signature)) > 1)


def point_7():
    yield from grep(r"\bfn\(|\bdyn |impl Fn|\bloop \{|enum (Step|Next|Wants|Current|Frame)\b")


def point_8():
    for crate in CRATES:
        answers = lemmas = lines = 0
        for path in (FOLDER / "crates" / crate / "proofs").rglob("*.antt"):
            text = path.read_text()
            lines += text.count("\n")
            found = len(re.findall(r"^(?:abbrev )?pub \S+ : goal\.", text, re.M))
            answers += found
            lemmas += len(re.findall(r"^\s*(?:abbrev |unfoldable )?(?:pub )?[\w'∙◌-]+ : ", text, re.M)) - found
        yield f"{crate}: {answers} answers and invariants, {lemmas} lemmas and fields, {lines} lines"


POINTS = [point_1, point_2, point_3, point_4, point_5, point_6, point_7, point_8]

for number, point in enumerate(POINTS, 1):
    if len(sys.argv) < 3 or sys.argv[2] == str(number):
        found = list(point())
        print(f"point {number}: {len(found)}")
        for line in found:
            print("   ", line)
