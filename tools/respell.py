#!/usr/bin/env python3
"""Brings the repository's own names in specs/, proofs/ and clauses to one spelling.

usage: python3 tools/respell.py        at the top of the repository, once, after the kit's port.py

A word or lemma is written in snake case (tree-at: tree_at, isMember: is_member), a type or statement in camel case (Good-ask: GoodAsk).
Names of the code, of the library and of goals stay. Where two names would fall together, it says so and changes nothing.
"""

import os
import re
import sys

ANSWERS = {"Answers.antt", "Invariants.antt", "Choices.antt", "Proof.antt"}
TOKEN = re.compile(r"[^\s(){}\[\];,:=λ.|`\"«»]+")
# names that would fall together with another, or with one of the library's
APART = {"is_member": "is_member_lem", "by-sight": "at_sight", "put-mid": "put_mid_is"}
DEFINED = re.compile(r"^\s*(?:(?:abbrev|unfoldable|pub)\s+)*(?:data\s+|record\s+|ruleset\s+)?([A-Za-z][^\s:(){}\[\];,=λ.]*)(?:\s+[({].*)?\s*:(?!:)")
FOREIGN = re.compile(r"^\s*(?:ghost )?use ([\w.+\-']+)\.\{([^}]*)\}", re.M)
ALIAS = re.compile(r"^\s*(?:ghost )?use [\w.+\-']+ as (\S+?);?$", re.M)


def files():
    for root, dirs, names in os.walk("crates"):
        dirs[:] = sorted(d for d in dirs if d not in ("out", "target", "must-fail"))
        for name in sorted(names):
            if name.endswith((".antt", ".rt")):
                yield os.path.join(root, name)


def own(module):
    parts = module.split(".")
    return len(parts) > 1 and parts[0] == "Rattle" and os.path.isdir(os.path.join("crates", parts[1]))


def respelled(name):
    if name in APART:
        return APART[name]
    if name[0].isupper():
        head, *rest = re.split(r"-", name)
        return head + "".join(w[:1].upper() + w[1:] for w in rest)
    name = re.sub(r"([a-z0-9])([A-Z])", lambda m: m.group(1) + "_" + m.group(2).lower(), name)
    return re.sub(r"(?<=[A-Za-z0-9'_])-(?=[A-Za-z0-9])", "_", name)


def defined(path, text):
    answers = os.path.basename(path) in ANSWERS
    for line in text.split("\n"):
        m = DEFINED.match(line)
        if not m or line.lstrip().startswith(("let ", "--", "use ", "λ")):
            continue
        rest = line[m.end():]
        if answers and re.match(r"\s*goal\.", rest):
            continue
        yield m.group(1)


def fields(text):
    """The fields of the file's records, which stand behind a dot elsewhere."""
    inside = False
    for line in text.split("\n"):
        if re.match(r"(?:pub )?record ", line):
            inside = True
        elif inside and not line.startswith("  "):
            inside = False
        elif inside:
            m = re.match(r"\s+(?:pub )?([^\s:(){}]+) :", line)
            if m:
                yield m.group(1)


def foreign(text):
    """The names that a file takes from the library or from generated modules."""
    found = set()
    for module, names in FOREIGN.findall(text):
        if not own(module) or ".declared." in module or module.endswith((".Goals", ".Given")):
            for word in names.split(","):
                found.update(word.split(" as "))
    return {w.strip() for w in found} - {w.strip() for names in re.findall(r"\{([^}]*)\}", text) for w in re.findall(r" as ([^\s,}]+)", names)}


def turn(text, names, members, rust):
    stay = foreign(text)
    aliases = set(ALIAS.findall(text))

    def token(m):
        word, start = m.group(0), m.start()
        if word not in names or word in stay:
            return word
        if start and text[start - 1] == ".":
            before = re.search(r"([^\s(){}\[\];,=λ]+)\.$", text[:start])
            head = before.group(1) if before else ""
            if not (word in members or head in aliases or head.startswith("Rattle.")):
                return word
        return names[word]

    out, at = [], 0
    comment = re.compile(r"//[^\n]*|\"(?:\\.|[^\"\\\n])*\"" if rust else r"(?m)(?<![^\s(])--[^\n]*")
    quoted = re.compile(r"`[^`\n]*`")
    for m in comment.finditer(text):
        out.append((at, m.start(), True))
        for q in quoted.finditer(m.group(0)) if not m.group(0).startswith('"') else ():
            out.append((m.start() + q.start(), m.start() + q.end(), True))
        at = m.end()
    out.append((at, len(text), True))
    live = bytearray(len(text))
    for a, b, _ in out:
        live[a:b] = b"\x01" * (b - a)
    return TOKEN.sub(lambda m: token(m) if live[m.start()] else m.group(0), text)


def main():
    texts = {p: open(p, encoding="utf-8").read() for p in files()}
    names, members = {}, set()
    for path, text in texts.items():
        if path.endswith(".antt"):
            members.update(fields(text))
            for name in list(defined(path, text)) + re.findall(r" as ([A-Za-z][^\s,}]*)[,}]", text):
                if respelled(name) != name:
                    names[name] = respelled(name)
    words = {}
    for path, text in texts.items():
        for w in TOKEN.findall(text):
            words.setdefault(w, path)
    for path, text in texts.items():
        if path.endswith(".rt"):
            for n, to in names.items():
                if re.search(rf"(?<![\w-]){re.escape(n)}(?![\w-])", text) and re.search(rf"\b(?:let (?:mut )?{to}\b|{to}: )", text):
                    print(f"look: {to} names a word and a value in {path}")
    clashes = sorted((n, to, words[to]) for n, to in names.items() if to in words)
    several = {}
    for n, to in names.items():
        several.setdefault(to, []).append(n)
    for to, froms in sorted(several.items()):
        if len(froms) > 1:
            print("fall together:", *froms, "->", to)
    for n, to, path in clashes:
        print(f"look: {n} becomes {to}, which stands in {path}")
    if any(len(f) > 1 for f in several.values()):
        sys.exit(1)
    changed = 0
    for path, text in texts.items():
        new = turn(text, names, members, path.endswith(".rt"))
        if new != text:
            changed += 1
            with open(path, "w", encoding="utf-8") as f:
                f.write(new)
    for path in ["README.md"] + sorted(os.path.join("docs", n) for n in os.listdir("docs") if n.endswith(".md")):
        text = open(path, encoding="utf-8").read()
        new = re.sub(r"`[^`\n]*`", lambda q: TOKEN.sub(lambda m: names.get(m.group(0), m.group(0)), q.group(0)), text)
        if new != text:
            changed += 1
            with open(path, "w", encoding="utf-8") as f:
                f.write(new)
    print(f"{len(names)} names, {changed} files")


if __name__ == "__main__":
    main()
