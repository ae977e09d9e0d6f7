#!/usr/bin/env python3
"""Brings this repository's own definitions and lemmas to today's spelling, once, after port.py.

Types and facts are in camel case, other definitions in snake case. In a lemma's name a dash stays after the name
of the definition that it is about. Names of src/, goals and files keep their spelling.

usage: python3 tools/respell.py [--dry]      at the top of the repository
"""

import os
import re
import sys

WORD = r"[^\W\d][\w'\-·]*"
HEAD = re.compile(r"^(?:(?:abbrev|unfoldable|pub) )*(record |data |ruleset )?(" + WORD + r")(?=[ :({])", re.M)
FIELD = re.compile(r"^  (?:pub )?((?:" + WORD + r" )+): ", re.M)
KEYS = {"use", "mod", "pub", "where", "unfolding", "unfold", "let", "elim", "open", "in", "infix", "infixl", "infixr", "mutual"}
STD = set("length sum sum_by take drop map reverse get_or set append concat filter and or not min max replicate count_by position lines".split())
VALUES = set("free-block device-at device-spot spot-at moved-spot rule-of two-boxes meaning-of sheet-of part-more put-down".split())
PLAIN = {"at", "all", "has", "sound"}
PROP = re.compile(r"[≡≢≤<×⊎⊥↔]|\bIsTrue\b|\bAll\b|\bUnit\b")


def texts():
    for top in ("specs", "proofs", "src"):
        for crate in sorted(os.listdir("crates")):
            for folder, dirs, files in os.walk(os.path.join("crates", crate, top)):
                dirs.sort()
                for f in sorted(files):
                    if f.endswith((".antt", ".rt")):
                        yield top, os.path.join(folder, f)


def result(sig):
    """What a signature ends in: the part after its last arrow outside brackets."""
    depth, last = 0, 0
    for i, ch in enumerate(sig):
        if ch in "({[":
            depth += 1
        elif ch in ")}]":
            depth -= 1
        elif ch == "→" and depth == 0:
            last = i + 1
    return sig[last:].strip()


def declared(text):
    """Each top name of a file, with 'type', 'record', 'data' or the text of its signature."""
    lines = text.split("\n")
    for i, line in enumerate(lines):
        m = HEAD.match(line)
        if not m or m.group(2) in KEYS:
            continue
        name, kind = m.group(2), (m.group(1) or "").strip()
        if kind in ("record", "data"):
            yield name, "type"
            continue
        if kind == "ruleset":
            yield name, "function"
            continue
        rest = line[m.end():].lstrip()
        if not rest.startswith(":"):
            continue
        sig = rest[1:]
        k = i + 1
        while k < len(lines) and lines[k].startswith("    "):
            sig += " " + lines[k].strip()
            k += 1
        yield name, sig.strip()


def camel(name):
    return "".join(p[:1].upper() + p[1:] for p in re.split("[-_]", name))


def snake(name):
    return name.replace("-", "_")


def mapping():
    types, functions, lemmas, fields = set(), set(), {}, set()
    sigs = []
    for top, path in texts():
        if top == "src":
            continue
        with open(path, encoding="utf-8") as f:
            text = f.read()
        for name, sig in declared(text):
            if re.match(r"(goal|need|choice|given)\b", sig):
                continue
            if sig == "type" or result(sig) == "Type 0":
                types.add(name)
            elif sig == "function":
                functions.add(name)
            else:
                sigs.append((name, sig))
        block = False
        for line in text.split("\n"):
            if re.match(r"(pub )?(record|data) ", line):
                block = True
            elif line and not line.startswith(" "):
                block = False
            elif block:
                m = FIELD.match(line)
                if m:
                    fields.update(m.group(1).split())
    for name, sig in sigs:
        end = result(sig)
        head = re.match(WORD, end)
        if name in VALUES:
            functions.add(name)
        elif PROP.search(end) or (head and head.group(0).split(".")[-1] in types):
            lemmas[name] = sig
        else:
            functions.add(name)
    new = {}
    for name in types:
        if "-" in name or name[:1].islower():
            new[name] = camel(name)
    for name in functions | fields:
        if "-" in name:
            new[name] = snake(name)
    known = (functions | STD | fields) - PLAIN
    for name in lemmas:
        if name in new or "-" not in name:
            continue
        parts = name.split("-")
        for k in range(len(parts) - 1, 0, -1):
            front = "-".join(parts[:k])
            if front in known or front in types:
                new[name] = new.get(front, snake(front)) + "-" + "_".join(parts[k:])
                break
        else:
            new[name] = snake(name)
    return {a: b for a, b in new.items() if a != b}, fields


TOKEN = re.compile(r"(?<![\w'\-·])" + WORD)


def turn(text, new, fields):
    def one(m):
        w = m.group(0)
        tail = ""
        while w and w[-1] in "-":
            tail, w = w[-1] + tail, w[:-1]
        if w not in new:
            return m.group(0)
        before = text[m.start() - 1:m.start()]
        if before == "." and w not in fields and not re.search(r"\b[A-Z]\w*\.$", text[:m.start()]):
            return m.group(0)
        return new[w] + tail

    return TOKEN.sub(one, text)


def turn_source(text, new, fields):
    out = []
    for line in text.split("\n"):
        if "//" in line or '"' in line:
            code = re.split(r'//|"', line)[0]
            out.append(turn(code, new, fields) + line[len(code):])
        else:
            out.append(turn(line, new, fields))
    return "\n".join(out)


def main():
    new, fields = mapping()
    dry = "--dry" in sys.argv
    clash = 0
    for top, path in texts():
        with open(path, encoding="utf-8") as f:
            text = f.read()
        words = {m.group(0) for m in TOKEN.finditer(text)}
        seen = {}
        for w in sorted(words):
            t = new.get(w, w)
            if t in seen and seen[t] != w:
                print(f"{path}: {seen[t]} and {w} fall together as {t}")
                clash += 1
            seen[t] = w
        done = (turn_source if top == "src" else turn)(text, new, fields)
        if done != text and not dry:
            with open(path, "w", encoding="utf-8") as f:
                f.write(done)
    print(f"{len(new)} names, {clash} that fall together")
    if dry:
        for a, b in sorted(new.items()):
            print(a, b)


main()
