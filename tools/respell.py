#!/usr/bin/env python3
"""Brings the repository's own names to the spelling of today's Rattle.

usage: python3 tools/respell.py [--dry]     at the top of the repository, once, after port.py

Definitions, lemmas, fields, constructors and local aliases of specs/ and proofs/ go to snake case, types to
upper camel case. A dash stays where it joins a lemma's two names, and beside an operator. Functions of src/ keep
their names, and so do goals, which Rattle names.

Three more things of spelling that port.py leaves: the library's AllByRecursion goes by that name, since the gate takes
no other thing under the name All; in a clause a bound's member `meaning` is written with its type, as `S.meaning`; and
`x.entry.now` and `x.exit.now` of a `&mut` are `x.old` and `x.new`.
"""

import os
import re
import sys

TOKEN = re.compile(r"[^\s(){}\[\].,;\"«»@]+")
DECLARED = re.compile(r"^(?:(?:abbrev|unfoldable|pub) )*(?:(record|data) )?([^\s:(){}]+)(?=[\s:]).*?(:|where)")
# Two pairs of names would fall together: these speak of a table's nodes, the others of lines.
APART = {"isState": "is_state_node", "isDist": "is_dist_node"}
STD = {"cons", "nil", "append", "length", "take", "drop", "map", "cond", "le", "mul", "joined", "sum", "min", "not", "and", "or"}


def texts(ending):
    for folder, dirs, files in os.walk("crates"):
        dirs[:] = sorted(d for d in dirs if d != "out")
        for name in sorted(files):
            if name.endswith(ending):
                yield os.path.join(folder, name)


def read(path):
    with open(path, encoding="utf-8") as f:
        return f.read()


def snake(word):
    return re.sub(r"(?<=[a-z0-9])([A-Z])", lambda m: "_" + m.group(1).lower(), word.replace("getD", "get_or"))


def is_word(part):
    return re.fullmatch(r"[A-Za-z0-9_']+", part) is not None


def joined(parts):
    out = parts[0]
    for left, right in zip(parts, parts[1:]):
        out += ("_" if is_word(left) and is_word(right) else "-") + right
    return out


def gather():
    """(kind, name, is-a-lemma) of each thing declared: kind is type, word, field or alias."""
    found = {}
    for path in texts(".antt"):
        lemma_file = "/proofs/" in path
        made = os.path.basename(path) in ("Answers.antt", "Invariants.antt")
        lines = read(path).split("\n")
        body = None
        for at, line in enumerate(lines):
            if re.match(r"^(use|mod|pub mod|pub use|--|unfolding|ruleset|pub ruleset)\b", line):
                body = None
                for m in re.finditer(r"([^\s{,]+) as ([^\s},]+)", line):
                    if line.startswith("use") and m.group(2) != "goal":
                        found.setdefault(m.group(2), ("alias", False))
                continue
            if re.match(r"^\S", line):
                body = None
                m = DECLARED.match(line)
                if not m or re.match(r"^[^:]*=", line):
                    continue
                name = m.group(2)
                signature = line[m.end():] if m.group(3) == ":" else ""
                for more in lines[at + 1:]:
                    if not re.match(r"^\s+\S", more):
                        break
                    signature += " " + more.strip()
                if m.group(1):
                    body = m.group(1)
                    found[name] = ("type", False)
                elif made and re.match(r"\s*goal\.", signature):
                    continue
                else:
                    is_type = re.search(r"Type( \d+)?\s*$", signature) is not None
                    found[name] = ("type" if is_type and name[:1].isupper() else "word", lemma_file and not is_type)
            elif not body:
                m = re.match(r"^\s+(?:(?:abbrev|unfoldable|pub) )*([^\s:(){}]+) :(?: (.*))?$", line)
                if m and not (made and (m.group(2) or "").startswith("goal.")):
                    signature = m.group(2) or ""
                    is_type = re.search(r"Type( \d+)?\s*$", signature) is not None
                    if not lemma_file:
                        DEFINED.add(m.group(1))
                    found.setdefault(m.group(1), ("type" if is_type and m.group(1)[:1].isupper() else "word", False))
            elif body:
                m = re.match(r"^\s+(?:pub )?([^\s:(){}]+(?: [^\s:(){}]+)*)\s*:", line)
                if m:
                    for name in m.group(1).split():
                        DEFINED.add(name)
                        found.setdefault(name, ("field", False))
    for path in texts(".rt"):
        for line in read(path).split("\n"):
            if line.startswith("ghost use"):
                for m in re.finditer(r"([^\s{,]+) as ([^\s},]+)", line):
                    found.setdefault(m.group(2), ("alias", False))
    for name in DEFINED & set(found):
        found[name] = (found[name][0], False)
    return found


def table(found):
    names = set(found) | STD
    turned = {}
    for name, (kind, lemma) in found.items():
        if not re.search(r"-|^[a-z].*[A-Z]", name) or not name[:1].isalpha() or name.startswith("sn-"):
            continue
        parts = name.split("-")
        if kind == "type":
            new = "".join(p[:1].upper() + p[1:] for p in parts) if all(map(is_word, parts)) else name
        elif name[:1].isupper():
            new = parts[0] + "-" + snake(joined(parts[1:])) if len(parts) > 1 else name
        else:
            parts = [snake(p) for p in parts]
            new = joined(parts)
            if lemma and len(parts) > 1:
                for cut in range(1, len(parts)):
                    left, right = joined(parts[:cut]), joined(parts[cut:])
                    old_left, old_right = "-".join(name.split("-")[:cut]), "-".join(name.split("-")[cut:])
                    if {left, old_left} & names and {right, old_right} & names:
                        new = left + "-" + right
                        break
        new = APART.get(name, new)
        if new != name:
            turned[name] = new
    return turned


def turn_code(text, turned):
    """One line, without its comment. What follows `c.` or `goal.` is a name of Rattle's."""
    out, last = [], 0
    for m in TOKEN.finditer(text):
        word, start = m.group(0), m.start()
        new = turned.get(word)
        if new and start and text[start - 1] == ".":
            head = re.search(r"[^\s(){}\[\],;]*$", text[:start - 1]).group(0).split(".")
            if head[0] in ("c", "goal", "w", "l", "g") and not is_field(word):
                new = None
        if new:
            out += [text[last:start], new]
            last = m.end()
    return "".join(out) + text[last:]


FIELDS = set()
# fields, and what a block of specs/ defines: a lemma elsewhere may have the same name
DEFINED = set()


def is_field(word):
    return word in FIELDS


def of_library(text):
    """The names that a file takes from a library: those keep their spelling there."""
    own = "|".join(sorted(os.listdir("crates")))
    taken = set()
    for line in text.split("\n"):
        m = re.match(r"(?:ghost |pub )*use (\S+)", line)
        if m and not re.match(rf"Rattle\.({own})\.", m.group(1)):
            taken |= set(TOKEN.findall(line))
    return taken


def turn(path, turned):
    theirs = of_library(read(path))
    turned = {old: new for old, new in turned.items() if old not in theirs}
    comment = "--" if path.endswith(".antt") else "//"
    lines = []
    for line in read(path).split("\n"):
        at = re.search(r"(?:^|\s)" + comment + r"(?:\s|$)", line)
        code, said = (line[:at.start()], line[at.start():]) if at else (line, "")
        if path.endswith(".rt") and '"' in code:
            pieces = re.split(r'("(?:[^"\\]|\\.)*")', code)
            code = "".join(p if i % 2 else turn_code(p, turned) for i, p in enumerate(pieces))
        else:
            code = turn_code(code, turned)
        said = TOKEN.sub(lambda m: turned[m.group(0)] if m.group(0) in turned and m.group(0)[:1].isupper() else m.group(0), said)
        code = re.sub(r"(?<=[{ ])(\S+) as \1(?=[,}])", r"\1", code)
        lines.append(code + said)
    return "\n".join(lines)


def falls_together(turned, found):
    """Names that would meet: two old names with one new one, or a new name that was there."""
    by_new = {}
    for old, new in turned.items():
        by_new.setdefault(new, []).append(old)
    for new, olds in sorted(by_new.items()):
        if len(olds) > 1 or new in found:
            print("meets:", new, "from", olds, "and was there" if new in found else "")
    for path in texts(".rt"):
        text = read(path)
        ghost = {m for line in text.split("\n") if line.startswith("ghost use") for m in TOKEN.findall(line)}
        code = re.sub(r"(?m)^\s*//.*$|^ghost use.*$", "", text)
        code = re.sub(r"(requires|ensures)[^\n]*\{[^\n]*\}|ghost [^\n]*", "", code)
        words = set(re.findall(r"[A-Za-z_]\w*", code))
        for old in sorted(ghost & set(turned)):
            if turned[old] in words:
                print("hides:", path, old, "->", turned[old])


def own_all(text):
    """Where a file takes AllByRecursion under the name All, it takes it under its own."""
    for long, short in re.findall(r"(\w+ByRecursion) as (\w+)", text):
        text = text.replace(f"{long} as {short}", long)
        text = TOKEN.sub(lambda m: long if m.group(0) == short else m.group(0), text)
    return text


def with_type(path, text):
    """The clauses of a file, with `meaning` as the bound's (the trait itself has it as its own), and with old and new values."""
    if not path.endswith(".rt") or path.endswith("/system.rt"):
        return text
    is_clause = re.compile(r"\s*(requires|ensures)\b")

    def turned(line):
        line = re.sub(r"(?<![.\w'])meaning(?![\w'])", "S.meaning", line)
        return line.replace(".entry.now", ".old").replace(".exit.now", ".new")

    return "\n".join(turned(l) if is_clause.match(l) else l for l in text.split("\n"))


def main():
    found = gather()
    FIELDS.update(n for n, (k, _) in found.items() if k == "field")
    turned = table(found)
    falls_together(turned, found)
    if "--dry" in sys.argv:
        for old, new in sorted(turned.items()):
            print(found[old], old, new)
        return
    for path in list(texts(".antt")) + list(texts(".rt")):
        old = read(path)
        new = with_type(path, own_all(turn(path, turned)))
        if new != old:
            with open(path, "w", encoding="utf-8") as f:
                f.write(new)


main()
