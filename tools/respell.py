#!/usr/bin/env python3
"""Respells this repository's own definitions, lemmas and names for imports: words in snake case, types in camel case, as `mark-word` -> `mark_word` and `Mark-word` -> `MarkWord`.

usage: python3 tools/respell.py            at the top of the repository, once, after port.py

It goes by text. Own names are those that a file of specs/ or proofs/ defines with a dash. What Rattle makes (goals, and the steps of a proof's `c`) stays,
and so do comments, strings and the code of .rt files, and names that std has too. It says which names would fall together, and then writes nothing.
"""

import os
import re
import sys

NAME = r"[^\s(){}\[\];,.«»\"λ:@]+"
DEFINES = re.compile(r"^\s*(?:(?:pub|abbrev|unfoldable|record|data)\s+)*(" + NAME + r"(?:\s+" + NAME + r")*?)\s*(?:\{[^{}]*\}\s*|\((?:[^()]|\([^()]*\))*\)\s*)*:(?:\s(.*))?$")
WORDS = {"pub", "abbrev", "unfoldable", "record", "data", "module", "use", "where", "let", "in", "elim", "unfolding", "_"}
MADE = re.compile(r"^(?:goal|need|given)\.")
TOKEN = re.compile(r"[^\s(){}\[\];,.«»\"@]+")
USE = re.compile(r"use\s+([\w.]+)\.\{([^}]*)\}")


def files(kind):
    for top, dirs, names in os.walk("crates"):
        dirs[:] = sorted(d for d in dirs if d not in ("out", "must-fail"))
        for n in sorted(names):
            if n.endswith(kind):
                yield os.path.join(top, n)


def read(path):
    with open(path, encoding="utf-8") as f:
        return f.read()


# A type that would fall together with a variant that its file imports.
APART = {"Semi-sharp": "IsSemiSharp"}


def camel(name):
    return "".join(p[:1].upper() + p[1:] for p in re.split(r"[-_]", name))


def respelled(name):
    if name in APART:
        return APART[name]
    return camel(name) if name[0].isupper() else name.replace("-", "_")


def own_names():
    found = {}
    for path in files(".antt"):
        for line in read(path).split("\n"):
            if line.lstrip().startswith("--"):
                continue
            m = DEFINES.match(line)
            if not m or MADE.match(m.group(2) or ""):
                continue
            for name in m.group(1).split():
                if name in WORDS or "=" in name or "◌" in name:
                    continue
                found.setdefault(name, set()).add(path)
    for kind in (".antt", ".rt"):
        for path in files(kind):
            for _, items in USE.findall(read(path)):
                for item in items.split(","):
                    if " as " in item:
                        found.setdefault(item.split(" as ")[1].strip(), set()).add(path)
    return found


def foreign_names():
    found = set()
    for kind in (".antt", ".rt"):
        for path in files(kind):
            for module, items in USE.findall(read(path)):
                if module.startswith("Rattle."):
                    crate = module.split(".")[1]
                    if os.path.isdir(os.path.join("crates", crate)):
                        continue
                for item in items.split(","):
                    found.add(item.split(" as ")[0].strip())
    return found


def split_comment(line, mark):
    """The code of a line and its comment."""
    quoted = False
    for i, ch in enumerate(line):
        if ch == '"' and (i == 0 or line[i - 1] != "\\"):
            quoted = not quoted
        if not quoted and line.startswith(mark, i) and (i == 0 or line[i - 1].isspace()):
            return line[:i], line[i:]
    return line, ""


def turn(text, table, steps):
    """The text with each name turned; where steps is true, a name right behind `c.` or `w.` is one that Rattle made."""
    out, last = [], 0
    for m in TOKEN.finditer(text):
        token = m.group(0)
        new = table.get(token)
        if new is None:
            continue
        if steps and re.search(r"(?:^|[\s(\[{,;.])[cw]\.$", text[: m.start()]):
            continue
        out.append(text[last : m.start()] + new)
        last = m.end()
    return "".join(out) + text[last:]


def clauses(text):
    """The spans of a .rt file that are clauses, ghost members or ghost uses."""
    spans = [m.span() for m in re.finditer(r"ghost use [^;]*;", text)]
    for m in re.finditer(r"\b(?:requires|ensures|ghost)\b(?!\s*use)[^{;\n]*(\{)", text):
        depth, i = 0, m.start(1)
        while i < len(text):
            if text[i] == "{":
                depth += 1
            elif text[i] == "}":
                depth -= 1
                if depth == 0:
                    break
            i += 1
        spans.append((m.start(1), i + 1))
    return sorted(spans)


def main():
    own = own_names()
    foreign = foreign_names()
    table = {}
    for name in own:
        new = respelled(name)
        if new == name:
            continue
        if name in foreign:
            print(f"left: {name}, which the library has too")
            continue
        table[name] = new
    bad = False
    seen = {}
    for name, new in sorted(table.items()):
        if new in seen or new in own:
            print(f"falls together: {name} with {seen.get(new, new)} in {sorted(own[name])} and {sorted(own.get(new, own.get(seen.get(new, ''), [])))}")
            bad = True
        if new in foreign:
            print(f"look: {name} becomes {new}, which a library has: {sorted(own[name])}")
        seen[new] = name
    if bad and "--anyway" not in sys.argv:
        raise SystemExit(2)
    if "--check" in sys.argv:
        return
    count = 0
    for path in files(".antt"):
        text = read(path)
        steps = "/proofs/" in path and os.path.dirname(path).split("/proofs")[-1] != ""
        lines = []
        for line in text.split("\n"):
            code, comment = split_comment(line, "--")
            lines.append(turn(code, table, steps) + comment)
        new = "\n".join(lines)
        if new != text:
            count += 1
            with open(path, "w", encoding="utf-8") as f:
                f.write(new)
    for path in files(".rt"):
        text = read(path)
        out, last = [], 0
        for a, b in clauses(text):
            if a < last:
                continue
            out.append(text[last:a])
            piece = []
            for line in text[a:b].split("\n"):
                code, comment = split_comment(line, "//")
                piece.append(turn(code, table, False) + comment)
            out.append("\n".join(piece))
            last = b
        new = "".join(out) + text[last:]
        if new != text:
            count += 1
            with open(path, "w", encoding="utf-8") as f:
                f.write(new)
    print(f"{len(table)} names, {count} files")


if __name__ == "__main__":
    main()
