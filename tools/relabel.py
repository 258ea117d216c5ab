#!/usr/bin/env python3
"""Respells the names of goals and of proof steps in proofs/F/*.antt, as today's Rattle makes them: `overflow-add-x` -> `overflow_add-x`, `put-quad-requires` -> `put_quad-requires`.

usage: python3 tools/relabel.py CRATE..    at the top of the repository

It goes by text: a name of the source keeps its underscores, and Rattle's own words are joined by them. Where a call f under `let r` is named f-r, and there is a
function f_r too, it may turn too much: the check says so.
"""

import os
import re
import sys

STD = """is_none is_some is_ok is_err is_empty as_slice as_mut_slice copy_from_slice copy_within split_at split_at_mut split_first div_euclid rem_euclid saturating_sub
saturating_add wrapping_add wrapping_mul wrapping_sub checked_add checked_mul checked_sub unsigned_abs to_bits from_bits is_finite is_nan iter_mut to_le_bytes from_le_bytes
unwrap_or unwrap_or_default read_to_end write_all to_be_bytes swap_remove abs_diff is_multiple_of""".split()
MADE = [
    (r"\boverflow-(add|sub|mul|cast|shl|shr|step|neg|div|rem)\b", r"overflow_\1"),
    (r"\bnonzero-(div|rem)\b", r"nonzero_\1"),
    (r"\bslice-bounds\b", "slice_bounds"),
    (r"\boffset-bounds\b", "offset_bounds"),
    (r"\binvariant-of\b", "invariant_of"),
    (r"\bin-(ok|err|default|some|none)\b", r"in_\1"),
    (r"\bin-Continue\b", "in_ok"),
    (r"\bin-Break\b", "in_err"),
    (r"\bIn-default\b", "In_default"),
    (r"\btype-inv\b", "type_inv"),
    (r"\bfrom-residual\b", "from_residual"),
    (r"\bslice-known\b", "slice_known"),
    (r"\bstruct-known\b", "struct_known"),
    (r"\brow-known\b", "row_known"),
]
TOKEN = re.compile(r"[^\s(){}\[\];,.«»\"@]+")


def read(path):
    with open(path, encoding="utf-8") as f:
        return f.read()


def source_names():
    found = set(STD)
    for top, dirs, names in os.walk("crates"):
        dirs[:] = [d for d in dirs if d != "out"]
        if "/src" not in top:
            continue
        for n in names:
            if n.endswith(".rt"):
                code = re.sub(r"//[^\n]*", "", read(os.path.join(top, n)))
                found |= {w for w in re.findall(r"[A-Za-z][A-Za-z0-9]*(?:_[A-Za-z0-9]+)+", code)}
    return found


def main():
    names = source_names()
    dashed = {n.replace("_", "-"): n for n in names}
    one = re.compile(r"(?<![^\-+])(" + "|".join(re.escape(d) for d in sorted(dashed, key=len, reverse=True)) + r")(?![^\-+])")

    def token(m):
        word = m.group(0)
        if "-" not in word:
            return word
        for old, new in MADE:
            word = re.sub(old, new, word)
        return one.sub(lambda k: dashed[k.group(1)], word)

    count = 0
    for crate in sys.argv[1:]:
        for top, dirs, files in os.walk(os.path.join("crates", crate, "proofs")):
            if top.endswith("/proofs"):
                continue
            for n in sorted(files):
                path = os.path.join(top, n)
                text = read(path)
                out = []
                for line in text.split("\n"):
                    if re.match(r"\s*use ", line) and "proofs." + ".".join(top.split("/proofs/")[1].split("/")) not in line.replace("/", "."):
                        out.append(line)
                    elif line.lstrip().startswith("--"):
                        out.append(line)
                    else:
                        out.append(TOKEN.sub(token, line))
                new = "\n".join(out)
                if new != text:
                    count += 1
                    with open(path, "w", encoding="utf-8") as f:
                        f.write(new)
    print(f"{count} files")


if __name__ == "__main__":
    main()
