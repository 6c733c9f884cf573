#!/usr/bin/env python3
"""Brings the names of this repository's definitions and lemmas to today's spelling, once, after the kit's own port script.

usage: python3 tools/respell.py            at the top of the repository

A word of an .antt file, of a clause or of a must-fail edit that is in camel case with a small first letter gets snake
case (`recAt` is `rec_at`), and a lemma, a field or a constructor of ours that has dashes gets underscores (`first-less`
is `first_less`). Types, facts and modules keep their capitals. In proofs/ the parts of the names that the check makes
follow it: a function's name keeps its underscores there (`is-slice-of` is `is_slice_of`), and so do the fixed parts
(`in-ok` is `in_ok`). Comments keep their dashes. Prints names that would fall together, and then writes nothing.
"""

import os
import re
import sys

CAMEL = re.compile(r"(?<![A-Za-z0-9_'\"-])[a-z][a-z0-9]*(?:[A-Z][a-z0-9]*)+(?![A-Za-z_])")
TOKEN = re.compile(r"[A-Za-z_][A-Za-z0-9_']*(?:-[A-Za-z0-9_']+)*")
DEFINED = re.compile(r"^\s*(?:unfoldable |abbrev )*(?:pub )?(?:unfoldable |abbrev )*(?:data |record )?(?:pub )?([A-Za-z_][A-Za-z0-9_'-]*)(?: \([^)]*\))* : (.*)$")
ALIAS = re.compile(r"\bas ([a-z][A-Za-z0-9_'-]*)")
LET = re.compile(r"\blet ([a-z][A-Za-z0-9_'-]*)")

# fixed parts of the names that the check makes, old and new
PARTS = {
    "in-ok": "in_ok",
    "in-err": "in_err",
    "overflow-add": "overflow_add",
    "overflow-sub": "overflow_sub",
    "overflow-mul": "overflow_mul",
    "offset-bounds": "offset_bounds",
    "slice-bounds": "slice_bounds",
    "from-residual": "from_residual",
}

# names that come to one spelling and never meet: a field of a record, and a value of another crate
APART = {"lent_all"}


def files(top, endings):
    for folder, dirs, names in os.walk(os.path.join(top, "crates")):
        dirs[:] = sorted(d for d in dirs if d not in ("out", ".git"))
        for n in sorted(names):
            if n.endswith(endings):
                yield os.path.join(folder, n)


def read(path):
    with open(path, encoding="utf-8") as f:
        return f.read()


def snake(word):
    return re.sub(r"(?<=[a-z0-9])([A-Z])", lambda m: "_" + m[1].lower(), word)


def split_comment(line, mark):
    """The line's code and its comment; a mark inside a string does not count."""
    quoted = False
    for i, c in enumerate(line):
        if c == '"':
            quoted = not quoted
        if not quoted and line.startswith(mark, i) and (i == 0 or line[i - 1] in " \t"):
            return line[:i], line[i:]
    return line, ""


def outside_strings(code, turn):
    return "".join(p if i % 2 else turn(p) for i, p in enumerate(re.split(r'("(?:[^"\\]|\\.)*")', code)))


def own_names(top):
    """Our names with a dash, by definition, and all our names."""
    dashed, every = set(), set()
    for path in files(top, (".antt",)):
        for line in read(path).splitlines():
            code, _ = split_comment(line, "--")
            m = DEFINED.match(code)
            found = [m[1]] if m and not m[2].startswith("goal.") else []
            found += ALIAS.findall(code) + LET.findall(code)
            for name in found:
                every.add(name)
                if "-" in name and not name.startswith(("loop-", "invariant-", "decreases-", "returns-")):
                    dashed.add(name)
    return dashed, every


def source_functions(top):
    """Names of src/ that have underscores: the check's names keep them."""
    found = set()
    for path in files(top, (".rt",)):
        found |= {n for n in re.findall(r"\b(?:fn|let|let mut) ([a-z][a-z0-9]*(?:_[a-z0-9]+)+)", read(path))}
    return found


def main():
    top = sys.argv[1] if len(sys.argv) > 1 else "."
    dashed, every = own_names(top)
    new = {n: snake(n.replace("-", "_")) for n in every}
    clash = {}
    for old, to in new.items():
        clash.setdefault(to, set()).add(old)
    clash = {to: sorted(olds) for to, olds in clash.items() if len(olds) > 1 and to not in APART}
    for to, olds in sorted(clash.items()):
        print(f"fall together as {to}: {' '.join(olds)}")
    if clash:
        return 1
    parts = dict(PARTS)
    for name in source_functions(top):
        parts[name.replace("_", "-")] = name
    order = sorted(parts, key=len, reverse=True)
    made = re.compile(r"(?<![A-Za-z0-9_'])(" + "|".join(map(re.escape, order)) + r")(?![A-Za-z0-9_'])")

    def camel(text):
        return CAMEL.sub(lambda m: snake(m[0]), text)

    def whole(text, proofs):
        def token(m):
            word = m[0]
            if word in dashed:
                return snake(word.replace("-", "_"))
            if proofs and "-" in word:
                word = made.sub(lambda k: parts[k[1]], word)
            return word
        return camel(TOKEN.sub(token, text))

    changed = 0
    for path in files(top, (".antt", ".rt", ".edit")):
        text = read(path)
        mark = "--" if path.endswith(".antt") else "//"
        proofs = os.sep + "proofs" + os.sep in path
        lines = []
        for line in text.split("\n"):
            code, comment = split_comment(line, mark)
            if path.endswith(".antt"):
                code = outside_strings(code, lambda p: whole(p, proofs))
            else:
                code = outside_strings(code, camel)
                if code.lstrip().startswith(("ghost use", "ensures", "requires", "ghost", "old:", "new:")):
                    code = outside_strings(code, lambda p: whole(p, False))
            lines.append(code + camel(comment))
        out = "\n".join(lines)
        if out != text:
            changed += 1
            with open(path, "w", encoding="utf-8") as f:
                f.write(out)
    print(f"respell: {len(dashed)} names with dashes, {changed} files changed")
    return 0


if __name__ == "__main__":
    raise SystemExit(main())
