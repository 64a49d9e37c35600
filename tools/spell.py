#!/usr/bin/env python3
"""Brings the repository's own names to the spelling of the toolchain's CONTRACT_STYLE.md, 'Names'. Run once, at the top, on what port.py left.

Types and modules are in upper camel case; every other name is in snake case. In the name of a lemma a dash joins two names of definitions.
Only names that a file of specs/ or proofs/ declares are respelled, wherever they are cited: in sources, clauses, specs, proofs, edits and pages. Functions of
src/, exported names and strings keep theirs. It stops where two names would fall together.
"""

import collections
import os
import re
import sys

TOK = re.compile(r"[^\s(){}\[\],;.λ→×⌜⌝\"@`:]+")
ODD = re.compile(r"[^\W_]-[^\W_]|^[a-z][a-z0-9]*[A-Z]|·")
DECL = re.compile(r"^(\s*)(?:pub\s+)?(?:abbrev\s+|unfoldable\s+)*(?:pub\s+)?(?:record\s+|data\s+)?([^\s(){}\[\],;.λ→×\"@:]+)(?:\s*\{[^}]*\}|\s+\([^)]*\)|\s+[a-z]\w*)*\s*:(?=\s)")
STRING = re.compile(r'"(?:[^"\\]|\\.)*"')
# names whose own spelling is another name's already
GIVEN = {"inOrder": "in_order_of", "outOfRange": "is_out_of_range", "cellsLeft": "cells_left"}
# words of the library that lemmas are named after
WORDS = {"length", "take", "drop", "map", "append", "set", "get_or", "replicate", "reverse", "min", "max", "concat", "and", "or", "not", "mod", "div"}


def bare(text):
    return re.sub(r"--(?=[ -]|$).*", "", text, flags=re.M)


def files(root, ends):
    for folder, dirs, names in os.walk(root):
        dirs[:] = sorted(d for d in dirs if d not in ("out", ".git", "target"))
        for n in sorted(names):
            if n.endswith(ends):
                yield os.path.join(folder, n)


def snake(word):
    return re.sub(r"(?<=[a-z0-9])([A-Z])(?=[a-z])", lambda m: "_" + m.group(1).lower(), word)


def survey(root):
    own = set(os.listdir(os.path.join(root, "crates")))
    seen, stated, inner, lemmas, foreign = set(), set(), set(), set(), collections.defaultdict(set)
    for p in files(os.path.join(root, "crates"), (".antt", ".rt")):
        with open(p) as f:
            text = f.read()
        if p.endswith(".rt"):
            continue
        text = bare(text)
        folder = os.path.basename(os.path.dirname(p))
        if folder in ("specs", "proofs"):
            seen |= set(TOK.findall(text))
        for m in re.finditer(r"use\s+([^\s{]+?)(?:\.\{([^}]*)\})?(?:\s+as\s+\S+)?\s*$", text, flags=re.M):
            path = m.group(1).split(".")
            if not (path[0] == "Rattle" and path[1] in own):
                foreign[p] |= {it.strip().split(" as ")[0] for it in (m.group(2) or "").split(",")}
        for line in text.split("\n"):
            m = DECL.match(line)
            if m and folder == "specs":
                stated.add(m.group(2))
            elif m and folder == "proofs":
                (inner if m.group(1) else lemmas).add(m.group(2))
    return seen, stated, inner, lemmas - stated - inner, foreign


def table(root):
    seen, stated, inner, lemmas, foreign = survey(root)
    known = {snake(n) for n in stated if "-" not in n} | WORDS
    stated |= inner
    to = {n: b for n, b in GIVEN.items() if n in stated}
    # laws of what the library calls get_or now
    to |= {n: "get_or-" + snake(n[5:] if n.startswith("getD") else n[6:]).replace("-", "_") for n in stated | lemmas if re.match(r"getD-|get_d_", n)}
    for n in sorted(stated | lemmas, key=lambda n: ("-" in n, n)):
        if not ODD.search(n) or n in to:
            continue
        parts = [re.sub(r"·(.)", lambda m: m.group(1).upper(), snake(p)) for p in n.split("-")]
        out = parts[0]
        for a, b in zip(parts, parts[1:]):
            out += ("-" if n in lemmas and a in known and b in known else "_") + b
        # a lemma or a field that would have a definition's name
        if "-" in n and out != n and (out in to.values() or out in stated | lemmas):
            out += "_lem"
        if out != n:
            to[n] = out
    clash = [(a, b) for a, b in to.items() if b in seen and to.get(b, b) == b and a not in GIVEN]
    twice = [b for b, k in collections.Counter(to.values()).items() if k > 1]
    return to, foreign, clash, twice


def turn(text, to, skip, made=()):
    """The text respelled; behind a dot, what the toolchain named after a function (made) stays."""
    return TOK.sub(lambda m: m.group(0) if m.group(0) in skip or (m.group(0) in made and text[:m.start()].endswith(".")) else to.get(m.group(0), m.group(0)), text)


def code(text, to, skip, made=()):
    """Text that is no comment: strings stay."""
    out, at = [], 0
    for m in STRING.finditer(text):
        out += [turn(text[at:m.start()], to, skip, made), m.group(0)]
        at = m.end()
    return "".join(out) + turn(text[at:], to, skip, made)


def prose(text, to):
    """A comment or a page: names in backticks, names of a file's opening list, and names that no English word can be."""
    text = re.sub(r"`[^`\n]*`", lambda m: turn(m.group(0), to, ()), text)
    text = re.sub(r"^(\s*(?:--|//)   )(\S.*?)(\s+==)", lambda m: m.group(1) + turn(m.group(2), to, ()) + m.group(3), text, flags=re.M)
    camel = {a: b for a, b in to.items() if "-" not in a}
    return turn(text, camel, ())


def main():
    root = sys.argv[1] if len(sys.argv) > 1 else "."
    to, foreign, clash, twice = table(root)
    if "--list" in sys.argv:
        for a, b in to.items():
            print(a, b)
    for a, b in clash:
        print(f"falls together: {a} would be {b}, which stands already", file=sys.stderr)
    for b in twice:
        print(f"falls together: {[a for a in to if to[a] == b]} would be {b}", file=sys.stderr)
    if clash or twice:
        raise SystemExit(1)
    if "--list" in sys.argv:
        return
    steps = set()
    for p in files(os.path.join(root, "crates"), (".rt",)):
        with open(p) as f:
            steps |= {n.replace("_", "-") for n in re.findall(r"\bfn (\w+)", f.read())}
    for p in list(files(os.path.join(root, "crates"), (".antt", ".rt", ".edit"))) + list(files(os.path.join(root, "docs"), (".md",))) + [os.path.join(root, "README.md")]:
        with open(p) as f:
            old = f.read()
        if p.endswith(".md"):
            new = prose(old, to)
        else:
            made = steps if os.path.basename(p) == "Proof.antt" else ()
            mark = re.compile(r"--(?=[ -]|$)" if p.endswith(".antt") else r"//|^#")
            lines = []
            for line in old.split("\n"):
                m = None
                for k in mark.finditer(line):
                    if not any(s.start() < k.start() < s.end() for s in STRING.finditer(line)):
                        m = k
                        break
                at = m.start() if m else len(line)
                lines.append(code(line[:at], to, foreign[p], made) + prose(line[at:], to))
            new = "\n".join(lines)
        if new != old:
            with open(p, "w") as f:
                f.write(new)


main()
