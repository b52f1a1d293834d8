#!/usr/bin/env python3
"""Brings the repository's own definitions and lemmas to today's spelling, once, behind the kit's port.py.

usage: python3 tools/respell.py [COMMIT]     at the top of the repository; COMMIT has the older spelling (HEAD if left out)

port.py respells only those names that a library of the kit has too. This script takes every definition, lemma, field
and constructor of specs/ and proofs/*.antt at COMMIT (not the goals of proofs/F/) and writes it in snake case:
`ticksOf` becomes `ticks_of`, `number-place` becomes `number_place`, a prime an apostrophe. Types keep their capital.
Where a lemma would fall together with a definition, as `idle-rows` with `idleRows`, it is `idle_rows_lem`.
It turns .antt and .rt files, the `spans` of README.md and docs/*.md (docs/CHANGES.md is history and stays), and each
pair of a must-fail edit, as far as its text then stands once in its file; it names the pairs that are left by hand.
specs/Contracts.antt becomes specs/Promises.antt, since Rattle makes a module `specs.contracts` of its own.
"""

import os
import re
import subprocess
import sys

TOKEN = re.compile(r"[A-Za-z_][A-Za-z0-9_'\u2032\u2080-\u2089-]*")
# Names that a plain rule would spell badly, or that would fall together with another of the same module.
BY_HAND = {"getD-in": "get_or_in", "getD-out": "get_or_out"}
# Words of comments that are also lemmas' names.
WORDS = set()


def git(*words):
    return subprocess.run(["git", *words], capture_output=True, text=True, check=True).stdout


def snake(name):
    name = name.replace("\u2032", "'").replace("-", "_")
    name = re.sub(r"([a-z0-9])([A-Z])", lambda m: m.group(1) + "_" + m.group(2).lower(), name)
    return name


def defined(text):
    """The names that an .antt file defines at its top level, fields and constructors too."""
    inside = None
    for line in text.splitlines():
        m = re.match(r"(?:(?:abbrev|unfoldable|pub|opaque)\s+)*(record|data)\s+([^\s:({]+)", line)
        if m:
            inside = m.group(1)
            continue
        m = re.match(r"(?:(?:abbrev|unfoldable|pub|opaque)\s+)*([^\s:({]+(?:\s+[^\s:({]+)*)\s+:(?:\s|$)", line)
        if m and not line.startswith((" ", "--")):
            inside = None
            for n in m.group(1).split():
                if n not in ("abbrev", "unfoldable", "pub", "opaque"):
                    yield n
        elif line.startswith("module "):
            inside = "module"
        elif inside == "module":
            m = re.match(r"(?:  )+(?:(?:abbrev|unfoldable|pub|opaque)\s+)*([^\s:({]+)\s+:(?:\s|$)", line)
            if m:
                yield m.group(1)
        elif inside:
            m = re.match(r"\s+(?:pub\s+)?((?:[^\s:({]+\s+)+):(?:\s|$)", line)
            if m:
                yield from m.group(1).split()


def older_names(commit):
    names = set()
    for path in git("ls-tree", "-r", "--name-only", commit, "crates").splitlines():
        if re.fullmatch(r"crates/\w+/(specs|proofs)/\w+\.antt", path):
            names.update(defined(git("show", f"{commit}:{path}")))
    return names


def turned(names):
    turn = {}
    for n in names:
        if n[0].isupper() and "-" not in n:
            continue
        if not TOKEN.fullmatch(n):
            continue
        to = BY_HAND.get(n, snake(n))
        if to != n:
            turn[n] = to
            turn[n.replace("\u2032", "'")] = to
    turn = {k: v for k, v in turn.items() if k != v and k not in WORDS}
    return turn


def lemmas(names, commit):
    """Lemmas that would have their definition's name get `_lem`, also where port.py has given them that name."""
    camel = {snake(n) for n in names if "-" not in n and snake(n) != n}
    both = {n: snake(n) for n in names if "-" in n and snake(n) in camel}
    for path in files(".antt"):
        before = path.replace("/Promises.antt", "/Contracts.antt")
        try:
            older = set(TOKEN.findall(git("show", f"{commit}:{before}")))
        except subprocess.CalledProcessError:
            continue
        turn = {n: to + "_lem" for n, to in both.items() if n in older}
        turn.update({to: to + "_lem" for n, to in both.items() if n in older and to not in older})
        if turn:
            rewrite(path, respell(read(path), turn))
    return {n: to + "_lem" for n, to in both.items()}


def respell(text, turn):
    return TOKEN.sub(lambda m: turn.get(m.group(0), m.group(0)), text)


def spans(text, turn):
    out, fence = [], False
    for line in text.split("\n"):
        if re.match(r" *```", line):
            fence = not fence
        elif not fence:
            bits = line.split("`")
            bits[1::2] = [respell(re.sub(r"\bContracts\b", "Promises", b), turn) for b in bits[1::2]]
            line = "`".join(bits).replace("specs/Contracts.antt", "specs/Promises.antt")
        out.append(line)
    return "\n".join(out)


def files(*ends):
    for folder, dirs, names in os.walk("crates"):
        dirs[:] = sorted(d for d in dirs if d not in ("out", "must-fail"))
        for n in sorted(names):
            if n.endswith(ends):
                yield os.path.join(folder, n)


def rewrite(path, text):
    with open(path, encoding="utf-8") as f:
        old = f.read()
    if old != text:
        with open(path, "w", encoding="utf-8") as f:
            f.write(text)


def read(path):
    with open(path, encoding="utf-8") as f:
        return f.read()


def promises():
    for crate in sorted(os.listdir("crates")):
        old = f"crates/{crate}/specs/Contracts.antt"
        if os.path.exists(old):
            os.rename(old, f"crates/{crate}/specs/Promises.antt")
    for path in files(".antt", ".rt"):
        text = re.sub(r"(\bspecs\.)Contracts\b", r"\1Promises", read(path))
        if path.endswith("specs/Lib.antt"):
            text = re.sub(r"\bmod Contracts\b", "mod Promises", text)
        rewrite(path, text)


# The spelling of the language in a line of an edit: what port.py does to a line of a file.
def line_of(text, turn, antt):
    text = text.replace("\u2032", "'")
    if antt:
        text = re.sub(r"(?<=[\w')\]]) \.(?=[0-9a-z])", ".", text)
        text = re.sub(r"\((\w[\w']*(?:\.[\w']+)+)\)(?!\.)", r"\1", text)
    return respell(text, turn)


def edits(turn):
    left = 0
    for crate in sorted(os.listdir("crates")):
        folder = f"crates/{crate}/must-fail"
        if not os.path.isdir(folder):
            continue
        for name in sorted(os.listdir(folder)):
            path, at, text, out, wrong = f"{folder}/{name}", None, None, [], False
            for line in read(path).split("\n"):
                if line.startswith("file: "):
                    line = line.replace("specs/Contracts.antt", "specs/Promises.antt")
                    at = f"crates/{crate}/{line[6:].strip()}"
                    text = read(at) if os.path.exists(at) else ""
                elif line.startswith(("old: ", "new: ")) and at:
                    line = line[:5] + line_of(line[5:], turn, at.endswith(".antt"))
                    if line.startswith("old: "):
                        old = line[5:]
                        wrong |= text.count(old) != 1
                    else:
                        text = text.replace(old, line[5:], 1)
                out.append(line)
            rewrite(path, "\n".join(out))
            if wrong:
                left += 1
                print(f"left: {path}")
    print(f"respell: {left} edits left by hand")


def main(argv):
    commit = argv[0] if argv else "HEAD"
    names = older_names(commit)
    turn = turned(names)
    promises()
    turn.update(lemmas(names, commit))
    for path in files(".antt", ".rt"):
        rewrite(path, respell(read(path), turn))
    documents = ["README.md"] + ["docs/" + f for f in sorted(os.listdir("docs")) if f.endswith(".md")]
    for path in documents:
        if path != "docs/CHANGES.md":
            rewrite(path, spans(read(path), turn))
    edits(turn)
    print(f"respell: {len(turn)} names")


if __name__ == "__main__":
    main(sys.argv[1:])
