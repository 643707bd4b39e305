#!/usr/bin/env python3
"""Brings this repository's own definitions and lemmas to the spelling of the installed Rattle.

usage: python3 tools/respell_names.py [FOLDER]      run once, after port.py, at the top (or in FOLDER)

A word of specs/ or proofs/ that is written with dashes becomes snake case (answer-of: answer_of), a fact, type or
constructor becomes camel case (Has-past: HasPast), and in the names that Rattle makes for goals a name of the source
keeps its spelling (returns-then-is-met: returns-then-is_met). Names of the library stay. It prints each renaming, and
stops before it writes anything where two names would fall together.
"""
import glob
import os
import re
import sys

TOP = sys.argv[1] if len(sys.argv) > 1 else "."
WORD = re.compile(r"[^\s(){}\[\];,.λ∷⌜⌝\"]+")
DECLARED = re.compile(r"^\s*(?:(?:abbrev|unfoldable|pub|record|data)\s+)*([^\s:(){}\[\],;=λ.]+)(?=\s*[:({]|\s+where|\s*$)")
GOAL = re.compile(r"^(returns|invariant|decreases|ghost|loop|if|in|prove|overflow|bounds|nonzero|slice_bounds|ensures|requires|offset_bounds)([-_]|$)"
                  r"|-(requires|preserved|init|smaller)(-\d+)?$")


def read(path):
    with open(path, encoding="utf-8") as f:
        return f.read()


def antt(part):
    return sorted(glob.glob(os.path.join(TOP, "crates", "*", part, "**", "*.antt"), recursive=True))


def declared(path, dash="-"):
    """The names that a file declares, those with a dash in them or all, and not as answers to goals."""
    for line in read(path).splitlines():
        if line.lstrip().startswith("--") or ": goal." in line:
            continue
        m = DECLARED.match(line)
        if m and dash in m.group(1).strip("-"):
            yield m.group(1)


USE = re.compile(r"\buse\s+([^\s{;]+?)\.?\{([^}]*)\}")
LOCAL = re.compile(r"\blet\s+([^\s:(){}\[\],;=λ.]+)(?=\s*[:=])")


def imports(path):
    """The names that a file brings in, each with the module that it comes from."""
    for module, names in USE.findall(read(path)):
        for name in names.split(","):
            if name.strip():
                yield module, name.split()


def sources():
    return sorted(glob.glob(os.path.join(TOP, "crates", "*", "src", "**", "*.rt"), recursive=True))


def library():
    """Names of the library: what the files bring in from modules of no crate here."""
    crates = {os.path.basename(p) for p in glob.glob(os.path.join(TOP, "crates", "*"))}
    names = set()
    for path in antt("specs") + antt("proofs") + sources():
        for module, words in imports(path):
            if not any(module.startswith(f"Rattle.{c}.") for c in crates):
                names.add(words[0])
    return names


def local_names():
    """Names given by `as` to what is imported, and by `let`."""
    names = set()
    for path in antt("specs") + antt("proofs") + sources():
        names.update(words[2] for _, words in imports(path) if len(words) == 3)
        names.update(LOCAL.findall(read(path)))
    return {n for n in names if "-" in n.strip("-")}


def source_words():
    """Identifiers of src/ with an underscore, as they stood with dashes in names of goals."""
    words = {}
    for path in sources():
        code = "\n".join(l for l in read(path).splitlines() if not re.match(r"\s*(//|ghost |requires|ensures)", l))
        for w in re.findall(r"\b[A-Za-z]\w*_\w+\b", code):
            words[w.replace("_", "-")] = w
    words.update({"in-default": "in_default", "in-ok": "in_ok", "in-err": "in_err", "overflow-add": "overflow_add",
                  "overflow-sub": "overflow_sub", "overflow-mul": "overflow_mul"})
    return words


def respelled(name):
    if name[0].isupper():
        return "".join(p[:1].upper() + p[1:] for p in name.split("-"))
    return name.replace("-", "_")


def goal_respelled(name, words):
    for dashed in sorted(words, key=len, reverse=True):
        name = re.sub(r"(?<![A-Za-z0-9_])" + re.escape(dashed) + r"(?![A-Za-z0-9_])", words[dashed], name)
    return name


def main():
    own = set()
    for part in ("specs", "proofs"):
        for path in antt(part):
            of_function = part == "proofs" and not path.endswith(os.path.join("proofs", os.path.basename(path)))
            own.update(n for n in declared(path) if not (of_function and GOAL.search(n)))
    own = (own | {n for n in local_names() if not GOAL.search(n)}) - library()
    words = source_words()
    renamed = {n: respelled(n) for n in own}
    taken = {}
    for part in ("specs", "proofs"):
        for path in antt(part):
            for w in declared(path, ""):
                taken.setdefault(w, path)
    falls = sorted(f"{n} -> {m} ({taken[m]})" for n, m in renamed.items() if m in taken)
    back = {}
    for n, m in renamed.items():
        back.setdefault(m, []).append(n)
    falls += sorted(f"{ns} -> {m}" for m, ns in back.items() if len(ns) > 1)
    if falls:
        print("names that fall together:\n  " + "\n  ".join(falls))
        if "--anyway" not in sys.argv:
            raise SystemExit(1)

    def word(m):
        w = m.group(0)
        if w in renamed:
            return renamed[w]
        if "-" in w and GOAL.search(w):
            return goal_respelled(w, words)
        return w

    files = antt("specs") + antt("proofs")
    files += sources()
    files += sorted(glob.glob(os.path.join(TOP, "crates", "*", "must-fail", "*.edit")))
    for path in files:
        old = read(path)
        lines = []
        for line in old.split("\n"):
            code, mark, comment = line.partition("//") if path.endswith(".rt") else line.partition("-- ")
            lines.append(WORD.sub(word, code) + mark + comment)
        new = "\n".join(lines)
        if new != old:
            with open(path, "w", encoding="utf-8") as f:
                f.write(new)
    for n in sorted(renamed):
        print(n, "->", renamed[n])


main()
