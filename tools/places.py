#!/usr/bin/env python3
"""Lists the places of src/ that could be written in a newer form of Rattle, point by point.

usage: python3 tools/places.py [COMMIT]     the working tree, or a commit; run at the top

It finds places by patterns over the text of the .rt files, so a row is a place to look at: docs/DESIGN-PASS.md says what
became of each.
"""
import collections
import re
import subprocess
import sys

COMMIT = sys.argv[1] if len(sys.argv) > 1 else None


def run(*words):
    return subprocess.run(words, capture_output=True, text=True, check=True).stdout


def names():
    if COMMIT:
        listed = run("git", "ls-tree", "-r", "--name-only", COMMIT, "crates").split()
    else:
        listed = run("git", "ls-files", "crates").split()
    return [name for name in listed if name.endswith(".rt")]


def text(name):
    if COMMIT:
        return run("git", "show", f"{COMMIT}:{name}")
    with open(name, encoding="utf-8") as f:
        return f.read()


FILES = {name: text(name) for name in names()}
LINES = [(name, k + 1, line) for name, whole in FILES.items() for k, line in enumerate(whole.split("\n"))]
FUNCTION = re.compile(r"\bfn (\w+)\s*(?:<[^(]*>)?\(((?:\[[^\]]*\]|[^{;\[])*?)\)\s*(?:->\s*((?:\[[^\]]*\]|[^{;\n\[])+?))?\s*\{?\n((?:\s+(?:requires|ensures)[^\n]*\n)*)")
FUNCTIONS = [(name, m.group(1), " ".join(m.group(2).split()), (m.group(3) or "").strip(), m.group(4)) for name, whole in FILES.items() for m in FUNCTION.finditer(whole)]
TESTS = ("session_tests", "plants_tests", "logging_tests")


def show(title, rows):
    print(f"{title}: {len(rows)}")
    for row in rows:
        print(f"    {row}")


def matching(pattern, but=None):
    found = []
    for name, k, line in LINES:
        if re.search(pattern, line) and not line.strip().startswith("//") and not (but and re.search(but, line)):
            found.append(f"{name}:{k}: {line.strip()[:110]}")
    return found


def enums():
    show("1a own enums", matching(r"\benum \w+"))
    show("1b functions that answer an own enum of outcomes", [f"{n}: {f} -> {r}" for n, f, _, r, _ in FUNCTIONS if re.match(r"\(?Outcome\b", r)])
    show("1c functions that answer a pair of numbers", [f"{n}: {f} -> {r}" for n, f, _, r, _ in FUNCTIONS if re.match(r"\(?(\(u32, usize\)|Answer)", r)])
    sentinels = [f"{name}:{k}: {line.strip()}" for name, k, line in LINES if re.search(r"//.*, or the (number|count) of", line)]
    show("1d functions that answer a length for none", sentinels)
    show("1e numbers for kinds", matching(r"const (FIFO|FIXED_PRIORITY|EARLIEST_DEADLINE|NOT_PREEMPTIVE|PREEMPTIVE): u32"))
    returned = [f"{name}:{k}" for name, k, line in LINES if re.search(r"^\s+return None;", line) and re.search(r"else \{$", FILES[name].split("\n")[k - 2])]
    show("1f `let .. else { return None; }`", returned)
    show("1h numbers for kinds as parameters and fields", matching(r"\b(policy|preempt|forbidden): u32"))
    show("1g flags", matching(r"^\s+(pub(\(crate\))? )?\w+: bool,?$"))


def bodies(whole):
    """The name and the body of each function."""
    lines = whole.split("\n")
    for k, line in enumerate(lines):
        head = re.match(r"(\s*)(?:pub(?:\(crate\))? )?fn (\w+)", line)
        if not head:
            continue
        begin = next((j for j in range(k, len(lines)) if lines[j].rstrip().endswith("{") or lines[j].rstrip().endswith(";")), None)
        if begin is None or lines[begin].rstrip().endswith(";"):
            continue
        end = next(j for j in range(begin, len(lines)) if lines[j] == head.group(1) + "}")
        yield head.group(2), "\n".join(line for line in lines[begin + 1:end] if not line.strip().startswith("//"))


def twins():
    """Functions whose bodies are alike but for names, numbers, arguments and paths."""
    shapes = collections.defaultdict(list)
    for name, whole in FILES.items():
        if any(crate in name for crate in TESTS):
            continue
        for function, body in bodies(whole):
            shape = re.sub(r"\d+", "x", re.sub(r"[A-Za-z_]\w*", "x", body)).replace("&", "").replace("x x", "x")
            shape = re.sub(r"\bx(?:(?:\.|::)x)+", "x", re.sub(r"\s+", " ", shape)).strip()
            shape = re.sub(r"x \{ (?:x(?:: x)?,? ?)+\}", "x", shape)
            for _ in range(3):
                shape = re.sub(r"x(?:\((?:x,? ?)*\)|\[x\])(?:\.x)*", "x", shape)
            if len(shape) >= 20:
                shapes[shape].append(f"{name}: {function}")
    show("2 functions of one shape", [" = ".join(names) for names in shapes.values() if len(names) > 1])


def loops():
    show("3a loops over a range", matching(r"^\s*for \w+ in [^ ]*\.\."))
    show("3b `while` loops", matching(r"^\s*while "))
    show("3c loops that count beside their items", matching(r"^\s*for \(\w+, \w+\) in .*enumerate"))
    show("3d counters", matching(r"^\s+\w+ \+= (1|COLUMN);|^\s+\S+ = \S+\.saturating_add\("))


def by_hand():
    show("4a tests and conversions by hand", [f"{n}: {f}({p}) -> {r}" for n, f, p, r, _ in FUNCTIONS
         if re.fullmatch(r"is|of|name|number|number_at|answer|same|is_same|are_same|is_done|is_held|is_ready|is_accepted|is_phase|phase_of|is_in|is_open|holds|kind_of|fixes|ranks_first|listed|is_blank|is_column|worth", f)])


def facts():
    counts = collections.Counter()
    for _, _, _, _, clauses in FUNCTIONS:
        for fact in set(re.findall(r"(?:requires|ensures)\s*\w*\s*\{(.*)\}\s*$", clauses, re.M)):
            for part in fact.split("×"):
                part = part.strip(" ()")
                if "result" not in part or "HasPast" in part:
                    counts[re.sub(r"\b(self|session)\.(old|new|now)", "it", re.sub(r"\b(layout|place)\.(now|old)", r"\1", part))] += 1
    show("5a facts in three contracts or more", [f"{n} x {fact}" for fact, n in counts.most_common() if n >= 3])
    pairs = collections.Counter()
    for _, _, parameters, _, _ in FUNCTIONS:
        given = sorted(set(re.findall(r"\b(\w+): ", parameters)))
        for i, one in enumerate(given):
            for other in given[i + 1:]:
                pairs[(one, other)] += 1
    show("5b parameters together in four functions or more", [f"{n} x {a}, {b}" for (a, b), n in pairs.most_common() if n >= 4])


def buffers():
    show("6a arrays", matching(r"\[[A-Za-z_0-9:<>&\[\]]+; [A-Z_a-z0-9]+\]"))
    show("6b lengths beside", matching(r"^\s+(pub(\(crate\))? )?(count|len|resource_count|steps|inputs|place): usize,"))


def switches():
    show("7a `match`", matching(r"\bmatch "))
    show("7b closures", matching(r"[(,]\s*(move )?\|[\w&]*(, \w+)*\| ?"))


def proofs():
    if COMMIT:
        listed = run("git", "ls-tree", "-r", "--name-only", COMMIT, "crates").split()
    else:
        listed = run("git", "ls-files", "crates").split()
    answers = [name for name in listed if "/proofs/" in name and name.endswith("Answers.antt")]
    invariants = [name for name in listed if "/proofs/" in name and name.endswith("Invariants.antt")]
    lines = sum(text(name).count("\n") for name in listed if "/proofs/" in name and name.endswith(".antt"))
    lemmas = sum(len(re.findall(r"^\s*(?:pub )?[a-z]\w* : ", text(name), re.M)) for name in listed if "/proofs/" in name and name.endswith(".antt") and "Answers" not in name)
    print(f"8 files of answers: {len(answers)}, of invariants: {len(invariants)}; lines in proofs/: {lines}; lemmas in proofs/: {lemmas}")


enums()
twins()
loops()
by_hand()
facts()
buffers()
switches()
proofs()
