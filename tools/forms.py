#!/usr/bin/env python3
"""Lists the places in crates/*/src where an older form may stand, by the points of docs/DESIGN-PASS.md.

    python3 tools/forms.py [POINT] [--counts]

A line that it prints is a place to look at, not a fault: the page says of each kind what became of it.
"""
import glob
import re
import sys
from collections import Counter

# Each point: what is looked for, and by which expression.
LINES = {
    1: [
        ("a flag in a struct", r"^ +(pub(\(\w+\))? )?(found|folded|fold|stopped): bool"),
        ("a function that answers whether it stopped", r"^ *\) -> bool$"),
        ("a refusal or none", r"Option<Refusal>"),
        ("a value that stands for none", r"Neither|== 24\b|best = 24|usize::MAX|unwrap_or\(255\)"),
        ("a number for a word", r"^ +\w+::\w+ => [0-9]+,$"),
    ],
    2: [("an impl for one price kind", r"^impl .* for (Cents|Waits) ")],
    3: [
        ("a loop over a counted index", r"for \w+ in 0\.\."),
        ("a loop over other numbers", r"for \w+ in (\(|[1-9a-z]\w*\.\.)"),
        ("a while loop", r"^ +while "),
        ("a call with a counted index", r"^ +(?!let [a-z]+ = self)(?!(en|re)quires).*\b(number|bay|at|n) [-+] 1\b"),
        ("a call with the depth before", r"\(.*\blast, (plan|next|scratch)|, last\)"),
    ],
    4: [
        ("text made by hand", r"format!\(in"),
        ("a conversion by as", r"[\w)\]] as (u8|u16|u32|usize|i8|i64|u64|u128)\b"),
        ("an order, an equality or a conversion by hand", r"fn (up_to|same|fits|offered|told|copied|marks|trimmed|digit|write_plan)\b"),
    ],
    6: [("a field that is a fixed array", r"^ +(pub(\(\w+\))? )?\w+: \[.*; ?[0-9]+\],$"), ("a length beside", r"^ +(pub(\(\w+\))? )?(len|depth): (usize|u8),$")],
    7: [("a switch", r"\b(counts|keeps): bool|name == \"")],
}


def sources():
    for path in sorted(glob.glob("crates/*/src/*.rt")):
        with open(path, newline="") as file:
            yield path, file.read().split("\n")


def is_clause(line):
    return re.match(r"^ *(requires|ensures|ghost|//)", line)


def found(point):
    for name, pattern in LINES.get(point, []):
        for path, lines in sources():
            for at, line in enumerate(lines, 1):
                if re.search(pattern, line) and not is_clause(line):
                    yield name, f"{path}:{at}: {line.strip()}"


def functions():
    """Each function of the sources: its name, where it stands, and how many parameters it has."""
    for path, lines in sources():
        text = "\n".join(lines)
        for match in re.finditer(r"\bfn (\w+)(<[^(]*>)?\(([^)]*)\)", text):
            parameters = [p for p in match.group(3).split(",") if p.strip()]
            yield match.group(1), path, len(parameters)


def names_that_stand_twice():
    names = {}
    for name, path, _ in functions():
        names.setdefault(name, []).append(path)
    for name, paths in sorted(names.items()):
        if len(paths) > 1:
            yield "a name of several functions", f"{name}: {', '.join(paths)}"


def facts_that_repeat():
    clauses = Counter()
    for _, lines in sources():
        for line in lines:
            match = re.match(r"^ *requires( \w+)? \{ (.*) \}$", line)
            if match:
                clauses[match.group(2)] += 1
    for clause, times in clauses.most_common():
        if times >= 3:
            yield "a fact in three contracts or more", f"{times} {clause}"
    for name, path, parameters in functions():
        if parameters >= 6:
            yield "six parameters or more", f"{path}: {name} {parameters}"


def proofs():
    files = glob.glob("crates/*/proofs/**/*.antt", recursive=True)
    total = sum(len(open(path).read().split("\n")) - 1 for path in files)
    answers = [path for path in files if path.endswith("/Answers.antt")]
    yield "files of answers", str(len(answers))
    yield "lines of proofs", str(total)


def places(point):
    yield from found(point)
    if point == 2:
        yield from names_that_stand_twice()
    if point == 5:
        yield from facts_that_repeat()
    if point == 8:
        yield from proofs()


def main():
    arguments = [a for a in sys.argv[1:] if not a.startswith("-")]
    points = [int(a) for a in arguments] or list(range(1, 9))
    for point in points:
        kinds = Counter()
        for kind, place in places(point):
            kinds[kind] += 1
            if "--counts" not in sys.argv:
                print(f"{point}  {kind}\n     {place}")
            elif point == 8:
                print(f"{point}  {kind}: {place}")
        if "--counts" in sys.argv and point != 8:
            for kind, times in kinds.items():
                print(f"{point}  {kind}: {times}")


main()
