#!/usr/bin/env python3
"""Lists the places of src/ where an older form may stand, point by point: docs/DESIGN-PASS.md says which of them are meant.

    python3 tools/places.py [-v] [ROOT]

Prints a count for each point; with -v each place too. A place found is a place to look at, no verdict.
"""
import collections
import glob
import re
import sys

verbose = "-v" in sys.argv
roots = [a for a in sys.argv[1:] if a != "-v"]
root = roots[0] if roots else "."
FILES = {
    f[len(root) + 1:]: open(f).read()
    for f in sorted(glob.glob(root + "/crates/*/src/**/*.rt", recursive=True))
}


def code(text):
    """The text without clauses and comments."""
    return re.sub(r"^ *(//|ghost |requires|ensures|→|×|\(λ).*$", "", text, flags=re.M)


def lines(pattern):
    found = []
    for name, text in FILES.items():
        for i, line in enumerate(code(text).split("\n"), 1):
            if re.search(pattern, line):
                found.append(f"{name}:{i}: {line.strip()}")
    return found


FUNCTION = re.compile(r"^( *)(?:pub(?:\(crate\))? )?fn (\w+)(?:<.*?>)?\((.*?)\)( -> [^{]*?)?(?:\n\1    (?:requires|ensures)[^\n]*(?:\n\1 {8}[^\n]*)*)*\s*\{\n(.*?)^\1\}", re.M | re.S)


def functions():
    for name, text in FILES.items():
        for m in FUNCTION.finditer(text):
            yield name, m.group(2), m.group(3), m.group(5), m.start()


def twins():
    """Functions whose bodies are alike but for names of types, constants and strings."""
    shapes = collections.defaultdict(list)
    for name, fn, _, body, _ in functions():
        flat = re.sub(r"//.*", "", body)
        flat = re.sub(r"\b\d[\d_a-fx]*\b|\"[^\"]*\"", "0", flat)
        flat = re.sub(r"\b[A-Z]\w*(::\w+)?", "T", flat)
        flat = re.sub(r"\s+", " ", flat).strip()
        if len(flat) > 30 and "assert" not in flat and "_tests/" not in name:
            shapes[flat].append(f"{name}: {fn}")
    return [" ~ ".join(v) for v in shapes.values() if len(v) > 1]


def twin_types():
    """Structs with the same fields but for their types."""
    shapes = collections.defaultdict(list)
    for name, text in FILES.items():
        for m in re.finditer(r"^(?:pub )?struct (\w+)[^{;]*\{\n(.*?)^\}", text, re.M | re.S):
            fields = tuple(re.findall(r"^ +(?:pub )?([a-z_]+): [^{]*$", re.sub(r"^ *ghost.*$", "", m.group(2), flags=re.M), re.M))
            shapes[fields].append(f"{name}: {m.group(1)}")
    return [" ~ ".join(v) for v in shapes.values() if len(v) > 1]


def repeated_clauses():
    """Clauses that stand in three or more functions of a crate, and parameters that travel together in three or more."""
    clauses = collections.defaultdict(set)
    together = collections.defaultdict(set)
    for name, text in FILES.items():
        crate = name.split("/")[1]
        if crate.endswith("_tests"):
            continue
        for m in re.finditer(r"^( *)(?:pub )?fn (\w+)(.*?)^\1\}", text, re.M | re.S):
            fn = f"{name}: {m.group(2)}"
            head = m.group(3)
            for c in re.findall(r"^ *(?:requires|ensures)(?: \w+)? \{ (.*?) \}$", head, re.M):
                flat = re.sub(r"\b\d+\b", "0", c)
                flat = re.sub(r"\b(self|rows|reader|text|ready|outcomes|log|stages|arb|jobs)\b", "x", flat)
                clauses[(crate, flat)].add(fn)
            params = re.match(r"(?:<.*?>)?\((.*?)\)", head, re.S)
            if params:
                ps = [re.sub(r"\s+|mut ", " ", p).strip() for p in re.split(r",\s*", params.group(1)) if ":" in p]
                ps = [p for p in ps if not p.startswith("rt:")]
                for i in range(len(ps)):
                    for j in range(i + 1, len(ps)):
                        together[(crate, ps[i], ps[j])].add(fn)
    found = []
    for (crate, c), fns in sorted(clauses.items()):
        if len(fns) >= 3:
            found.append(f"{crate}: clause {c} in {len(fns)}")
    for (crate, a, b), fns in sorted(together.items()):
        if len(fns) >= 3:
            found.append(f"{crate}: parameters {a}, {b} in {len(fns)}")
    return found


def answers():
    found = []
    for f in sorted(glob.glob(root + "/crates/*/proofs/**/*.antt", recursive=True)):
        for m in re.finditer(r"^(?:abbrev )?pub ([^ ]+) : goal\.", open(f).read(), re.M):
            found.append(f"{f[len(root) + 1:]}: {m.group(1)}")
    return found


def lemmas():
    return [
        f"{f[len(root) + 1:]}: {m.group(1)}"
        for f in sorted(glob.glob(root + "/crates/*/proofs/*.antt"))
        for m in re.finditer(r"^ *(?:pub )?([\w·'-]+) : .*→", open(f).read(), re.M)
    ]


POINTS = [
    ("1. enums of one's own, flags, numbers for kinds and refusals", lambda: lines(
        r"^ *(pub(\(crate\))? )?enum |^ +(pub )?[a-z_]+: bool,|usize::MAX|unwrap_or\(0\)|=> (Some\(|Ok\()?[0-9]+\)?,|late: u64|kind: u8|^ +[012] => |bool\) ->|Result<bool")),
    ("2. twins: functions", twins),
    ("2. twins: types", twin_types),
    ("3. loops over an index", lambda: lines(r"for [a-z_]+ in [^{]*\.\.|\bwhile |\bat -= 1")),
    ("4. equality, order, copies, conversion and printing by hand", lambda: lines(
        r"fn (\w+_of|\w+_byte|\w+_on|number|told|tell_\w+|from|is_served|is_idle|add_outcome|add_line|sooner|longer)(<.*>)?\(|platform: self|cores: self|Ok\((\w+)\) => Ok\(\1\)|Err\((\w+)\) => (return )?Err\(\2\)")),
    ("5. facts in three or more contracts, parameters that travel together", repeated_clauses),
    ("6. buffers with a length, parallel arrays, searches by hand, indices", lambda: lines(
        r"\[[A-Za-z0-9:]+; *[A-Z0-9_]+\]|len: u(8|16|32|size)|\[u8; 20\]|return (Some\()?[ik]\b|\b(rows|outcomes|log|stages|items|jobs)\[\*?[a-z]+\]")),
    ("7. switches on a step, tables of functions", lambda: lines(r"\bdyn |: fn\(|match (step|turn)\b|_first: bool|enum Step")),
    ("8. answers", answers),
    ("8. lemmas", lemmas),
]

for title, find in POINTS:
    places = find()
    print(f"{title}: {len(places)}")
    if verbose:
        for place in places:
            print("   ", place)
