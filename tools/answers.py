#!/usr/bin/env python3
"""Takes each answer of a crate's proofs away once, and leaves it out where the check still proves the crate.

    python3 tools/answers.py CRATE [MINUTES]

An answer is a definition of proofs/F/Answers.antt that names a goal. Run it in a clone, at the top, with all committed: it
edits files and prints what it left out.
"""
import glob
import os
import re
import subprocess
import sys
import time

crate = "crates/" + sys.argv[1]
end = time.time() + 60 * float(sys.argv[2] if len(sys.argv) > 2 else 60)
HEAD = r"(pub |abbrev |use |-- |module |[a-z_][\w'·-]* :)"


def proved():
    said = subprocess.run(["rt", "check"], cwd=crate, capture_output=True, text=True).stdout
    return bool(re.search(r"^logic=proved", said[-600:], re.M))


def answers(text):
    """The lines of a file, and the name and lines of each answer in it."""
    lines = text.split("\n")
    found = []
    for i, line in enumerate(lines):
        m = re.match(r"pub ([^ ]+) : goal\.", line)
        if m:
            j = i + 1
            while j < len(lines) and not re.match(HEAD, lines[j]):
                j += 1
            found.append((m.group(1), i, j))
    return lines, found


def try_file(path):
    """Tries each answer of a file: how many were tried, and how many are left out."""
    tried = gone = kept = 0
    while time.time() < end:
        text = open(path).read()
        lines, found = answers(text)
        if kept >= len(found):
            break
        name, i, j = found[kept]
        rest = "\n".join(lines[:i] + lines[j:])
        if len(found) == 1:
            os.remove(path)
        else:
            open(path, "w").write(rest)
        tried += 1
        if proved():
            gone += 1
            print("left out:", path, name, flush=True)
            if len(found) == 1:
                break
        else:
            open(path, "w").write(text)
            kept += 1
    return tried, gone


if not proved():
    sys.exit("not proved as it stands")
total = [try_file(path) for path in sorted(glob.glob(crate + "/proofs/**/Answers.antt", recursive=True))]
print("tried", sum(t for t, _ in total), "left out", sum(g for _, g in total), "" if time.time() < end else "(time is up)")
