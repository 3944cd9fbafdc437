#!/usr/bin/env python3
"""Brings the repository's own definitions and lemmas to snake case, and its theorems to upper camel case.

    python3 tools/respell.py [--dry]

Run once at the top of the repository, right after port.py. A name that a file of specs/ or proofs/ declares with a dash or
in lower camel case becomes snake case (`queue-meaning`: `queue_meaning`, `planOf`: `plan_of`); one that begins with a
capital becomes upper camel case (`The-box-under-the-queue`: `TheBoxUnderTheQueue`). Names that the check itself makes
(goals, steps, labels) and names of the library stay. Functions, types and text of src/ stay; their clauses follow.
"""
import collections
import glob
import re
import sys

WORD = r"[A-Za-z_0-9'′·\-]+"
# a dash before or after these is no part of a name
TOKEN = re.compile(r"(?<![A-Za-z_0-9'′·\-])(" + WORD + r")")
DECLARED = re.compile(
    r"^\s*(?:abbrev |unfoldable |pub |data |record |elim )*(?:\| )?([A-Za-z][A-Za-z_0-9'′·\-]*)\s*(?:[({].*)?\s:\s(.*)")
MADE = re.compile(r"\b(goal|goals|Given|Goals|Needs|need)\.")
# two names that would fall together, or that need a word of their own
SPECIAL = {
    "head-of": "head_of_lem",
    "in-service": "in_service_lem",
    "none-less": "none_less_lem",
    "offers-below": "offers_below_lem",
    "platform-bytes": "platform_bytes_lem",
    "row-at": "row_at_lem",
    "task-bytes": "task_bytes_lem",
    "task-held": "task_held_lem",
}
# constructors that share a line, and names of lets
MORE = (
    "J-level b-in in-t new-alone no-offer where-at allowed-run new-kept zero-length headed-by true-more "
    "possible-moments spaced-releases one-at-a-time no-idling right-choice never-free limits-kept").split()
# names that port.py gave for its own: one of a definition of the library, two of a definition here
IN_FILE = {
    "crates/argument/proofs/Cover.antt": {"field_own": "own_at"},
    "crates/queue_runs/proofs/Lines.antt": {"line_after": "line_after_lem"},
    "crates/sheets/proofs/LoadedAgain.antt": {"if_ok": "if_ok_lem"},
}


def antt_files():
    return sorted(glob.glob("crates/*/specs/**/*.antt", recursive=True)
                  + glob.glob("crates/*/proofs/**/*.antt", recursive=True))


def wants_change(name):
    return "-" in name or re.match(r"^[a-z][A-Za-z_0-9]*[A-Z]", name)


def respelled(name):
    if name in SPECIAL:
        return SPECIAL[name]
    if name[0].isupper() and len(name.split("-")[0]) > 1 or name.startswith("A-"):
        return "".join(p[:1].upper() + p[1:] for p in name.split("-"))
    name = name.replace("-", "_")
    return re.sub(r"(?<=[a-z0-9])([A-Z])", lambda m: "_" + m[1].lower(), name)


def scan():
    """The names declared, those that the library or the check makes, and the record fields among the first."""
    own, library, fields = collections.OrderedDict(), set(), set()
    for path in antt_files():
        in_record = False
        for line in open(path, encoding="utf-8").read().split("\n"):
            m = re.match(r"^use (\S+?)\.\{([^}]*)\}", line)
            if m:
                if not re.match(r"Rattle\.(?!std\b)", m[1]):
                    for part in m[2].split(","):
                        library.update(w.strip() for w in part.split(" as "))
                continue
            code = line.split("--")[0]
            if re.match(r"^(pub |abbrev |unfoldable )*(record|data) ", code):
                in_record = True
            elif code and not code[0].isspace():
                in_record = False
            m = DECLARED.match(code)
            if not m or re.match(r"^\s*let ", code) or MADE.search(m[2]):
                continue
            name = m[1]
            if not wants_change(name):
                continue
            own.setdefault(name, path)
            if in_record and code[0].isspace():
                fields.add(name)
    return own, library, fields


def replace(text, names, fields):
    def one(m):
        word = m[1]
        new = names.get(word)
        if new is None:
            return word
        if m.start() > 0 and text_ref[0][m.start() - 1] == "." and word not in fields:
            before = text_ref[0][:m.start()]
            # a path of a module names it (B is one, by another name), a field of a value does not
            if not re.search(r"\b(?:B|(?:specs|proofs)(?:\.[A-Za-z_0-9+'-]+)*)\.$", before):
                return word
        return new
    text_ref = [text]
    return TOKEN.sub(one, text)


def main():
    own, library, fields = scan()
    names = {n: respelled(n) for n in [*own, *MORE] if n not in library}
    clashes = collections.defaultdict(set)
    for old, new in names.items():
        clashes[new].add(old)
    for new, olds in sorted(clashes.items()):
        if len(olds) > 1:
            print("fall together:", new, sorted(olds))
    for path in antt_files():
        words = {w for w in TOKEN.findall(open(path, encoding="utf-8").read())}
        for w in sorted(words):
            if w in names and names[w] in words:
                print("already there:", path, w, names[w])
    for n in sorted(own):
        if n in library:
            print("the library's too, left:", n, own[n])
    if "--dry" in sys.argv:
        for n in sorted(names):
            print("  ", n, names[n], "field" if n in fields else "")
        return
    count = 0
    for path in antt_files():
        text = open(path, encoding="utf-8").read()
        here = {**names, **IN_FILE.get(path, {})}
        new = "\n".join(replace(line, here, fields) for line in text.split("\n"))
        if new != text:
            open(path, "w", encoding="utf-8").write(new)
            count += 1
    for path in sorted(glob.glob("crates/*/src/**/*.rt", recursive=True)):
        text = open(path, encoding="utf-8").read()
        parts = re.split(r'("(?:[^"\\\n]|\\.)*")', text)
        new = "".join(p if i % 2 else replace(p, names, fields) for i, p in enumerate(parts))
        if new != text:
            open(path, "w", encoding="utf-8").write(new)
            count += 1
    print(len(names), "names in", count, "files")


main()
