#!/usr/bin/env python3
"""Brings the repository's own definitions and lemmas to snake case.

usage: python3 tools/respell.py        at the top of a checkout in which port.py has just run

What it renames: the names in lower case that a file of specs/ or proofs/ declares, a field of a record among them, where they
hold a capital letter or a dash. `linesFor` becomes `lines_for`, `nearest-up` becomes `nearest_up`. Types, modules, functions
and parameters of src/, strings and what Rattle makes itself (a proof's goals and steps) keep their names. Where a new name would
fall together with another one, TAKEN says what stands in its place. The names in docs/PROMISES.md follow, and nothing else does.
"""

import glob
import os
import re
import sys

ROOT = sys.argv[1] if len(sys.argv) > 1 else "."
NAME = re.compile(r"[^\W\d][\w'-]*")
DECLARED = re.compile(r"^(\s*)(?:abbrev |unfoldable )?(?:pub )?(?:infix[lr]? \S+ )?([a-z][\w'-]*)(?:\s+[({].*?)?\s:(?:\s|$)")
GOAL = re.compile(r"^(\s*)(?:pub )?([a-z][\w'-]*) : (?:\([^)]*\) → )?tie\.Need-")
LET = re.compile(r"^\s+let\s")
LEMMAS = "by-delivery counted-on decimal-room first-lines heads-in is-last last-number means-at memory-ok places-ok rest-told sets-in short-sets sum-reach"
# A lemma that would have its definition's name gets `_lem`; the others would have the name of a definition elsewhere.
TAKEN = {n: n.replace("-", "_") + "_lem" for n in LEMMAS.split()}
TAKEN |= {"all_digits": "digits_of_all", "all_plain": "plain_to_end", "line_read": "line_read_back", "in_reach": "pv_in_reach", "valid-of": "valid_of_holds"}
# the library's own name of it
KEPT = {"length-map"}


def files(pattern):
    return sorted(p for p in glob.glob(os.path.join(ROOT, pattern), recursive=True) if "/out/" not in p)


def text(path):
    with open(path, encoding="utf-8") as f:
        return f.read()


def goals(lines):
    """What a walk names after Rattle's goals, and the walk itself."""
    found = {m.group(2) for m in map(GOAL.match, lines) if m}
    return found | {m.group(2) for m in map(DECLARED.match, lines) if m and m.group(2).endswith("-spec")}


def declared(path):
    """The names that a file declares, and those among them that are a record's fields."""
    names, fields, inside = set(), set(), False
    for line in text(path).split("\n"):
        if line.strip() and not line.startswith((" ", "--")):
            inside = bool(re.match(r"(pub )?record ", line))
        m = DECLARED.match(line)
        if m and not LET.match(line):
            names.add(m.group(2))
            if inside and m.group(1):
                fields.add(m.group(2))
    return names, fields


def new(name):
    if name in TAKEN:
        return TAKEN[name]
    return re.sub(r"(?<=[a-z0-9'])([A-Z])", lambda m: "_" + m.group(1), name).lower().replace("-", "_")


def old_style(name):
    return name not in KEPT and (name in TAKEN or name[0].islower() and ("-" in name or re.search(r"[A-Z]", name)))


def turned(line, names, fields, camel_only=False):
    def one(m):
        name = m.group(0)
        if name not in names or (camel_only and "-" in name):
            return name
        before = line[: m.start()]
        if before.endswith(".") and not before.endswith("..") and "-" in name and name not in fields:
            return name
        return new(name)

    return NAME.sub(one, line)


def comment_at(line):
    m = re.search(r"(^|\s)--(\s|$)", line)
    return m.start() if m else len(line)


def turn_antt(path, names, fields):
    lines = text(path).split("\n")
    mine = names - (goals(lines) if path.endswith("/Proof.antt") else set())
    done = []
    for line in lines:
        at = comment_at(line)
        said = re.sub(r"`[^`]*`", lambda m: turned(m.group(0), mine, fields), line[at:])
        done.append(turned(line[:at], mine, fields) + said)
    return "\n".join(done)


def turn_rt(path, names, fields):
    """The lines of clauses and of imports for them, and what a comment has in backquotes."""
    done, depth = [], 0
    for line in text(path).split("\n"):
        if line.lstrip().startswith("//"):
            done.append(re.sub(r"`[^`]*`", lambda m: turned(m.group(0), names, fields), line))
            continue
        opens = re.match(r"\s*(pub )?(ghost use |ghost |requires|ensures|invariant)", line)
        if opens or depth > 0:
            depth = max(depth, 0) + line.count("{") - line.count("}")
            if opens and depth <= 0:
                depth = 0
            line = turned(line, names, fields)
        done.append(line)
    return "\n".join(done)


def main():
    proofs = files("crates/*/proofs/**/*.antt")
    walks = [p for p in proofs if p.endswith("/Proof.antt")]
    shared = [p for p in proofs if not p.endswith("/Proof.antt")] + files("crates/*/specs/**/*.antt")
    names, fields = set(), set()
    for path in shared:
        n, f = declared(path)
        names |= n
        fields |= f
    local = {}
    for path in walks:
        n, f = declared(path)
        local[path] = n - goals(text(path).split("\n"))
        fields |= f
    every = set(names).union(*local.values()) if local else names
    names = {n for n in names if old_style(n)}
    changes = {}
    for path in shared + walks:
        mine = names | {n for n in local.get(path, ()) if old_style(n)}
        changes[path] = turn_antt(path, mine, fields)
        # names that fall together in one file
        tokens = set(NAME.findall("\n".join(l[: comment_at(l)] for l in text(path).split("\n"))))
        for n in sorted(tokens & mine):
            if new(n) in tokens:
                print(f"falls together: {os.path.relpath(path, ROOT)}: {n} and {new(n)}")
    for path in files("crates/*/src/**/*.rt"):
        changes[path] = turn_rt(path, names, fields)
        tokens = set(NAME.findall(text(path)))
        for n in sorted(tokens & names):
            if new(n) in tokens:
                print(f"look: {os.path.relpath(path, ROOT)}: {n} and {new(n)}")
    for path in files("crates/*/must-fail/*.edit"):
        # an edit of src/ has functions and parameters of it, an edit of a definition or a proof has names of those
        done, of = [], ""
        for line in text(path).split("\n"):
            if line.startswith("file:"):
                of = line
            if line.startswith(("old:", "new:")):
                line = turned(line, names, fields) if ".antt" in of else turned(line, names, fields, camel_only=True)
            done.append(line)
        changes[path] = "\n".join(done)
    index = os.path.join(ROOT, "docs/PROMISES.md")
    if os.path.exists(index):
        changes[index] = re.sub(r"`[^`\n]*`", lambda m: re.sub(r"([^.`]+)`$", lambda k: turned(k.group(0), names, names), m.group(0)), text(index))
    clash = {}
    for n in sorted(every):
        if old_style(n):
            clash.setdefault(new(n), set()).add(n)
        else:
            clash.setdefault(n, set()).add(n)
    for k, v in sorted(clash.items()):
        if len(v) > 1:
            print(f"two names: {k}: {', '.join(sorted(v))}")
    wrote = 0
    for path, said in changes.items():
        if said != text(path):
            wrote += 1
            if "--dry" not in sys.argv:
                with open(path, "w", encoding="utf-8") as f:
                    f.write(said)
    print(f"respell: {len(names)} names, {wrote} files")


main()
