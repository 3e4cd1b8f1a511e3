#!/usr/bin/env python3
"""Brings the repository's own definitions and lemmas to today's spelling: words in snake case, types and modules in
upper camel case; in a lemma's name a dash joins two names, and a plain word is added with `_`.
Run once, on a tree that port.py has turned: tools/rename_names.py [--list] ROOT

It rewrites the tokens of .antt and .rt files, the texts of must-fail/*.edit, and names in backticks of the pages.
Functions of src/, exported C names and strings keep theirs: no name of a Rust item is ever a key, since those are in
snake case or begin with a capital. A lemma that would get its definition's name gets `_lem`.
"""
import collections
import os
import re
import sys

WORD = r"[^\s(){}\[\].,;:=`\"«»⌜⌝λ|@\\]"
TOKEN = re.compile(r"[^\s(){}\[\].,;:=`\"«»⌜⌝λ|@\\]+")
HEAD = re.compile(
    r"^(?: *(?:(?:abbrev|unfoldable|pub) +)+|(?=\S))(?:(data|record|ruleset|infix[lr]?|use|mod) +)?(?:pub +)?"
    r"([^\s(){}.,;«»]+)(?= +[:({]| *$)"
)
# the old form's goals, invariants and theorems in a function's own file
OF_A_GOAL = re.compile(r":\s*tie\.|:\s*goal\.|: \{M : Type 1\}")
MEMBER = re.compile(r"^  +(?:pub +)?([a-z][^\s(){}.,;«»]*)(?: +[({].*[)}])? +:\s")
RUST = re.compile(r"\bfn\s+([a-z_0-9]+)")
# tokens of generated names are not ours: goals, steps and their fields
GENERATED = {"Proof.antt", "Answers.antt", "Invariants.antt"}


def texts(root, ends):
    for top in ("crates",):
        for d, ds, fs in os.walk(os.path.join(root, top)):
            ds[:] = sorted(x for x in ds if x not in ("out", ".git"))
            for f in sorted(fs):
                if f.endswith(ends):
                    yield os.path.join(d, f)


def read(p):
    with open(p, encoding="utf-8") as f:
        return f.read()


def snake(word):
    """lnGamma -> ln_gamma; a word that begins with a capital, or has none, stays."""
    if not re.match(r"[a-z]", word):
        return word
    word = re.sub(r"(?<=[a-z0-9])([A-Z]+)(?=[A-Z][a-z])", lambda m: "_" + m[1].lower() + "_", word)
    word = re.sub(r"(?<=[a-z0-9])([A-Z])", lambda m: "_" + m[1].lower(), word)
    return word[0] + word[1:].lower() if re.search("[A-Z]", word) else word


def main(argv):
    listing = "--list" in argv
    root = [a for a in argv if not a.startswith("--")][0]
    own, rust, seen = {}, set(), collections.Counter()
    for p in texts(root, (".rt",)):
        rust |= set(RUST.findall(read(p)))
    for p in texts(root, (".antt",)):
        t = read(p)
        seen.update(TOKEN.findall(t))
        below = os.path.relpath(p, root).split(os.sep)[2:]
        in_function = below[0] == "proofs" and len(below) > 2
        for line in t.splitlines():
            m = HEAD.match(line)
            if m and m[1] not in ("ruleset", "use", "mod") and not (m[1] or "").startswith("infix"):
                chosen = line.startswith(("abbrev invariant", "abbrev decreases"))
                if not in_function or not OF_A_GOAL.search(line) and not chosen:
                    own[m[2]] = below[0]
            elif (m := MEMBER.match(line)) and not in_function:
                own.setdefault(m[1], below[0])
    names = {snake(n) for n in own if "-" not in n} | rust
    plan = {}
    for n in own:
        if "◌" in n or n.startswith("-") or not re.search("[A-Z-]", n):
            continue
        parts = [snake(x) for x in n.split("-")]
        new = parts[0]
        for a, b in zip(parts, parts[1:]):
            joined = (a in names or a[:1].isupper()) and (b in names or b[:1].isupper())
            new += ("-" if joined else "_") + b
        if new != n:
            plan[n] = new
    # a lemma that would fall together with a definition, or with a word that is in use, gets _lem
    to = collections.defaultdict(set)
    for a, b in plan.items():
        to[b].add(a)
    for b, froms in sorted(to.items()):
        defs = [a for a in froms if "-" not in a]
        if len(defs) > 1:
            raise SystemExit(f"fall together: {defs}")
        for a in froms:
            if "-" in a and (defs or b in own or seen[b] and b not in rust):
                plan[a] = b + "_lem"
    for a in LEMMAS:
        if a in own:
            plan[a] = a + "_lem"
    for a, b in plan.items():
        if b in own and plan.get(b, b) == b and b not in STAYS:
            raise SystemExit(f"{a} -> {b}: a name that stands")
    if listing:
        for a, b in sorted(plan.items()):
            print(f"{a} -> {b}")
        return 0

    def turned(t, code=False):
        def word(m):
            it = m[0]
            behind_a_dot = t[m.start() - 1 : m.start()] == "."
            if it not in plan or it in LEMMAS and code or ("-" in it or it in LEMMAS) and behind_a_dot:
                return it
            return plan[it]

        return TOKEN.sub(word, t)

    for p in texts(root, (".antt", ".rt", ".edit")):
        old = read(p)
        new = turned(old, not p.endswith(".antt"))
        if new != old:
            with open(p, "w", encoding="utf-8") as f:
                f.write(new)
    docs = [f for f in sorted(os.listdir(os.path.join(root, "docs"))) if f.endswith(".md") and f != "PORT.md"]
    pages = [os.path.join(root, "README.md")] + [os.path.join(root, "docs", f) for f in docs]
    for p in pages:
        old = read(p)
        new = re.sub(r"`[^`\n]+`", lambda m: turned(m[0]), old)
        if new != old:
            with open(p, "w", encoding="utf-8") as f:
                f.write(new)
    print(f"{len(plan)} names")
    return 0


# lemmas in today's spelling whose definition gets their name
LEMMAS = {"as_plain", "digits_of", "two_in", "units_of"}
# names of locals and of Rust's functions, in other files than the definition
STAYS = {"all_right", "pair_place", "total_right"}

if __name__ == "__main__":
    raise SystemExit(main(sys.argv[1:]))
