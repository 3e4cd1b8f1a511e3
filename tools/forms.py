#!/usr/bin/env python3
"""Counts the places of the older forms in crates/*/src/*.rt, for docs/DESIGN-PASS.md.

    python3 tools/forms.py [FOLDER]

A line for each place, then the counts. FOLDER is a checkout, this one if not said.
"""
import collections
import glob
import os
import re
import sys

# A function or a method: indentation, visibility, name, generics, parameters, result, clauses, body.
FUNCTION = re.compile(
    r'^( *)((?:pub(?:\(crate\))? )?(?:extern "C" )?)fn (\w+)(<[^{]*?>)?\((.*?)\)(?: -> ([^\n{]+?))?'
    r"(?: |\n((?:\1 +\S[^\n]*\n)*)\1)\{\n(.*?)^\1\}\n",
    re.S | re.M,
)


def without_comments(text):
    return re.sub(r"//.*", "", text)


def shape(body):
    """A body with every name and number made alike."""
    body = re.sub(r"\b[A-Za-z_]\w*", "x", without_comments(body))
    return re.sub(r"\s+", " ", re.sub(r"\b[0-9][\w.]*", "0", body)).strip()


def places(top):
    files = sorted(glob.glob(os.path.join(top, "crates/*/src/*.rt")))
    named, shaped = collections.defaultdict(list), collections.defaultdict(list)
    facts, runs = collections.Counter(), collections.defaultdict(set)
    for path in files:
        text = open(path).read()
        where = os.path.relpath(path, os.path.join(top, "crates"))
        code = without_comments(text)
        for m in re.finditer(r"enum (\w+) \{(.*?)\n\}", code, re.S):
            if re.search(r"^\s*(No|None|Nothing|Passed|Refused)\b", m[2], re.M):
                yield "1 own Option or Result", f"{where}: enum {m[1]}"
        for m in re.finditer(r"struct (\w+)(?:<[^>]*>)? \{(.*?)\n\}", code, re.S):
            for field in re.findall(r"(\w+): (?:Verdict|bool)\b", m[2]):
                if field in ("verdict", "alphas", "ok", "going", "good", "last", "tested"):
                    yield "1 flag with a value beside it", f"{where}: {m[1]}.{field}"
        for m in re.finditer(r"(?:Refused|No|[nN]o_\w+|refused?)\((?:\d+)\b|return \d+;|=> \d+,\s*$", code, re.M):
            if "/replay/" not in path and "no_saturation(0)" not in m[0]:
                line = code[: m.start()].count("\n") + 1
                if re.search(r"Refused|No\(|no_|refuse|return [1-9]\d", m[0]):
                    yield "1 refusal as a number", f"{where}:{line}: {m[0].strip()}"
        for m in FUNCTION.finditer(text):
            _, head, name, generic, args, result, clauses, body = m.groups()
            crate = where.split("/")[0]
            if "extern" not in head:
                named[name].append((crate, shape(args)))
            shaped[shape(body)].append(f"{crate}::{name}")
            for fact in re.findall(r"requires[^{\n]*\{(.*)\}", clauses or ""):
                for part in fact.split(" × "):
                    facts[re.sub(r"^\(|\)$", "", part.strip())] += 1
            names = [f"{a}: {t}" for a, t in re.findall(r"(\w+): ([^,]+?)(?:,|$)", " ".join(args.split()))]
            for k in range(len(names) - 2):
                runs[", ".join(names[k : k + 3])].add(f"{crate}::{name}")
            if "extern" not in head and result == "u64" and re.search(r"out: &mut \[(u8|f64)\]", args):
                yield "1 number where a Result says more", f"{where}: fn {name}"
        for m in re.finditer(r"struct (\w+) \{([^}]*?\bcount: usize,[^}]*?\[[^\]]*; \d+\][^}]*)\}", code):
            yield "6 a count beside an array", f"{where}: {m[1]}"
        for m in re.finditer(r"match (\w+) \{\n((?:\s+\w+::\w+ => [\w:]+\([^{}]*?\),\n)+)\s*\}", code):
            yield "7 a switch on which step to run", f"{where}: match {m[1]}"
        for m in re.finditer(r"^\s*while (.*?)\{", code, re.M):
            line = code[: m.start()].count("\n") + 1
            yield "3 index counted by hand", f"{where}:{line}: while {m[1].strip()}"
        for m in re.finditer(r"std::num::wrapping_add_u64", code):
            yield "4 library's path in place of a method", f"{where}:{code[: m.start()].count(chr(10)) + 1}"
        for m in re.finditer(r"^struct \w+\(.*?\);|^pub struct \w+\(pub .*?\);", code, re.M):
            yield "4 own tuple", f"{where}: {m[0]}"
        for m in re.finditer(r"let (\w+) = \w+\.(\w+);\n\s*match \1 \{", code):
            yield "4 a field let out to be matched", f"{where}: {m[2]}"
        for m in re.finditer(r"\b(\w+): \1,", code):
            yield "4 field named twice", f"{where}: {m[1]}"
    for name, at in sorted(named.items()):
        alike = collections.Counter(args for _, args in at)
        for args, count in alike.items():
            crates = [crate for crate, a in at if a == args]
            if count > 1:
                yield "2 one name, like arguments, several crates", f"{name}: {', '.join(crates)}"
    for fact, count in facts.items():
        if count >= 3:
            yield "5 a fact in three or more requires", f"{fact} ({count})"
    for names, at in sorted(runs.items()):
        if len(at) >= 3:
            yield "5 three parameters in three or more functions", f"{names} ({len(at)})"
    for body, at in shaped.items():
        if len(at) > 1 and len(body) > 60:
            yield "2 bodies of one shape", ", ".join(at)


def main():
    top = sys.argv[1] if len(sys.argv) > 1 else os.path.join(os.path.dirname(os.path.abspath(__file__)), "..")
    counts = collections.Counter()
    for kind, place in places(top):
        counts[kind] += 1
        print(f"{kind}: {place}")
    print()
    for kind, count in sorted(counts.items()):
        print(f"{count:5} {kind}")


main()
