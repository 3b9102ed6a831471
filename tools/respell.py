#!/usr/bin/env python3
"""Brings the repository's own definitions and lemmas to today's spelling, once, after the kit's port.py.

usage: tools/respell.py [--list]      at the top of the repository

A word is in snake case, a type, a fact and a module in camel case. A dash stays where it joins two names (a definition, a field or a
fact on either side), and is an underscore in front of a plain word. Functions of src/, exported names, strings, inputs and outputs
keep their names.
--list prints the table and writes nothing; else the table is written to tools/spelling.tsv, and the must-fail edits follow it too.
"""
import collections
import os
import re
import subprocess
import sys

NAME = r'[^\s(){}.;,@"«»]+'
DECLARED = re.compile(r'^(\s*)((?:(?:pub|abbrev|unfoldable|data|record|ruleset|axiom) )*)(' + NAME + r')((?: (?:\{[^{}\n]*\}|\([^()\n]*\)))*) :(?: |$)(.*)')
RUST = re.compile(r'\b(?:fn|struct|enum|mod|const|static|type|trait) (\w+)|\b(\w+):(?!:)')
# Names that would fall together with another; a lemma that would have a definition's name gets `_lem`.
AGAIN = {"bodyLength": "length_of_body", "no_shift": "no_shift_lem", "only_child": "only_child_lem"}
SMALL = re.compile(r"(^|_)(is|of|at|by|to|from|as|a|the|in|on|for|and|or|no|not|with|than|past)$")


def read(path):
    with open(path, encoding="utf-8") as f:
        return f.read()


def snake(name):
    name = re.sub(r"(?<=[a-z0-9])([A-Z])(?=[a-z0-9])", lambda m: "_" + m[1].lower(), name)
    return re.sub(r"(?<=[a-z0-9])([A-Z])(?![a-z])", lambda m: "_" + m[1].lower(), name)


def is_fact(name):
    return name[:1].isupper()


def declared(files):
    """The names that the .antt files declare, each with the files, but for what answers a goal of a generated proof."""
    found = collections.defaultdict(set)
    for path in files:
        for line in read(path).split("\n"):
            if line.lstrip().startswith(("--", "use ", "pub use ", "open ", "infix", "mod ", "pub mod ")):
                continue
            m = DECLARED.match(line)
            if m and not m[5].startswith("tie.") and "◌" not in m[3]:
                found[m[3]].add(path)
    return found


def imported(files):
    """The names that come from a library that is not the repository's own."""
    found = set()
    for path in files:
        for m in re.finditer(r"^(?:pub |ghost )?use ([^\s{;]+)\{([^}]*)\}", read(path), re.M):
            steps = m[1].split(".")
            if steps[0] != "Rattle" or steps[1] == "std":
                found |= {part.split(" as ")[0].strip() for part in m[2].split(",")}
            else:
                found |= {part.split(" as ")[1].strip() for part in m[2].split(",") if " as " in part}
    return found


def main(argv):
    names = subprocess.run(["git", "ls-files", "crates"], capture_output=True, text=True, check=True).stdout.split()
    antt = [n for n in names if n.endswith(".antt") and os.path.isfile(n)]
    rust = [n for n in names if n.endswith(".rt") and os.path.isfile(n)]
    own, library = declared(antt), imported(antt + rust)
    rust_names = {m[1] or m[2] for n in rust for m in RUST.finditer(read(n))}
    others = {snake(n) for n in own if "-" not in n}
    in_specs = {n for n in own if any("/specs/" in f for f in own[n])}
    plain = {snake(n) for n in in_specs if "-" not in n} | {n for n in library if "-" not in n}

    def spelled(name):
        if name in AGAIN:
            return AGAIN[name]
        parts = name.replace("getD", "get_or").split("-")
        parts = [p if is_fact(p) else snake(p) for p in parts]
        if len(parts) == 1:
            return parts[0]
        if name.startswith("+"):
            return "_".join(parts)
        if is_fact(parts[0]):
            return parts[0] + "-" + "_".join(parts[1:])
        if parts[-1] == "spec":
            return "_".join(parts)
        for at in range(len(parts) - 1, 0, -1):
            left, right = "_".join(parts[:at]), "_".join(parts[at:])
            if left in plain and right in plain and not SMALL.search(left) and not SMALL.search(right):
                return left + "-" + right
        return "_".join(parts)

    table = {}
    for name in sorted(own):
        to = spelled(name)
        if "-" in name and "-" not in to and (to in plain or to in others):
            to += "_lem"
        if to != name and name not in library:
            table[name] = to
    # ---- names that would meet another
    every = collections.defaultdict(set)
    for n in antt:
        for word in set(re.findall(NAME, re.sub(r"(?m)--.*$", "", read(n)))):
            every[word].add(n)
    back = collections.defaultdict(list)
    for name, to in table.items():
        back[to].append(name)
    for to, froms in sorted(back.items()):
        clash = (every.get(to, set()) & set().union(*(every[f] for f in froms))) if to not in table else set()
        if len(froms) > 1 or clash or (to in library):
            both = set.intersection(*(every[f] for f in froms)) if len(froms) > 1 else clash
            print(f"meets: {' '.join(froms)} -> {to}{' (also a library)' if to in library else ''} in {len(clash)}: {sorted(clash)[:3]} both {sorted(both)[:3]}")
    if "--list" in argv:
        for name, to in sorted(table.items()):
            print(f"{name}\t{to}")
        return 0
    back_of = {to: {n: to for n in froms if "-" in n} for to, froms in back.items()}
    word = re.compile(NAME)

    def turn_code(code, after_dot):
        def one(m):
            it = m[0]
            dotted = m.start() and code[m.start() - 1] == "."
            if dotted and "-" in it and not after_dot(code, m.start(), it):
                return it
            return table.get(it, it)
        return word.sub(one, code)

    def in_prose(text):
        text = re.sub(r"`([^`\n]+)`", lambda m: "`" + word.sub(lambda w: table.get(w[0], w[0]), m[1]) + "`", text)
        return re.sub(r"(?<![\w`-])[a-z]+[A-Z]\w*(?![\w-])", lambda m: table.get(m[0], m[0]), text)

    def turn_line(line, antt_file, aliases):
        mark = "--" if antt_file else "//"
        m = re.search(r"(^|\s)" + mark + r"(\s|$|-)", line)
        code, rest = (line[: m.start()], line[m.start() :]) if m else (line, "")
        head = lambda text, at, it: it in own and (re.search(r"(?:^|[\s(])(" + "|".join(map(re.escape, aliases)) + r")\.$", text[:at]) is not None if aliases else False)
        return turn_code(code, head) + in_prose(rest)

    for n in antt:
        text = read(n)
        aliases = re.findall(r"^use Rattle\.\w+\.(?:specs|proofs)\.(?:[A-Z]\w*\.)*[A-Z]\w* as (\S+)$", text, re.M)
        with open(n, "w", encoding="utf-8") as f:
            f.write("\n".join(turn_line(line, True, aliases) for line in text.split("\n")))
    for n in rust:
        lines, inside = read(n).split("\n"), 0
        for i, line in enumerate(lines):
            clause = line.lstrip().startswith(("ghost ", "requires", "ensures", "pub ghost ")) or inside > 0
            if clause:
                inside += line.count("{") - line.count("}")
                lines[i] = turn_line(line, False, [])
            else:
                m = re.search(r"(^|\s)//(\s|$)", line)
                if m:
                    lines[i] = line[: m.start()] + in_prose(line[m.start() :])
        with open(n, "w", encoding="utf-8") as f:
            f.write("\n".join(lines))
    for n in names:
        if n.endswith(".edit"):
            lines = read(n).split("\n")
            for i, line in enumerate(lines):
                if line.startswith(("old: ", "new: ", "right: ")):
                    lines[i] = turn_line(line, "file: src" not in "\n".join(lines), [])
            with open(n, "w", encoding="utf-8") as f:
                f.write("\n".join(lines))
    # ---- fields of records, behind a dot
    dashed = {}
    for n in antt:
        inside = False
        for line in read(n).split("\n"):
            if re.match(r"\s*(pub |abbrev )*record \S", line):
                inside = True
            elif inside and re.match(r"\S", line):
                inside = False
            elif inside:
                m = re.match(r"\s+(?:pub )?([^\s:]+) :", line)
                dashed |= {name: to for name, to in back_of.get(m[1], {}).items()} if m else {}
    for n in antt + rust:
        if not n.endswith("/Proof.antt"):
            text = read(n)
            for name, to in dashed.items():
                text = re.sub(r"(?<=[\w)\]'₀-₉])\." + re.escape(name) + r"(?![^\s(){}.;,@\"«»])", "." + to, text)
            with open(n, "w", encoding="utf-8") as f:
                f.write(text)
    with open("tools/spelling.tsv", "w", encoding="utf-8") as f:
        f.writelines(f"{name}\t{to}\n" for name, to in sorted(table.items()))
    print(f"{len(table)} names")
    return 0


if __name__ == "__main__":
    raise SystemExit(main(sys.argv[1:]))
