#!/usr/bin/env python3
"""Spells the repository's own definitions, fields and lemmas as today's Rattle does: snake case for all but types and modules.

    tools/respell.py [--list]        --list prints each name and its new spelling, and writes nothing

A dash stays where it joins the names of two functions, as in `length-put_cell`; a lemma that would have a definition's name ends in `_lem`. Names of functions of src/, of generated goals
and steps, and of libraries stay. It ends with an error where two names would fall together in one file.
"""
import collections, glob, os, re, sys

ROOT = os.path.dirname(os.path.dirname(os.path.abspath(__file__)))
TOKEN = r"[^\s(){}\[\].;,@\"«»:|`]+"
WORDS = re.compile(TOKEN)
LIBRARY_WORDS = {"length", "get_or", "set", "take", "drop", "map", "append", "replicate"}
# Heads behind which a name is one that is generated for a proof.
GENERATED = re.compile(r"(?:tie|goal)\.[\w-]*$")


def read(path):
    with open(path, encoding="utf-8") as f:
        return f.read()


def files(kind):
    return sorted(f for f in glob.glob(f"{ROOT}/crates/*/{kind}", recursive=True) if "/out/" not in f)


def code(text):
    return re.sub(r"(?m)(^|\s)--.*$", r"\1", text)


def declared():
    """Each name that a definition, a field or a lemma has, with the files that declare it; and those that are functions of specs/."""
    names, functions = collections.defaultdict(set), set()
    for path in files("specs/**/*.antt") + files("proofs/**/*.antt"):
        for m in re.finditer(rf"(?m)^ *(?:(?:abbrev|unfoldable|pub|private) +)*({TOKEN}(?: {TOKEN})*)(?: *(?:\([^()\n]*\)|\{{[^{{}}\n]*\}}))* :(?=\s)(.*)", code(read(path))):
            if re.match(r"\s*(?:\{M : Type 1\} → )?(?:tie\.|statement)", m.group(2)):
                continue
            for name in m.group(1).split():
                names[name].add(path)
                if "/specs/" in path:
                    functions.add(name)
        for m in re.finditer(rf"\b(?:record|data) ({TOKEN})", code(read(path))):
            names[m.group(1)].add(path)
    return names, functions


def snake(part):
    return part if not part or part[0].isupper() else re.sub(r"(?<=[a-z0-9₀-₉])([A-Z])", lambda m: "_" + m.group(1).lower(), part)


def respelled(name, functions):
    parts = [snake(p) for p in name.replace("′", "'").split("-")]
    if len(parts) == 2 and parts[0] in LIBRARY_WORDS and parts[1] in functions:
        return "-".join(parts)
    return "_".join(parts)


def imported(text, crates):
    """The names that a file has from libraries."""
    found = set()
    for m in re.finditer(r"(?m)\buse ([^\s;{]+?)\.?(?:\{([^}]*)\}|(?= as )|$)", text):
        own = re.match(r"Rattle\.(\w+)\.", m.group(1))
        if (own is None or own.group(1) not in crates) and m.group(2):
            found |= {w.strip().split(" ")[0] for w in m.group(2).split(",")}
    return found


def main():
    crates = {os.path.basename(os.path.dirname(p.rstrip("/"))) for p in glob.glob(f"{ROOT}/crates/*/src/")}
    names, functions = declared()
    functions = {snake(f) for f in functions if "-" not in f}
    # lemmas that have the new spelling of a definition already
    table = {"by_row": "by_row_lem", "best_of": "best_of_lem"}
    # variables
    table |= {"tLen": "t_len", "scratchAfter": "scratch_after", "outAfter": "out_after"}
    taken = {snake(n) for n in names if "-" not in n}
    for name in names:
        if not re.match(r"[A-Za-z]", name) or name[0].isupper():
            continue
        new = respelled(name, functions)
        if "-" in name and new in taken:
            new += "_lem"
        if new != name:
            table[name] = new
    if "--list" in sys.argv:
        print("\n".join(f"{a}\t{b}" for a, b in sorted(table.items())))
    bad = 0
    for path in files("specs/**/*.antt") + files("proofs/**/*.antt"):
        text = re.sub(r"(?m)^use ([^\s{]*)", "", code(read(path)))
        tokens = set(WORDS.findall(text))
        library = imported(text, crates)
        news = collections.defaultdict(set)
        for t in tokens:
            if t not in library:
                news[table.get(t, t)].add(t)
            else:
                news[t].add(t)
        for new, olds in news.items():
            if len(olds) > 1 and any(o in table for o in olds):
                print(f"{os.path.relpath(path, ROOT)}: {', '.join(sorted(olds))} would all be {new}", file=sys.stderr)
                bad += 1
    if bad and "--force" not in sys.argv:
        raise SystemExit(f"{bad} names fall together")
    if "--list" in sys.argv:
        return

    def turn(text, library):
        def word(m):
            return m.group(0) if m.group(0) in library or GENERATED.search(text, max(0, m.start() - 60), m.start()) else table.get(m.group(0), m.group(0))
        return WORDS.sub(word, text)

    def turn_prose(text):
        # in prose a name is a word in camel case, or one between backquotes
        text = re.sub(r"`[^`\n]*`", lambda m: turn(m.group(0), ()), text)
        return WORDS.sub(lambda m: table.get(m.group(0), m.group(0)) if re.search(r"[a-z][A-Z]", m.group(0)) else m.group(0), text)

    for path in files("specs/**/*.antt") + files("proofs/**/*.antt"):
        text = read(path)
        library = imported(code(text), crates)
        new = "".join(turn_prose(p) if i % 2 else turn(p, library) for i, p in enumerate(re.split(r"(?m)((?:^|(?<=\s))--.*$)", text)))
        if new != text:
            open(path, "w", encoding="utf-8").write(new)
    for path in files("src/**/*.rt") + files("must-fail/*.edit"):
        text = read(path)
        library = imported(text, crates)
        new = "".join(turn_prose(p) if i % 2 else turn(p, library) for i, p in enumerate(re.split(r"(?m)(//.*$)", text)))
        if new != text:
            open(path, "w", encoding="utf-8").write(new)
    for path in [f"{ROOT}/README.md"] + sorted(glob.glob(f"{ROOT}/docs/*.md")):
        text = read(path)
        new = turn_prose(text)
        if new != text:
            open(path, "w", encoding="utf-8").write(new)


if __name__ == "__main__":
    main()
