#!/usr/bin/env python3
"""Brings the definitions and lemmas of this repository to today's spelling: words in snake case, so `digit-of` is `digit_of`.

Run once at the top, right after the kit's port.py: python3 tools/spell_names.py
A name of the library keeps its dashes, and so does a name that Rattle makes of a function's steps.
"""
import collections, glob, re, sys

NAME = re.compile(r"(?<![\w◌'₀-₉≤≡+*<-])([^\W\d][\w'₀-₉]*(?:-[\w'₀-₉]+)+)(?![\w◌'-])")
MADE = re.compile(r"(Need|After|At|In|Lts|Then|Else|Own|Inv|invariant|decreases)-|loop-test")
OWN = re.compile(r"Rattle\.(\w+)")


def crates():
    return {l.split(":")[0].split()[0] for l in open("crates.txt") if l.strip() and not l.startswith("#")}


def files():
    for kind in ("antt", "rt", "edit"):
        for f in sorted(glob.glob(f"crates/**/*.{kind}", recursive=True)):
            if "/out/" not in f:
                yield f


def library_names(texts, own):
    """The dashed names that `use` lines bring from anywhere but this repository."""
    names = set()
    for text in texts:
        for m in re.finditer(r"(?ms)^\s*(?:ghost )?use ([\w·.]+?)\.?(\{.*?\}|\*)?(?: as \S+)?;?$", text):
            root = OWN.match(m.group(1))
            if root and root.group(1) in own:
                continue
            names |= set(NAME.findall(m.group(2) or ""))
    return names


def main():
    own = crates()
    texts = {f: open(f, encoding="utf-8").read() for f in files()}
    library = library_names([t for f, t in texts.items() if not f.endswith(".edit")], own)
    used = collections.Counter()
    kept = collections.Counter()

    def turn(m):
        name = m.group(1)
        if name in library or MADE.match(name):
            kept[name] += 1
            return name
        used[name] += 1
        return name.replace("-", "_")

    def in_ticks(m):
        return NAME.sub(lambda n: turn(n) if n.group(1) in declared else n.group(0), m.group(0))

    # what code names, so that a dashed word of plain English in a comment is left alone
    declared = set()
    for f, t in texts.items():
        mark = "--" if f.endswith(".antt") else "//"
        for line in t.splitlines():
            declared |= set(NAME.findall(line.split(mark)[0]))
    for f, t in texts.items():
        lines = []
        for line in t.split("\n"):
            mark = "--" if f.endswith(".antt") or ("/specs/" in t.split("\n")[0] and f.endswith(".edit")) else "//"
            at = line.find(mark)
            code, comment = (line, "") if at < 0 else (line[:at], line[at:])
            if not f.endswith(".edit") or re.match(r"(old|new):", line):
                code = NAME.sub(turn, code)
            lines.append(code + re.sub(r"`[^`]*`", in_ticks, comment))
        new = "\n".join(lines)
        if new != t:
            open(f, "w", encoding="utf-8").write(new)
    print(f"{len(used)} names respelled at {sum(used.values())} places; {len(kept)} kept")
    if "--list" in sys.argv:
        for n in sorted(kept):
            print("kept", n, kept[n])
        for n in sorted(used):
            print("turned", n, used[n])


if __name__ == "__main__":
    main()
