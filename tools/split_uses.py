#!/usr/bin/env python3
"""Splits imports that are too long for a line (110 columns, 130 in proofs/) into several of the same module; `rt check
--fix-imports` writes such lines. Run at the top: tools/split_uses.py [CRATE..]
"""
import glob, re, sys

USE = re.compile(r"^(\s*(?:ghost |pub )?use [^{}]+\.\{)([^{}]*)(\};?)$")
n = 0
for c in sys.argv[1:] or [f.split("/")[1] for f in glob.glob("crates/*/")]:
    for f in sorted(f for kind in ("rt", "antt") for f in glob.glob(f"crates/{c}/*/**/*.{kind}", recursive=True)):
        if "/out/" in f:
            continue
        most = 130 if "/proofs/" in f else 110
        lines, out = open(f, encoding="utf-8").read().split("\n"), []
        for l in lines:
            m = USE.match(l)
            if not m or len(l) <= most:
                out.append(l)
                continue
            names, row = [x.strip() for x in m[2].split(",") if x.strip()], []
            for x in names:
                if row and len(m[1] + ", ".join(row + [x]) + m[3]) > most:
                    out.append(m[1] + ", ".join(row) + m[3])
                    row = []
                row.append(x)
            out.append(m[1] + ", ".join(row) + m[3])
            n += 1
        if out != lines:
            open(f, "w", encoding="utf-8").write("\n".join(out))
print(n, "lines split")
