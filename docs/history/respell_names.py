#!/usr/bin/env python3
"""Respells this repository's own definitions and lemmas from dashes to today's spelling, once, right after port.py.

usage: python3 docs/history/respell_names.py      at the top of the checkout

A definition, a field or a lemma that its name makes one phrase takes underscores. A lemma on a pair of definitions keeps
the dash between them (JOINED). Names that Rattle makes (the goals in Answers, Invariants and Choices files), comments and
strings stay as they are. It prints the names that fall together with another one of the same file.
"""

import os
import re

# Lemmas named by the outer and the inner definition of their equation's left side.
JOINED = {
    "bytes-drop": "bytes-drop",
    "bytes-take": "bytes-take",
    "count-append": "count-append",
    "count-front": "count-front",
    "count-in-order": "count-in_order",
    "count-joint": "count-joint",
    "count-past": "count-past",
    "count-put": "count-put",
    "drop-bytes": "drop-bytes",
    "length-in-order": "length-in_order",
    "length-packed": "length-packed",
    "length-put": "length-put",
}
# Parameters and local names, which stand in no declaration of their own.
LOCAL = """
below-stock count-is delays-after kind-is levels-after main-stock other-stock stock-after stock-before version-is
""".split()
DECLARED = re.compile(r"^(\s*)((?:abbrev |unfoldable |pub |data |record )*)([^\s:(){}]+)(?: \{[^}]*\}| \([^)]*\))* :(?! *(?:goal|need)\.)")
NAME = r"(?<![\w'-]){}(?![\w'-])"
SKIPPED = {".antt": re.compile(r'"[^"\n]*"|(?:^|(?<=\s))--[^\n]*', re.M), ".rt": re.compile(r'"(?:\\.|[^"\\])*"|//[^\n]*')}


def texts():
    for folder, dirs, files in os.walk("crates"):
        dirs[:] = sorted(d for d in dirs if d != "out")
        for f in sorted(files):
            if os.path.splitext(f)[1] in SKIPPED:
                yield os.path.join(folder, f)


def declared():
    names = set(LOCAL)
    for path in texts():
        if path.endswith(".antt"):
            with open(path, encoding="utf-8") as f:
                for line in f:
                    m = DECLARED.match(line)
                    if m and "-" in m.group(3) and not m.group(3).startswith("--"):
                        names.add(m.group(3))
    return names


def main():
    new = {n: JOINED.get(n) or n.replace("-", "_") for n in declared()}
    any_name = re.compile(NAME.format("(?:" + "|".join(sorted(map(re.escape, new), key=len, reverse=True)) + ")"))
    for path in texts():
        with open(path, encoding="utf-8") as f:
            old = f.read()
        skip = SKIPPED[os.path.splitext(path)[1]]
        parts, at = [], 0
        for m in list(skip.finditer(old)) + [None]:
            end = m.start() if m else len(old)
            parts.append(any_name.sub(lambda x: new[x.group()], old[at:end]))
            if m:
                parts.append(m.group())
                at = m.end()
        text = "".join(parts)
        if text != old:
            for n in sorted(set(any_name.findall(old))):
                if new[n] != n and re.search(NAME.format(re.escape(new[n])), old):
                    print(f"together: {path}: {n} and {new[n]}")
            with open(path, "w", encoding="utf-8") as f:
                f.write(text)


if __name__ == "__main__":
    main()
