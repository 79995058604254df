"""Lists functions and types that are the same but for names of types, values and numbers.

    python3 docs/history/twins.py [COMMIT]

Reads crates/*/src/*.rt, of a commit or as they lie there. Of each function it takes the body, of each struct and enum the
fields or variants; it puts one word for every name and one for every number and text, and prints the groups of two or more
that then read alike and have at least LEAST words.
"""
import collections
import glob
import re
import subprocess
import sys

LEAST = 8
HEAD = re.compile(r"^( *)(?:pub(?:\(crate\))? )?(?:final )?(fn|struct|enum) (\w+)", re.M)
WORD = re.compile(r"\"(?:[^\"\\]|\\.)*\"|[A-Za-z_]\w*|\d[\w.]*|\S")
KEPT = {"let", "mut", "if", "else", "match", "for", "in", "return", "self", "Self", "Ok", "Err", "Some", "None", "while"}


def sources(commit):
    if commit is None:
        for path in sorted(glob.glob("crates/*/src/*.rt")):
            yield path, open(path).read()
        return
    listed = subprocess.run(["git", "ls-tree", "-r", "--name-only", commit, "crates"], capture_output=True, text=True, check=True)
    for path in listed.stdout.split():
        if re.fullmatch(r"crates/\w+/src/\w+\.rt", path):
            shown = subprocess.run(["git", "show", f"{commit}:{path}"], capture_output=True, text=True, check=True)
            yield path, shown.stdout


def items(text):
    """Each item's line, kind, name and body: what stands in its braces. Clauses and ghost members are left out."""
    text = re.sub(r"^ *(?:requires|ensures|where|ghost)\b.*?(;?)$", r"\1", text, flags=re.M)
    for head in HEAD.finditer(text):
        indent = head.group(1)
        end = re.compile(rf"^{indent}\}}$", re.M).search(text, head.end())
        whole = text[head.end() : end.end()] if end else ""
        opening = re.search(r"(?:^| )\{\n", whole, re.M)
        if opening and ";" not in whole[: opening.start()]:
            yield text.count("\n", 0, head.start()) + 1, head.group(2), head.group(3), whole[opening.end() : -len(indent) - 1]


def shape(body):
    words = WORD.findall(re.sub(r"//.*|#\[.*\]", "", body))
    return tuple(w if w in KEPT or not re.match(r"[\w\"]", w) else ("0" if w[0].isdigit() or w[0] == '"' else "x") for w in words)


def main():
    groups = collections.defaultdict(list)
    for path, text in sources(sys.argv[1] if len(sys.argv) > 1 else None):
        for line, kind, name, body in items(text):
            key = shape(body)
            if len(key) >= LEAST:
                groups[(kind, key)].append(f"{path}:{line} {name}")
    alike = [places for places in groups.values() if len(places) > 1]
    for places in sorted(alike):
        print(", ".join(places))
    print(f"{len(alike)} groups, {sum(len(places) for places in alike)} places")


main()
