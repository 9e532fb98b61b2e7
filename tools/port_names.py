#!/usr/bin/env python3
"""Brings the repository's own definitions and lemmas to snake case, by the table port_names.tsv beside this script.

usage: tools/port_names.py [FOLDER]      once, at the top (or FOLDER), after port.py

Names of src/ keep their spelling, and so do the goals of a function's own proof (crates/NAME/proofs/FUNCTION/Proof.antt).
A lemma that would fall together with a definition ends in _lem.
"""
import os
import re
import sys

HERE = os.path.dirname(os.path.realpath(__file__))
NAMES = dict(line.rstrip("\n").split("\t") for line in open(os.path.join(HERE, "port_names.tsv"), encoding="utf-8"))

# Lemmas that port.py had turned, and that fall together with a definition now: in the files whose path holds the first word.
FALLEN = [
    ("/proofs/", "flat_step", "flat_step_lem"),
    ("crates/judging/proofs/", "form_in", "form_in_lem"),
    ("crates/delivery/proofs/Deliveries.antt", "copied_at", "copied_at_lem"),
    ("crates/promises/specs/Request11.antt", "left_by", "left_by_lem"),
    ("crates/promises/specs/Request11.antt", "listed_by", "listed_by_lem"),
    ("crates/promise_rules/proofs/FromStreamLaws.antt", "in_bytes", "in_bytes_lem"),
    ("crates/promise_rules/proofs/", "part_bytes", "part_bytes_lem"),
]
TOKEN = re.compile(r"[^\s(){}\[\],;.\"`:=@⟨⟩|'/]+(?:'+(?=[\s(){}\[\],;.]))?")
GOAL = re.compile(r"(?m)^([^\s:]+) : tie\.")
IN_FUNCTION = re.compile(r"/proofs/(?:.+/)?[^/]+/Proof\.antt$")
CODE = re.compile(r"`[^`\n]+`")


def turned(text, kept, path):
    fallen = {a: b for place, a, b in FALLEN if place in path}
    return TOKEN.sub(lambda t: t[0] if t[0] in kept else fallen.get(t[0]) or NAMES.get(t[0], t[0]), text)


def main(root):
    for folder, folders, files in os.walk(root):
        folders[:] = sorted(f for f in folders if f not in (".git", "out", "target", "changes", "data"))
        for name in sorted(files):
            path = os.path.join(folder, name)
            inside = os.path.relpath(path, root)
            code = inside.startswith("crates/") and name.endswith((".rt", ".antt", ".edit"))
            page = name.endswith(".md") and "/" not in inside or inside.startswith("docs/") and name.endswith(".md")
            if not code and not page:
                continue
            with open(path, encoding="utf-8") as f:
                text = f.read()
            kept = set(GOAL.findall(text)) if IN_FUNCTION.search(path) else set()
            if code:
                new = turned(text, kept, inside)
            else:
                new = CODE.sub(lambda c: turned(c[0], kept, inside), text)
            if inside == "crates/promises/specs/Request03.antt":
                new = new.replace("laws.in_bytes\n", "laws.in_bytes_lem\n")
            if new != text:
                with open(path, "w", encoding="utf-8") as f:
                    f.write(new)


if __name__ == "__main__":
    main(sys.argv[1] if len(sys.argv) > 1 else ".")
