#!/usr/bin/env python3
"""Brings this repository's own definitions and lemmas to snake case, after the toolchain's port.py.

usage: python3 tools/respell.py [FOLDER]       FOLDER: the top of a checkout; this one if none is named

Each name with a dash that specs/ or proofs/ define gets underscores for its dashes, in sources, specs, proofs, and in the words
between backticks of the documents. A name that would then be a function's of src/ gets the name in SPECIAL. What stands behind
a dot is a name that the toolchain makes, and stays. Run twice it changes nothing.
"""

import os
import re
import sys

# where the underscored name is a function's of src/, or port.py has garbled the name
SPECIAL = {
    "api-coefficients": "coefficients_by_api",
    "iso-weights": "weights_by_iso",
    "x-coefficients": "coefficients_of_x",
    "api-factor": "factor_by_api",
    "iso-factor": "factor_by_iso",
    "api-gap-row": "gap_row_by_api",
    "iso-gap-row": "gap_row_by_iso",
    "y-compression": "factor_of_y_compression",
    "y-tension": "factor_of_y_tension",
    "x-compression": "factor_of_x_compression",
    "x-tension": "factor_of_x_tension",
    "card-with": "card_of_word",
    "first-outside": "first_figure_outside",
    "pile-fault": "fault_of_pile",
    "with-check": "brace_with_check",
    "with-force": "brace_with_force",
    "x-kind": "kind_of_x",
    "y-kind": "kind_of_y",
    "Known-of": "KnownOf",
    "at_least_lem": "at_least",
    "◌at-least◌": "◌at_least◌",
    "◌at-most◌": "◌at_most◌",
}

DEFINED = re.compile(r"\s*(?:(?:abbrev|unfoldable|pub|record|data|opaque) )*([^\s:(){};.,]+)\s*(?:\([^=]*\)|\{[^=]*\})*\s*: (.*)")
MADE = ("Answers.antt", "Invariants.antt", "Choices.antt", "Proof.antt")


def files(root):
    for folder, dirs, names in os.walk(root):
        dirs[:] = sorted(d for d in dirs if d not in ("out", "target", ".git", "must-fail", "tools"))
        for name in sorted(names):
            if name.endswith((".antt", ".rt", ".md")):
                yield os.path.join(folder, name)


def table(texts):
    renamed = dict(SPECIAL)
    for path, text in texts.items():
        if not path.endswith(".antt"):
            continue
        made = os.path.basename(path) in MADE
        for line in text.splitlines():
            m = DEFINED.match(line)
            if not m or "-" not in m.group(1) or m.group(1).startswith("--"):
                continue
            name, kind = m.group(1), m.group(2)
            if made and re.match(r"(goal|need|rules?|Given)\.", kind):
                continue
            if re.fullmatch(r"[A-Za-z0-9'_]+(-[A-Za-z0-9'_]+)+", name):
                renamed.setdefault(name, name.replace("-", "_"))
    return renamed


def turned(text, renamed):
    names = sorted(renamed, key=len, reverse=True)
    pattern = re.compile(r"(?<![\w'◌.-])(" + "|".join(map(re.escape, names)) + r")(?![\w'◌-])")
    return pattern.sub(lambda m: renamed[m.group(1)], text)


def main():
    root = sys.argv[1] if len(sys.argv) > 1 else os.path.join(os.path.dirname(os.path.realpath(__file__)), "..")
    texts = {}
    for path in files(root):
        with open(path, encoding="utf-8") as f:
            texts[path] = f.read()
    renamed = table(texts)
    # the documents still have the dashes of the names that port.py turned
    spelled = dict(renamed)
    for path, text in texts.items():
        if path.endswith(".antt"):
            for line in text.splitlines():
                m = DEFINED.match(line)
                if m and "_" in m.group(1):
                    spelled.setdefault(m.group(1).replace("_", "-"), m.group(1))
    changed = 0
    for path, text in texts.items():
        if path.endswith(".md"):
            new = re.sub(r"`[^`\n]*`", lambda m: turned(m.group(0), spelled), text)
        else:
            new = turned(text, renamed)
        if new != text:
            changed += 1
            with open(path, "w", encoding="utf-8") as f:
                f.write(new)
    print(f"{len(renamed)} names, {changed} files changed")


main()
