#!/usr/bin/env python3
"""Brings the repository's own definitions and lemmas to the spelling of today's Rattle: usage, once, at the top, after the kit's port.py: tools/respell.py

Words get snake case (use-of: use_of), facts and other types camel case (Smallest-told: SmallestTold), wherever they stand in specs/, proofs/, clauses and, in backticks, the pages.
Beyond the spelling: `first-of` is a tactic's name today and becomes `first_told`, and two of the library's words get their own names in place of an alias.
Not renamed: the goals of Answers.antt and Invariants.antt, the library's names, functions of src/, strings, comments of code. A step or field that the prover names is taken along
where it is spelled as a name of the repository's own: one was (`out-is`), and was mended by hand. An alias of an import is not seen."""

import collections
import glob
import re

DEFINED = re.compile(r"^\s*(?:(?:pub|abbrev|unfoldable|record|data|ruleset) )*([^\s:({]+)\s*(?:\{|\(|:)")
# where a name ends: at anything that no name of antt has inside
NAME = re.compile(r"[^\s(){}\[\],.;:@`\"]+")

# What the rule alone does not say. A bound variable; a name that is a tactic's today; facts in lower case.
BOUND = ["use-number", "site-width", "site-depth", "le-n", "room-count", "pair-count"]
OTHER = {"first_of": "first_told", "first-of": "first_told", "below": "Below", "no-farther": "NoFarther"}
# The library's words under another word of the library's: by their own names.
ALIASES = {"AllByRecursion": "All", "ContainsAt": "Has"}
# Two of the library's names, joined by a dash as the library does.
KEEP = {"slice_get-get_or"}


def texts(*kinds):
    found = []
    for kind in kinds:
        found += glob.glob(kind, recursive=True)
    return sorted(set(found))


def antt():
    return texts("crates/*/specs/**/*.antt", "crates/*/proofs/**/*.antt")


def own_names():
    names = set(BOUND)
    for path in antt():
        for line in open(path, encoding="utf-8"):
            m = DEFINED.match(line)
            if m and "-" in m[1] and not re.search(r":\s*goal\.", line):
                names.add(m[1])
    return names - KEEP


def respelled(name):
    if name in OTHER:
        return OTHER[name]
    if name[0].isupper():
        return "".join(part[0].upper() + part[1:] for part in name.split("-"))
    return name.replace("-", "_")


def turn(text, names, only=None):
    def one(m):
        word = m[0]
        return names.get(word, word) if only is None or word in only else word

    return NAME.sub(one, text)


def code_of(line, mark):
    """The line up to its comment, and the comment."""
    m = re.search(r"(^|\s)" + mark + r"(\s|$)", line)
    return (line, "") if not m else (line[: m.start()], line[m.start() :])


def main():
    names = {name: respelled(name) for name in own_names()}
    alias_of = {alias: name for name, alias in ALIASES.items()}
    spelled = collections.defaultdict(list)
    for old, new in names.items():
        spelled[new].append(old)
    for new, olds in sorted(spelled.items()):
        if len(olds) > 1:
            raise SystemExit(f"fall together: {olds} as {new}")

    for path in antt() + texts("crates/*/src/**/*.rt"):
        is_code = path.endswith(".rt")
        text = open(path, encoding="utf-8").read()
        here = dict(names)
        if re.search(r"Models\.\{[^}]*\bbelow\b", text) or path.endswith("measure/specs/Models.antt"):
            here["below"] = OTHER["below"]
        if "sheet/" in path:
            here["first_of"] = OTHER["first_of"]
        for alias, name in alias_of.items():
            if f"{name} as {alias}" in text:
                text = text.replace(f"{name} as {alias}", name)
                here[alias] = name
        lines = []
        for line in text.split("\n"):
            code, comment = code_of(line, "//" if is_code else "--")
            # a string is not a name
            parts = re.split(r'("(?:[^"\\]|\\.)*")', code)
            parts[::2] = [turn(part, here) for part in parts[::2]]
            if not is_code:
                comment = turn(comment, {k: v for k, v in here.items() if "-" in k and k in names and comment.count("`" + k + "`")})
            lines.append("".join(parts) + comment)
        new = "\n".join(lines)
        if new != open(path, encoding="utf-8").read():
            open(path, "w", encoding="utf-8").write(new)

    # the kit's script leaves the pages as they are, so they may have names that it turned
    defined = set()
    for path in antt():
        defined.update(m[1] for line in open(path, encoding="utf-8") if (m := DEFINED.match(line)))

    def on_page(word):
        new = OTHER[word] if word in OTHER else respelled(word) if "-" in word else word
        return new if new in defined else word

    for path in texts("README.md", "docs/*.md"):
        text = open(path, encoding="utf-8").read()
        new = re.sub(r"`([^`\n]+)`", lambda m: "`" + on_page(m[1]) + "`", text)
        if new != text:
            open(path, "w", encoding="utf-8").write(new)


main()
