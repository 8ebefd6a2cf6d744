#!/usr/bin/env python3
"""Respells the definitions and lemmas that this repository declares in specs/ and proofs/, once, at the top of a checkout.

usage: python3 tools/respell_names.py [ROOT]

Run it after port.py. A name with dashes is respelled as this Rattle spells names: one with a capital in front is a type or a fact and
becomes upper camel case, any other becomes snake case. Names of goals, which Rattle makes, are left as they are, and so is whatever
src/ declares. Names that would fall together with another stand in APART with what they become. Comments of .rt and .antt files are
respelled too. In pages, a name is respelled only between backticks, and pages inside crates/ are left. It prints what falls together
and what it did.
"""

import os
import re
import sys

# names that would fall together with another if they were respelled by the rule
APART = {
    "No-path": "HasNoPath",
    "No-route": "HasNoRoute",
}

# a character that a name of specs/ and proofs/ may have
PART = r"[\w\-'→←₀-₉]"
DECLARED = re.compile(r"(?m)^[ \t]*(?:abbrev |unfoldable )?(?:pub )?(?:abbrev |unfoldable )?(?:record |data |ruleset )?([A-Za-z]" + PART + r"*)(?=\s*[:({\n])")
GOAL = re.compile(r"(?m)^[ \t]*(?:abbrev |unfoldable )?(?:pub )?([A-Za-z]" + PART + r"*)\s+:\s+goal\.")
TYPED = re.compile(r"(?m)^[ \t]*(?:abbrev |unfoldable )?(?:pub )?(?:abbrev |unfoldable )?([A-Za-z]" + PART + r"*(?:-\+\+)?) :")
KIND = re.compile(r"(?m)^[ \t]*(?:pub )?(?:record|data|ruleset) (?:pub )?([A-Za-z]" + PART + r"*)")
ALIAS = re.compile(r"\bas ([A-Za-z][\w']*-" + PART + r"*)")
MADE = re.compile(r"^(invariant|decreases)-loop-|^loop-\w+-(init|preserved|smaller)|^returns-|^(overflow|bounds|offset-bounds|slice-bounds)-")


def files(root, ends):
    for folder, dirs, names in os.walk(root):
        dirs[:] = sorted(d for d in dirs if d not in ("out", ".git"))
        for f in sorted(names):
            if f.endswith(ends):
                yield os.path.join(folder, f)


def read(path):
    with open(path, encoding="utf-8") as f:
        return f.read()


def camel(name):
    return "".join(p[:1].upper() + p[1:] for p in name.split("-"))


def spelled(name):
    if name in APART:
        return APART[name]
    if name[0].isupper():
        return camel(name)
    return "-++".join(p.replace("-", "_") for p in name.split("-++"))


def declared(root):
    names, goals = set(), set()
    for path in files(os.path.join(root, "crates"), (".antt", ".rt")):
        text = read(path)
        for line in re.findall(r"(?m)^(?:ghost )?use .*", text):
            names |= set(ALIAS.findall(line))
        if path.endswith(".antt"):
            goals |= set(GOAL.findall(text))
            names |= set(TYPED.findall(text)) | set(KIND.findall(text))
    return {n for n in names if "-" in n and n not in goals and not MADE.match(n)}, goals


def main(root):
    names, goals = declared(root)
    turn = {n: spelled(n) for n in names}
    back = {}
    for n in sorted(names):
        back.setdefault(turn[n], []).append(n)
    for new, olds in sorted(back.items()):
        if len(olds) > 1:
            print(f"together: {', '.join(olds)} -> {new}")
    word = re.compile(r"(?<!" + PART[:-1] + r"])(" + "|".join(re.escape(n) for n in sorted(names, key=lambda n: (-len(n), n))) + r")(?!" + PART[:-1] + r"])")
    turned = 0
    for path in files(os.path.join(root, "crates"), (".antt", ".rt", ".edit")):
        text = read(path)
        had = set(re.findall(PART + "+", text))
        used = {m for m in word.findall(text)}
        for n in sorted(used):
            if turn[n] in had:
                print(f"look: {os.path.relpath(path, root)}: {n} -> {turn[n]}, which stands there already")
        new = word.sub(lambda m: turn[m[1]], text)
        if new != text:
            turned += 1
            with open(path, "w", encoding="utf-8") as f:
                f.write(new)
    for path in [p for p in files(root, ".md") if os.sep + "crates" + os.sep not in p]:
        text = read(path)
        new = re.sub(r"`[^`\n]+`", lambda m: word.sub(lambda w: turn[w[1]], m[0]), text)
        if new != text:
            turned += 1
            with open(path, "w", encoding="utf-8") as f:
                f.write(new)
    print(f"respelled {len(names)} names in {turned} files")


if __name__ == "__main__":
    main(os.path.abspath(sys.argv[1] if len(sys.argv) > 1 else "."))
