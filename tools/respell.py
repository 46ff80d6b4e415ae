#!/usr/bin/env python3
"""Spells the names that this repository's own specs/ and proofs/ declare as the library spells its own.

usage: python3 tools/respell.py [FOLDER]        FOLDER has crates/, README.md and docs/; the default is the current one

A name that begins with a capital is joined in camel case, as 'Handed-out' to 'HandedOut'; any other gets underscores,
as 'refusal-number' to 'refusal_number'. Whole words turn, in proof files, specs, clauses, and the code spans of pages. What stays:
names of Rust, comments' prose and strings, names that a check makes (behind 'goal.' and 'c.', and each answer's own),
and every name that is not declared here. Where a new name would meet another in a file, the script says so and writes nothing.
It is run once, behind the script that turns an older repository to the installed Rattle.
"""

import os
import re
import sys

WORD = r"[A-Za-z_][A-Za-z0-9_'*%+]*(?:-[A-Za-z0-9_'*%+]+)*"
TOKEN = re.compile(r"[^\s(){}\[\].;,@\"«»]+")
SIGNATURE = re.compile(rf"^[ (]*(?:(?:abbrev|unfoldable|pub) )*((?:{WORD} )*{WORD})(?: \{{[^{{}}\n]*\}})* :(?=\s)", re.M)
RECORD = re.compile(rf"\b(?:data|record|ruleset) (?:pub )?({WORD})(?=[\s:])")
ALIAS = re.compile(rf"\bas ({WORD})(?=\s*[,;}}])")
BINDER = re.compile(rf"[({{]((?:{WORD} )*{WORD}) :(?=\s)")
LAMBDA = re.compile(r"λ ([^.λ]*?)\.")
LET = re.compile(rf"\blet ({WORD})(?=\s*[:=])")
ANSWER = re.compile(rf"(?:pub )?({WORD}) : goal\.")
CODE_SPAN = re.compile(r"`[^`\n]+`")
FENCE = re.compile(r"^```.*?^```", re.M | re.S)
KEPT_PREFIX = ("IsPermutation-",)


def files(top, *endings):
    for folder, dirs, names in os.walk(os.path.join(top, "crates")):
        dirs[:] = sorted(d for d in dirs if d not in ("out", "target"))
        for name in sorted(names):
            if name.endswith(endings):
                yield os.path.join(folder, name)


def read(path):
    with open(path, encoding="utf-8") as f:
        return f.read()


def without_comments(text):
    return re.sub(r"--[^\n]*", "", text)


def is_by_goal(path):
    return os.path.basename(path) in ("Answers.antt", "Invariants.antt")


def new_name(name):
    if name[0].isupper():
        return "".join(part[:1].upper() + part[1:] for part in name.split("-"))
    return name.replace("-", "_")


def declared(path, text):
    """The dashed names that a text declares: definitions, lemmas, fields, types, other names of imports, and its variables."""
    text = without_comments(text)
    found = set()
    for group in SIGNATURE.finditer(text):
        found.update(group[1].split())
    for pattern in (RECORD, ALIAS, LET):
        found.update(m[1] for m in pattern.finditer(text))
    for m in BINDER.finditer(text):
        found.update(m[1].split())
    for m in LAMBDA.finditer(text):
        found.update(re.findall(WORD, re.sub(r"\([^()]*\)", "", m[1])))
    if is_by_goal(path):
        found -= {m[1] for m in ANSWER.finditer(text)}
    return {n for n in found if "-" in n and not n.startswith(KEPT_PREFIX)}


def turn_antt(path, text, names, made):
    """Turns the words of code; a comment's words turn too, since a comment names what the code names."""
    out, at = [], 0
    for m in TOKEN.finditer(text):
        word, before = m[0], text[max(0, m.start() - 5) : m.start()]
        if word not in names:
            continue
        if is_by_goal(path) and (re.search(r"(?:^|[^\w'-])[cwlgtv]\.$", before) or before.endswith("goal.") or word in made):
            continue
        out += [text[at : m.start()], names[word]]
        at = m.end()
    return "".join(out) + text[at:]


def turn_rust(text, names):
    out = []
    for piece in re.split(r"(//[^\n]*|\"(?:\\.|[^\"\\])*\")", text):
        if not piece.startswith(("//", '"')):
            piece = TOKEN.sub(lambda m: names.get(m[0], m[0]), piece)
        out.append(piece)
    return "".join(out)


def turn_page(text, names):
    def inner(m):
        return "`" + TOKEN.sub(lambda w: names.get(w[0], w[0]), m[0][1:-1]) + "`"

    parts = []
    at = 0
    for m in FENCE.finditer(text):
        parts.append(CODE_SPAN.sub(inner, text[at : m.start()]))
        parts.append(TOKEN.sub(lambda w: names.get(w[0], w[0]), m[0]))
        at = m.end()
    return "".join(parts) + CODE_SPAN.sub(inner, text[at:])


def main(argv):
    top = argv[0] if argv else "."
    texts = {p: read(p) for p in files(top, ".antt", ".rt")}
    names = {}
    for p, t in texts.items():
        if p.endswith(".antt") or "ghost use" in t:
            if p.endswith(".antt"):
                found = declared(p, t)
            else:
                found = {m[1] for m in ALIAS.finditer(t) if "-" in m[1]}
            names.update((n, new_name(n)) for n in found)
    bad = 0
    olds = {}
    # A clause cannot name a function, so a definition may be called as the function that it describes.
    functions = {m for p, t in texts.items() if p.endswith(".rt") for m in re.findall(r"\bfn (\w+)", t)}
    for old, new in sorted(names.items()):
        if new in olds:
            print(f"meets: {old} and {olds[new]} would both be {new}")
            bad += 1
        olds[new] = old
    made = {p: {m[1] for m in ANSWER.finditer(t)} if is_by_goal(p) else set() for p, t in texts.items()}
    for p, t in texts.items():
        code = without_comments(t) if p.endswith(".antt") else t
        words = {m[0] for m in TOKEN.finditer(code)}
        for old in sorted(words & set(names)):
            if names[old] in words and names[old] not in functions:
                print(f"meets: {p}: {old} would be {names[old]}, which stands there")
                bad += 1
    if bad:
        print(f"respell: {bad} names meet; nothing was written")
        return 1
    changed = 0
    for p, t in texts.items():
        new = turn_antt(p, t, names, made[p]) if p.endswith(".antt") else turn_rust(t, names)
        changed += write(p, t, new)
    pages = [os.path.join(top, "README.md")] + [os.path.join(top, "docs", n) for n in sorted(os.listdir(os.path.join(top, "docs"))) if n.endswith(".md") and not n.startswith("PORT")]
    # A page also says names that were respelled before this script ran.
    whole = {m for t in texts.values() for m in re.findall(r"[A-Za-z_][A-Za-z0-9_']*", t) if "_" in m}
    for p in pages:
        t = read(p)
        old = {w for w in re.findall(WORD, t) if "-" in w and w not in names and new_name(w) in whole}
        names.update((w, new_name(w)) for w in old if w[0].islower())
        changed += write(p, t, turn_page(t, names))
    print(f"respell: {len(names)} names, {changed} files changed")
    return 0


def write(path, old, new):
    if old == new:
        return 0
    with open(path, "w", encoding="utf-8") as f:
        f.write(new)
    return 1


if __name__ == "__main__":
    raise SystemExit(main(sys.argv[1:]))
