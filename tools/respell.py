#!/usr/bin/env python3
"""Brings the names of this repository's own definitions and lemmas to today's spelling: functions, lemmas and fields in snake case,
types and modules in upper camel case. Run once at the top, after port.py and before any edit by hand:

    python3 tools/respell.py LANDED

LANDED is the commit before port.py. Functions of src/, exported names, strings, inputs and outputs keep their names. It also puts
`#![tactic(auto)]` at the head of each crate's root file, turns the names in the must-fail edits, and those that the pages cite in backticks.
"""

import os
import re
import subprocess
import sys

# values that were spelled as types
OTHERS = {
    "BoolGroup": "bool_group",
    "XorGroup": "xor_group",
    "FunGroup": "fun_group",
    "PairGroup": "pair_group",
    "ByteGroup": "byte_group",
    # lemmas that would have their function's name
    "is_lost": "is_lost_lem",
    "all_pass": "all_pass_lem",
    # a lemma on buffers has the name
    "partLength": "part_len",
}
# a word of code or proof, with the dashes of its name
TOKEN = re.compile(r"(?<![\w'-])[A-Za-z][\w']*(?:-[\w'⊕]+)*")
SIGNATURE = re.compile(r"^\s*(?:(?:abbrev|unfoldable|pub|pattern|data|record|ruleset) )*([^\s:(){}]+)(?: \{[^}]*\})* (?::|\(|=) ?")
KEPT_FILES = {"crates/eliminate/proofs/Turning.antt": {"is_lost"}}


def snake(word):
    """part by part, since a dash joins names: putIn-clears is put_in-clears"""
    return "-".join(part_of(p) for p in word.split("-"))


def part_of(part):
    if part in OTHERS:
        return OTHERS[part]
    if part[:1].islower() and re.search(r"[a-z0-9][A-Z]", part):
        return re.sub(r"([a-z0-9])([A-Z])", r"\1_\2", part).lower()
    return part


def turned(text, kept=()):
    return TOKEN.sub(lambda m: m[0] if m[0] in kept else snake(m[0]), text)


def ghost_parts(text):
    """a source file: strings and plain code stay, since no name there has a capital behind a small letter but types"""
    out, at = [], 0
    for m in re.finditer(r'"(?:[^"\\]|\\.)*"', text):
        out += [rust(text[at : m.start()]), m[0]]
        at = m.end()
    return "".join(out) + rust(text[at:])


def rust(text):
    """camel-case words are ghost names here; the lemmas renamed by OTHERS are cited in ghost lines alone"""
    def one(m):
        w = m[0]
        return snake(w) if re.search(r"[a-z0-9][A-Z]", w) else w

    return TOKEN.sub(one, text)


def names(text):
    out = []
    for line in text.split("\n"):
        m = SIGNATURE.match(line)
        if m and m[1] not in ("let", "in", "module", "open", "use", "--", "infixl", "infixr"):
            out.append(m[1])
    return out


def landed(commit, path):
    r = subprocess.run(["git", "show", f"{commit}:{path}"], capture_output=True, text=True)
    return r.stdout if r.returncode == 0 else ""


def main(commit):
    renamed = {}
    for folder, dirs, files in os.walk("crates"):
        dirs[:] = sorted(d for d in dirs if d not in ("out", ".git"))
        for f in sorted(files):
            path = os.path.join(folder, f)
            if not f.endswith((".antt", ".rt", ".edit")):
                continue
            with open(path, encoding="utf-8") as it:
                old = it.read()
            new = ghost_parts(old) if f.endswith((".rt", ".edit")) else turned(old, KEPT_FILES.get(path, ()))
            if f in ("lib.rt", "main.rt") and "#![tactic(" not in new:
                head = re.match(r"(?://.*\n)*", new)[0]
                new = head + "#![tactic(auto)]\n" + new[len(head) :]
            if new != old:
                with open(path, "w", encoding="utf-8") as it:
                    it.write(new)
            if f.endswith(".antt"):
                a, b = names(landed(commit, path)), names(new)
                if len(a) == len(b):
                    renamed.update({x: y for x, y in zip(a, b) if x != y})
    pages = ["README.md"] + ["docs/" + f for f in sorted(os.listdir("docs")) if f.endswith(".md")]
    pages += ["docs/changes/" + f for f in sorted(os.listdir("docs/changes"))]
    for path in pages:
        with open(path, encoding="utf-8") as it:
            old = it.read()
        new = re.sub(r"`[^`\n]+`", lambda m: TOKEN.sub(lambda w: renamed.get(w[0], w[0] if "/" in m[0] else snake(w[0]) if w[0] not in OTHERS else w[0]), m[0]), old)
        if new != old:
            with open(path, "w", encoding="utf-8") as it:
                it.write(new)
    for x in sorted(renamed):
        print(x, renamed[x])


main(sys.argv[1])
