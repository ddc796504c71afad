#!/usr/bin/env python3
"""Spells this repository's own definitions and lemmas as today's Rattle does: words in snake case.

usage: spell_names.py [--list] FOLDER

It was run once, after the kit's port.py, on FOLDER, the top of the repository. In crates/*/{specs,proofs,src} and in the documents it turns
  - names in lower camel case, as codeTaken, to code_taken: definitions, fields and their variables;
  - names of definitions and lemmas of several words with dashes, as begins-next, to begins_next.
Types, facts and modules stay, as do functions, fields and constants of src/, C's names, strings, inputs and outputs.
A name that would fall together with another one in its place is given in SPELLED.
--list prints each name and its new spelling, and changes nothing.
"""
import glob
import os
import re
import sys

# Names that the rule would make equal to another, and words that are no names.
LEMMAS = (
    "all-equal all-met allowed-class at-end body-at code-kept ends-cycle is-equal is-heading last-digit low-end mapped-class "
    "other-calls read-bytes span-stores start-class ticks-counted triggered-in valid-class writable-class xor-of"
)
SPELLED = {name: name.replace("-", "_") + "_lem" for name in LEMMAS.split()}
# Names of one file that port.py has spelled already, and that a name of another file falls together with.
IN_FILES = {
    "crates/pmc330_model/proofs/Theorems.antt": {"answers_agree": "answers_agree_lem"},
    "crates/load/proofs/Theorems.antt": {"all_sound": "all_sound_lem"},
}
STAYS = {"uV"}

EDGE = r"[\s(){}\[\],;.:`'\"|/*~]"
DECLARED = re.compile(
    r"^[ \t]*(?:(?:unfoldable|abbrev|pub|ruleset) )*([^\s(){}\[\],;.:`'\"]+)[ \t]*(?:[({][^\n]*)?:(?!=)", re.M
)
TOKEN = re.compile(r"[^\s(){}\[\],;.:`'\"|/*~]+")


def files(folder, patterns):
    for pattern in patterns:
        yield from sorted(glob.glob(os.path.join(folder, pattern), recursive=True))


def read(path):
    with open(path, encoding="utf-8") as f:
        return f.read()


def snake(name):
    return re.sub(r"(?<=[a-z0-9])([A-Z])", lambda m: "_" + m[1].lower(), name).replace("-", "_")


def spelled(folder):
    """The new spelling of each name that changes."""
    names = set()
    for path in files(folder, ["crates/*/specs/**/*.antt", "crates/*/proofs/**/*.antt"]):
        text = read(path)
        own = path.endswith("Proof.antt")
        declared = set(DECLARED.findall(re.sub(r"^\s*(--|use ).*$", "", text, flags=re.M)))
        # A proof of a function keeps the names of its goals, which the kit gives.
        names |= {n for n in declared if re.fullmatch(r"[a-z][\w-]*'*", n) and "-" in n and not own}
        names |= {t for t in TOKEN.findall(text) if re.fullmatch(r"[a-z][a-z0-9_]*[A-Z][\w-]*'*", t)}
    for path in files(folder, ["crates/*/src/**/*.rt"]):
        names |= {t for t in TOKEN.findall(read(path)) if re.fullmatch(r"[a-z][a-z0-9_]*[A-Z]\w*", t)}
    return {n: SPELLED.get(n, snake(n)) for n in names if n not in STAYS}


def turned(text, new, path):
    def word(m):
        return new.get(m[0], m[0])

    if path.endswith(".md"):
        # Only what a document sets as code.
        return re.sub(r"^```antt\n.*?^```$|`[^`\n]+`", lambda m: TOKEN.sub(word, m[0]), text, flags=re.M | re.S)
    if path.endswith(".rt"):
        # Strings stay.
        return re.sub(r'"(?:[^"\\\n]|\\.)*"|[^\s(){}\[\],;.:`\'"|/*~]+', lambda m: m[0] if m[0][0] == '"' else word(m), text)
    return TOKEN.sub(word, text)


def main():
    only_list = "--list" in sys.argv[1:]
    folder = [a for a in sys.argv[1:] if a != "--list"][0]
    new = spelled(folder)
    if only_list:
        for name in sorted(new):
            print(name, new[name])
        return
    for path in files(folder, ["crates/*/specs/**/*.antt", "crates/*/proofs/**/*.antt", "crates/*/src/**/*.rt", "README.md", "docs/**/*.md"]):
        text = read(path)
        own = IN_FILES.get(os.path.relpath(path, folder), {})
        after = turned(text, {**new, **own}, path)
        if after != text:
            with open(path, "w", encoding="utf-8") as f:
                f.write(after)


main()
