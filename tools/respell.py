#!/usr/bin/env python3
"""Spells the repository's own words in snake case and its own types in upper camel case, as the kit's style has it.

usage: python3 tools/respell.py        at the top of the repository, once, after the kit's port.py

A word is what a file of specs/ or proofs/ declares. Camel case becomes snake case (packFrom: pack_from), a dash in a word of specs/ an
underscore (origin-fits: origin_fits); the dash that joins the names in a lemma's stays. A word into Type gets a capital (byEither: ByEither).
It turns whole words: in the code of .antt files, in the clauses and ghost items of .rt files, and in code spans and bare words of comments
and in code spans of pages, but for the paper's own names there. Nothing in Rust's text, no string, no input and no output is touched.
"""

import glob
import re
import sys

MARKS = r"(?:(?:pattern|unfoldable|abbrev|pub|private|axiom|opaque) )*"
DECLARED = re.compile(r"^( *)(" + MARKS + r")(?:(record|data) )?([^\s(){}:.;,@\"«»]+)((?: [({].*)?) :(?: (.*))?$")
WORD = re.compile(r"[^\s(){}\[\].;:,@\"«»`|&*+<>=/!?#]+")
# Lemmas whose name would be that of the word that they speak of.
LEMMAS = {"same_number": "same_number_lem", "same_place": "same_place_lem", "read_back": "read_back_lem", "same_bytes": "same_bytes_lem", "written_back": "written_back_lem"}
# Names of the paper, which prose keeps.
PAPER = {"pduLength", "maxTouchContacts", "contactFlags", "fieldsPresent", "encodeTime", "frameOffset", "contactCount", "frameCount", "contactId", "eventId", "protocolVersion"}
RUST = re.compile(r"//[^\n]*|b?\"(?:\\.|[^\"\\])*\"|ghost use [^;]*;")


def snake(word):
    return re.sub(r"(?<=[a-z0-9])[A-Z]", lambda m: "_" + m[0].lower(), word)


def files(*patterns):
    return sorted(f for p in patterns for f in glob.glob(p, recursive=True) if "/out/" not in f)


def code(text):
    return "\n".join(line for line in text.split("\n") if not line.strip().startswith("--"))


def declared():
    """The words that the repository declares: word, and of each place the file, whether it is a record or data, and its type."""
    words = {}
    for f in files("crates/*/specs/**/*.antt", "crates/*/proofs/**/*.antt"):
        with open(f, encoding="utf-8") as text:
            for line in text.read().split("\n"):
                m = None if line.strip().startswith("--") else DECLARED.match(line)
                if m:
                    words.setdefault(m[4], []).append((f, m[3], (m[6] or "").split("→")[-1].strip()))
    return words


def aliases():
    """The words by which files import others."""
    found = set()
    for f in files("crates/*/specs/**/*.antt", "crates/*/proofs/**/*.antt"):
        with open(f, encoding="utf-8") as text:
            found.update(re.findall(r"(?<=[\w'-] as )[a-z][a-z0-9]*[A-Z]\w*", code(text.read())))
    return found


def renamed():
    words = declared()
    table = {alias: snake(alias) for alias in aliases()}
    for word, places in words.items():
        new = word
        if word[0].islower() and all(into.startswith("Type") for _, _, into in places):
            new = word[0].upper() + word[1:]
        elif word[0].islower():
            new = snake(word) if not re.search(r"KiB", word) else word
            if "-" in new and all("/specs/" in f for f, _, _ in places):
                new = new.replace("-", "_")
        if new != word:
            table[word] = new
    return table


def turn(table, text):
    return WORD.sub(lambda m: table.get(m[0], m[0]), text)


def prose(table, text):
    return WORD.sub(lambda m: m[0] if m[0] in PAPER else table.get(m[0], m[0]), text)


def antt(table, text):
    return "\n".join(prose(table, line) if line.strip().startswith("--") else turn(table, line) for line in text.split("\n"))


def clause(table, text):
    """The braces that begin at the head of text."""
    depth = 0
    for i, c in enumerate(text):
        depth += (c == "{") - (c == "}")
        if depth == 0:
            return turn(table, text[: i + 1]), text[i + 1 :]
    sys.exit("a clause has no end")


def rust(table, text):
    out = []
    head = re.compile(r"//[^\n]*|b?\"(?:\\.|[^\"\\])*\"|ghost use [^;]*;|\b(?:requires|ensures|ghost)\*?(?: \w+)?(?: ?:)? \{|#\[tactic[^\n]*\]")
    while m := head.search(text):
        out.append(text[: m.start()])
        found = m[0]
        if found.startswith("//"):
            out.append(prose(table, found))
        elif found.startswith(("ghost use", "#[tactic")):
            out.append(turn(table, found))
        elif found.endswith("{"):
            done, text = clause(table, text[m.end() - 1 :])
            out += [found[:-1], done]
            continue
        else:
            out.append(found)
        text = text[m.end() :]
    return "".join(out) + text


def page(table, text):
    return re.sub(r"`[^`\n]+`", lambda m: prose(table, m[0]), text)


def main():
    table = renamed()
    turned = 0
    for f in files("crates/*/specs/**/*.antt", "crates/*/proofs/**/*.antt", "crates/*/src/**/*.rt", "README.md", "docs/*.md", "tests/README.md"):
        with open(f, encoding="utf-8") as text:
            old = text.read()
        mine = table
        if f.endswith(".antt"):
            words = set(WORD.findall(code(old)))
            mine = table | {k: v for k, v in LEMMAS.items() if k in words and any(table.get(w) == k for w in words)}
        new = {".antt": antt, ".rt": rust}.get(f[f.rfind(".") :], page)(mine, old)
        if new != old:
            turned += 1
            with open(f, "w", encoding="utf-8") as text:
                text.write(new)
    for old, new in sorted(table.items()):
        print(f"{old}\t{new}")
    print(f"respell: {len(table)} words in {turned} files", file=sys.stderr)


main()
