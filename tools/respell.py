#!/usr/bin/env python3
"""Spells the repository's own definitions, fields and lemmas in snake case, as today's Rattle asks: `noneEntry` becomes
`none_entry`, `has-at` becomes `has_at`. Run once, at the top, after the kit's port.py.

usage: tools/respell.py [--table]

Every name that a file of specs/ or a file of lemmas declares, and that has a capital inside or a dash, gets its new
spelling in the proofs, the clauses, the must-fail edits and the pages. A type and a module keep their spelling. A lemma
that would have a definition's name gets `_lem`.
--table prints the old and the new names and writes nothing.
"""
import collections
import glob
import os
import re
import sys

QUIET = re.compile(r'"(?:[^"\\\n]|\\.)*"|(?<![^\s(){}.;,@"«»])--[^\n]*|\{-.*?-\}', re.S)
WORD = re.compile(r"[^\s(){}.;,@\"«»`\[\]|/\\*:=]+")
SIGNATURE = re.compile(
    r"^(\s*)((?:unfoldable |abbrev |pub |private )*)((?:record|data|ruleset|syntax) )?([^\s(){}.;,@\":=]+(?: [^\s(){}.;,@\":=]+)*?) "
    r"?((?:[({][^:]*:[^)}]*[)}] ?)*):(?= |$)(.*)"
)
FROM = re.compile(r"^\s*(?:ghost |pub |unfoldable )*use ([^\s{]+)\.\{([^}]*)\}", re.M)
USE = re.compile(r"use Rattle\.(\w+)\.(specs|proofs)\.(\w+)\.\{([^}]*)\}")
NO_NAMES = {"unfoldable", "abbrev", "pub", "private", "let", "in", "where", "λ", "use", "mod"}


def read(path):
    with open(path, encoding="utf-8", newline="") as f:
        return f.read()


def code_of(text):
    return QUIET.sub(lambda m: re.sub(r"[^\n]", " ", m[0]), text)


def declared(files):
    """Each declared name with the files that declare it."""
    names = collections.defaultdict(list)
    for path in files:
        for line in code_of(read(path)).split("\n"):
            m = SIGNATURE.match(line)
            for name in m[4].split() if m else ():
                if name not in NO_NAMES and re.fullmatch(r"[A-Za-z0-9_\-'₀-₉]+", name):
                    names[name].append(path)
    return names


def snake(name):
    name = name.replace("getD", "get_or")
    name = re.sub(r"(?<=[a-z0-9'])([A-Z]+)(?![a-z])", lambda m: "_" + m[1].lower(), name)
    name = re.sub(r"(?<=[a-z0-9'])([A-Z])", lambda m: "_" + m[1].lower(), name)
    name = re.sub(r"(?<=-)([A-Z])", lambda m: m[1].lower(), name)
    return name.replace("-", "_").replace("__", "_")


def tables(names):
    """The new spelling of each name, and the lemmas, spelled well, that a definition's new name takes its place from."""
    table = {n: snake(n) for n in names if not n[0].isupper() and snake(n) != n}
    met = collections.defaultdict(list)
    for old, new in table.items():
        met[new].append(old)
    aside = {}
    for new, olds in met.items():
        lemmas = [o for o in olds if "-" in o]
        defined = [o for o in olds if "-" not in o]
        if len(olds) > 1:
            for o in lemmas if defined else lemmas[1:]:
                table[o] = new + "_lem"
        elif new in names and lemmas:
            table[olds[0]] = new + "_lem"
        elif new in names:
            aside[new] = new + "_lem"
    return table, aside


def aside_in(path, text, names, aside):
    """Which of the lemmas that give way are declared or imported in the file."""
    here = {n for n in aside if path in names[n]}
    for crate, folder, module, items in USE.findall(text):
        whole = f"crates/{crate}/{folder}/{module}.antt"
        here |= {i.strip() for i in items.split(",") if i.strip() in aside and whole in names[i.strip()]}
    return here


def of_the_kit(text, own):
    """The names that the file imports from the kit: they keep their spelling there."""
    paths = [(path.split("."), items) for path, items in FROM.findall(text)]
    items = [items for path, items in paths if path[0] != "Rattle" or path[1] not in own]
    return {i.strip().split(" as ")[0] for group in items for i in group.split(",")}


def turned(text, table, here, aside, only_code=None):
    def one(m):
        word = m[0]
        if word in here and text[m.start() - 1 : m.start()] != ".":
            return aside[word]
        if word in table and (only_code is None or word in only_code):
            return table[word]
        # In prose a name may stand before a sign.
        bare = word.rstrip("?!")
        return table[bare] + word[len(bare) :] if bare in table and bare != word else word

    return WORD.sub(one, text)


def antt(path, text, names, table, aside):
    here = aside_in(path, text, names, aside)
    known = set(WORD.findall(code_of(text)))
    out, at = [], 0
    for m in QUIET.finditer(text):
        out.append(turned(text[at : m.start()], table, here, aside))
        out.append(m[0] if m[0][0] == '"' else turned(m[0], table, here & known, aside, known))
        at = m.end()
    return "".join(out + [turned(text[at:], table, here, aside)])


def main():
    lemmas = sorted(glob.glob("crates/*/specs/*.antt") + glob.glob("crates/*/proofs/*.antt"))
    names = declared(lemmas)
    table, aside = tables(names)
    own = set(os.listdir("crates"))
    if sys.argv[1:] == ["--table"]:
        for old, new in sorted({**table, **aside}.items()):
            print(f"{old}\t{new}")
        return
    changed = 0
    files = glob.glob("crates/*/specs/**/*.antt", recursive=True) + glob.glob("crates/*/proofs/**/*.antt", recursive=True)
    for path in sorted(files + glob.glob("crates/*/src/**/*.rt", recursive=True) + glob.glob("crates/*/must-fail/*.edit")):
        old = read(path)
        kept = of_the_kit(old, own)
        mine = {o: n for o, n in table.items() if o not in kept}
        if path.endswith(".antt"):
            new = antt(path, old, names, mine, aside)
        else:
            new = turned(old, mine, aside_in(path, old, names, aside) if path.endswith(".rt") else set(), aside)
        if new != old:
            with open(path, "w", encoding="utf-8", newline="") as f:
                f.write(new)
            changed += 1
    for path in sorted(glob.glob("*.md") + glob.glob("docs/**/*.md", recursive=True)):
        old = read(path)
        new = re.sub(r"`[^`\n]+`", lambda m: turned(m[0], table, set(), aside), old)
        if new != old:
            with open(path, "w", encoding="utf-8", newline="") as f:
                f.write(new)
            changed += 1
    print(f"{len(table)} names, {len(aside)} lemmas that give way, {changed} files")


main()
