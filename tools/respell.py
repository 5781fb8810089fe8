#!/usr/bin/env python3
"""Respells this repository's own names in specs/, proofs/ and clauses as today's Rattle spells names.

usage: python3 tools/respell.py [FOLDER]     once, right after the toolchain's port script, in a checkout of the repository

A definition, lemma, field, constructor or module alias of ours that has a dash gets snake case (`record-refusal` becomes
`record_refusal`), and a type or a fact upper camel case (`Opened-is-sound` becomes `OpenedIsSound`). Names that come from
the library, from the code or from the toolchain keep their spelling, and so do strings, inputs and outputs. In comments and
documents a name is respelt where it stands in backticks. A word of the library that the port script brings in under another
of its words (`AllByRecursion as All`), which today's gate refuses, stands under its own name. Prints the names that would fall
together, and then changes nothing.
"""

import collections
import os
import re
import sys

TOKEN = re.compile(r"[^\s(){}\[\];,.:@«»`\"]+")
SIGNATURE = re.compile(r"^\s*(?:(?:pub|abbrev|unfoldable|private|opaque|record|data|module|ruleset|instance)\s+)*([^\s:(){};.,]+(?:\s+[^\s:(){};.,]+)*)\s*(?:\{[^}]*\}\s*|\([^)]*\)\s*)*:(?:\s|$)")
INLINE_FIELD = re.compile(r"record \{\s*([^\s:;{}]+) :")
ALIAS = re.compile(r"\bas\s+([^\s{},;]+)\s*$")
LIBRARY = re.compile(r"use (?!Rattle\.(?:%s)\.)[\w.+'-]+\.\{([^}]*)\}")


ALIASES = {"AllByRecursion as All": ("All", "AllByRecursion"), "ContainsAt as Has": ("Has", "ContainsAt")}


def unaliased(text):
    """Words of the library under their own names, but for what comments say."""
    for line, (short, word) in ALIASES.items():
        if line in text:
            text = re.sub(r"(?<![\w'-])%s(?![\w'-])" % short, word, text.replace(line, word))
    return text


def files(root, ends, folder="crates"):
    for at, dirs, names in os.walk(os.path.join(root, folder)):
        dirs[:] = sorted(d for d in dirs if d not in ("out", "target", ".git"))
        for n in sorted(names):
            if n.endswith(ends):
                yield os.path.join(at, n)


def read(path):
    with open(path, encoding="utf-8") as f:
        return f.read()


# The facts whose names begin in lower case: their values are types.
FACTS = {"moves-on": "MovesOn"}


def respelt(name):
    if name in FACTS:
        return FACTS[name]
    if name[0].isupper():
        return "".join(p[:1].upper() + p[1:] for p in name.split("-"))
    tail = ""
    m = re.match(r"^(.*)-(\++)$", name)
    if m:
        name, tail = m.group(1), "-" + m.group(2)
    name = re.sub(r"(?<=[a-z])([A-Z])", lambda k: "_" + k.group(1).lower(), name)
    return name.replace("-", "_") + tail


def declared(root):
    """The names that our antt files declare, with the files that do."""
    own = collections.defaultdict(set)
    for p in files(root, ".antt"):
        goals = os.path.basename(p) in ("Answers.antt", "Invariants.antt", "Proof.antt")
        for l in read(p).split("\n"):
            l = l.split(" -- ")[0]
            if l.strip().startswith("--"):
                continue
            m = SIGNATURE.match(l)
            if m and not (goals and re.match(r"^(abbrev )?pub ", l)):
                for n in m.group(1).split():
                    own[n].add(p)
            for n in INLINE_FIELD.findall(l):
                own[n].add(p)
            m = ALIAS.search(l)
            if m and l.startswith("use ") and m.group(1) != "goal":
                own[m.group(1)].add(p)
    return own


def ours(root):
    own = declared(root)
    return {n: respelt(n) for n in own if ("-" in n and re.match(r"^[A-Za-z]", n)) or n in FACTS}


def turned(text, names, skip):
    def one(m):
        name = m.group(0)
        made = text[max(0, m.start() - 2):m.start()] == "c." and re.search(r"-\d+$", name)
        return names[name] if name in names and name not in skip and not made else name

    return TOKEN.sub(one, text)


def ticked(text, names):
    """Names in backticks are respelt, but for names of files and commands."""
    return re.sub(r"`([^`\n]+)`", lambda m: "`" + (m.group(1) if re.search(r"\.(script|day)\b|^\./", m.group(1)) else turned(m.group(1), names, ())) + "`", text)


def parts(text, mark):
    """The text as pairs of (is it code?, text): comments after the mark, and strings, are no code."""
    out, at = [], 0
    for m in re.finditer(r'"(?:[^"\\\n]|\\.)*"|' + mark + r"[^\n]*", text):
        out.append((True, text[at:m.start()]))
        out.append((False, m.group(0)))
        at = m.end()
    out.append((True, text[at:]))
    return out


def main(argv):
    root = argv[0] if argv else "."
    crates = sorted(c for c in os.listdir(os.path.join(root, "crates")))
    library = re.compile(LIBRARY.pattern % "|".join(crates))
    names = ours(root)
    everything = set(declared(root))
    clash = False
    by_new = collections.defaultdict(set)
    for old, new in names.items():
        by_new[new].add(old)
        if new in everything and new != old:
            print(f"falls together: {old} and {new}, both ours")
            clash = True
    for new, olds in by_new.items():
        if len(olds) > 1:
            print(f"fall together: {', '.join(sorted(olds))} as {new}")
            clash = True
    changed = []
    for p in files(root, (".antt", ".rt")):
        text = read(p)
        skip = {n.strip() for m in library.finditer(text) for n in m.group(1).split(",")}
        used = set(TOKEN.findall(text))
        for old in sorted(used & set(names)):
            if old in skip:
                print(f"note: {p}: {old} is the library's here, and stays")
            elif names[old] in skip or (names[old] in used and p.endswith(".antt")):
                print(f"look: {p}: {old} becomes {names[old]}, which the file has already")
        text_turned = unaliased(text)
        new = "".join(turned(t, names, skip) if code else (t if t.startswith('"') else ticked(t, names)) for code, t in parts(text_turned, "//" if p.endswith(".rt") else "--(?= |$)"))
        if new != text:
            changed.append((p, new))
    for folder in ("docs", "."):
        for n in sorted(os.listdir(os.path.join(root, folder))):
            p = os.path.join(root, folder, n)
            if n.endswith(".md") and n != "PORT.md" and os.path.isfile(p):
                text = read(p)
                new = ticked(text, names)
                if new != text:
                    changed.append((p, new))
    if clash:
        print("nothing was changed")
        return 1
    for p, new in changed:
        with open(p, "w", encoding="utf-8") as f:
            f.write(new)
    print(f"{len(names)} names, {len(changed)} files")
    return 0


if __name__ == "__main__":
    raise SystemExit(main(sys.argv[1:]))
