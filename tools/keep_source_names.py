#!/usr/bin/env python3
"""In proof files, spells names that the toolchain makes as it makes them now: a name from the code keeps its underscores.

usage: python3 tools/keep_source_names.py [FOLDER]     once, after tools/respell.py

`put-words-numbered-requires` becomes `put_words-numbered-requires` where the function calls `put_words` and binds `numbered`.
"""

import os
import re
import sys

TOKEN = re.compile(r"[A-Za-z_][\w'+*≤≡ℤℕ-]*")


def read(path):
    with open(path, encoding="utf-8") as f:
        return f.read()


def body(text, name, owner):
    """The text of the function, from its name to the line that closes it."""
    starts = [m.start() for m in re.finditer(r"\bfn %s\b" % re.escape(name), text)]
    if not starts:
        return text
    out = ""
    for at in starts:
        line = text.rfind("\n", 0, at) + 1
        indent = re.match(r"\s*", text[line:]).group(0)
        end = re.search(r"\n%s\}" % indent, text[at:])
        out += text[at:at + end.end()] if end else text[at:]
    return out


WORDS = [
    (re.compile(r"(?<![\w])overflow-(add|sub|mul|neg|div|rem|shl|shr|cast)(?=-)"), r"overflow_\1"),
    (re.compile(r"(?<![A-Za-z0-9_])in-(ok|err|some|none)(?![A-Za-z0-9_])"), r"in_\1"),
    (re.compile(r"(?<![A-Za-z0-9_])(struct|slice|shared)-known"), r"\1_known"),
    (re.compile("\u00b7(?=[0-9])"), "-"),
]


def worded(line):
    """What the toolchain's own words became."""
    for pattern, to in WORDS:
        line = pattern.sub(to, line)
    return line


def made(token, words):
    pieces = token.split("-")
    out, i = [], 0
    while i < len(pieces):
        for j in range(len(pieces), i, -1):
            word = "_".join(pieces[i:j])
            if j > i + 1 and word in words:
                out.append(word)
                i = j
                break
        else:
            out.append(pieces[i])
            i += 1
    return "-".join(out)


def main(argv):
    root = argv[0] if argv else "."
    top = os.path.join(root, "crates")
    n = 0
    for crate in sorted(os.listdir(top)):
        for at, dirs, names in os.walk(os.path.join(top, crate, "proofs")):
            for f in ("Answers.antt", "Invariants.antt"):
                if f not in names:
                    continue
                parts = os.path.relpath(at, os.path.join(top, crate, "proofs")).split(os.sep)
                fn = parts[-1].lstrip("+")
                source = None
                for root_file in ("lib.rt", "main.rt"):
                    for k in range(len(parts), -1, -1):
                        p = os.path.join(top, crate, "src", *[x.lstrip("+") for x in parts[:k]]) + ".rt"
                        if k and os.path.isfile(p):
                            source = p
                            break
                    if source:
                        break
                    p = os.path.join(top, crate, "src", root_file)
                    if os.path.isfile(p):
                        source = p
                        break
                if not source:
                    print("no source:", at)
                    continue
                words = {w for w in re.findall(r"[A-Za-z]\w*", body(read(source), fn, parts[:-1])) if "_" in w} | {fn, "from_residual", "into_iter", "from_output", "as_slice", "as_mut_slice", "try_from"}
                p = os.path.join(at, f)
                text = read(p)
                imported = set()
                for m in re.finditer(r"^use (?![^\n]*\.Goals\.)[^\n]*\{([^}]*)\}", text, re.M):
                    imported |= {x.strip() for x in m.group(1).split(",")}
                new = "\n".join(l if l.startswith("--") or l.startswith("use ") and ".Goals.{" not in l else TOKEN.sub(lambda m: m.group(0) if "-" not in m.group(0) or m.group(0) in imported else made(m.group(0), words), worded(l)) for l in text.split("\n"))
                # arms of a match, imported from the goals
                if new != text:
                    with open(p, "w", encoding="utf-8") as out:
                        out.write(new)
                    n += 1
    print(f"{n} proof files")
    return 0


if __name__ == "__main__":
    raise SystemExit(main(sys.argv[1:]))
