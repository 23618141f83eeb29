#!/usr/bin/env python3
"""Spells the repository's own definitions and lemmas as today's Rattle does: words in snake case, types as they were.

usage: python3 tools/respell.py        at the top of the repository, once, on what the kit's port.py wrote

What is declared or bound in specs/ and in the lemma files of proofs/ gets its new name wherever it is named: in .antt files, in the ghost use
lines and clauses of .rt files, and in the docs where it stands between backticks. A lemma whose new name a definition has ends in `_lem`.
Functions of src/, strings, inputs and outputs, names of the library, and names that Rattle makes keep theirs.
"""
import collections
import glob
import re

NAME = r"[A-Za-z_][A-Za-z0-9_'-]*"
DECLARED = re.compile(r"^ *(?:abbrev |unfoldable )?(?:pub )?(?:data |record )?(" + NAME + r")(?: [^=\n]*)? :(?: |$)")
TOKEN = re.compile(r"(?<![A-Za-z0-9_'◌≡-])" + NAME)
STD = re.compile(r"Rattle\.(?:std|core)\.")


def snake(name):
    return name if name[0].isupper() else re.sub(r"([a-z0-9])([A-Z])", lambda m: m.group(1) + "_" + m.group(2).lower(), name).replace("-", "_")


def lemma_files():
    return sorted(glob.glob("crates/*/specs/**/*.antt", recursive=True) + glob.glob("crates/*/proofs/*.antt"))


def split(line):
    """The code of a line, and its comment."""
    m = re.search(r"(?:^|\s)--(?:\s|$)", line)
    return (line[: m.start()], line[m.start() :]) if m else (line, "")


def library(paths):
    """The names that our files take from the library."""
    names = set()
    for path in paths:
        for line in open(path, encoding="utf-8"):
            m = re.match(r"(?:pub |ghost )?use ([^{]*)\{(.*)\}", line.strip())
            if m and "::" not in line and (not m.group(1).startswith("Rattle.") or STD.match(m.group(1))):
                names |= {n.strip().split(" as ")[-1] for n in m.group(2).split(",")}
    return names


def declared(kept):
    """What the lemma files declare or bind, but for the names of the library."""
    first, rest = set(), set()
    for path in lemma_files():
        for line in open(path, encoding="utf-8"):
            line = split(line.rstrip("\n"))[0]
            m = DECLARED.match(line)
            if m:
                first.add(m.group(1))
            if not re.match(r"(?:pub )?use |mod |pub mod ", line):
                rest |= {t for t in TOKEN.findall(line) if t[0].islower() and t != snake(t)}
    return first - kept, rest - first - kept


def renaming(first, rest):
    new, taken = {}, collections.defaultdict(list)
    for name in first | rest:
        taken[snake(name)].append(name)
    for to, those in taken.items():
        those = sorted(those, key=lambda n: (n in rest, "-" in n, not re.search("[A-Z]", n)))
        if len(those) > 2:
            raise SystemExit(f"three names fall together: {those}")
        for name, said in zip(those, (to, to + "_lem")):
            if name != said:
                new[name] = said
    return new


def aliases(text, new):
    """What a file calls by another name, `as otherName`, in the same spelling."""
    for name in re.findall(r" as (" + NAME + r")(?=[,}]|$)", text, re.M):
        if name != snake(name) and not re.search(r"(?<![A-Za-z0-9_'-])" + snake(name) + r"(?![A-Za-z0-9_'-])", text):
            new = {**new, name: snake(name)}
    return new


def code(text, new):
    return TOKEN.sub(lambda m: new.get(m.group(0), m.group(0)), text)


def antt(text, new, plain):
    lines, new = [], aliases(text, new)
    for line in text.split("\n"):
        head, said = split(line)
        lines.append(code(head, new) + code(said, plain))
    return "\n".join(lines)


def rt(text, new, plain):
    lines, depth, new = [], 0, aliases(text, new)
    for line in text.split("\n"):
        bare = line.strip()
        if depth or bare.startswith(("ghost ", "requires ", "ensures ")):
            lines.append(code(line, new))
            depth += line.count("{") - line.count("}")
        elif bare.startswith("//"):
            lines.append(code(line, plain))
        else:
            lines.append(line)
    return "\n".join(lines)


def page(text, new, plain):
    return re.sub(r"`[^`\n]*`", lambda m: code(m.group(0), new), text)


def main():
    kept = library(glob.glob("crates/**/*.antt", recursive=True) + glob.glob("crates/**/*.rt", recursive=True))
    new = renaming(*declared(kept))
    clash = sorted((a, b) for a, b in new.items() if b in kept)
    if clash:
        raise SystemExit(f"the library has these names, and a file of ours takes them: {clash}")
    plain = {a: b for a, b in new.items() if "-" not in a}
    for kinds, turn in ((("crates/**/*.antt",), antt), (("crates/**/*.rt",), rt), (("README.md", "docs/*.md", "bench/*.md"), page)):
        for path in sorted(p for k in kinds for p in glob.glob(k, recursive=True)):
            with open(path, encoding="utf-8") as f:
                text = f.read()
            turned = turn(text, new, plain)
            if turned != text:
                with open(path, "w", encoding="utf-8") as f:
                    f.write(turned)
    print("\n".join(f"{a} -> {b}" for a, b in sorted(new.items()) if b.endswith("_lem")))
    print(f"{len(new)} names")


if __name__ == "__main__":
    main()
