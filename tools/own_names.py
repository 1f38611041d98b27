#!/usr/bin/env python3
"""Spells the repository's own definitions and lemmas as today's library does: words in snake case, types in camel case.

usage: tools/own_names.py        at the top of the repository, once, after the kit's port.py

It turns every name that specs/ or proofs/*.antt declares with a hyphen, wherever .rt and .antt files say it, and the
local names of those lemma files. What a file takes from the kit's library keeps its spelling, and so do names that the
check makes (in proofs/F/), functions and strings. It stops, and writes nothing, where two names of one crate would fall
together.
"""
import collections, glob, re, sys

NAME = re.compile(r"[^\W\d][\w']*(?:-[\w']+)+")
DECLARED = re.compile(r"\s*(?:(?:abbrev|unfoldable|pub|record|data)\s+)*([^\W\d][\w']*(?:-[\w']+)+)\s*[:({]")
USE = re.compile(r"^use\s+(\S+?)\.\{(.*?)\}", re.M | re.S)


def turned(name):
    words = name.split("-")
    if name[0].isupper():
        return "".join(w[0].upper() + w[1:] for w in words)
    return "_".join(words)


def split_comment(line):
    at = line.find("--")
    return (line, "") if at < 0 else (line[:at], line[at:])


def main():
    files = {p: open(p, encoding="utf-8").read() for p in sorted(glob.glob("crates/**/*", recursive=True)) if p.endswith((".rt", ".antt")) and "/out/" not in p}
    crates = {p.split("/")[1] for p in files}
    theory = [p for p in files if re.match(r"crates/\w+/(specs|proofs)/[^/]+\.antt$", p)]
    own = {m[1] for p in theory for l in files[p].split("\n") for m in [DECLARED.match(split_comment(l)[0])] if m}

    def foreign(text):
        kept = set()
        for path, names in USE.findall(text):
            head = path.split(".")
            if head[0] != "Rattle" or head[1] not in crates:
                kept.update(NAME.findall(names))
        return kept

    out, said = {}, collections.defaultdict(lambda: collections.defaultdict(set))
    for p, text in files.items():
        kept = foreign(text)
        local = p in theory

        def word(m):
            name = m[0]
            if name in kept or not (name in own or local):
                return name
            said[p.split("/")[1]][turned(name)].add(name)
            return turned(name)

        lines = []
        for line in text.split("\n"):
            if p.endswith(".rt"):
                ghost = re.match(r"\s*(ghost use|requires|ensures|ghost|invariant|decreases)\b", line)
                lines.append(NAME.sub(word, line) if ghost else line)
            else:
                code, comment = split_comment(line)
                lines.append(NAME.sub(word, code) + comment)
        out[p] = "\n".join(lines)
    plain = collections.defaultdict(set)
    for p in theory:
        for name in re.findall(r"(?<![\w'-])[^\W\d][\w']*(?![\w'-])", "\n".join(split_comment(l)[0] for l in files[p].split("\n"))):
            plain[p.split("/")[1]].add(name)
    fall = [f"{c}: {sorted(olds)} would be {new}" for c in said for new, olds in said[c].items() if len(olds) > 1 or new in plain[c]]
    if fall:
        print("names fall together:\n" + "\n".join(fall))
        return 1
    for p in files:
        if out[p] != files[p]:
            open(p, "w", encoding="utf-8").write(out[p])
    print(f"{len({o for c in said.values() for s in c.values() for o in s})} names turned")
    return 0


sys.exit(main())
