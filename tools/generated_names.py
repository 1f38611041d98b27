#!/usr/bin/env python3
"""Spells the names that the check makes as today's check does, in a crate's files below proofs/F/.

usage: rt check --generated FOLDER --old-names      in the crate's folder: FOLDER/names.json has every name of today
       tools/generated_names.py CRATE FOLDER        at the top of the repository

A word of those files that is no name of today is turned where exactly one name of the function, or else of the crate,
is that word with some of its hyphens as `_`; else the names of the code in it are. A name that the file itself declares
goes to snake case. What is left is printed.
"""
import collections, glob, json, re, sys

WORD = re.compile(r"(?<![\w'-])[^\W\d][\w']*(?:[-+][\w']+)+")
USE = re.compile(r"^use\s+(\S+?)\.\{(.*?)\}", re.M | re.S)


def strings(value):
    if isinstance(value, str):
        yield value
    elif isinstance(value, dict):
        for k, v in value.items():
            yield k
            yield from strings(v)
    elif isinstance(value, list):
        for v in value:
            yield from strings(v)


def plain(name):
    return name.replace("_", "-")


def index(names):
    found = collections.defaultdict(set)
    for n in names:
        found[plain(n)].add(n)
    return found


def parted(name, sources):
    """A name, as of a way into a join, with the names of the code in it as the code spells them."""
    for s in sources:
        name = re.sub(rf"(?<![\w']){plain(s)}(?![\w'])", s, name)
    return name


def main(crate, folder):
    said = json.load(open(f"{folder}/names.json"))
    whole = set(strings(said))
    words = {w for n in whole for w in n.split(".")}
    everywhere = index(words)
    code = "\n".join(open(p, encoding="utf-8").read() for p in glob.glob(f"crates/{crate}/src/*.rt"))
    sources = sorted({"in_default", "in_ok", "in_err"} | set(re.findall(r"\b[A-Za-z]+(?:_\w+)+\b", code)), key=len, reverse=True)
    left = collections.Counter()
    for path in sorted(glob.glob(f"crates/{crate}/proofs/*/**/*.antt", recursive=True)):
        text = open(path, encoding="utf-8").read()
        function = path.split("/proofs/")[1].rsplit("/", 1)[0].replace("/", ".")
        own = said.get(f"Rattle-{crate}-proofs.{function}.Lts", {})
        here = index({w for n in strings(own) for w in n.split(".")})
        declared = set(re.findall(r"^\s*(?:abbrev |pub )*([^\W\d][\w'-]*) (?:\([^)]*\) )*[:=]|\blet ([^\W\d][\w'-]*)", text, re.M))
        declared |= {("", w) for bound in re.findall(r"λ ([^.]*)\. ", text) for w in bound.split()}
        declared = {w for pair in declared for w in pair if "-" in w and f"goal.{w}" not in text}
        kept = {w for source, names in USE.findall(text) if ".proofs." + function not in source for w in re.findall(r"[\w'-]+", names)}

        def word(m):
            name = m[0]
            if name in kept or name in words:
                return name
            for names in (here, everywhere):
                to = names.get(plain(name), set())
                if len(to) == 1:
                    return next(iter(to))
                if to:
                    break
            if name in declared:
                return name.replace("-", "_")
            if parted(name, sources) != name:
                return parted(name, sources)
            left[(path, name, tuple(sorted(to)))] += 1
            return name

        new = "\n".join(l if l.lstrip().startswith("--") else re.sub(r"\.-(?=\w)", "._", WORD.sub(word, l)) for l in text.split("\n"))
        if new != text:
            open(path, "w", encoding="utf-8").write(new)
    for (path, name, to), n in left.items():
        print(f"left: {path}: {name} ({n}){' one of ' + ' '.join(to) if to else ''}")


main(*sys.argv[1:])
