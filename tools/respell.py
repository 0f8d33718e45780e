#!/usr/bin/env python3
"""Respells the repository's own names of specs/ and proofs/, once, after port.py: words in snake case.

usage: python3 tools/respell.py     at the top of a tree that port.py has turned

A name is the repository's own where a file of specs/ or proofs/ declares it. Where a lemma and a definition would fall together, the lemma
gets `_lem` behind its name. Functions and fields of src/, strings, inputs and outputs keep their names. Names in comments and papers are
respelled where they stand between backticks.
"""

import collections
import glob
import re
import subprocess
import sys

DECLARED = re.compile(r'^\s*((?:(?:abbrev|unfoldable|pub|ruleset|data|record)\s+)*)([^\s(){}\[\];,"=:]+)\s+(?::|=|where)')
USE = re.compile(r"^\s*(?:pub )?(?:ghost )?use ([^\s{;]+?)(?:\.\{([^}]*)\})?(?: as (\S+?))?;?\s*$")
WORD = re.compile(r"[^\s(){}\[\];,\".`]+")
# the library's, by the same spelling
KEPT = {"and-true", "or-false", "or-true"}
# two names that differ in one letter's case
ALSO = {"type-F": "type_float", "type-f": "type_flag"}
# port.py had respelled these lemmas already, in these files, where a definition of the name stands too
LEMMAS = {
    "by_number": ["season/proofs/Tallies"],
    "found_before": ["records/proofs/Fields"],
    "has_room": ["feed/proofs/Cut"],
    "is_digit": ["values/proofs/Decimals", "sam/proofs/Tags"],
    "value_in": ["values/proofs/Places", "rules/proofs/Texts", "lookup/proofs/Apart"],
    "with_value": ["values/proofs/Places", "values/proofs/Raws", "rules/proofs/Fields", "lookup/proofs/Apart"],
}


def snake(name):
    words = re.sub(r"(?<=[a-z0-9])([A-Z])", r"_\1", name.replace("-", "_"))
    return words.lower()


def is_other(name):
    return re.match(r"[a-z]", name) and name not in KEPT and ("-" in name.strip("-") or re.search("[A-Z]", name))


def read(path):
    with open(path, encoding="utf-8") as f:
        return f.read()


def antt_files():
    for part in ("specs", "proofs"):
        yield from sorted(glob.glob(f"crates/*/{part}/**/*.antt", recursive=True))


def own_names(crates):
    """The names that the repository declares, and every word that stands anywhere."""
    own, words = set(), set()
    for path in antt_files():
        hand = path.endswith("/Proof.antt")
        for line in read(path).splitlines():
            if line.lstrip().startswith("--"):
                continue
            use = USE.match(line)
            if use:
                mine = use[1].split(".")[0] == "Rattle" and use[1].split(".")[1] in crates
                for name in (use[2] or "").split(","):
                    both = name.strip().split(" as ")
                    if mine:
                        own.add(both[0])
                    own.update(both[1:])
                continue
            if hand:
                continue
            words.update(WORD.findall(line))
            declared = DECLARED.match(line)
            if declared:
                own.add(declared[2])
    return {n for n in own if is_other(n)}, words


def renamings(own, words):
    groups = collections.defaultdict(set)
    for name in own:
        groups[snake(name)].add(name)
    to = {}
    for spelled, names in groups.items():
        for name in names:
            met = spelled in words or any("-" not in n for n in names - {name})
            to[name] = spelled + ("_lem" if "-" in name and met else "")
    return to | ALSO


def turn_words(text, to):
    return WORD.sub(lambda m: to.get(m[0], m[0]), text)


def turn_quoted(text, to):
    return re.sub(r"`[^`\n]*`", lambda m: turn_words(m[0], to), text)


def turn_line(line, comment, to):
    """A line of code: names outside strings, and in its comment those between backticks."""
    parts = re.split(r'("(?:\\.|[^"\\])*")', line)
    out = []
    for k, part in enumerate(parts):
        if k % 2:
            out.append(part)
            continue
        at = part.find(comment)
        if at < 0:
            out.append(turn_words(part, to))
        else:
            out.append(turn_words(part[:at], to) + turn_quoted("".join([part[at:]] + parts[k + 1 :]), to))
            break
    return "".join(out)


def turn_file(path, comment, to):
    text = read(path)
    for lemma, places in LEMMAS.items():
        if any(path == f"crates/{p}.antt" for p in places):
            to = to | {lemma: lemma + "_lem"}
    if comment:
        turned = "\n".join(turn_line(l, comment, to) for l in text.split("\n"))
    else:
        turned = turn_quoted(text, to)
    if turned != text:
        with open(path, "w", encoding="utf-8") as f:
            f.write(turned)
    return turned != text


def main():
    crates = {l.split(":")[0].split()[0] for l in read("crates.txt").splitlines() if l.strip() and not l.startswith("#")}
    own, words = own_names(crates)
    to = renamings(own, words)
    for name in sorted(n for n in to if to[n].endswith("_lem")):
        print(f"{name} -> {to[name]}")
    changed = sum(turn_file(p, "--", to) for p in antt_files())
    changed += sum(turn_file(p, "//", to) for p in sorted(glob.glob("crates/*/src/**/*.rt", recursive=True)))
    changed += sum(turn_file(p, "# ", to) for p in sorted(glob.glob("crates/*/must-fail/*.edit")))
    changed += sum(turn_file(p, None, to) for p in sorted(glob.glob("docs/*.md")) + ["README.md"])
    print(f"{len(to)} names, {changed} files")
    for crate in sorted(crates):
        subprocess.run(["rt", "fmt"], cwd=f"crates/{crate}", stdout=subprocess.DEVNULL, check=False)


if __name__ == "__main__":
    sys.exit(main())
