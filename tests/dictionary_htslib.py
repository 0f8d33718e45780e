#!/usr/bin/env python3
"""Holds the numbers of `bin/vcfh dictionary` against htslib's own (bcf_hdr_parse, bcf_hdr_id2int), on the headers of the
recorded cases and on larger ones, and prints what differs; docs/DIFFERENCES.md explains each kind. It needs a C compiler and Debian's libhts-dev; CC and HTS name
others than cc and -lhts. With --model the model's numbers stand for ours."""
import os
import pathlib
import re
import shlex
import subprocess
import sys
import tempfile

import dictionary_model

ROOT = pathlib.Path(__file__).resolve().parent.parent
F = "##fileformat=VCFv4.3\n"
COLUMNS = "#CHROM\tPOS\tID\tREF\tALT\tQUAL\tFILTER\tINFO\n"


def headers():
    for case in (ROOT / "crates" / "cases" / "data" / "dictionaries").read_text().splitlines():
        yield re.sub(r"\\(.)", lambda escape: {"n": "\n", "r": "\r", "t": "\t"}.get(escape[1], escape[1]), case.split("\t")[2])
    for idx in (False, True):
        given = (lambda n: f",IDX={n}") if idx else lambda n: ""
        yield F + "".join(f"##contig=<ID=chr{n},length={n + 1}{given(n)}>\n" for n in range(3000)) + COLUMNS
        yield F + "".join(f"##INFO=<ID=a{n},Number=1,Type=Integer,Description=\"d\"{given(n + 1)}>\n" for n in range(3000)) + COLUMNS


def ours(header):
    """[(s or c, number, ID)], or the refusal's number."""
    if "--model" in sys.argv:
        answer = dictionary_model.dictionaries(header.encode(), None, 1 << 20, 1 << 20, 1 << 20)
        if answer.number:
            return answer.number
        records = dictionary_model.model.run(header.encode(), None, 1 << 20)[0].records
        return [(kind, number, records[entry].known[b"ID"].decode()) for kind, pairs in (("s", answer.strings), ("c", answer.contigs)) for entry, number in pairs]
    run = subprocess.run([ROOT / "bin" / "vcfh", "dictionary"], input=header.encode(), capture_output=True)
    if run.returncode:
        return int(run.stderr.split()[1])
    return [(line[0], int(line.split("\t")[1]), line.split("\t")[2]) for line in run.stdout.decode().splitlines()]


def explained(header):
    """Why htslib may differ, by docs/DIFFERENCES.md."""
    if 'ID="' in header:
        return "a quoted ID: htslib takes the quotes with it"
    if 'IDX="' in header:
        return "a quoted IDX: htslib drops the line"
    if any(int(part.lstrip("+")) >= 1 << 20 for part in re.findall(r',IDX="?(\+?\d+)', header)):
        return "an IDX past what htslib can hold"
    return None


def main():
    agreed, refused, differ, known = 0, {}, [], {}
    with tempfile.TemporaryDirectory() as folder:
        program = os.path.join(folder, "numbers")
        compiler = shlex.split(os.environ.get("CC", "cc"))
        subprocess.run([*compiler, "-O2", "-o", program, ROOT / "tests" / "dictionary_htslib.c", *shlex.split(os.environ.get("HTS", "-lhts"))], check=True)
        for header in headers():
            pairs = ours(header)
            asked = [] if isinstance(pairs, int) else [kind + name for kind, _, name in pairs]
            run = subprocess.run([program, *asked], input=header, capture_output=True, text=True)
            theirs = "crashed" if run.returncode else run.stdout.split()
            if isinstance(pairs, int):
                key = pairs, "accepted by htslib" if theirs == [] else "refused by htslib too"
                count, shortest = refused.get(key, (0, header))
                refused[key] = count + 1, min(shortest, header, key=len)
            elif theirs == [str(number) for _, number, _ in pairs]:
                agreed += 1
            elif explained(header):
                known[explained(header)] = known.get(explained(header), 0) + 1
            else:
                differ.append((header, pairs, theirs))
    for header, pairs, theirs in differ:
        print(f"{header!r:.300}\n  ours {pairs!r:.200}\n  htslib {theirs!r:.200}")
    for (number, what), (count, shortest) in sorted(refused.items()):
        print(f"{count} refused {number}, {what}, such as {shortest!r}")
    for what, count in sorted(known.items()):
        print(f"{count} differ by {what}")
    print(f"{agreed} agree, {len(differ)} differ otherwise")
    return len(differ) != 0


sys.exit(main())
