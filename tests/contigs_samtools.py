#!/usr/bin/env python3
"""Has samtools make the headers of alignment files, from references of its own and through BAM and CRAM, turns them with `bin/vcfh contigs`, and
has bcftools read the result: its contigs must be those that samtools lists. It needs Debian's samtools and bcftools."""
import pathlib
import random
import re
import subprocess
import sys
import tempfile

VCFH = pathlib.Path(__file__).resolve().parent.parent / "bin" / "vcfh"
# what the SAM specification allows in the name of a reference, of which `*` and `=` may not stand first
FIRST = "0123456789ABCDEFGHIJKLMNOPQRSTUVWXYZabcdefghijklmnopqrstuvwxyz!#$%&+./:;?@^_|~-"
LATER = FIRST + "*="
COLUMNS = "#CHROM\tPOS\tID\tREF\tALT\tQUAL\tFILTER\tINFO\n"
READ = "r\t4\t*\t0\t0\t*\t*\t0\t0\tA\t*\n"
CONTIG = re.compile(r"##contig=<ID=([^,]*),length=(\d+)(?:,md5=([^,>]*))?(?:,URL=([^,>]*))?>")

random.seed(14)


def tool(*words, data=None):
    return subprocess.run(words, input=data, capture_output=True, text=True, check=True).stdout


def reference(folder, count):
    """A FASTA file of so many sequences with names of any allowed bytes."""
    names = list({random.choice(FIRST) + "".join(random.choices(LATER, k=random.randint(0, 12))) for _ in range(count)})
    path = folder / f"{count}.fa"
    path.write_text("".join(f">{name} some words\n{''.join(random.choices('ACGTN', k=random.randint(1, 300)))}\n" for name in names))
    tool("samtools", "faidx", path)
    return path


def headers(folder):
    for count in (1, 2, 25, 194, 3366):
        fasta = reference(folder, count)
        plain = tool("samtools", "dict", fasta)
        yield f"{count} sequences", plain
        yield f"{count} sequences, no first line", tool("samtools", "dict", "-H", fasta)
        yield f"{count} sequences with more tags", tool("samtools", "dict", "-A", "-a", "GRCh38", "-s", "Homo sapiens", "-u", "https://example.org/ref.fa", fasta)
        yield f"{count} sequences of an index", tool("samtools", "view", "-H", "-t", f"{fasta}.fai", "-", data=READ)
        grouped = plain + "@RG\tID:a\tSM:b\n@CO\t@SQ\tSN:none\n"
        for kind in ("bam", "cram"):
            path = folder / f"{count}.{kind}"
            tool("samtools", "view", "-T", fasta, "-O", kind, "-o", path, "-", data=grouped)
            yield f"{count} sequences through {kind}", tool("samtools", "view", "-H", path)
        yield f"{count} sequences with CR LF", plain.replace("\n", "\r\n")


def listed(sam):
    """Name, length, M5 and UR of each @SQ line."""
    for line in sam.splitlines():
        if line.startswith("@SQ\t"):
            tags = {tag[:2]: tag[3:] for tag in line.split("\t")[1:]}
            yield tags["SN"], tags["LN"], tags.get("M5"), tags.get("UR")


def main():
    passed = failed = contigs = 0
    with tempfile.TemporaryDirectory() as folder:
        for name, sam in headers(pathlib.Path(folder)):
            lines = tool(VCFH, "contigs", data=sam)
            read = tool("bcftools", "view", "-h", "-", data="##fileformat=VCFv4.5\n" + lines + COLUMNS)
            found = [CONTIG.fullmatch(line).groups() for line in read.splitlines() if line.startswith("##contig")]
            wanted = list(listed(sam))
            contigs += len(wanted)
            if wanted and found == wanted:
                passed += 1
            else:
                failed += 1
                print(f"{name}: bcftools reads {found!r:.300}, samtools lists {wanted!r:.300}")
    print(f"{contigs} contigs")
    print(f"{passed} passed, {failed} failed")
    return failed != 0


if __name__ == "__main__":
    sys.exit(main())
