"""Writes the headers that are measured into a folder: python3 headers.py FOLDER"""
import pathlib
import random
import sys
from string import ascii_letters, digits

COLUMNS = "#CHROM\tPOS\tID\tREF\tALT\tQUAL\tFILTER\tINFO"


def header(lines, samples=()):
    columns = COLUMNS + "".join("\t" + name for name in ("FORMAT", *samples)) if samples else COLUMNS
    return "\n".join(["##fileformat=VCFv4.3", *lines, columns]) + "\n"


def contigs(n):
    return [f"##contig=<ID=scaffold_{i},length={1000 + 37 * i}>" for i in range(1, n + 1)]


def fields(kind, n):
    types = ("Integer", "Float", "String")
    return [
        f'##{kind}=<ID={kind[:1]}X{i},Number={"1AG."[i % 4]},Type={types[i % 3]},Description="The {kind} value, number {i}, as the caller gives it">'
        for i in range(n)
    ]


def indexed(lines, first, apart=1):
    return [f"{line[:-1]},IDX={n * apart}>" for n, line in enumerate(lines, first)]


def kinds(n):
    """IDs that each stand in three kinds."""
    lines = (("FILTER", ""), ("INFO", TYPED), ("FORMAT", TYPED))
    return [f'##{kind}=<ID=s{i}{rest},Description="d">' for kind, rest in lines for i in range(n)]


def short(i):
    """A name of few letters, none of them large, so that it is no key or field that the rules name."""
    letters = "abcdefghijklmnopqrstuvwxyz0123456789_"
    name = ""
    while i >= 0:
        name = letters[i % 37] + name
        i = i // 37 - 1
    return name


TYPED = ",Number=1,Type=Integer"
STRINGS = [f'##INFO=<ID=IX{n},Number=1,Type=Integer,Description="The value">' for n in range(10000)]

OTHER_TAGS = "".join(f"\t{a}{b}:x" for a in ascii_letters for b in ascii_letters + digits if a + b not in ("SN", "LN"))

HEADERS = {
    "probe": header([f"##cell=<ID=W{i:02},K=0.{900 + i}>" for i in range(1, 41)]),
    "caller": header(contigs(200) + fields("INFO", 60) + fields("FORMAT", 25), ["NA12878"]),
    "contigs_2000": header(contigs(2000)),
    "contigs_10000": header(contigs(10000)),
    "contigs_indexed": header(indexed(contigs(10000), 0)),
    "strings_10000": header(STRINGS),
    "strings_indexed": header(indexed(STRINGS, 1)),
    "strings_apart": header(indexed(STRINGS, 1, 65536)),
    "samples_2504": header(fields("FORMAT", 25), [f"HG{i:05}" for i in range(96, 2600)]),
    # much of one thing; from contigs_250000 on for the second form
    "contigs_45000": header([f"##contig=<ID=c{i}>" for i in range(45000)]),
    "maps_60000": header([f"##k=<ID=a{i}>" for i in range(60000)]),
    "fields_11500": header(["##x=<ID=a," + ",".join(f"{i:x}=" for i in range(11500)) + ">"]),
    "samples_13000": header([], [f"{i:x}" for i in range(13000)]),
    "keys_4000": header([f"##k{i}=<ID=a>" for i in range(4000)]),
    "keys_40000": header([f"##k{i}=<ID=a>" for i in range(40000)]),
    "mixed_40000": header([f"##m{i}=<ID=a>" if i % 2 else f"##t{i}=x" for i in range(40000)]),
    # other keys of two lines each; IDs of three kinds; a probe's cells among other maps; a SAM header
    "pairs_30000": header([f"##k{i}={x}" for x in "ab" for i in range(30000)]),
    "kinds_3000": header(kinds(3000)),
    "cells_40000": header([*(f"##cell=<ID=W{i:02},K=0.90>" for i in range(1, 41)), *(f"##well=<ID=a{i}>" for i in range(40000))]),
    "sam_40000": "".join(f"@SQ\tSN:ctg{i:06}\tLN:5\n" for i in range(40000)),
    "fields_17": header([f"##k=<ID=a{j}," + ",".join(f"{i:x}=" for i in range(16)) + ">" for j in range(10000)]),
    "contigs_250000": header([f"##contig=<ID=ctg{i:06},length=5>" for i in range(250000)]),
    "contigs_100000": header([f"##contig=<ID=ctg{i:06},length=5>" for i in range(100000)]),
    "samples_100000": header([], [f"SAMPLE{i:06}" for i in range(100000)]),
    "fields_100000": header(["##x=<ID=a," + ",".join(f"f{i:x}=1" for i in range(100000)) + ">"]),
    "kinds_30000": header(kinds(30000)),
    "keys_150000": header([f"##k{i}=x" for i in range(150000)]),
    "samples_500000": header([], [str(1000000 + 7 * i) for i in range(500000)]),
    "contigs_480000": header([f"##contig=<ID=ctg{i:06},length=5>" for i in range(480000)]),
    # very much of one thing, up to the limit of the second form
    "keys_400000": header([f"##k{i}=x" for i in range(400000)]),
    "keys_1400000": header([f"##k{i}=" for i in range(1400000)]),
    "filters_300000": header([f'##FILTER=<ID=q{i},Description="">' for i in range(300000)]),
    "contigs_700000": header([f"##contig=<ID={short(i)}>" for i in range(700000)]),
    "maps_300000": header([f"##cell=<ID=W{i},K=1>" for i in range(300000)]),
    "maps_900000": header([f"##k=<ID={short(i)}>" for i in range(900000)]),
    "key_maps_900000": header([f"##{short(i)}=<ID=a>" for i in range(900000)]),
    "quoted_400000": header([f'##contig=<ID="a b{i}",length=5>' for i in range(400000)]),
    "escaped_300000": header([f'##contig=<ID="a\\"{i}",length=5>' for i in range(300000)]),
    "ends_300000": header([f'##contig=<ID="a{i}\\"">' for i in range(300000)]),
    "late_100": header(["##a="] * 1100000 + [f"##contig=<ID=c{i}>" for i in range(100)]),
    "late_20000": header(["##a="] * 1100000 + [f"##contig=<ID=c{i}>" for i in range(20000)]),
    "texts_2700000": header(["##a="] * 2700000),
    "keys_2000000": header([f"##{short(i)}=" for i in range(2000000)]),
    "long_keys_15000": header([f"##{'x' * 1000}=<ID={i}>" for i in range(15000)]),
    "fields_200000": header(["##x=<ID=a," + ",".join(f"f{i:x}=1" for i in range(200000)) + ">"]),
    "fields_1800000": header(["##x=<ID=a," + ",".join(f"{short(i)}=1" for i in range(1800000)) + ">"]),
    "fields_twice": header([f"##x=<ID={x}," + ",".join(f"f{i:x}=1" for i in range(300000)) + ">" for x in "ab"]),
    "samples_1000000": header([], [f"SMP{i:07}" for i in range(1000000)]),
    "samples_3000000": header([], [short(i) for i in range(3000000)]),
    "pairs_55000": header([f"##k{i}=x" for _ in "ab" for i in range(55000)]),
    "pairs_700000": header([f"##{short(i)}=x" for _ in "ab" for i in range(700000)]),
    "mixed_20": header([f"##k{i % 20}={i}" for i in range(1000000)]),
    "mixed_300": header([f"##k{i % 300}={i}" for i in range(1000000)]),
    "mixed_37": header([f"##{short(i % 37)}=" for i in range(3300000)]),
    "shuffled_37": header([f"##{short(i)}=" for i in random.Random(37).choices(range(37), k=3300000)]),
    "mixed_1000": header([f"##{short(37 + i % 1000)}=" for i in range(2780000)]),
    "pairs_1000000": header([f"##{short(i)}=" for _ in "ab" for i in range(1000000)]),
    "tens_200000": header([f"##{short(i)}=" for _ in range(10) for i in range(200000)]),
    # IDs of which many have the same last part, as contigs of many haplotypes have
    "haplotypes_400000": header([f"##contig=<ID=HG{i // 25:05}#1#chr{i % 25}>" for i in range(400000)]),
    "suffixed_400000": header([f'##x=<ID="a{i}=x">' for i in range(400000)]),
    # IDs that differ in the middle, in nothing but `#` and `=`, and in the pairs of their parts
    "middles_700000": header([f'##x=<ID="a#{short(i)}#c">' for i in range(700000)]),
    "signs_500000": header([f"""##x=<ID="{f'{i:020b}'.translate({48: '#', 49: '='})}">""" for i in range(500000)]),
    "grid_800000": header([f'##x=<ID="g{n // 900}#y{n % 900}">' for n in random.Random(900).sample(range(810000), 800000)]),
    # texts and maps of very many keys, one after the other and in turn; and keys of which few have most of the lines
    "texts_then_maps": header([*(f"##{short(i)}=x" for i in range(900000)), *(f"##{short(i)}=<ID=z>" for i in range(900000, 1400000))]),
    "in_turn_700000": header([f"##{short(i)}=<ID=z>" if i % 2 else f"##{short(i)}=x" for i in range(1400000)]),
    "uneven_600000": header([f"##{short(i)}=" for i in random.Random(6).sample([*range(600000), *range(10)], k=2400010, counts=[1] * 600000 + [180001] * 10)]),
    "unformed_37": header(["##odd=<K=1,ID=a>", *(f"##{short(i)}=" for i in random.Random(38).choices(range(37), k=3200000))]),
    "indexed_98000": header([f"##contig=<ID=c{i},IDX={i}>" for i in range(98000)]),
    "indexed_400000": header([f"##contig=<ID=c{i},IDX={i * 65536}>" for i in range(400000)]),
    "kinds_100000": header(kinds(100000)),
    "cells_700000": header([*(f"##cell=<ID=W{i:02},K=0.90>" for i in range(1, 41)), *(f"##well=<ID=a{i}>" for i in range(700000))]),
    "sam_200000": "".join(f"@SQ\tSN:ctg{i:06}\tLN:5\n" for i in range(200000)),
    "sam_760000": "".join(f"@SQ\tSN:ctg{i:06}\tLN:5\n" for i in range(760000)),
    # each line has every tag that a line may have
    "tags_3": "".join(f"@SQ\tSN:c{i}\tLN:5{OTHER_TAGS}\n" for i in range(3)),
}


def main():
    folder = pathlib.Path(sys.argv[1])
    folder.mkdir(parents=True, exist_ok=True)
    for name, text in HEADERS.items():
        (folder / name).write_text(text)


if __name__ == "__main__":
    main()
