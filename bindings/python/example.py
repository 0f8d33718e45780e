"""Lists the entries of the header of a VCF, packed or not, or shows one value:
python3 example.py FILE
python3 example.py FILE cell W07 K"""
import pathlib
import sys

import vcfh

if len(sys.argv) not in (2, 5):
    sys.exit(__doc__)
try:
    header = vcfh.Header.from_vcf(pathlib.Path(sys.argv[1]))
    if len(sys.argv) == 5:
        key, identity, field = sys.argv[2:]
        print(header[key, identity][field])
    else:
        print(f"version {header.version[0]}.{header.version[1]}, {len(header)} entries, samples {header.samples}")
        for entry in header:
            print(entry.number, entry.kind, entry.id or entry.line)
except vcfh.Refused as refused:
    sys.exit(f"{sys.argv[1]}: {refused}")
except KeyError as missing:
    sys.exit(f"{sys.argv[1]}: there is no {missing}")
