#!/usr/bin/env python3
"""Lists what took longest in the last check of a crate from nothing.

    rm -rf crates/CRATE/out && (cd crates/CRATE && rt check) && python3 tools/slowest_proofs.py CRATE [COUNT]

A check writes a file of its kept work for each module as it goes. A line is the time since the file before, in seconds, and the
module. So it says something only of a check by one job, and beside other work the times are longer. COUNT is 20 where it isn't
given. A module that ends in `Lts` is what the borrow checker sees of a function: see CONTRIBUTING.md, *What makes a proof slow*.
"""

import sys
from pathlib import Path

CRATES = Path(__file__).resolve().parent.parent / "crates"


def main(crate, count=20):
    kept = CRATES / crate / "out" / "incremental"
    written = sorted((path.stat().st_mtime, path.name) for path in kept.rglob("*") if path.is_file())
    if not written:
        sys.exit(f"there is no kept work in {kept}: `rt check` in crates/{crate} makes it")
    gaps = [(after - before, name) for (before, _), (after, name) in zip(written, written[1:])]
    for seconds, name in sorted(gaps, reverse=True)[: int(count)]:
        print(f"{seconds:8.1f} {name.removesuffix('.oantt')}")


if __name__ == "__main__":
    if len(sys.argv) not in (2, 3):
        sys.exit(__doc__)
    main(*sys.argv[1:])
