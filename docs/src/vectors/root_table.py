#!/usr/bin/env python3
"""Writes what `table_afresh` is to print, crates/table_afresh/stdout: the table of document 02, 9/12.

"for i from 256 to 1,023 its entry is the greatest whole t with t·t at most 16,384·i", by Python's whole
numbers. Nothing of the product is used.
"""
import math
import pathlib

if __name__ == "__main__":
    crate = pathlib.Path(__file__).resolve().parents[3] / "crates" / "table_afresh"
    entries = [math.isqrt(16384 * i) for i in range(256, 1024)]
    assert entries[0] == 2048 and entries[-1] == 4093, "the request's two entries"
    (crate / "stdout").write_text("".join("%d\n" % t for t in entries))
    print(len(entries), "entries")
