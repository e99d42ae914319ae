#!/usr/bin/env python3
"""Writes a batch file of 100,000 claims, about 19.5 MB: python3 bench/make_batch.py FILE."""
import sys

HEADER = b"\x0200TPHARMSYS                0000042202603010930P12RXSWITCH                \x03"
CLAIM = (b"900001D0B1RXDEMO    1011234567893     20260228          \x1e\x1cAM04\x1cC2C100\x1cC301"
         b"\x1d\x1e\x1cAM07\x1cEM1\x1cD2%012d\x1cE103\x1cD700002000202\x1cE70000030000\x1cD5030\x1cD61"
         b"\x1e\x1cAM11\x1cD90003000{\x1cDC0000017E\x1cDQ0004000{")
COUNT = 100_000

with open(sys.argv[1], "wb") as out:
    out.write(HEADER)
    for place in range(1, COUNT + 1):
        out.write(b"\x02G1%010d" % place + CLAIM % place + b"\x03")
    out.write(b"\x0299" + b"0000042" + b"%010d" % COUNT + b" " * 35 + b"\x03")
