#!/usr/bin/env python3
"""Lines too long to store: tests/vectors/long.py prints them, tests/vectors/long.py answers prints what must be answered."""
import sys

DELIMITER = "td 2 0 1 0 0"
FULL, OVER = "A5" * 65536, "A5" * 65537
LINES = [
    (DELIMITER + " 0" * 99994, "bad"),  # 200,000 characters: too many numbers
    (DELIMITER + " 0" * 99994 + "0", "bad"),  # 200,001 characters
    ("# " + "x" * 199998, None),  # 200,000 characters
    ("# " + "x" * 199999, "bad"),  # a longer line is malformed, also a comment
    ("x" * 400000, "bad"),
    (f"{DELIMITER} ; buf={FULL}", "0 2 1200" + FULL[4:]),
    (f"{DELIMITER} ; buf={OVER}", "8 0 0 " + OVER),
    (f"td 3 0 1 0 0 ; buf={OVER}", "8 0 0 " + OVER),
    (f"quant 1 0 100 -1 0 0 0 0 0 0 0 0 0 ; buf={OVER} place=3", "8 0 0 " + OVER),
    (f"quant 1 0 100 -1 0 0 0 0 0 0 0 0 0 ; buf={FULL} place=524271", "0 524288 " + FULL[:-6] + "A4C9FE"),
    (f"quant 1 0 100 -1 0 0 0 0 0 0 0 0 0 ; buf={FULL} place=524272", "3 65537 0 " + FULL),
    ("read " + FULL, "5 0 0"),
    ("read " + OVER, "8 0 0"),
    ("payload " + OVER, "0 0"),
    ("read 0A0418000011" + "00" * 65530, "6 0 0"),
    ("payload 08180000" + "11" + "00" * 65531, "1 65535"),
    (f"rquant 1 0 ; in={FULL} place=524263", "0 524288 210 -46 0 0 0 0 0 1 10 5 5"),  # 11010010 1 1010010 1 1010 0101
    (f"rquant 1 0 ; in={FULL} place=524264", "4 0 0"),
    (f"rlr 1 0 1 3 0 1 1 ; place=524288 in={FULL}", "0 524288 0 0 0 0 0 0 0"),
    (f"rlr 1 0 1 3 0 1 1 ; place=524289 in={FULL}", "4 0 0"),
    (f"rlr 1 0 1 3 0 1 1 ; in={OVER}", "8 0 0"),
    (f"rseg 7 ; in={OVER}", "8 0 0"),
    (f"rlf 0 0 3 1 0 0 0 -1 0 -1 -1 0 0 ; in={OVER}".ljust(200000), "8 0 0"),
    (f"rlf 0 0 3 1 0 0 0 -1 0 -1 -1 0 0 ; in={OVER}".ljust(200001), "bad"),
    (f"rcdef 0 0 1 3 ; in={OVER} place=4294967295", "8 0 0"),  # before 4
    (DELIMITER + " ; buf=EE", "3 2 0 EE"),
]
for line, answer in LINES:
    if sys.argv[1:] != ["answers"]:
        print(line)
    elif answer is not None:
        print(answer)
