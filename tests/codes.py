#!/usr/bin/env python3
"""Prints what the program `codes` must print, worked out from document 01's words alone:
    tests/codes.py > crates/codes/stdout
"""


def f(n, v):
    return None if v >= 2 ** n else format(v, "b").zfill(n) if n else ""


def su(n, v):
    return None if not -(2 ** (n - 1)) <= v <= 2 ** (n - 1) - 1 else f(n, v % 2 ** n)


def uvlc(v):
    if v == 2 ** 32 - 1:
        return None
    code = format(v + 1, "b")
    return "0" * (len(code) - 1) + code


def leb128(v):
    out = ""
    while v >= 128:
        out += f(8, 128 + v % 128)
        v //= 128
    return out + f(8, v)


def least(code, v):
    """the least width at which a code of a width holds v"""
    return next(n for n in range(1, 34) if code(n, v) is not None)


def row(name, bits, value, element, width, index=0):
    print(f"{name} {value}: " + (f"refused 2, {element}, {index}, {width}" if bits is None else f"{bits} = {value}"))


for n, v in [(0, 0), (0, 1), (1, 1), (5, 17), (5, 31), (5, 32), (8, 255), (12, 2748), (31, 2 ** 31), (32, 2 ** 32 - 1)]:
    row(f"f({n})", f(n, v), v, 51, least(f, v))
for n, v in [(7, 0), (7, -1), (7, -64), (7, 63), (7, 64), (7, -65), (1, -1), (1, 1), (9, -256), (9, 255), (32, -(2 ** 31)), (32, 2 ** 31 - 1)]:
    row(f"su({n})", su(n, v), v, 52, least(su, v))
for a, b in [(-64, -256), (64, 0), (63, 256)]:
    first, second = su(7, a), su(9, b)
    refused = f"refused 2, 52, 0, {least(su, a)}" if first is None else f"refused 2, 65, 63, {least(su, b)}" if second is None else None
    print(f"su(7) su(9) {a} {b}: " + (refused or f"{first}{second} = {a}, {b}"))
for v in [0, 1, 2, 3, 6, 7, 2 ** 31 - 1, 2 ** 32 - 2, 2 ** 32 - 1]:
    row("uvlc", uvlc(v), v, 12, 33)
for v in [0, 1, 127, 128, 300, 16255, 16383, 16384, 2 ** 32 - 1]:
    row("leb128", leb128(v), v, 0, 0)
# a long spelling of 4; the eighth byte goes on; a byte is missing; the 32nd zero
print("84 80 00: 4")
print("FF FF FF FF FF FF FF FF: refused 6, 0, 0")
print("80: refused 4, 0, 0")
print("32 zeros: refused 1, 12, 0")
