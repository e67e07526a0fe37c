#!/usr/bin/env python3
"""Writes case lines for the program `replay`, and the answers that it must give:
    tests/replay.py crates/replay
The answers stand here, from document 01: its worked table, its rules in words, as the requests amend them, and, where a line is not of the table, the
bits that the standard's syntax tables give, written out. Further lines come with their answers from tests/vectors and tests/streams. Nothing is taken from the program.
"""
import pathlib
import sys

TESTS = pathlib.Path(__file__).parent
sys.path.append(str(TESTS / "streams"))
import parts

LINES = []
ANSWERS = []


def case(line, answer=None):
    LINES.append(line if isinstance(line, bytes) else line.encode())
    if answer is not None:
        ANSWERS.append(answer)


def stored(path):
    """Lines, and their answers in a file beside them."""
    LINES.extend(path.with_suffix(".txt").read_bytes().split(b"\n"))
    ANSWERS.extend(path.with_suffix(".answers").read_text().splitlines())


def real(path):
    """Lines of real streams, each followed by its answer; comments are kept. A part is read back too."""
    left = iter(path.read_text().splitlines())
    for line in left:
        answer = next(left) if line and not line.startswith("#") else None
        case(line, answer)
        if answer and path.name == "parts.txt":
            for reading in parts.readings(line, answer):
                case(*reading)


def zeros(data, size=420):
    return data + "00" * (size - len(data) // 2)


def packed(bits, size=420):
    """The bits at the start of a buffer of zeros."""
    bits = bits.replace(" ", "")
    bits += "0" * (-len(bits) % 8)
    return zeros("".join("%02X" % int(bits[i : i + 8], 2) for i in range(0, len(bits), 8)), size)


def obu(payload, size=420):
    """A sequence header OBU with a size field: its bits, a one bit, zeros to a byte end."""
    payload = payload.replace(" ", "") + "1"
    payload += "0" * (-len(payload) % 8)
    count = len(payload) // 8
    data = packed("00001010" + format(count, "08b") + payload, size)
    return "0 %d %s" % (count + 2, data)


def reads(case_of, bits, record, place=0):
    """A part's reader: the bits at a place, with ones around them; then without the last byte."""
    bits = "1" * place + bits.replace(" ", "")
    data = packed(bits + "1" * (-len(bits) % 8), 0)
    case("%s ;in=%s place=%d" % (case_of, data, place), "0 %d %s" % (len(bits), record))
    case("%s ;place=%d in=%s" % (case_of, place, data[:-2]), "4 0 0")


def segments(flags, features={}):
    """The numbers of segmentation: four flags, and the features that are enabled, by place, with their values."""
    return " ".join([flags] + [str(int(i in features)) for i in range(64)] + [str(features.get(i, 0)) for i in range(64)])


HEADER = "1 0 1 0 0 "
TIMING = " 0 0 0 0 "
MODEL = " 0 0 0 0 0 "
COLOR = " 0 0 %d 0 2 2 2 0 1 1 0 0 %d "


def still(width_bits, width, level=0, points="1 0 %d 0 0 0 0 0 0 0", planes=1):
    """Case 2: reduced still, 1 by 1, mono, other coded fields 0, inferred ones as inferred."""
    return (
        HEADER + "0 1 1 0" + TIMING + MODEL + "0 0 " + points % level + " %d 0 %d 0 " % (width_bits, width)
        + "0 0 0  0 0 0  0 0 0 0 0 0 0  0 2 0 2  0 0  0 0 0" + COLOR % (1, planes) + "0"
    )


def hd(timing_flag="0", timing=TIMING, points="1 0 8 0 0 0 0 0 0 0", planes=3):
    """Case 6: 1920 by 1080."""
    return (
        HEADER + "0 0 0 " + timing_flag + timing + MODEL + "0 0 " + points + " 10 10 1919 1079 "
        + "0 0 0  1 1 1  1 1 1 1 1 1 1  1 2 1 2  6 7  0 1 1" + COLOR % (0, planes) + "0"
    )


# The bits of case 6 behind timing_info_present_flag (5.5.1): no initial delay, one point of level 8 and tier 0, the sizes, no frame ids, the tools, the
# colour of 5.5.2 (8 bits, no mono, no description, range 0, position 0, no separate deltas), no film grain.
HD_REST = "0 00000 000000000000 01000 0 1010 1010 11101111111 10000110111 0 111 1111 111 1 1 110 0 1 1 0 0 0 0 00 0 0"


def timed(ticks, *points):
    """Case 6 with 60 ticks a second and an equal picture interval of so many, minus 1."""
    return hd("1", " 1 60 1 %d " % ticks, *points)


def timed_bits(code):
    """Its bits, with the uvlc code of the interval."""
    return "000 0 0 1" + " " + format(1, "032b") + format(60, "032b") + "1" + code + " 0 " + HD_REST


def quant(base, delta):
    return "quant 1 0 %s %s 0 0 0 0 0 0 0 0 0" % (base, delta)


SEG = "seg 7 0 0 0 0" + " 0" * 128
UNCODED = "lf %d %d 3 0 0 0 0 0 0 0 %s 0 0 ; buf=A5"
DEFAULT_DELTAS, EXCHANGED = "1 0 0 0 -1 0 -1 -1", "1 0 0 0 0 -1 -1 -1"
CDEF = "cdef 0 0 1 1 0 3" + " 1" + " 0" * 7 + " 4" + " 0" * 7 + " 0" * 16
LR = "lr 0 0 1 1 0 1 1 2 0 0 1 0 %d 0"
DELTAS = "lf 0 0 3 0 0 0 0 0 1 1 %s %s"

# Document 01's worked table.
case("td 2 0 1 0 0", "0 2 " + zeros("1200"))
case("td 2 0 0 0 0", "0 1 " + zeros("10"))
case("seq " + still(0, 0), "0 6 " + zeros("0A0418000011"))
case("seq " + still(0, 0) + " ;buf=0000000000", "3 6 0 0000000000")
READ = "0 " + " ".join(still(0, 0, 0, "32 %d" + " 0" * 287).split())
case("read 0A840018000011", READ)
case("read 0A051800001100", READ)
case("read 0A0418000010", "7 0 0")
case("read 0A0518000011", "6 0 0")
case("read 0A", "4 0 0")
case("seq " + hd(), "0 13 " + zeros("0A0B00000042ABBFC377FFE601"))
case("seq " + still(7, 255), obu("000 1 1 00000 0111 0000 11111111 0 000 000 0 1 0 0 0"))
case("seq " + still(7, 256), "1 21 0 " + zeros(""))
case(quant(0, -1), "0 17 " + packed("00000000 1 1111111 0"))
case(quant(0, -64), "0 17 " + packed("00000000 1 1000000 0"))
case(quant(0, 63), "0 17 " + packed("00000000 1 0111111 0"))
case(quant(0, 64), "2 52 0 8 " + zeros(""))
case(quant(0, -65), "2 52 0 8 " + zeros(""))
for ticks, code in (0, "1"), (1, "010"), (2, "011"):
    case("seq " + timed(ticks), obu(timed_bits(code)))
case(quant(100, -1), "0 17 " + packed("01100100 1 1111111 0"))
case(CDEF, "0 10 " + packed("00 00 0001 11"))
for shift, bits in (0, "0"), (1, "10"), (2, "11"):
    case(LR % shift, "0 %d " % (2 + len(bits)) + packed("10" + bits))

# Every other word; settings; bits and bytes that are not written are kept.
case(SEG, "0 1 " + packed("0"))
for lossless, intrabc in (1, 0), (0, 1), (1, 1):
    case(UNCODED % (lossless, intrabc, DEFAULT_DELTAS), "0 0 A5")
    case(UNCODED % (lossless, intrabc, EXCHANGED), "1 67 0 A5")
case("payload 0A0418000011", "2 4")
case("payload 0A840018000011", "3 4")
case("payload 0A", "0 0")
case("payload", "0 0")
case("read", "4 0 0")
case("td 1 0 1 0 0", "1 1 0 " + zeros(""))
case("td 2 0 1 0 0 ; buf=ffFFffFF", "0 2 1200FFFF")
case("td 2 0 1 0 0;buf=FF", "3 2 0 FF")
case("td 2 0 1 0 0;buf=", "3 2 0")
case("td 2 0 1 0 0 ;", "0 2 " + zeros("1200"))
case("  td  002 0 -7 -0 0  ", "0 2 " + zeros("1200"))
case("td 2 0 999999999999999999 0 0;buf=0000", "0 2 1200")
case(quant(100, -1) + " ;place=3 buf=FFFFFFFF", "0 20 " + packed("111 01100100 1 1111111 0 111111111111", 4))
case(quant(100, -1) + ";buf=FFFF place=0", "3 3 0 FFFF")
case(quant(100, -1) + " ;place=4294967295 buf=00", "3 536870914 0 00")
case(quant(4294967295, 0) + " ;buf=00", "2 51 0 32 00")
case(LR.replace("2 0 0 1", "4294967295 0 0 1") % 0 + ";buf=00", "2 76 0 32 00")

# uvlc at both ends of each bit length L of the value plus 1, written and read: L - 1 zeros, and the value plus 1.
for length in range(1, 33):
    for ticks in sorted({2 ** (length - 1) - 1, 2**length - 2}):
        answer = obu(timed_bits("0" * (length - 1) + format(ticks + 1, "b")), 32)
        case("seq " + timed(ticks) + " ;buf=" + "00" * 32, answer)
        _, count, data = answer.split()
        case("read " + data[: 2 * int(count)], "0 " + " ".join(timed(ticks, "32 0 8" + " 0" * 286).split()))
case("seq " + timed(2**32 - 1) + " ;buf=A5A5", "2 12 0 33 A5A5")

# The least width that would hold a value that does not fit (request 4): both ends of each bit length beyond the field's, of a field of each part; both
# signs of su(7); and 0 where no width helps.
for length in range(9, 33):
    for base in 2 ** (length - 1), 2**length - 1:
        case(quant(base, 0) + ";buf=A5", "2 51 0 %d A5" % length)
for delta in 64, 127, -65, -128:
    case(quant(0, delta) + ";buf=A5", "2 52 0 8 A5")
    case(DELTAS % ("0 0 0 0 0 %d 0 0" % delta, "0 0") + ";buf=A5", "2 67 5 8 A5")
    case(DELTAS % (DEFAULT_DELTAS, "0 %d" % delta) + ";buf=A5", "2 68 1 8 A5")
for length in range(7, 33):
    for level in 2 ** (length - 1), 2**length - 1:
        case("lf 0 0 3 0 1 0 %d 0 0 0" % level + " 0" * 10 + ";buf=A5", "2 66 3 %d A5" % length)
for width_bits, length in (16, 5), (31, 5), (32, 6), (255, 8):
    case("seq " + still(width_bits, 0) + ";buf=A5", "2 21 0 %d A5" % length)
for level, length in (32, 6), (63, 6), (64, 7), (2**32 - 1, 32):
    case("seq " + still(0, 0, level) + ";buf=A5", "2 9 0 %d A5" % length)
for idc, length in (4096, 13), (8191, 13), (2**31, 32):
    case("seq " + hd(points="1 %d 8 0 0 0 0 0 0 0" % idc) + ";buf=A5", "2 8 0 %d A5" % length)
for tier, length in (2, 2), (3, 2), (4, 3):
    case("seq " + hd(points="1 0 8 %d 0 0 0 0 0 0" % tier) + ";buf=A5", "2 17 0 %d A5" % length)
case("td 2 1 1 8 0;buf=A5", "2 2 0 4 A5")
case("td 2 1 1 0 4;buf=A5", "2 3 0 3 A5")
for damping in 0, 2, 7, 8, 2**32 - 1:
    case(CDEF.replace("1 1 0 3", "1 1 0 %d" % damping, 1) + ";buf=A5", "2 75 0 0 A5")
for second in 5, 7, 2**32 - 1:
    case(CDEF.replace(" 4", " %d" % second, 1) + ";buf=A5", "2 72 0 0 A5")
case(CDEF.replace("1 1 0 3 1", "1 1 0 3 16", 1) + ";buf=A5", "2 71 0 5 A5")
for shift in 3, 4, 2**32 - 1:
    case(LR % shift + ";buf=A5", "2 79 0 0 A5")
    case(LR.replace("lr 0 0 1 1 0", "lr 0 0 1 1 1") % shift + ";buf=A5", "2 79 0 0 A5")

# The plane count (request 7): 1 with mono_chrome and 3 without, looked at behind separate_uv_delta_q, the element before it, and before the buffer's length.
for planes in 0, 2, 3, 4, 255, 2**32 - 1:
    case("seq " + still(0, 0, planes=planes) + ";buf=A5", "1 47 0 A5")
for planes in 0, 1, 2, 4, 255, 2**32 - 1:
    case("seq " + hd(planes=planes) + ";buf=A5", "1 47 0 A5")
case("seq " + still(0, 0, planes=3).replace("0 1 1 0 0 3 0", "0 1 1 0 1 3 0") + ";buf=A5", "1 46 0 A5")
case("seq " + still(0, 0, planes=3).replace("0 1 1 0 0 3 0", "0 1 1 1 0 3 0") + ";buf=A5", "1 45 0 A5")
case("seq " + hd(planes=1).replace("0 1 1 0 0 1 0", "0 1 1 4 0 1 0") + ";buf=A5", "2 45 0 3 A5")
case("seq " + hd(planes=1).replace("2 2 2 0 1 1", "2 2 3 0 1 1") + ";buf=A5", "1 41 0 A5")

# The readers of the parts (request 1): cases 10, 11 and 12 of the worked table, and what the standard's tables give.
for place in range(16):
    reads("rquant 1 0", "01100100 1 1111111 0", "100 -1 0 0 0 0 0 0 0 0 0", place)
reads("rquant 1 0", "01100100 1 0000000 0", "100 0 0 0 0 0 0 0 0 0 0")
for planes in 3, 0, 2, 2**32 - 1:
    reads("rquant %d 0" % planes, "00000000 0 1 1000000 1 0111111 0", "0 0 0 -64 63 -64 63 0 0 0 0")
reads("rquant 3 1", "00000000 0 0 1 0000000 1 0000001 0", "0 0 0 0 1 0 1 0 0 0 0")
reads("rquant 3 1", "11111111 0 1 1 0000001 0 0 1 1111110 1 0001 0010 0011", "255 0 1 1 0 0 -2 1 1 2 3")
reads("rquant 3 0", "00000000 0 0 0 1 0001 0010", "0 0 0 0 0 0 0 1 1 2 2")
reads("rquant 1 1", "00000000 0 1 0001 0010 0011", "0 0 0 0 0 0 0 1 1 2 3")

for reference in 7, 0:
    reads("rseg %d" % reference, "0", segments("0 0 0 0"))
reads("rseg 7", "1" + "0" * 64, segments("1 1 0 1"))
for bits, flags in ("0 0", "0 0 0"), ("1 0 0", "1 0 0"), ("1 1 0", "1 1 0"):
    for reference in 0, 6, 8, 2**32 - 1:
        reads("rseg %d" % reference, "1" + bits, segments("1 " + flags))
reads("rseg 0", "1 0 1" + "0" * 63 + "1", segments("1 0 0 1", {63: 0}))
reads("rseg 0", "1 1 1 1" + "0" * 57 + "1 1111111" + "0" * 6, segments("1 1 1 1", {57: -1}))
for codes, values in (
    ("100000000 1000000 1000000 1000000 1000000 000", (-255, -63, -63, -63, -63, 0)),
    ("100000001 1000001 1000001 1000001 1000001 001", (-255, -63, -63, -63, -63, 1)),
    ("011111111 0111111 0111111 0111111 0111111 111", (255, 63, 63, 63, 63, 7)),
):
    features = "1" + " 1".join(codes.split()) + "1 1"
    reads("rseg 7", "1" + features + "0" * 56, segments("1 1 0 1", dict(enumerate((*values, 0, 0)))))
    reads("rseg 7", "1" + "0" * 56 + features, segments("1 1 0 1", dict(enumerate((*values, 0, 0), 56))))

BEFORE = "-128 127 2 -3 4 -5 6 -7 64 -65"
for lossless, intrabc in (1, 0), (0, 1), (1, 1):
    reads("rlf %d %d 3 %s" % (lossless, intrabc, BEFORE), "", "0 0 0 0 0 0 0 %s 0 0" % DEFAULT_DELTAS, 8)
reads("rlf 0 0 3 " + BEFORE, "000000 000000 000 0", "0 0 0 0 0 0 0 " + BEFORE)
for planes in 3, 0, 2, 2**32 - 1:
    reads("rlf 0 0 %d %s" % (planes, BEFORE), "000001 000000 000010 000011 101 0", "1 0 2 3 5 0 0 " + BEFORE)
reads("rlf 0 0 3 " + BEFORE, "000000 000001 111111 000000 101 1 0", "0 1 63 0 5 1 0 " + BEFORE)
reads("rlf 0 0 1 " + BEFORE, "111111 111111 111 1 0", "63 63 0 0 7 1 0 " + BEFORE)
reads("rlf 0 0 3 " + BEFORE, "000000 000000 000 1 1" + "0" * 10, "0 0 0 0 0 1 1 " + BEFORE)
for code, delta in ("0000000", 0), ("1000000", -64), ("0111111", 63):
    reads("rlf 0 0 3 " + BEFORE, "000000 000000 000 1 1" + (" 1" + code) * 10, "0 0 0 0 0 1 1" + " %d" % delta * 10)
    for i in range(10):
        deltas = BEFORE.split()
        deltas[i] = str(delta)
        reads("rlf 0 0 3 " + BEFORE, "000000 000000 000 1 1" + "0" * i + "1" + code + "0" * (9 - i), "0 0 0 0 0 1 1 " + " ".join(deltas))

reads("rcdef 0 0 1 1", "00 00 0001 11", "0 3 1 0 0 0 0 0 0 0 4 0 0 0 0 0 0 0" + " 0" * 16)
for context in "1 0 1 3", "0 1 1 3", "0 0 0 3", "1 1 0 1":
    reads("rcdef " + context, "", "0 3" + " 0" * 32, 8)
for planes in 3, 0, 2, 2**32 - 1:
    reads("rcdef 0 0 1 %d" % planes, "11 01 0001 01 0010 10 0011 11 0100 00", "1 6 1 3 0 0 0 0 0 0 1 4 0 0 0 0 0 0 2 4 0 0 0 0 0 0 2 0 0 0 0 0 0 0")
reads("rcdef 0 0 1 3", "01 11" + " 1111 11 0000 00" * 8, "3 4" + " 15" * 8 + " 4" * 8 + " 0" * 16)
reads("rcdef 0 0 1 1", "10 10" + " 1000 10" * 4, "2 5 8 8 8 8 0 0 0 0 2 2 2 2 0 0 0 0" + " 0" * 16)

for shift, bits in (0, "0"), (1, "10"), (2, "11"):
    reads("rlr 0 0 1 1 0 1 1", "10" + bits, "2 0 0 1 0 %d 0" % shift)
for shift, bits in (1, "0"), (2, "1"):
    reads("rlr 0 0 1 1 1 1 1", "10" + bits, "2 0 0 1 0 %d 0" % shift)
    for planes in 3, 0, 2, 2**32 - 1:
        reads("rlr 0 0 1 %d 1 1 1" % planes, "00 00 01 %s 1" % bits, "0 0 1 1 1 %d 1" % shift)
reads("rlr 0 0 1 3 0 1 1", "00 11 00 11 0", "0 3 0 1 1 2 0")
for sampling in "0 0", "1 0", "0 1":
    reads("rlr 0 0 1 3 0 " + sampling, "01 10 11 10", "1 2 3 1 1 1 0")
reads("rlr 0 0 1 3 0 1 1", "11 00 00 0", "3 0 0 1 0 0 0")
for planes, bits in (3, "00 00 00"), (1, "00"):
    reads("rlr 0 0 1 %d 0 1 1" % planes, bits, "0 0 0 0 0 0 0")
for context in "1 0 1 3", "0 1 1 3", "0 0 0 3", "1 1 0 1":
    reads("rlr %s 0 1 1" % context, "", "0 0 0 0 0 0 0", 8)

# Of a part without bits, a place beyond the input; of one with bits, also its end.
for context in "rlf 1 0 3 " + BEFORE, "rcdef 0 0 0 3", "rlr 1 0 1 3 0 1 1":
    for settings in "place=1", "in= place=1", "in=FF place=9", "place=4294967295 in=FF", "place=2147483648":
        case(context + ";" + settings, "4 0 0")
for context in "rquant 1 0", "rseg 7", "rlf 0 0 3 " + BEFORE, "rcdef 0 0 1 3", "rlr 0 0 1 3 0 1 1":
    for settings in "", ";", ";in=", ";in=00 place=8", ";place=4294967295 in=00":
        case(context + settings, "4 0 0")
case("rquant 1 0;in=64ff00", "0 17 100 -1 0 0 0 0 0 0 0 0 0")
case("rlr 0 0 0 3 0 1 1", "0 0 0 0 0 0 0 0 0")
case("  rlr  00 -0 0 3 -7 999999999999999999 1 ;in= place=00  ", "0 0 0 0 0 0 0 0 0")

# What the crate, the model of document 01 and real streams say.
for name in "oracle", "read", "rparts", "bad":
    stored(TESTS / "vectors" / name)
for name in "seq.txt", "parts.txt":
    real(TESTS / "streams" / name)

# No answer.
case("")
case("   ")
case("# td 2 0 1 0 0")
case(b"  # \x00 \r \xff")

# Malformed, and each next line is answered.
GOOD = ("td 2 0 0 0 0;buf=77", "0 1 10")
MALFORMED = [
    ["nothing", "TD 2 0 1 0 0", "t", "td2 0 1 0 0"],
    ["td", "td 2 0 1 0", "td 2 0 1 0 0 0", "td;", "seq " + still(0, 0) + " 0", "seq " + still(0, 0)[:-2]],
    ["td 4294967296 0 1 0 0", "td -1 0 1 0 0", "td 2 1000000000000000000 1 0 0", quant(0, 128), quant(0, -129), SEG[:-1] + "32768"],
    ["seq " + still(256, 0), "seq " + still(0, 0, 0, "33 %d" + " 0" * 296), SEG[:-1] + "-32769", quant(0, 0) + " ;place=4294967296"],
    ["td 2 0 x 0 0", "td +2 0 1 0 0", "td - 0 1 0 0", "td 2 0 --1 0 0", "td 2,0,1,0,0", "td 2 0 1 0 0\t"],
    ["td 2 0 1 0 0;buf=ABC", "td 2 0 1 0 0;buf=0G", "td 2 0 1 0 0;buf", "td 2 0 1 0 0;len=1", "td 2 0 1 0 0 buf=00"],
    ["td 2 0 1 0 0;;buf=00", "td 2 0 1 0 0;buf=00 buf=00", "td 2 0 1 0 0;place=0", quant(0, 0) + ";place=0 buf=00 place=0", quant(0, 0) + ";place=-1"],
    ["read 0", "read 0A 04", "read 0A;buf=00", "read ;", "payload xx", "payload 0A;place=0"],
    ["rquant 1;in=00", "rquant 1 0 0;in=00", "rquant 4294967296 0;in=00", "rquant 1 0;buf=00", "rquant 1 0;in=0", "rquant 1 0;in=00 in=00"],
    ["rseg;in=00", "rseg 7 7;in=00", "rseg -1;in=00", "rseg 7 00", "rseg 7;in=00 buf=00", "rseg 7;in=0G", quant(0, 0) + ";in=00"],
    ["rlf 0 0 3;in=00", "rlf 1 0 3 " + BEFORE + " 0", "rlf 1 0 3 " + BEFORE[:-4], "rlf 1 0 3 " + BEFORE.replace("127", "128")],
    ["rlf 1 0 3 " + BEFORE.replace("-128", "-129"), "rlf 1 0 3 " + BEFORE.replace("-65", "-129"), "rlf 1 0 -1 " + BEFORE, "rlf;in=00"],
    ["rcdef 0 0 0;in=00", "rcdef 0 0 0 3 3;in=00", "rcdef 0 0 0 3;place=4294967296", "rcdef 0 0 0 3;place=-1", "rcdef 0 0 0 3;in", "rtd 2 0 1 0 0"],
    ["rlr 1 0 1 3 0 1", "rlr 1 0 1 3 0 1 1 1", "rlr 1 0 1 3 0 1 1;size=1", "rlr 1 0 1 3 0 1 1000000000000000000", "rlr 1 0 1 4294967296 0 1 1"],
    ["td 2 0 1 0 0\r", "\r", b"td 2 0 1\x00 0 0", b"\x00", b"td 2 0 1 0 0;buf=\x00\x00", b"\xff\xfe"],
]
for lines in MALFORMED:
    for line in lines:
        case(line, "bad")
    case(*GOOD)

# A line of 200,000 characters, whose buffer is over 65,536 bytes; a line of 200,001; an input over 65,536 bytes, and a place beyond it.
LONG = "td 2 0 1 0 0 ;buf=" + "A5" * 65537
case(LONG.ljust(200000), "8 0 0 " + "A5" * 65537)
case("td 2 0 1 0 0".ljust(200001), "bad")
case("rlr 1 0 1 3 0 1 1 ;place=4294967295 in=" + "A5" * 65537, "8 0 0")
case(*GOOD)
# The last line has no line end.
case("td 2 0 1 0 0;buf=5555", "0 2 1200")

with open(sys.argv[1] + "/stdin", "wb") as f:
    f.write(b"\n".join(LINES))
with open(sys.argv[1] + "/stdout", "w") as f:
    f.write("".join(a + "\n" for a in ANSWERS))
