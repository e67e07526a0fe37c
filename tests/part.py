#!/usr/bin/env python3
"""Works out what the program `part` reads and must print, without this project's programs:
    tests/part.py stdin > crates/part/stdin
    tests/part.py > crates/part/stdout
and what it must print for other lines, those of oracle/parts_cases.py among them:
    tests/part.py lines < LINES
The places, widths and values of the coded fields are those that the second model (oracle/parts_reader.py) reads. Their names, and the rows of fields that are not
coded, are written down here from the standard's syntax tables. A part of a real stream must also read as FFmpeg reads it (tests/streams).
"""

import pathlib
import sys

from fields import HEADING, row

TESTS = pathlib.Path(__file__).resolve().parent
sys.path += [str(TESTS / "streams"), str(TESTS.parent / "oracle")]
import lines
import parts
import parts_reader
from reader import Refused

REFUSALS = {4: "the input ends inside header, size or body", 8: "the slice is longer than 65536 bytes"}

# Parts of real streams, by their notes
REAL = [
    ("quant", "SvtAv1EncApp-luma-offset, frame 0"), ("quant", "annexb-444, frame 0"), ("quant", "aomenc-mono-qm, frame 0"), ("quant", "rav1e-10-bit, frame 0"),
    ("seg", "annexb-aq-variance, frame 0"), ("seg", "aomenc-aq-cyclic, frame 1"), ("seg", "rav1e-10-bit, frame 1"),
    ("lf", "SvtAv1EncApp-screen, frame 0"), ("lf", "annexb-best-128, frame 1"), ("lf", "rav1e-mono, frame 0"),
    ("cdef", "SvtAv1EncApp-best, frame 1"), ("cdef", "annexb-mono-10, frame 0"), ("cdef", "aomenc-mono-lossless, frame 0"),
    ("lr", "SvtAv1EncApp-best, frame 0"), ("lr", "aomenc-best-128, frame 0"), ("lr", "rav1e-10-bit, frame 0"), ("lr", "rav1e-coarse, frame 0"),
]


# The lines


def hexed(bits):
    return "".join(f"{int(bits[i:i + 8], 2):02X}" for i in range(0, len(bits), 8))


def part(case, bits, place=0, missing=0):
    """A line whose part has these bits, with ones on both sides; or one whose input lacks the part's last bits, up to a byte's end."""
    bits = "1" * place + bits.replace(" ", "")
    bits = bits[:(len(bits) - missing) // 8 * 8] if missing else bits + "1" * (-len(bits) % 8)
    return f"{case}; in={hexed(bits)} place={place}"


def features(values):
    """64 flags, with a value's bits behind those that are named."""
    return "".join("1" + values[i] if i in values else "0" for i in range(64))


EVERY = "".join(["1 100000000", "1 1000000", "1 0111111", "1 1000001", "1 0000000", "1 111", "1", "1"] * 8)
BEFORE = "1 0 0 0 -1 0 -1 -1 0 0"
OTHERS = "-128 127 -64 63 2 -3 4 -5 6 -7"
QUANT = [
    "# 5.9.12: no delta and no matrix; planes but 1 count as 3",
    part("rquant 3 0", "01100100 0 0 0 0"),
    part("rquant 0 -7", "00000000 0 0 0 0 0", 1),
    part("rquant 4294967295 0", "11111111 0 0 0 1 1111 1110", 7),
    "# every field is coded",
    part("rquant 3 1", "11111111 1 1000000 1 1 0111111 1 1111111 1 1100000 1 0000001 1 1111 0000 0111", 5),
    "# no difference: V's deltas are U's; a matrix of its own",
    part("rquant 3 1", "00000001 0 0 1 1111011 0 1 0001 0010 0011", 13),
    "# V's matrix is U's; a delta of 0 may be coded",
    part("rquant 3 0", "10000000 1 0000000 1 0000000 1 0000010 1 0110 1001", 3),
    "# one plane",
    part("rquant 1 0", "01010101 1 1111110 0", 2),
    part("rquant 1 1", "01010101 0 1 0001 0010 0100", 6),
    "# the input ends",
    part("rquant 3 0", "01100100 0 0 0 0", 4, 1),
    part("rquant 3 1", "11111111 1 1000000 1 1 0111111 1 1111111 1 1100000 1 0000001 1 1111 0000 0111", 0, 40),
    "rquant 3 0",
    "rquant 3 0 ;in=6400 place=17",
]
SEG = [
    "# 5.9.14: off",
    part("rseg 7", "0"),
    part("rseg 0", "0", 15),
    "# no primary reference, no feature",
    part("rseg 7", "1" + features({}), 3),
    "# every feature, with values that are clipped",
    part("rseg 7", "1" + EVERY, 6),
    "# a primary reference: nothing new; a new map; new data",
    part("rseg 0", "1 0 0", 4),
    part("rseg 6", "1 1 0 0", 1),
    part("rseg 4294967295", "1 1 1 0", 2),
    part("rseg 3", "1 0 1" + features({0: "111111111", 9: "1000000", 18: "1000001", 37: "101", 46: "", 63: ""}), 7),
    part("rseg 1", "1 1 1 1" + features({8: "011111111", 61: "000"}), 5),
    "# the input ends",
    part("rseg 7", "1" + EVERY, 6, 1),
    part("rseg 3", "1 0 1", 0, 1),
    "rseg 7; place=0",
]
LF = [
    "# 5.9.11: off",
    f"rlf 1 0 3 {OTHERS}",
    part(f"rlf 0 1 1 {OTHERS}", "", 11),
    "# levels of 0: those of chroma are not coded, and the deltas stand",
    part(f"rlf 0 0 3 {BEFORE}", "000000 000000 000 0"),
    part(f"rlf 0 0 3 {OTHERS}", "000000 000000 111 1 0", 3),
    "# one level alone",
    part(f"rlf 0 0 3 {BEFORE}", "000000 000101 111111 000001 010 0", 5),
    part(f"rlf 0 0 0 {BEFORE}", "100000 000000 000000 000000 000 1 0", 2),
    "# one plane",
    part(f"rlf 0 0 1 {BEFORE}", "111111 111110 101 1 0", 1),
    "# every delta is coded",
    part(f"rlf 0 0 3 {OTHERS}", "000001 000010 000011 000100 101 1 1" + "1 1000000 1 0111111 1 0000000 1 1111111 1 0000001" * 2, 7),
    "# some are",
    part(f"rlf 0 0 3 {OTHERS}", "000001 000000 000011 000100 001 1 1 0 1 1111000 0 0 1 0000000 0 0 1 0111111 0 1 1000001", 6),
    "# none is",
    part(f"rlf 0 0 1 {OTHERS}", "000001 000000 001 1 1 0000000000", 4),
    "# the input ends",
    part(f"rlf 0 0 1 {OTHERS}", "000001 000000 001 1 1 0000000000", 4, 1),
    part(f"rlf 1 0 1 {OTHERS}", "", 9, 1),
]
CDEF = [
    "# 5.9.19: off",
    "rcdef 1 0 1 3",
    part("rcdef 0 1 1 3", "", 21),
    part("rcdef 0 0 0 1", "", 8),
    "# one strength of each kind; one plane",
    part("rcdef 0 0 1 3", "00 00 0000 00 1111 11"),
    part("rcdef 0 0 1 1", "11 00 0001 11", 5),
    "# two, four and eight",
    part("rcdef 0 0 1 2", "01 01" + "0001 00 0010 01" + "0100 10 1000 11", 3),
    part("rcdef 0 0 1 1", "10 10" + "1111 11 0000 00 1010 10 0101 01", 1),
    part("rcdef 0 0 1 3", "11 11" + "".join(f"{i:04b} {i % 4:02b} {15 - i:04b} {3 - i % 4:02b}" for i in range(8)), 7),
    "# the input ends",
    part("rcdef 0 0 1 3", "00 00 0000 00 1111 11", 0, 1),
]
LR = [
    "# 5.9.20: off",
    "rlr 1 0 1 3 0 1 1",
    part("rlr 0 1 1 3 1 1 1", "", 30),
    part("rlr 0 0 0 1 0 0 0", "", 1),
    "# nothing is restored",
    part("rlr 0 0 1 3 0 1 1", "00 00 00"),
    part("rlr 0 0 1 1 1 1 1", "00", 7),
    "# luma alone",
    part("rlr 0 0 1 3 0 1 1", "10 00 00 0", 3),
    part("rlr 0 0 1 1 0 1 1", "01 1 0", 5),
    "# superblocks of 128x128: the shift is one more",
    part("rlr 0 0 1 3 1 1 1", "11 01 10 0 1", 2),
    part("rlr 0 0 1 1 1 1 1", "11 1", 6),
    "# an extra shift",
    part("rlr 0 0 1 3 0 1 1", "00 00 01 1 0 0", 1),
    part("rlr 0 0 1 3 0 1 1", "00 10 00 1 1 1", 4),
    "# no shift of chroma without subsampling both ways",
    part("rlr 0 0 1 3 0 1 0", "01 01 01 1 1", 6),
    "# the input ends",
    part("rlr 0 0 1 3 0 1 1", "00 10 00 1 1 1", 2, 1),
]
OTHER = [
    "# an input that is too long",
    f"rquant 3 0; in={'00' * 65537}",
    "# no line of a part's reader: `bad`",
    "quant 3 0 100 0 0 0 0 0 0 0 0 0 0", "td 2 0 1 0 0", "read 0A0418000011", "rquant", "rquant 3", "rquant 3 0 0; in=6400", "rquant -1 0; in=6400",
    "rseg 4294967296; in=00", "rlf 0 0 3 1 0 0 0 -1 0 -1 -1 0; in=0000", "rlf 0 0 3 128 0 0 0 -1 0 -1 -1 0 0; in=0000", "rcdef 0 0 1 3 0; in=000000",
    "rquant 3 0; in=640", "rquant 3 0; in=64G0", "rquant 3 0; buf=6400", "rquant 3 0; in=6400 in=6400", "rquant 3 0; in=6400 place=4294967296",
    "rquant 3 0 in=6400", "rquant\t3 0; in=6400", "rmotion 1 2; in=00", ";", "x # no comment",
    "",
    "   ",
    "   # a comment behind spaces is copied too",
    "  rquant   3 0;place=00 in=6400 ",
    "rquant 3 0;in=6400;",
]


def real():
    """Some parts of real streams, each with its note."""
    left, note = iter((TESTS / "streams" / "parts.txt").read_text().splitlines()), None
    for line in left:
        if line.startswith("#"):
            note = line
        elif line:
            answer = next(left)
            if (line.split()[0], note[2:]) in REAL:
                yield note
                for case, answer in parts.readings(line, answer):
                    assert " ".join(map(str, read(*lines.parse(case))[0])) == answer, case
                    yield case


# The rows


class Traced(parts_reader.Part):
    """The second model's reader, which keeps each coded field: place, width, value."""

    def __init__(self, data, place):
        self.coded = []
        super().__init__(data, place)
        self.coded.clear()

    def f(self, n):
        value = super().f(n)
        self.coded.append((self.at - n, n, value))
        return value

    def su(self, n):
        value = super().su(n)
        self.coded[-1] = self.coded[-1][:2] + (value,)
        return value


class Rows:
    def __init__(self, coded):
        self.left, self.rows = list(coded), [HEADING]

    def coded(self, *names):
        for name in names:
            place, width, value = self.left.pop(0)
            self.rows.append(row(place, width, name, value))
        return value

    def uncoded(self, name, value, mark="inferred"):
        self.rows.append(row("-", "-", name, value, f"  {mark}"))

    def delta(self, flag, name, old, mark):
        """A flag, and su(7) where it is set."""
        if self.coded(flag):
            self.coded(name)
        else:
            self.uncoded(name, old, mark)


def rquant(c, p, r):
    def delta(name):
        r.delta("delta_coded", name, 0, "inferred")

    r.coded("base_q_idx")
    delta("delta_q_y_dc")
    if c.planes == 1:
        for name in "u_dc", "u_ac", "v_dc", "v_ac":
            r.uncoded(f"delta_q_{name}", 0)
    else:
        differs = r.coded("diff_uv_delta") if c.separate_uv_delta_q else r.uncoded("diff_uv_delta", 0)
        delta("delta_q_u_dc")
        delta("delta_q_u_ac")
        if differs:
            delta("delta_q_v_dc")
            delta("delta_q_v_ac")
        else:
            r.uncoded("delta_q_v_dc", p.delta_q_u_dc)
            r.uncoded("delta_q_v_ac", p.delta_q_u_ac)
    if r.coded("using_qmatrix"):
        qm_u = r.coded("qm_y", "qm_u")
        if c.separate_uv_delta_q:
            r.coded("qm_v")
        else:
            r.uncoded("qm_v", qm_u)


def rseg(c, p, r):
    if not r.coded("segmentation_enabled"):
        return
    if c.primary_ref_frame == 7:
        data = 1
        r.uncoded("segmentation_update_map", 1)
        r.uncoded("segmentation_temporal_update", 0)
        r.uncoded("segmentation_update_data", 1)
    else:
        if r.coded("segmentation_update_map"):
            r.coded("segmentation_temporal_update")
        data = r.coded("segmentation_update_data")
    for i in range(64 if data else 0):
        if r.coded(f"feature_enabled[{i}]"):
            value = r.coded(f"feature_value[{i}]")
            limit = (255, 63, 63, 63, 63, 7, 0, 0)[i % 8]
            if abs(value) > limit:
                r.uncoded(f"FeatureData[{i}]", limit if value > 0 else -limit)


def rlf(c, p, r):
    deltas = [(kind, i, old) for kind, olds in (("ref", p.loop_filter_ref_deltas), ("mode", p.loop_filter_mode_deltas)) for i, old in enumerate(olds)]
    if c.coded_lossless or c.allow_intrabc:
        r.uncoded("loop_filter_level[0]", 0)
        r.uncoded("loop_filter_level[1]", 0)
        for kind, i, old in deltas:
            r.uncoded(f"loop_filter_{kind}_deltas[{i}]", old)
        return
    levels = r.coded("loop_filter_level[0]"), r.coded("loop_filter_level[1]")
    if c.planes != 1 and any(levels):
        r.coded("loop_filter_level[2]", "loop_filter_level[3]")
    r.coded("loop_filter_sharpness")
    update = r.coded("loop_filter_delta_enabled") and r.coded("loop_filter_delta_update")
    for kind, i, old in deltas:
        name = f"loop_filter_{kind}_deltas[{i}]"
        if update:
            r.delta(f"update_{kind}_delta[{i}]", name, old, "previous")
        else:
            r.uncoded(name, old, "previous")


def rcdef(c, p, r):
    if c.coded_lossless or c.allow_intrabc or not c.enable_cdef:
        for name in "cdef_bits", "cdef_y_pri_strength[0]", "cdef_y_sec_strength[0]", "cdef_uv_pri_strength[0]", "cdef_uv_sec_strength[0]":
            r.uncoded(name, 0)
        r.uncoded("CdefDamping", 3)
        return
    r.uncoded("CdefDamping", 3 + r.coded("cdef_damping_minus_3"))
    for i in range(2 ** r.coded("cdef_bits")):
        for plane in ("y",) if c.planes == 1 else ("y", "uv"):
            if r.coded(f"cdef_{plane}_pri_strength[{i}]", f"cdef_{plane}_sec_strength[{i}]") == 3:
                r.uncoded(f"cdef_{plane}_sec_strength[{i}]", 4)


def rlr(c, p, r):
    if c.all_lossless or c.allow_intrabc or not c.enable_restoration:
        for i in range(3):
            r.uncoded(f"FrameRestorationType[{i}]", 0)
        r.uncoded("UsesLr", 0)
        return
    kinds = [r.coded(f"lr_type[{i}]") for i in range(1 if c.planes == 1 else 3)]
    r.uncoded("UsesLr", int(any(kinds)))
    r.uncoded("usesChromaLr", int(any(kinds[1:])))
    if not any(kinds):
        return
    shift = r.coded("lr_unit_shift")
    more = 1 if c.use_128x128_superblock else r.coded("lr_unit_extra_shift") if shift else 0
    if more:
        r.uncoded("lr_unit_shift", shift + more)
    if c.subsampling_x and c.subsampling_y and any(kinds[1:]):
        r.coded("lr_uv_shift")
    else:
        r.uncoded("lr_uv_shift", 0)


ROWS = {"rquant": rquant, "rseg": rseg, "rlf": rlf, "rcdef": rcdef, "rlr": rlr}


def read(word, context, data, place):
    """The second model's answer, and the rows."""
    answer = parts_reader.read(word, context, data, place)
    if answer[0]:
        return answer, [f"refused {answer[0]}: {REFUSALS[answer[0]]}"]
    record = parts_reader.zeros(lines.READERS[word])
    traced = Traced(data, place)
    parts_reader.SECTIONS[lines.READERS[word]](traced, context, record)
    r = Rows(traced.coded)
    ROWS[word](context, record, r)
    assert not r.left and traced.at == answer[1], f"{word}: {r.left}"
    return answer, r.rows


def printed(line):
    """What is printed for a line, the lines of its answer."""
    if not line.strip(" "):
        return []
    if line.lstrip(" ").startswith("#"):
        return [line]
    try:
        word, context, data, place = lines.parse(line)
    except lines.Bad:
        return ["bad", ""]
    return read(word, context, data, place)[1] + [""] if word in ROWS else ["bad", ""]


def main():
    if sys.argv[1:] == ["lines"]:
        given = [line.removesuffix("\n") for line in sys.stdin]
    else:
        given = QUANT + SEG + LF + CDEF + LR + OTHER + list(real())
    for line in given:
        for out in [line] if sys.argv[1:] == ["stdin"] else printed(line):
            print(out)


main()
