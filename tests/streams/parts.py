"""The frame parts' vectors: the five parts of each real frame header as case lines, with FFmpeg's reading as the record."""

import re
from typing import NamedTuple

import obus
import sequence

KEY_FRAME = 0
PRIMARY_REF_NONE = 7

# The numbers of a case that are not of the record
CONTEXT = {"quant": 2, "seg": 1, "lf": 3, "cdef": 4, "lr": 7}

# What the record must hold where the loop filter is not coded: the standard's defaults of the eight references and the two modes
DEFAULT_DELTAS = [1, 0, 0, 0, -1, 0, -1, -1, 0, 0]

# Deltas that no stream here has
OTHER_DELTAS = [-128, 127, 2, -3, 4, -5, 6, -7, 64, -65]

FEATURE_BITS = [8, 6, 6, 6, 6, 3, 0, 0]
FEATURE_LIMITS = [255, 63, 63, 63, 63, 7, 0, 0]
SIGNED_FEATURES = 5

# FFmpeg's names of each part's fields, in the order of the frame header
FIELDS = [
    ("quant", r"base_q_idx|delta_q_[yuv]_|diff_uv_delta|using_qmatrix|qm_[yuv]"),
    ("seg", r"segmentation_|feature_"),
    ("", r"delta_q_present|delta_q_res|delta_lf_"),
    ("lf", r"loop_filter_|update_ref_delta|update_mode_delta"),
    ("cdef", r"cdef_"),
    ("lr", r"lr_"),
]


class Frame(NamedTuple):
    sequence: dict
    values: dict
    coded_lossless: int
    data: bytes
    fields: list

    def get(self, name):
        return self.values.get(name, 0)

    def planes(self):
        return 1 if self.sequence.get("mono_chrome") else 3


class Part(NamedTuple):
    word: str
    numbers: list
    place: int
    end: int
    data: bytes

    def real(self):
        return obus.bits_of(self.data)[self.place:self.end]

    def lines(self):
        """The case, its part's bits inverted in the buffer, and the answer that restores the real bytes."""
        size = (self.end + 7) // 8 + 2
        whole = int.from_bytes(self.data[:size], "big")
        mask = (1 << self.end - self.place) - 1 << 8 * size - self.end
        given = (whole ^ mask).to_bytes(size, "big").hex().upper()
        return [
            f"{self.word} {' '.join(map(str, self.numbers))}; buf={given} place={self.place}",
            f"0 {self.end} {self.data[:size].hex().upper()}",
        ]


# The records, from FFmpeg's fields


def quant(frame):
    def delta(name):
        return frame.get(f"delta_q_{name}.delta_q")

    u = [delta("u_dc"), delta("u_ac")]
    v = [delta("v_dc"), delta("v_ac")] if frame.get("diff_uv_delta") else u
    context = [frame.planes(), frame.sequence.get("separate_uv_delta_q", 0)]
    qm = [frame.get("qm_y"), frame.get("qm_u"), frame.values.get("qm_v", frame.get("qm_u"))]
    return context + [frame.get("base_q_idx"), delta("y_dc"), frame.get("diff_uv_delta"), *u, *v, frame.get("using_qmatrix"), *qm]


def seg(frame):
    primary = primary_ref_frame(frame.values)
    enabled = frame.get("segmentation_enabled")
    uncoded = int(enabled and primary == PRIMARY_REF_NONE)
    flags = [
        enabled, frame.values.get("segmentation_update_map", uncoded), frame.get("segmentation_temporal_update"),
        frame.values.get("segmentation_update_data", uncoded),
    ]
    places = [f"[{i}][{j}]" for i in range(8) for j in range(8)]
    return [primary, *flags] + [frame.get(name + at) for name in ("feature_enabled", "feature_value") for at in places]


def lf(frame):
    context = [frame.coded_lossless, frame.get("allow_intrabc"), frame.planes()]
    levels = [frame.get(f"loop_filter_level[{i}]") for i in range(4)]
    flags = [frame.get(f"loop_filter_{name}") for name in ("sharpness", "delta_enabled", "delta_update")]
    deltas = [frame.get(f"loop_filter_ref_deltas[{i}]") for i in range(8)] + [frame.get(f"loop_filter_mode_deltas[{i}]") for i in range(2)]
    return context + levels + flags + (DEFAULT_DELTAS if context[0] or context[1] else deltas)


def cdef(frame):
    context = [frame.coded_lossless, frame.get("allow_intrabc"), frame.sequence["enable_cdef"], frame.planes()]
    strengths = []
    for plane in "y", "uv":
        strengths += [frame.get(f"cdef_{plane}_pri_strength[{i}]") for i in range(8)]
        strengths += [(0, 1, 2, 4)[frame.get(f"cdef_{plane}_sec_strength[{i}]")] for i in range(8)]
    return context + [frame.get("cdef_bits"), frame.get("cdef_damping_minus_3") + 3] + strengths


def lr(frame):
    s = frame.sequence
    all_lossless = int(frame.coded_lossless and not frame.get("use_superres"))
    context = [
        all_lossless, frame.get("allow_intrabc"), s["enable_restoration"], frame.planes(),
        s["use_128x128_superblock"], s["subsampling_x"], s["subsampling_y"],
    ]
    kinds = [frame.get(f"lr_type[{i}]") for i in range(3)]
    return context + kinds + [int(any(kinds)), int(any(kinds[1:])), frame.get("lr_unit_shift"), frame.get("lr_uv_shift")]


# Document 01's one spelling of a record


def f(n, value):
    return format(value, "b").zfill(n) if n else ""


def su(n, value):
    return f(n, value % 2 ** n)


def delta_q(value):
    return "1" + su(7, value) if value else "0"


def spell_quant(planes, separate, base, y_dc, diff, u_dc, u_ac, v_dc, v_ac, using, qm_y, qm_u, qm_v):
    bits = f(8, base) + delta_q(y_dc)
    if planes > 1:
        bits += f(1, diff) if separate else ""
        bits += delta_q(u_dc) + delta_q(u_ac)
        bits += delta_q(v_dc) + delta_q(v_ac) if diff else ""
    bits += f(1, using)
    if using:
        bits += f(4, qm_y) + f(4, qm_u) + (f(4, qm_v) if separate else "")
    return bits


def spell_feature(kind, value):
    n, limit = FEATURE_BITS[kind], FEATURE_LIMITS[kind]
    if kind < SIGNED_FEATURES:
        return su(n + 1, max(-limit, min(limit, value)))
    return f(n, max(0, min(limit, value)))


def spell_seg(primary, enabled, update_map, temporal_update, update_data, *features):
    bits = f(1, enabled)
    if enabled and primary != PRIMARY_REF_NONE:
        bits += f(1, update_map) + (f(1, temporal_update) if update_map else "") + f(1, update_data)
    if enabled and update_data:
        for i in range(64):
            bits += "1" + spell_feature(i % 8, features[64 + i]) if features[i] else "0"
    return bits


def spell_lf(lossless, intrabc, planes, level0, level1, level2, level3, sharpness, enabled, update, *deltas):
    if lossless or intrabc:
        return ""
    bits = f(6, level0) + f(6, level1)
    if planes > 1 and (level0 or level1):
        bits += f(6, level2) + f(6, level3)
    bits += f(3, sharpness) + f(1, enabled)
    bits += f(1, update) if enabled else ""
    if enabled and update:
        bits += "".join("1" + su(7, delta) for delta in deltas)
    return bits


def spell_cdef(lossless, intrabc, enable, planes, cdef_bits, damping, *strengths):
    if lossless or intrabc or not enable:
        return ""
    bits = f(2, damping - 3) + f(2, cdef_bits)
    for i in range(1 << cdef_bits):
        for kind in range(4 if planes > 1 else 2):
            value = strengths[8 * kind + i]
            bits += f(2, min(value, 3)) if kind % 2 else f(4, value)
    return bits


def spell_lr(lossless, intrabc, enable, planes, large, x, y, kind0, kind1, kind2, uses, uses_chroma, unit_shift, uv_shift):
    if lossless or intrabc or not enable:
        return ""
    bits = "".join(f(2, kind) for kind in (kind0, kind1, kind2)[:planes])
    if uses:
        bits += f(1, unit_shift - 1) if large else ("0", "10", "11")[unit_shift]
        bits += f(1, uv_shift) if x and y and uses_chroma else ""
    return bits


RECORDS = {"quant": quant, "seg": seg, "lf": lf, "cdef": cdef, "lr": lr}
SPELLINGS = {"quant": spell_quant, "seg": spell_seg, "lf": spell_lf, "cdef": spell_cdef, "lr": spell_lr}


# The cases as cases of the readers


def readings(case, answer):
    """The real bytes read at the part's place, with FFmpeg's fields as the answer; and the same bytes cut off inside the part, or before its place."""
    words, settings = case.split("; ")
    word, *numbers = words.split()
    context, record = numbers[:CONTEXT[word]], numbers[CONTEXT[word]:]
    place, (_, end, data) = settings.split(" ")[1], answer.split()
    for before in (DEFAULT_DELTAS, OTHER_DELTAS) if word == "lf" else ([],):
        line = f"r{word} {' '.join([*context, *map(str, before)])}; {place} in="
        yield line + data, f"0 {end} {' '.join(after(record, before) if stands(word, context, record) else record)}"
    yield line + data[:(int(end) - 1) // 8 * 2], "4 0 0"


def stands(word, context, record):
    """Whether the loop filter is coded, and none of its deltas."""
    return word == "lf" and context[:2] == ["0", "0"] and record[6] == "0"


def after(record, deltas):
    return record[:-len(deltas)] + [str(delta) for delta in deltas]


# The frames of a stream


def primary_ref_frame(v):
    return v.get("primary_ref_frame", PRIMARY_REF_NONE)


class References:
    """What a later frame may take over from a stored one: the segments' quantizer offsets, which CodedLossless goes by."""

    def __init__(self):
        self.slots = [None] * 8

    def offsets(self, v):
        if not v["segmentation_enabled"]:
            return [0] * 8
        if v.get("segmentation_update_data", 1):
            return [v.get(f"feature_value[{i}][0]", 0) for i in range(8)]
        return self.slots[v[f"ref_frame_idx[{primary_ref_frame(v)}]"]][1]

    def store(self, v):
        for i in range(8):
            if v.get("refresh_frame_flags", 255) >> i & 1:
                self.slots[i] = v.get("frame_type", KEY_FRAME), self.offsets(v)

    def show(self, slot):
        if self.slots[slot][0] == KEY_FRAME:
            self.slots = [self.slots[slot]] * 8


def coded_lossless(v, offsets):
    deltas = [value for name, value in v.items() if name.endswith(".delta_q")]
    return int(all(v["base_q_idx"] + offset <= 0 for offset in offsets) and not any(deltas))


def frames(stream):
    """The frames of a stream that code the five parts."""
    references, current = References(), None
    for obu in stream:
        v = obu.values()
        if obu.type() == obus.SEQUENCE_HEADER:
            current = sequence.filled(v)
        elif v.get("show_existing_frame"):
            references.show(v["frame_to_show_map_idx"])
        elif "base_q_idx" in v:
            yield Frame(current, v, coded_lossless(v, references.offsets(v)), obu.data, obu.fields)
            references.store(v)


def parts(frame):
    place = None
    for word, names in FIELDS:
        mine = [field for field in frame.fields if re.match(names, field.name)]
        start = mine[0].place if mine else place
        assert place in (None, start), f"{word} is at {start} and not at {place}"
        place = mine[-1].place + mine[-1].width if mine else start
        if word:
            yield Part(word, RECORDS[word](frame), start, place, frame.data)


def spelled_otherwise(frame, part):
    """Whether a part is legal, but not as document 01 writes it."""
    v = frame.values
    if part.word == "quant":
        return any(name.endswith(".delta_q") and not value for name, value in v.items())
    if part.word == "lf":
        return any(re.match("update_(ref|mode)_delta", name) and not value for name, value in v.items())
    return False


def cases(stream):
    """The parts of a stream's frames: those in document 01's spelling, and the words of the others."""
    kept, others = [], []
    for number, frame in enumerate(frames(stream)):
        for part in parts(frame):
            if spelled_otherwise(frame, part):
                others.append(part.word)
                continue
            assert SPELLINGS[part.word](*part.numbers) == part.real(), f"frame {number}: {part}"
            kept.append((number, part))
    return kept, others
