#!/usr/bin/env python3
"""Makes case lines: records drawn at random and consistent, each field of them spoilt, the values at each boundary, of those records and of the longest ones,
every bit place, every buffer length around the need. The same seed gives the same lines.

    oracle/cases.py [SEED [SCALE]] > cases      (SCALE 1: the whole run; 0.01: a short one)
"""
import random
import sys

from lines import FIELDS, LIMITS, NO_POINT, POINT, Record, altered, numbers
from model import DEFAULT_REF_DELTAS, WALKS, Refused, Writer
from room import LONGEST

# Numbers on both sides of the boundaries of the fields' widths.
EDGES = {
    "u32": [0, 1, 2, 3, 4, 5, 6, 7, 8, 9, 15, 16, 17, 31, 32, 33, 63, 64, 65, 127, 128, 255, 256, 4095, 4096, 65535, 65536, 2**31 - 1, 2**31, 2**32 - 1],
    "u8": [0, 1, 6, 7, 8, 15, 16, 17, 30, 31, 32, 33, 63, 127, 128, 255],
    "i8": [-128, -127, -65, -64, -63, -2, -1, 0, 1, 2, 62, 63, 64, 65, 126, 127],
    "i16": [-32768, -32767, -257, -256, -255, -254, -65, -64, -63, -62, -8, -7, -1, 0, 1, 6, 7, 8, 62, 63, 64, 65, 254, 255, 256, 257, 32766, 32767],
    "b": [0, 1, 2, -1, 2**32],
}


class Zeros(Writer):
    """Writes 31 to 33 zeros for every uvlc, then a one."""

    def uvlc(self, v, element):
        self.put(31 + v % 3, 0)
        self.put(32, 2**31 + v // 2)


class Maker(random.Random):
    def flag(self):
        return self.randrange(2)

    def rare(self, n):
        return int(self.randrange(n) == 0)

    def upto(self, most):
        """0 to most, both ends more often."""
        return self.choice((0, most, self.randrange(most + 1), self.randrange(most + 1)))

    def any(self, kind="u32"):
        return self.choice(EDGES[kind]) if kind == "b" or self.flag() else self.randint(*LIMITS[kind])

    # Consistent records. Fields that a walk does not look at hold anything.
    def header(self, p, obu_type):
        p.obu_type, p.extension_flag, p.has_size_field = obu_type, self.flag(), self.flag()
        p.temporal_id = self.upto(7) if p.extension_flag else self.any()
        p.spatial_id = self.upto(3) if p.extension_flag else self.any()
        return p

    def td(self):
        return self.header(Record(), 2)

    def seq(self, large=0):
        q = self.header(Record(), 1)
        q.seq_profile, q.still_picture, q.reduced_still_picture_header = self.randrange(3), self.flag(), 0 if large else self.rare(3)
        reduced = q.reduced_still_picture_header
        q.timing_info_present_flag = 0 if reduced else large or self.flag()
        q.num_units_in_display_tick, q.time_scale, q.equal_picture_interval = self.any(), self.any(), self.flag()
        q.num_ticks_per_picture_minus_1 = self.choice((0, 1, 2, 3, 2**32 - 2, self.randrange(2 ** self.randrange(1, 32))))
        q.decoder_model_info_present_flag = self.flag() if reduced or q.timing_info_present_flag else 0
        q.buffer_delay_length_minus_1, q.num_units_in_decoding_tick = self.upto(31), self.any()
        q.buffer_removal_time_length_minus_1, q.frame_presentation_time_length_minus_1 = self.upto(31), self.upto(31)
        q.initial_display_delay_present_flag = 0 if reduced else self.flag()
        points = self.randint(9, 17) if large else self.choice((0, 0, 0, 1, 1, 2, 3, self.upto(10), self.rare(3) * self.upto(31)))
        q.operating_points_cnt_minus_1 = 0 if reduced else points
        count = q.operating_points_cnt_minus_1 + 1
        q.given = self.choice((count, count, count, self.randrange(count + 1), min(32, count + 1)))
        q.points = [self.point(q, i) for i in range(q.given)] + [NO_POINT] * (32 - q.given)
        for side in ("width", "height"):
            bits = self.upto(15)
            setattr(q, f"frame_{side}_bits_minus_1", bits)
            setattr(q, f"max_frame_{side}_minus_1", self.choice((0, 2 ** (bits + 1) - 1, 2**bits, self.randrange(2 ** (bits + 1)))))
        q.frame_id_numbers_present_flag = 0 if reduced else self.flag()
        ids = q.frame_id_numbers_present_flag
        q.delta_frame_id_length_minus_2, q.additional_frame_id_length_minus_1 = (self.upto(15), self.upto(7)) if ids else (self.any(), self.any())
        q.use_128x128_superblock, q.enable_filter_intra, q.enable_intra_edge_filter = self.flag(), self.flag(), self.flag()
        self.tools(q)
        q.enable_superres, q.enable_cdef, q.enable_restoration = self.flag(), self.flag(), self.flag()
        self.color(q)
        q.film_grain_params_present = self.flag()
        return q

    def large_seq(self):
        """With many points, so that the size field's own length is at stake."""
        while True:
            q = self.seq(large=1)
            if 125 <= need("seq", altered(q, has_size_field=0, extension_flag=0), 0) - 1 <= 129:
                return q

    def point(self, q, i):
        p, reduced, beyond = Record(), q.reduced_still_picture_header, i > q.operating_points_cnt_minus_1
        if beyond:
            for name, kind, _, _ in POINT:
                setattr(p, name, self.any(kind))
            return p
        p.operating_point_idc, p.seq_level_idx = 0 if reduced else self.upto(4095), self.choice((0, 7, 8, 31, self.randrange(32)))
        p.seq_tier = self.any() if reduced else self.flag() if p.seq_level_idx > 7 else 0
        p.decoder_model_present_for_this_op = 0 if reduced or not q.decoder_model_info_present_flag else self.flag()
        n = q.buffer_delay_length_minus_1 + 1
        model = p.decoder_model_present_for_this_op
        p.decoder_buffer_delay, p.encoder_buffer_delay = (self.upto(2**n - 1), self.upto(2**n - 1)) if model else (self.any(), self.any())
        p.low_delay_mode_flag = self.flag()
        p.initial_display_delay_present_for_this_op = 0 if reduced else self.flag()
        coded = q.initial_display_delay_present_flag and p.initial_display_delay_present_for_this_op
        p.initial_display_delay_minus_1 = self.upto(15) if coded else self.any()
        return p

    def tools(self, q):
        reduced = q.reduced_still_picture_header
        for name in ("interintra_compound", "masked_compound", "warped_motion", "dual_filter", "order_hint"):
            setattr(q, "enable_" + name, 0 if reduced else self.flag())
        hint = q.enable_order_hint
        q.enable_jnt_comp, q.enable_ref_frame_mvs = hint and self.flag(), hint and self.flag()
        q.seq_choose_screen_content_tools, q.seq_choose_integer_mv = self.flag(), self.flag()
        q.seq_force_screen_content_tools = 2 if reduced or q.seq_choose_screen_content_tools else self.flag()
        asked = not reduced and q.seq_force_screen_content_tools > 0
        q.seq_force_integer_mv = self.flag() if asked and not q.seq_choose_integer_mv else 2
        q.order_hint_bits_minus_1 = self.upto(7) if hint else self.any("u8")
        q.OrderHintBits = q.order_hint_bits_minus_1 + 1 if hint else 0

    def color(self, q):
        q.high_bitdepth = self.flag()
        q.twelve_bit = self.flag() if q.seq_profile == 2 and q.high_bitdepth else 0
        q.mono_chrome = 0 if q.seq_profile == 1 else self.rare(3)
        q.color_description_present_flag = self.flag()
        srgb = q.color_description_present_flag and self.rare(3)
        described = (1, 13, 0) if srgb else [self.choice((0, 1, 2, 13, self.upto(255))) for _ in range(3)]
        triple = tuple(described) if q.color_description_present_flag else (2, 2, 2)
        q.color_primaries, q.transfer_characteristics, q.matrix_coefficients = triple
        srgb = triple == (1, 13, 0) and not q.mono_chrome
        q.color_range = 1 if srgb else self.flag()
        x = self.flag()
        sampling = [(1, 1), (0, 0), (x, x and self.flag()) if q.twelve_bit else (1, 0)][q.seq_profile]
        q.subsampling_x, q.subsampling_y = (1, 1) if q.mono_chrome else (0, 0) if srgb else sampling
        q.chroma_sample_position = self.upto(3) if q.subsampling_x and q.subsampling_y and not q.mono_chrome else 0
        q.separate_uv_delta_q = 0 if q.mono_chrome else self.flag()
        q.NumPlanes = 1 if q.mono_chrome else 3

    def planes(self):
        return self.choice((1, 1, 3, 3, 3, 0, 2, 2**32 - 1))

    def delta(self):
        return self.choice((0, 0, 1, -1, 63, -64, self.randint(-64, 63)))

    def quant(self):
        p = Record()
        p.planes, p.separate_uv_delta_q = self.planes(), self.flag()
        p.base_q_idx, p.delta_q_y_dc = self.upto(255), self.delta()
        p.diff_uv_delta = p.separate_uv_delta_q and self.flag()
        u, v = (self.delta(), self.delta()), (self.delta(), self.delta())
        u, v = ((0, 0), (0, 0)) if p.planes == 1 else (u, v) if p.diff_uv_delta else self.choice(((u, u), ((0, 0), (0, 0))))
        (p.delta_q_u_dc, p.delta_q_u_ac), (p.delta_q_v_dc, p.delta_q_v_ac) = u, v
        p.using_qmatrix = self.flag()
        used = p.using_qmatrix
        p.qm_y, p.qm_u, p.qm_v = [self.upto(15) if used else self.any() for _ in range(3)]
        if not p.separate_uv_delta_q:
            p.qm_v = p.qm_u
        return p

    def seg(self):
        p = Record()
        p.primary_ref_frame = self.choice((7, 7, 0, 1, 6, 8, self.any()))
        none = p.primary_ref_frame == 7
        p.segmentation_enabled = 1 - self.rare(10)
        p.segmentation_update_map, p.segmentation_temporal_update = (1, 0) if none else (self.flag(), self.flag())
        p.segmentation_update_data = 1 if none else 1 - self.rare(3)
        data, many = p.segmentation_update_data or not p.segmentation_enabled, self.choice((1, 2, 8, 30))
        p.feature_enabled = [int(data and self.rare(many)) for _ in range(64)]
        p.feature_data = [self.any("i16") if data and self.flag() else 0 for _ in range(64)]
        return p

    def lf(self):
        p = Record()
        p.coded_lossless, p.allow_intrabc, p.planes = self.rare(8), self.rare(8), self.planes()
        off = p.coded_lossless or p.allow_intrabc
        level = [0 if off else self.upto(63), 0 if off else self.upto(63)]
        coded = not off and p.planes != 1 and any(level)
        p.loop_filter_level = level + [self.upto(63) if coded else self.any() for _ in range(2)]
        p.loop_filter_sharpness = self.any() if off else self.upto(7)
        p.loop_filter_delta_enabled, p.loop_filter_delta_update = self.flag(), self.flag()
        written = p.loop_filter_delta_enabled and p.loop_filter_delta_update
        p.loop_filter_ref_deltas = list(DEFAULT_REF_DELTAS) if off else [self.delta() if written else self.any("i8") for _ in range(8)]
        p.loop_filter_mode_deltas = [0, 0] if off else [self.delta() if written else self.any("i8") for _ in range(2)]
        return p

    def exchanged_lf(self):
        """Uncoded, with two places of the default deltas exchanged; those in which the crate's list differs more often."""
        p = self.lf()
        while not (p.coded_lossless or p.allow_intrabc):
            p = self.lf()
        deltas, (i, j) = p.loop_filter_ref_deltas, self.choice(((4, 5), self.sample(range(8), 2)))
        deltas[i], deltas[j] = deltas[j], deltas[i]
        return p

    def cdef(self):
        p = Record()
        p.coded_lossless, p.allow_intrabc, p.enable_cdef, p.planes = self.rare(8), self.rare(8), 1 - self.rare(8), self.planes()
        off = p.coded_lossless or p.allow_intrabc or not p.enable_cdef
        p.cdef_bits, p.cdef_damping = (0, 3) if off else (self.randrange(4), self.randint(3, 6))
        coded = 0 if off else 2**p.cdef_bits
        for part in ("y", "uv"):
            looked = coded if part == "y" or p.planes != 1 else 0
            first = [0] * off
            pri = first + [self.upto(15) if i < looked else self.any() for i in range(len(first), 8)]
            sec = first + [self.choice((0, 1, 2, 4)) if i < looked else self.any() for i in range(len(first), 8)]
            setattr(p, f"cdef_{part}_pri_strength", pri)
            setattr(p, f"cdef_{part}_sec_strength", sec)
        return p

    def lr(self):
        p = Record()
        p.all_lossless, p.allow_intrabc, p.enable_restoration, p.planes = self.rare(8), self.rare(8), 1 - self.rare(8), self.planes()
        p.use_128x128_superblock, p.subsampling_x, p.subsampling_y = self.flag(), 1 - self.rare(3), 1 - self.rare(3)
        off = p.all_lossless or p.allow_intrabc or not p.enable_restoration
        kinds = [0 if off or self.rare(3) else self.randrange(4) for _ in range(3)]
        if p.planes == 1 and not off:
            kinds = kinds[:1] + [self.choice((0, 0, 0, 1, 2, 3)) for _ in range(2)]
        p.frame_restoration_type = kinds
        p.uses_lr = int(any(kinds[:1] if p.planes == 1 else kinds))
        p.uses_chroma_lr = self.flag() if off else int(p.planes != 1 and any(kinds[1:]))
        if off or not p.uses_lr:
            p.lr_unit_shift, p.lr_uv_shift = self.any(), self.any()
            return p
        p.lr_unit_shift = self.choice((1, 2)) if p.use_128x128_superblock else self.randrange(3)
        p.lr_uv_shift = self.flag() if p.subsampling_x and p.subsampling_y and p.uses_chroma_lr else 0
        return p

    def spelling(self):
        """A sequence header OBU in one of its spellings, or such bytes spoilt."""
        q = self.seq()
        walk = (Zeros if self.rare(10) else Writer)()
        walk.sequence_obu(altered(q, has_size_field=0))
        data = walk.value.to_bytes(walk.count // 8, "big")
        start = 1 + q.extension_flag
        header, body = data[:start], data[start:] + bytes(self.choice((0, 0, 0, 1, 2, 200)))
        if q.has_size_field:
            least = 2 if len(body) > 127 else 1
            size = leb128(len(body) + self.choice((0,) * 8 + (1, -1)), self.choice((least, least, self.randint(least, 8), 9)))
            header = bytes([header[0] | 2]) + header[1:] + size
        data = bytearray(header + body)
        if self.flag():
            at = self.choice((self.randrange(len(data)), self.randrange(min(len(data), 12)), len(data) - 1))
            data[at] ^= 1 << self.randrange(8)
        if self.rare(4):
            data = data[: self.randrange(len(data) + 1)]
        return bytes(data)

    # Lines.
    def buffer(self, length):
        return self.randbytes(length).hex().upper()

    def line(self, word, record, length=None, place=None):
        """A line with a buffer of random bytes, so that an untouched one shows; of a length near the need unless told."""
        if place is None:
            place = 0 if word in ("seq", "td") or self.rare(3) else self.randrange(16)
        if length is None:
            length = max(0, need(word, record, place) + self.choice((0, 0, 0, 0, 1, 2, -1)))
        text = " ".join(map(str, numbers(record, FIELDS[word]))) + f" ; buf={self.buffer(length)}"
        return f"{word} {text} place={place}" if place else f"{word} {text}"

    def spoil(self, word, record):
        """One field set to a number at a boundary of its type or of a field's width."""
        name, kind, count, array = self.choice([field for field in FIELDS[word] if field[0] != "points"])
        if word == "seq" and record.given and self.rare(5):
            record = self.copy(record)
            i = self.randrange(record.given)
            record.points[i] = self.copy(record.points[i])
            name, kind, count, array = self.choice(POINT)
            setattr(record.points[i], name, self.edge(kind, getattr(record.points[i], name)))
            return record
        record = self.copy(record)
        if array:
            i = self.randrange(count)
            getattr(record, name)[i] = self.edge(kind, getattr(record, name)[i])
        else:
            setattr(record, name, self.edge(kind, getattr(record, name)))
        return record

    def edge(self, kind, old):
        return int(old == 0) if kind == "b" else self.choice((self.choice(EDGES[kind]), self.choice(EDGES[kind]), min(LIMITS[kind][1], old + 1)))

    def copy(self, record):
        return altered(record, **{name: list(v) for name, v in vars(record).items() if isinstance(v, list)})

    def every_edge(self, word, record):
        """The record with each field in turn, of arrays each place, at each number of EDGES."""
        for name, kind, count, array in FIELDS[word]:
            if name == "points":
                for i in {0, record.operating_points_cnt_minus_1} & set(range(record.given)):
                    for name, kind, _, _ in POINT:
                        for v in EDGES[kind]:
                            out = self.copy(record)
                            out.points[i] = self.copy(out.points[i])
                            setattr(out.points[i], name, v)
                            yield out
                continue
            for i in range(count):
                for v in EDGES[kind]:
                    out = self.copy(record)
                    if array:
                        getattr(out, name)[i] = v
                    else:
                        setattr(out, name, v)
                    yield out

    def every_buffer(self, word, record):
        """Each length around the need, at each bit place 0 to 15; and places around the buffer's end and at the last number."""
        whole = word in ("seq", "td")
        for place in [0] if whole else range(16):
            n = need(word, record, place)
            for length in sorted({0, 1, max(0, n - 2), max(0, n - 1), n, n + 1, n + 2}):
                yield self.line(word, record, length, place)
        if not whole:
            for length in (0, 1, 3, n):
                for place in (8 * length - 1, 8 * length, 8 * length + 1, 2**31, 2**32 - 1):
                    if place > 0:
                        yield self.line(word, record, length, place)


def leb128(v, length):
    """v in a given number of bytes; what does not fit is cut."""
    return bytes(v >> 7 * i & 127 | (128 if i < length - 1 else 0) for i in range(length))


def need(word, record, place):
    """Bytes from the buffer's start to the end of what is written, or to where the walk is refused."""
    walk = Writer()
    try:
        getattr(walk, WALKS[word])(record)
    except Refused:
        walk.put(24, 0)
    return -(-(place + walk.count) // 8)


# How many lines of each kind the whole run has: consistent, spoilt once, spoilt twice, records for every_edge, records for every_buffer.
PLAN = {
    "seq": (40000, 30000, 15000, 12, 800),
    "td": (600, 800, 400, 4, 60),
    "quant": (36000, 36000, 18000, 40, 120),
    "seg": (33000, 30000, 15000, 10, 110),
    "lf": (36000, 36000, 18000, 20, 100),
    "cdef": (36000, 36000, 18000, 10, 110),
    "lr": (36000, 36000, 18000, 30, 110),
}


READS = 20000


def make(seed=1, scale=1.0, plan=PLAN):
    """The lines of a run."""
    maker = Maker(f"{seed} read")
    for _ in range(max(1, round(READS * scale))):
        data = maker.randbytes(maker.randrange(12)) if maker.rare(10) else maker.spelling()
        yield f"{maker.choice(('read', 'read', 'read', 'payload'))} {data.hex().upper()}".rstrip()
    for word, counts in plan.items():
        maker = Maker(f"{seed} {word}")
        consistent, once, twice, edges, buffers = (max(1, round(n * scale)) for n in counts)
        draw = getattr(maker, word)
        for _ in range(consistent):
            yield maker.line(word, draw())
        for _ in range(once):
            yield maker.line(word, maker.spoil(word, draw()))
        for _ in range(twice):
            yield maker.line(word, maker.spoil(word, maker.spoil(word, draw())))
        for _ in range(edges):
            for record in maker.every_edge(word, draw()):
                yield maker.line(word, record)
        for record in maker.every_edge(word, LONGEST[word]):
            yield maker.line(word, record)
        for _ in range(buffers):
            record = draw() if maker.flag() else maker.spoil(word, draw())
            yield from maker.every_buffer(word, record)
        for length in (65536, 65537):
            yield maker.line(word, draw(), length)
            yield maker.line(word, maker.spoil(word, draw()), length)
        if word == "seq":
            for _ in range(max(40, round(400 * scale))):
                yield maker.line(word, maker.large_seq())
        if word == "lf":
            for _ in range(max(40, round(4000 * scale))):
                yield maker.line(word, maker.exchanged_lf())


if __name__ == "__main__":
    for line in make(sys.argv[1] if len(sys.argv) > 1 else 1, float(sys.argv[2]) if len(sys.argv) > 2 else 1.0):
        print(line)
