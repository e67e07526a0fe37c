"""What the crate answers instead, row by row of docs/DIFFERENCES.md.

A row's rule is an override of a function of model.py: what the crate does at that place, and no more. With all of them in force the model must give
the crate's answer to the letter, also which bits were out before a refusal; each row that had an effect notes itself. So a row takes a
disagreement only if it says exactly what the crate answered.
"""
from lines import WHOLE, altered
from model import DEFAULT_REF_DELTAS, ELEMENTS, WALKS, Refused, Writer, stored

RULES = {
    1: "the crate's bytes or bits so far are in the buffer; where this row decides, both refuse under the same name",
    2: "release build: the crate goes on where it would have refused",
    3: "f(n) of a value of more than n bits: the crate writes the low n bits",
    4: "the same, and the uncut value takes another branch of the walk than the cut one",
    5: "su(n) of a value out of range: the crate writes its low n bits",
    6: "uvlc of 2^32 - 1: the crate writes 32 zeros",
    7: "leb128 whose top group is 127: the crate writes FF 00",
    10: "operating_points_cnt_minus_1 of 32: the crate writes 32 points and panics",
    11: "f(n) with n over 32: the crate gives up with an error",
    12: "an uncoded twelve_bit that is set: not looked at by the crate",
    13: "an uncoded chroma_sample_position that is not 0, not mono: not looked at by the crate",
    14: "a number of planes that mono_chrome forbids, with a later element of the colour that is refused: the crate names NumPlanes first",
    15: "a value that the crate's type cannot hold",
    18: "deltas of V with diff_uv_delta 0: the crate compares with 0 and not with U's",
    19: "segmentation with a primary reference: the crate writes temporal_update for update_data",
    20: "loop filter levels 2 and 3: the crate codes them only if both of levels 0 and 1 are not 0",
    21: "loop filter deltas: no update flags from the crate",
    22: "a secondary strength of 3, or of 5 and up, CDEF on: the crate writes its low 2 bits",
    23: "damping under 3, CDEF on: the crate subtracts below 0",
    24: "cdef_bits of 4 and up, CDEF on: the crate writes 8 places and panics",
    25: "restoration kinds: the crate writes three planes in its own numbering",
    26: "lr_unit_shift 2, small superblock: the crate writes 0, 1",
    27: "lr_unit_shift of 3 and up, small superblock: the crate writes its low bit and a 1",
    28: "reference deltas where none are coded: the crate demands its own list, with places 4 and 5 of the standard's exchanged",
    30: "the buffer ends too early: the crate fills it and gives up, where it is, with an input/output error",
    31: "a slice over 65,536 bytes: the crate takes it",
    34: "a part with 0 planes: the crate takes them for one",
}

# The largest number that the crate's type of a field holds, where that is less than ours.
MOST = {"obu_type": 15, "seq_profile": 2, "buffer_removal_time_length_minus_1": 255, "max_frame_width_minus_1": 65535, "max_frame_height_minus_1": 65535,
        "OrderHintBits": 2**31 - 1, "color_primaries": 255, "transfer_characteristics": 255, "matrix_coefficients": 255,
        "chroma_sample_position": 3, "frame_restoration_type": 3}

# What the walk asks of a coded value later on.
STEERS = {"seq_level_idx": lambda v: v > 7, "frame_width_bits_minus_1": lambda v: v, "frame_height_bits_minus_1": lambda v: v,
          "seq_force_screen_content_tools": lambda v: v > 0, "loop_filter_level": lambda v: v > 0}

# The crate's numbers of the coded kinds none, switchable, Wiener, self-guided.
OWN_KINDS = (0, 3, 1, 2)

# The crate's default reference deltas.
OWN_REF_DELTAS = [1, 0, 0, 0, 0, -1, -1, -1]


class Stop(Exception):
    """How the crate ended: a form and a reason, as the driver says them."""


def refuses(walk):
    """Whether a walk of the model is refused."""
    try:
        walk(Writer())
    except Refused:
        return True
    return False


class Crate(Writer):
    def __init__(self, release=False, rows=None):
        super().__init__()
        self.release, self.rows, self.reduced = release, [] if rows is None else rows, False

    def row(self, number):
        self.rows.append(number)

    def low(self, n, v):
        self.put(n, v % 2**n)

    def demand(self, holds, element, index=0):
        if holds:
            return
        if not self.release:
            raise Stop("refused " + element)
        self.row(2)

    # 4.10
    def f(self, n, v, element=None, index=0):
        if n > 32:
            self.row(11)
            raise Stop("error invalid_bit_count")
        if v >= 2**n:
            steers = STEERS.get(element)
            if element == "seq_level_idx" and self.reduced or element == "loop_filter_level" and index > 1:
                steers = None
            self.row(4 if steers and steers(v) != steers(v % 2**n) else 3)
        self.low(n, v)

    def su(self, n, v, element, index=0):
        if not -(2 ** (n - 1)) <= v < 2 ** (n - 1):
            self.row(5)
        self.low(n, v)

    def uvlc(self, v, element):
        if v < 2**32 - 1:
            return super().uvlc(v, element)
        self.row(6)
        self.put(32, 0)

    def leb128(self, v):
        while v >= 127:
            if v == 127:
                self.row(7)
            self.put(8, 128 + v % 128)
            v //= 128
        self.put(8, v)

    # 5.3.1
    def body(self, q):
        body = Crate(self.release, self.rows)
        try:
            body.sequence_header_obu(q)
        except Stop:
            if not q.has_size_field:
                self.put(body.count, body.value)
            raise
        body.trailing_bits()
        return body

    # 5.5.1
    def sequence_header_obu(self, q):
        self.reduced = q.reduced_still_picture_header
        super().sequence_header_obu(q)

    def operating_points(self, q):
        count = q.operating_points_cnt_minus_1
        self.demand(count <= 32, "operating_points_cnt_minus_1")
        if count == 32:
            self.row(10)
        self.low(5, count)
        for i in range(min(count, 31) + 1):
            self.operating_point(q, q.points[i], i)
        if count > 31:
            raise Stop("panic index_out_of_bounds:_the_len_is_32_but_the_index_is_32")

    # 5.5.2
    def color_config(self, q):
        if q.twelve_bit and not (q.seq_profile == 2 and q.high_bitdepth):
            self.row(12)
            q = altered(q, twelve_bit=0)
        super().color_config(q)

    def color_rest(self, q):
        if not self.release and refuses(lambda walk: walk.plane_count(q)) and refuses(lambda walk: walk.color_rest(q)):
            self.row(14)
        super().plane_count(q)
        super().color_rest(q)

    def plane_count(self, q):
        pass

    def uncoded_chroma_sample_position(self, q):
        if q.chroma_sample_position != 0:
            self.row(13)

    def three_planes(self, p):
        if p.planes == 0:
            self.row(34)
        return p.planes > 1

    # 5.9.11
    def uncoded_ref_deltas(self, deltas):
        if deltas == OWN_REF_DELTAS or deltas == DEFAULT_REF_DELTAS and not self.release:
            self.row(28)
        self.demand(deltas == OWN_REF_DELTAS, "loop_filter_ref_deltas")

    def chroma_levels_coded(self, p):
        both = p.planes > 1 and p.loop_filter_level[0] != 0 and p.loop_filter_level[1] != 0
        if both != Writer().chroma_levels_coded(p):
            self.row(20 if p.planes else 34)
        return both

    def loop_filter_delta(self, v, element, i):
        self.row(21)
        self.su(7, v, element, i)

    # 5.9.12
    def uncoded_delta_v(self, v, u, element):
        if (v == 0) != (v == u):
            self.row(18)
        self.demand(v == 0, element)

    # 5.9.14
    def segmentation_updates(self, p):
        if p.segmentation_temporal_update != p.segmentation_update_data:
            self.row(19)
        super().segmentation_updates(altered(p, segmentation_update_data=p.segmentation_temporal_update))

    # 5.9.19
    def cdef_params(self, p):
        off = p.coded_lossless or p.allow_intrabc or not p.enable_cdef
        if off or p.cdef_bits < 4:
            return super().cdef_params(p)
        self.damping(p.cdef_damping)
        self.row(24)
        self.low(2, p.cdef_bits)
        if p.cdef_bits >= 64 and not self.release:
            raise Stop("panic attempt_to_shift_left_with_overflow")
        places = 2 ** (p.cdef_bits % 64)
        for i in range(min(places, 8)):
            self.cdef_strengths(p, i)
        if places > 8:
            raise Stop("panic index_out_of_bounds:_the_len_is_8_but_the_index_is_8")

    def damping(self, v):
        if v < 3:
            self.row(23)
            if not self.release:
                raise Stop("panic attempt_to_subtract_with_overflow")
        if v > 6:
            self.row(3)
        self.low(2, v - 3)

    def secondary(self, v, element, i):
        if v == 3 or v > 4:
            self.row(22)
        self.low(2, 3 if v == 4 else v)

    # 5.9.20
    def restoration_kinds(self, p):
        if p.planes == 1 or any(p.frame_restoration_type):
            self.row(25)
        for kind in p.frame_restoration_type:
            self.put(2, OWN_KINDS[kind])
        return any(p.frame_restoration_type), any(p.frame_restoration_type[1:])

    def large_shift(self, v):
        self.demand(v != 0, "lr_unit_shift")
        self.f(1, (v - 1) % 2**32, "lr_unit_shift")

    def small_shift(self, v):
        if v >= 2:
            self.row(26 if v == 2 else 27)
        self.low(1, v)
        if v:
            self.put(1, v > 1)


def held(word, record):
    """The first field, in the line's order, that the crate's type cannot hold, as the driver says it."""
    for name, v in vars(record).items():
        for x in v if isinstance(v, list) else [v]:
            if name in MOST and x > MOST[name]:
                return f"cannot {name} {x}"
    return None


def crate_answer(word, record, buffer, place, release=False):
    """(the crate's answer, the rows that had an effect, in the walk's order)."""
    cannot = held(word, record)
    if cannot:
        return cannot, [15]
    walk, stop = Crate(release), None
    try:
        getattr(walk, WALKS[word])(record)
    except Stop as s:
        stop = s.args[0]
    rows = [31] * (len(buffer) > 65536) + walk.rows
    said, after, row = (obu_end if word in WHOLE else part_end)(walk, stop, buffer, place)
    return f"{said} {after.hex().upper()}".rstrip(), rows + row


def obu_end(walk, stop, buffer, place):
    """Whole bytes go out as they are full; the last one is padded with zeros, and lost without an error where it has no room."""
    count = -(-walk.count // 8)
    out = (walk.value << 8 * count - walk.count).to_bytes(count, "big")[: len(buffer)]
    after = out + buffer[len(out):]
    if walk.count // 8 > len(buffer):
        return f"short {'-' if stop else count}", after, [30]
    if stop:
        return f"{stop} {len(out)}", after, [1] * bool(out)
    return f"0 {count}", after, []


def part_end(walk, stop, buffer, place):
    """The driver's doing: the part's bits go into the buffer as far as it goes."""
    end, room = place + walk.count, 8 * len(buffer)
    fits = max(0, min(end, room) - place)
    after = stored(buffer, place, walk.value >> walk.count - fits, fits) if fits else buffer
    if stop:
        return f"{stop} {end}", after, [1] * bool(fits)
    if end > room:
        return f"short {-(-end // 8)}", after, [30]
    return f"0 {end}", after, []


def agree(ours, crate):
    """Whether the two answers say the same: the same bytes, or the same element refused, or the same length asked for; and the same buffer."""
    mine, theirs = (ours.split() + [""])[:4], (crate.split() + [""])[:4]
    if mine[0] == "1" and theirs[0] == "refused":
        return ELEMENTS[int(mine[1])] == theirs[1] and mine[3] == theirs[3]
    if mine[0] == "3" and theirs[0] == "short":
        return mine[1] == theirs[1] and mine[3] == theirs[2]
    return ours == crate
