"""What the sequence reader and the payload call must answer, read from document 01 as in model.py. The crate has no such calls."""
from lines import FIELDS, LONGEST, NO_POINT, Bad, Record, hex_bytes, numbers, words


class Refused(Exception):
    """Document 01's number and its two values."""


class Reader:
    """The bits of some bytes, from the first on."""

    def __init__(self, data):
        self.bits, self.at = "".join(f"{b:08b}" for b in data), 0

    # 4.10
    def f(self, n):
        if self.at + n > len(self.bits):
            raise Refused(4, 0, 0)
        self.at += n
        return int("0" + self.bits[self.at - n:self.at], 2)

    def uvlc(self):
        zeros = 0
        while self.f(1) == 0:
            zeros += 1
            if zeros == 32:
                raise Refused(1, 12, 0)
        return self.f(zeros) + 2**zeros - 1

    # 5.3.4
    def trailing_bits(self):
        rest = self.bits[self.at:]
        if rest[:1] != "1" or "1" in rest[1:]:
            raise Refused(7, 0, 0)

    # 5.5.1
    def sequence_header_obu(self, q):
        q.seq_profile = self.f(3)
        if q.seq_profile > 2:
            raise Refused(1, 4, 0)
        q.still_picture, q.reduced_still_picture_header = self.f(1), self.f(1)
        if q.reduced_still_picture_header:
            q.points[0].seq_level_idx = self.f(5)
        else:
            self.timing_and_model(q)
            q.initial_display_delay_present_flag, q.operating_points_cnt_minus_1 = self.f(1), self.f(5)
            for point in q.points[: q.operating_points_cnt_minus_1 + 1]:
                self.operating_point(q, point)
        q.frame_width_bits_minus_1, q.frame_height_bits_minus_1 = self.f(4), self.f(4)
        q.max_frame_width_minus_1 = self.f(q.frame_width_bits_minus_1 + 1)
        q.max_frame_height_minus_1 = self.f(q.frame_height_bits_minus_1 + 1)
        q.frame_id_numbers_present_flag = 0 if q.reduced_still_picture_header else self.f(1)
        if q.frame_id_numbers_present_flag:
            q.delta_frame_id_length_minus_2, q.additional_frame_id_length_minus_1 = self.f(4), self.f(3)
        q.use_128x128_superblock, q.enable_filter_intra, q.enable_intra_edge_filter = self.f(1), self.f(1), self.f(1)
        q.seq_force_screen_content_tools = q.seq_force_integer_mv = 2
        if not q.reduced_still_picture_header:
            self.tools(q)
        q.enable_superres, q.enable_cdef, q.enable_restoration = self.f(1), self.f(1), self.f(1)
        self.color_config(q)
        q.film_grain_params_present = self.f(1)

    def timing_and_model(self, q):
        q.timing_info_present_flag = self.f(1)
        if not q.timing_info_present_flag:
            return
        q.num_units_in_display_tick, q.time_scale, q.equal_picture_interval = self.f(32), self.f(32), self.f(1)
        if q.equal_picture_interval:
            q.num_ticks_per_picture_minus_1 = self.uvlc()
        q.decoder_model_info_present_flag = self.f(1)
        if q.decoder_model_info_present_flag:
            q.buffer_delay_length_minus_1, q.num_units_in_decoding_tick = self.f(5), self.f(32)
            q.buffer_removal_time_length_minus_1, q.frame_presentation_time_length_minus_1 = self.f(5), self.f(5)

    def operating_point(self, q, point):
        point.operating_point_idc, point.seq_level_idx = self.f(12), self.f(5)
        point.seq_tier = self.f(1) if point.seq_level_idx > 7 else 0
        if q.decoder_model_info_present_flag:
            point.decoder_model_present_for_this_op = self.f(1)
            if point.decoder_model_present_for_this_op:
                n = q.buffer_delay_length_minus_1 + 1
                point.decoder_buffer_delay, point.encoder_buffer_delay, point.low_delay_mode_flag = self.f(n), self.f(n), self.f(1)
        if q.initial_display_delay_present_flag:
            point.initial_display_delay_present_for_this_op = self.f(1)
            if point.initial_display_delay_present_for_this_op:
                point.initial_display_delay_minus_1 = self.f(4)

    def tools(self, q):
        q.enable_interintra_compound, q.enable_masked_compound, q.enable_warped_motion = self.f(1), self.f(1), self.f(1)
        q.enable_dual_filter, q.enable_order_hint = self.f(1), self.f(1)
        if q.enable_order_hint:
            q.enable_jnt_comp, q.enable_ref_frame_mvs = self.f(1), self.f(1)
        q.seq_choose_screen_content_tools = self.f(1)
        if not q.seq_choose_screen_content_tools:
            q.seq_force_screen_content_tools = self.f(1)
        if q.seq_force_screen_content_tools > 0:
            q.seq_choose_integer_mv = self.f(1)
            if not q.seq_choose_integer_mv:
                q.seq_force_integer_mv = self.f(1)
        if q.enable_order_hint:
            q.order_hint_bits_minus_1 = self.f(3)
            q.OrderHintBits = q.order_hint_bits_minus_1 + 1

    # 5.5.2
    def color_config(self, q):
        q.high_bitdepth = self.f(1)
        q.twelve_bit = self.f(1) if q.seq_profile == 2 and q.high_bitdepth else 0
        q.mono_chrome = 0 if q.seq_profile == 1 else self.f(1)
        q.NumPlanes = 1 if q.mono_chrome else 3
        q.color_description_present_flag = self.f(1)
        q.color_primaries, q.transfer_characteristics, q.matrix_coefficients = (
            (self.f(8), self.f(8), self.f(8)) if q.color_description_present_flag else (2, 2, 2))
        if q.mono_chrome:
            q.color_range, q.subsampling_x, q.subsampling_y = self.f(1), 1, 1
            return
        if (q.color_primaries, q.transfer_characteristics, q.matrix_coefficients) == (1, 13, 0):
            q.color_range = 1
        else:
            q.color_range = self.f(1)
            self.subsampling(q)
            if q.subsampling_x and q.subsampling_y:
                q.chroma_sample_position = self.f(2)
        q.separate_uv_delta_q = self.f(1)

    def subsampling(self, q):
        if q.seq_profile == 0:
            q.subsampling_x = q.subsampling_y = 1
        elif q.seq_profile == 2 and q.twelve_bit:
            q.subsampling_x = self.f(1)
            q.subsampling_y = self.f(1) if q.subsampling_x else 0
        elif q.seq_profile == 2:
            q.subsampling_x = 1


def zeros():
    q = Record()
    for name, _, _, _ in FIELDS["seq"]:
        setattr(q, name, 0)
    q.given, q.points = 32, [Record() for _ in range(32)]
    for point in q.points:
        point.__dict__ = dict(vars(NO_POINT))
    return q


# 5.3.2, 5.3.3
def obu_header(q, data):
    """How many bytes the header has."""
    if not data:
        raise Refused(4, 0, 0)
    if data[0] & 128:
        raise Refused(5, 0, 0)
    q.obu_type, q.extension_flag, q.has_size_field = data[0] >> 3 & 15, data[0] >> 2 & 1, data[0] >> 1 & 1
    if q.obu_type != 1:
        raise Refused(1, 1, 0)
    if data[0] & 1:
        raise Refused(5, 0, 0)
    if not q.extension_flag:
        return 1
    if len(data) < 2:
        raise Refused(4, 0, 0)
    if data[1] & 7:
        raise Refused(5, 0, 0)
    q.temporal_id, q.spatial_id = data[1] >> 5, data[1] >> 3 & 3
    return 2


def obu_size(data):
    """(the size, how many bytes it takes)."""
    size = 0
    for i in range(8):
        if i == len(data):
            raise Refused(4, 0, 0)
        size += data[i] % 128 << 7 * i
        if data[i] < 128:
            return size, i + 1
    raise Refused(6, 0, 0)


def read(data):
    """(the record, where its payload starts)."""
    if len(data) > 65536:
        raise Refused(8, 0, 0)
    q = zeros()
    at = obu_header(q, data)
    if q.has_size_field:
        size, taken = obu_size(data[at:])
        at += taken
        if size != len(data) - at:
            raise Refused(6, 0, 0)
    reader = Reader(data[at:])
    reader.sequence_header_obu(q)
    reader.trailing_bits()
    return q, at


def answer(line):
    word, *texts = words(line)
    if len(texts) > 1 or len(line) > LONGEST:
        raise Bad
    data = hex_bytes("".join(texts))
    try:
        q, at = read(data)
    except Refused as refused:
        return "0 0" if word == "payload" else " ".join(map(str, refused.args))
    return f"{at} {len(data) - at}" if word == "payload" else " ".join(map(str, [0, *numbers(q, FIELDS["seq"])]))
