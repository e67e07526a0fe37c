#!/usr/bin/env python3
"""What the writers must answer to case lines, read from document 01, as the requests that have landed amend it (docs/requests), and, for the order of the
checks, from source document 000, to which it leaves that order: a third reading, beside the definitions that the proofs cite and the crate's Rust. It
shares no text with either. One function for each section of the standard, in the standard's order.

    oracle/model.py < cases > answers
"""
import sys

import parts_reader
import reader
from lines import LONGEST, READERS, WHOLE, Bad, answer_line, parse, words

# Document 01's list of elements.
ELEMENTS = dict(enumerate("""obu_type temporal_id spatial_id seq_profile reduced_still_picture_header initial_display_delay_present_flag
    operating_points_cnt_minus_1 operating_point_idc seq_level_idx decoder_model_present_for_this_op initial_display_delay_present_for_this_op
    num_ticks_per_picture_minus_1 decoder_model_info_present_flag buffer_delay_length_minus_1 buffer_removal_time_length_minus_1
    frame_presentation_time_length_minus_1 seq_tier decoder_buffer_delay encoder_buffer_delay initial_display_delay_minus_1
    frame_width_bits_minus_1 frame_height_bits_minus_1 frame_id_numbers_present_flag delta_frame_id_length_minus_2
    additional_frame_id_length_minus_1 enable_interintra_compound enable_masked_compound enable_warped_motion enable_dual_filter
    enable_order_hint enable_jnt_comp enable_ref_frame_mvs seq_force_screen_content_tools seq_force_integer_mv order_hint_bits_minus_1
    OrderHintBits twelve_bit mono_chrome color_primaries transfer_characteristics matrix_coefficients color_range subsampling_x
    subsampling_y chroma_sample_position separate_uv_delta_q NumPlanes""".split(), 1))
ELEMENTS.update(enumerate("""base_q_idx delta_q_y_dc diff_uv_delta delta_q_u_dc delta_q_u_ac delta_q_v_dc delta_q_v_ac qm_y qm_u qm_v
    segmentation_update_map segmentation_temporal_update segmentation_update_data feature_enabled feature_data loop_filter_level
    loop_filter_ref_deltas loop_filter_mode_deltas loop_filter_sharpness cdef_bits cdef_y_pri_strength cdef_y_sec_strength
    cdef_uv_pri_strength cdef_uv_sec_strength cdef_damping frame_restoration_type uses_lr uses_chroma_lr lr_unit_shift lr_uv_shift""".split(), 51))
NUMBER = {name: number for number, name in ELEMENTS.items()}

# The standard's defaults, by reference number: intra, LAST, LAST2, LAST3, GOLDEN, BWDREF, ALTREF2, ALTREF (request 2).
DEFAULT_REF_DELTAS = [1, 0, 0, 0, -1, 0, -1, -1]


class Refused(Exception):
    """Document 01's number and its two values; number 2 has a third, the width (request 4)."""


def holds(n, v):
    """Whether two's complement in n bits, at least one, holds v."""
    return -(2 ** (n - 1)) <= v <= 2 ** (n - 1) - 1


class Writer:
    """A walk: the bits written so far, as a number and a count."""

    def __init__(self):
        self.value, self.count = 0, 0

    def put(self, n, v):
        self.value, self.count = self.value << n | v, self.count + n

    def flag(self, v):
        self.put(1, v)

    def demand(self, holds, element, index=0):
        if not holds:
            raise Refused(1, NUMBER[element], index)

    # 4.10
    def f(self, n, v, element=None, index=0):
        if v >= 2**n:
            raise Refused(2, NUMBER[element], index, v.bit_length())
        self.put(n, v)

    def su(self, n, v, element, index=0):
        if not holds(n, v):
            raise Refused(2, NUMBER[element], index, next(width for width in range(1, 33) if holds(width, v)))
        self.put(n, v % 2**n)

    def uvlc(self, v, element):
        if v == 2**32 - 1:
            raise Refused(2, NUMBER[element], 0, 33)
        length = (v + 1).bit_length()
        self.put(length - 1, 0)
        self.put(length, v + 1)

    def leb128(self, v):
        while v >= 128:
            self.put(8, 128 + v % 128)
            v //= 128
        self.put(8, v)

    # 5.3.2, 5.3.3
    def obu_header(self, h, obu_type):
        self.demand(h.obu_type == obu_type, "obu_type")
        self.put(1, 0)
        self.put(4, h.obu_type)
        self.flag(h.extension_flag)
        self.flag(h.has_size_field)
        self.put(1, 0)
        if h.extension_flag:
            self.f(3, h.temporal_id, "temporal_id")
            self.f(2, h.spatial_id, "spatial_id")
            self.put(3, 0)

    # 5.3.4
    def trailing_bits(self):
        self.put(1, 1)
        self.put(-self.count % 8, 0)

    # 5.3.1, for a sequence header
    def sequence_obu(self, q):
        self.obu_header(q, 1)
        body = self.body(q)
        if q.has_size_field:
            self.leb128(body.count // 8)
        self.put(body.count, body.value)

    def body(self, q):
        body = type(self)()
        body.sequence_header_obu(q)
        body.trailing_bits()
        return body

    # 5.5.1
    def sequence_header_obu(self, q):
        self.seq_profile(q)
        self.flag(q.still_picture)
        self.flag(q.reduced_still_picture_header)
        if q.reduced_still_picture_header:
            self.reduced_point(q)
        else:
            self.timing_and_model(q)
            self.flag(q.initial_display_delay_present_flag)
            self.operating_points(q)
        self.frame_size_limits(q)
        self.frame_ids(q)
        self.flag(q.use_128x128_superblock)
        self.flag(q.enable_filter_intra)
        self.flag(q.enable_intra_edge_filter)
        if q.reduced_still_picture_header:
            self.reduced_tools(q)
        else:
            self.tools(q)
        self.flag(q.enable_superres)
        self.flag(q.enable_cdef)
        self.flag(q.enable_restoration)
        self.color_config(q)
        self.flag(q.film_grain_params_present)

    def seq_profile(self, q):
        self.demand(q.seq_profile <= 2 or q.seq_profile >= 8, "seq_profile")
        self.f(3, q.seq_profile, "seq_profile")

    def reduced_point(self, q):
        point = q.points[0]
        self.demand(not q.timing_info_present_flag, "reduced_still_picture_header")
        self.demand(not q.initial_display_delay_present_flag, "initial_display_delay_present_flag")
        self.demand(q.operating_points_cnt_minus_1 == 0, "operating_points_cnt_minus_1")
        self.demand(point.operating_point_idc == 0, "operating_point_idc")
        self.f(5, point.seq_level_idx, "seq_level_idx")
        self.demand(not point.decoder_model_present_for_this_op, "decoder_model_present_for_this_op")
        self.demand(not point.initial_display_delay_present_for_this_op, "initial_display_delay_present_for_this_op")

    def timing_and_model(self, q):
        self.flag(q.timing_info_present_flag)
        if not q.timing_info_present_flag:
            self.demand(not q.decoder_model_info_present_flag, "decoder_model_info_present_flag")
            return
        self.timing_info(q)
        self.flag(q.decoder_model_info_present_flag)
        if q.decoder_model_info_present_flag:
            self.decoder_model_info(q)

    def operating_points(self, q):
        self.demand(q.operating_points_cnt_minus_1 <= 31, "operating_points_cnt_minus_1")
        self.put(5, q.operating_points_cnt_minus_1)
        for i in range(q.operating_points_cnt_minus_1 + 1):
            self.operating_point(q, q.points[i], i)

    def operating_point(self, q, point, i):
        self.f(12, point.operating_point_idc, "operating_point_idc", i)
        self.f(5, point.seq_level_idx, "seq_level_idx", i)
        if point.seq_level_idx > 7:
            self.f(1, point.seq_tier, "seq_tier", i)
        else:
            self.demand(point.seq_tier == 0, "seq_tier", i)
        if q.decoder_model_info_present_flag:
            self.flag(point.decoder_model_present_for_this_op)
            if point.decoder_model_present_for_this_op:
                self.operating_parameters_info(q, point, i)
        else:
            self.demand(not point.decoder_model_present_for_this_op, "decoder_model_present_for_this_op", i)
        if q.initial_display_delay_present_flag:
            self.flag(point.initial_display_delay_present_for_this_op)
            if point.initial_display_delay_present_for_this_op:
                self.f(4, point.initial_display_delay_minus_1, "initial_display_delay_minus_1", i)

    def frame_size_limits(self, q):
        width, height = q.max_frame_width_minus_1, q.max_frame_height_minus_1
        self.demand(width.bit_length() <= q.frame_width_bits_minus_1 + 1, "frame_width_bits_minus_1")
        self.demand(height.bit_length() <= q.frame_height_bits_minus_1 + 1, "frame_height_bits_minus_1")
        self.f(4, q.frame_width_bits_minus_1, "frame_width_bits_minus_1")
        self.f(4, q.frame_height_bits_minus_1, "frame_height_bits_minus_1")
        self.f(q.frame_width_bits_minus_1 + 1, width)
        self.f(q.frame_height_bits_minus_1 + 1, height)

    def frame_ids(self, q):
        if q.reduced_still_picture_header:
            self.demand(not q.frame_id_numbers_present_flag, "frame_id_numbers_present_flag")
        else:
            self.flag(q.frame_id_numbers_present_flag)
        if q.frame_id_numbers_present_flag:
            self.f(4, q.delta_frame_id_length_minus_2, "delta_frame_id_length_minus_2")
            self.f(3, q.additional_frame_id_length_minus_1, "additional_frame_id_length_minus_1")

    def reduced_tools(self, q):
        for name in ("enable_interintra_compound", "enable_masked_compound", "enable_warped_motion", "enable_dual_filter",
                     "enable_order_hint", "enable_jnt_comp", "enable_ref_frame_mvs"):
            self.demand(not getattr(q, name), name)
        self.demand(q.seq_force_screen_content_tools == 2, "seq_force_screen_content_tools")
        self.demand(q.seq_force_integer_mv == 2, "seq_force_integer_mv")
        self.demand(q.OrderHintBits == 0, "OrderHintBits")

    def tools(self, q):
        self.flag(q.enable_interintra_compound)
        self.flag(q.enable_masked_compound)
        self.flag(q.enable_warped_motion)
        self.flag(q.enable_dual_filter)
        self.flag(q.enable_order_hint)
        if q.enable_order_hint:
            self.flag(q.enable_jnt_comp)
            self.flag(q.enable_ref_frame_mvs)
        else:
            self.demand(not q.enable_jnt_comp, "enable_jnt_comp")
            self.demand(not q.enable_ref_frame_mvs, "enable_ref_frame_mvs")
        self.choice(q.seq_choose_screen_content_tools, q.seq_force_screen_content_tools, "seq_force_screen_content_tools")
        if q.seq_force_screen_content_tools > 0:
            self.choice(q.seq_choose_integer_mv, q.seq_force_integer_mv, "seq_force_integer_mv")
        else:
            self.demand(q.seq_force_integer_mv == 2, "seq_force_integer_mv")
        if q.enable_order_hint:
            self.f(3, q.order_hint_bits_minus_1, "order_hint_bits_minus_1")
            self.demand(q.OrderHintBits == q.order_hint_bits_minus_1 + 1, "OrderHintBits")
        else:
            self.demand(q.OrderHintBits == 0, "OrderHintBits")

    def choice(self, choose, force, element):
        self.flag(choose)
        if choose:
            self.demand(force == 2, element)
        else:
            self.f(1, force, element)

    # 5.5.2: in number order; what is inferred must hold the inferred value
    def color_config(self, q):
        self.flag(q.high_bitdepth)
        if q.seq_profile == 2 and q.high_bitdepth:
            self.flag(q.twelve_bit)
        else:
            self.demand(not q.twelve_bit, "twelve_bit")
        if q.seq_profile == 1:
            self.demand(not q.mono_chrome, "mono_chrome")
        else:
            self.flag(q.mono_chrome)
        self.color_rest(q)
        self.plane_count(q)

    # request 7: behind all of 5.5.2
    def plane_count(self, q):
        self.demand(q.NumPlanes == (1 if q.mono_chrome else 3), "NumPlanes")

    def color_rest(self, q):
        self.color_description(q)
        if q.mono_chrome:
            self.flag(q.color_range)
            self.demand(q.subsampling_x, "subsampling_x")
            self.demand(q.subsampling_y, "subsampling_y")
            self.demand(q.chroma_sample_position == 0, "chroma_sample_position")
            self.demand(not q.separate_uv_delta_q, "separate_uv_delta_q")
            return
        if (q.color_primaries, q.transfer_characteristics, q.matrix_coefficients) == (1, 13, 0):
            self.demand(q.color_range, "color_range")
            self.demand(not q.subsampling_x, "subsampling_x")
            self.demand(not q.subsampling_y, "subsampling_y")
            self.uncoded_chroma_sample_position(q)
        else:
            self.flag(q.color_range)
            self.subsampling(q)
            if q.subsampling_x and q.subsampling_y:
                self.f(2, q.chroma_sample_position, "chroma_sample_position")
            else:
                self.uncoded_chroma_sample_position(q)
        self.flag(q.separate_uv_delta_q)

    def color_description(self, q):
        self.flag(q.color_description_present_flag)
        for name in ("color_primaries", "transfer_characteristics", "matrix_coefficients"):
            if q.color_description_present_flag:
                self.f(8, getattr(q, name), name)
            else:
                self.demand(getattr(q, name) == 2, name)

    def subsampling(self, q):
        if q.seq_profile == 0:
            self.demand(q.subsampling_x, "subsampling_x")
            self.demand(q.subsampling_y, "subsampling_y")
        elif q.seq_profile == 1:
            self.demand(not q.subsampling_x, "subsampling_x")
            self.demand(not q.subsampling_y, "subsampling_y")
        elif q.high_bitdepth and q.twelve_bit:
            self.flag(q.subsampling_x)
            if q.subsampling_x:
                self.flag(q.subsampling_y)
            else:
                self.demand(not q.subsampling_y, "subsampling_y")
        else:
            self.demand(q.subsampling_x, "subsampling_x")
            self.demand(not q.subsampling_y, "subsampling_y")

    def uncoded_chroma_sample_position(self, q):
        self.demand(q.chroma_sample_position == 0, "chroma_sample_position")

    # 5.5.3
    def timing_info(self, q):
        self.f(32, q.num_units_in_display_tick)
        self.f(32, q.time_scale)
        self.flag(q.equal_picture_interval)
        if q.equal_picture_interval:
            self.uvlc(q.num_ticks_per_picture_minus_1, "num_ticks_per_picture_minus_1")

    # 5.5.4
    def decoder_model_info(self, q):
        self.f(5, q.buffer_delay_length_minus_1, "buffer_delay_length_minus_1")
        self.f(32, q.num_units_in_decoding_tick)
        self.f(5, q.buffer_removal_time_length_minus_1, "buffer_removal_time_length_minus_1")
        self.f(5, q.frame_presentation_time_length_minus_1, "frame_presentation_time_length_minus_1")

    # 5.5.5
    def operating_parameters_info(self, q, point, i):
        n = q.buffer_delay_length_minus_1 + 1
        self.f(n, point.decoder_buffer_delay, "decoder_buffer_delay", i)
        self.f(n, point.encoder_buffer_delay, "encoder_buffer_delay", i)
        self.flag(point.low_delay_mode_flag)

    # 5.6
    def temporal_delimiter_obu(self, h):
        self.obu_header(h, 2)
        if h.has_size_field:
            self.leb128(0)

    # any number of planes but 1 counts as 3 (request 7)
    def three_planes(self, p):
        return p.planes != 1

    # 5.9.11
    def loop_filter_params(self, p):
        if p.coded_lossless or p.allow_intrabc:
            self.demand(p.loop_filter_level[:2] == [0, 0], "loop_filter_level")
            self.uncoded_ref_deltas(p.loop_filter_ref_deltas)
            self.demand(p.loop_filter_mode_deltas == [0, 0], "loop_filter_mode_deltas")
            return
        for i in range(4 if self.chroma_levels_coded(p) else 2):
            self.f(6, p.loop_filter_level[i], "loop_filter_level", i)
        self.f(3, p.loop_filter_sharpness, "loop_filter_sharpness")
        self.flag(p.loop_filter_delta_enabled)
        if p.loop_filter_delta_enabled:
            self.flag(p.loop_filter_delta_update)
            if p.loop_filter_delta_update:
                for i in range(8):
                    self.loop_filter_delta(p.loop_filter_ref_deltas[i], "loop_filter_ref_deltas", i)
                for i in range(2):
                    self.loop_filter_delta(p.loop_filter_mode_deltas[i], "loop_filter_mode_deltas", i)

    def uncoded_ref_deltas(self, deltas):
        self.demand(deltas == DEFAULT_REF_DELTAS, "loop_filter_ref_deltas")

    def chroma_levels_coded(self, p):
        return self.three_planes(p) and p.loop_filter_level[:2] != [0, 0]

    def loop_filter_delta(self, v, element, i):
        self.flag(1)
        self.su(7, v, element, i)

    # 5.9.12
    def quantization_params(self, p):
        self.f(8, p.base_q_idx, "base_q_idx")
        self.delta_q(p.delta_q_y_dc, "delta_q_y_dc")
        if self.three_planes(p):
            self.chroma_deltas(p)
        else:
            for name in ("delta_q_u_dc", "delta_q_u_ac", "delta_q_v_dc", "delta_q_v_ac"):
                self.demand(getattr(p, name) == 0, name)
        self.flag(p.using_qmatrix)
        if p.using_qmatrix:
            self.f(4, p.qm_y, "qm_y")
            self.f(4, p.qm_u, "qm_u")
            if p.separate_uv_delta_q:
                self.f(4, p.qm_v, "qm_v")
            else:
                self.demand(p.qm_v == p.qm_u, "qm_v")

    def chroma_deltas(self, p):
        if p.separate_uv_delta_q:
            self.flag(p.diff_uv_delta)
        else:
            self.demand(not p.diff_uv_delta, "diff_uv_delta")
        self.delta_q(p.delta_q_u_dc, "delta_q_u_dc")
        self.delta_q(p.delta_q_u_ac, "delta_q_u_ac")
        if p.diff_uv_delta:
            self.delta_q(p.delta_q_v_dc, "delta_q_v_dc")
            self.delta_q(p.delta_q_v_ac, "delta_q_v_ac")
        else:
            self.uncoded_delta_v(p.delta_q_v_dc, p.delta_q_u_dc, "delta_q_v_dc")
            self.uncoded_delta_v(p.delta_q_v_ac, p.delta_q_u_ac, "delta_q_v_ac")

    def uncoded_delta_v(self, v, u, element):
        self.demand(v == u, element)

    # 5.9.13
    def delta_q(self, v, element):
        self.flag(v != 0)
        if v != 0:
            self.su(7, v, element)

    # 5.9.14
    def segmentation_params(self, p):
        self.flag(p.segmentation_enabled)
        if not p.segmentation_enabled:
            return
        if p.primary_ref_frame == 7:
            self.demand(p.segmentation_update_map, "segmentation_update_map")
            self.demand(not p.segmentation_temporal_update, "segmentation_temporal_update")
            self.demand(p.segmentation_update_data, "segmentation_update_data")
        else:
            self.segmentation_updates(p)
        if p.segmentation_update_data:
            for i in range(64):
                self.feature(p.feature_enabled[i], p.feature_data[i], i % 8)
        else:
            self.demand(not any(p.feature_enabled), "feature_enabled")
            self.demand(not any(p.feature_data), "feature_data")

    def segmentation_updates(self, p):
        self.flag(p.segmentation_update_map)
        if p.segmentation_update_map:
            self.flag(p.segmentation_temporal_update)
        self.flag(p.segmentation_update_data)

    def feature(self, enabled, value, j):
        bits, limit = (8, 6, 6, 6, 6, 3, 0, 0)[j], (255, 63, 63, 63, 63, 7, 0, 0)[j]
        self.flag(enabled)
        if enabled and j < 5:
            self.su(bits + 1, max(-limit, min(limit, value)), "feature_data")
        elif enabled:
            self.f(bits, max(0, min(limit, value)), "feature_data")

    # 5.9.19
    def cdef_params(self, p):
        if p.coded_lossless or p.allow_intrabc or not p.enable_cdef:
            self.demand(p.cdef_bits == 0, "cdef_bits")
            for name in ("cdef_y_pri_strength", "cdef_y_sec_strength", "cdef_uv_pri_strength", "cdef_uv_sec_strength"):
                self.demand(getattr(p, name)[0] == 0, name)
            self.demand(p.cdef_damping == 3, "cdef_damping")
            return
        self.damping(p.cdef_damping)
        self.f(2, p.cdef_bits, "cdef_bits")
        for i in range(2**p.cdef_bits):
            self.cdef_strengths(p, i)

    def cdef_strengths(self, p, i):
        self.f(4, p.cdef_y_pri_strength[i], "cdef_y_pri_strength", i)
        self.secondary(p.cdef_y_sec_strength[i], "cdef_y_sec_strength", i)
        if self.three_planes(p):
            self.f(4, p.cdef_uv_pri_strength[i], "cdef_uv_pri_strength", i)
            self.secondary(p.cdef_uv_sec_strength[i], "cdef_uv_sec_strength", i)

    def damping(self, v):
        if not 3 <= v <= 6:
            raise Refused(2, NUMBER["cdef_damping"], 0, 0)
        self.put(2, v - 3)

    def secondary(self, v, element, i):
        self.demand(v != 3, element, i)
        if v > 4:
            raise Refused(2, NUMBER[element], i, 0)
        self.put(2, 3 if v == 4 else v)

    # 5.9.20
    def lr_params(self, p):
        if p.all_lossless or p.allow_intrabc or not p.enable_restoration:
            self.demand(p.frame_restoration_type == [0, 0, 0], "frame_restoration_type")
            self.demand(not p.uses_lr, "uses_lr")
            return
        uses_lr, uses_chroma_lr = self.restoration_kinds(p)
        self.demand(p.uses_lr == uses_lr, "uses_lr")
        self.demand(p.uses_chroma_lr == uses_chroma_lr, "uses_chroma_lr")
        if not uses_lr:
            return
        if p.use_128x128_superblock:
            self.large_shift(p.lr_unit_shift)
        else:
            self.small_shift(p.lr_unit_shift)
        if p.subsampling_x and p.subsampling_y and uses_chroma_lr:
            self.f(1, p.lr_uv_shift, "lr_uv_shift")
        else:
            self.demand(p.lr_uv_shift == 0, "lr_uv_shift")

    def restoration_kinds(self, p):
        kinds = p.frame_restoration_type[: 3 if self.three_planes(p) else 1]
        for i, kind in enumerate(kinds):
            self.f(2, kind, "frame_restoration_type", i)
        return any(kinds), any(kinds[1:])

    def large_shift(self, v):
        self.demand(v != 0, "lr_unit_shift")
        self.coded_shift(v)
        self.put(1, v - 1)

    def coded_shift(self, v):
        if v > 2:
            raise Refused(2, NUMBER["lr_unit_shift"], 0, 0)

    def small_shift(self, v):
        self.coded_shift(v)
        self.put(*((1, 0), (2, 2), (2, 3))[v])


WALKS = {"seq": "sequence_obu", "td": "temporal_delimiter_obu", "quant": "quantization_params", "seg": "segmentation_params",
         "lf": "loop_filter_params", "cdef": "cdef_params", "lr": "lr_params"}


def stored(buffer, place, value, count):
    """The buffer with count bits of value from a bit place on."""
    after = 8 * len(buffer) - place - count
    old = int.from_bytes(buffer, "big")
    kept = old & ~((2**count - 1) << after)
    return (kept | value << after).to_bytes(len(buffer), "big")


def written(word, record, buffer, place):
    """(the numbers of the answer, the buffer afterwards)."""
    if len(buffer) > 65536:
        return (8, 0, 0), buffer
    walk = Writer()
    try:
        getattr(walk, WALKS[word])(record)
    except Refused as refused:
        return refused.args, buffer
    end = place + walk.count
    if end > 8 * len(buffer):
        return (3, -(-end // 8), 0), buffer
    return (0, end // 8 if word in WHOLE else end), stored(buffer, place, walk.value, walk.count)


def answered(word, record, data, place):
    """The answer to a case that parse has taken apart."""
    if word in READERS:
        return answer_line(parts_reader.read(word, record, data, place))
    return answer_line(*written(word, record, data, place))


def answer(line):
    try:
        if words(line)[:1] in (["read"], ["payload"]):
            return reader.answer(line)
        return answered(*parse(line))
    except Bad:
        return "bad"


if __name__ == "__main__":
    for line in sys.stdin.buffer.read().decode("latin-1").split("\n"):
        if len(line) > LONGEST or line.strip(" ") and not line.lstrip(" ").startswith("#"):
            print(answer(line))
