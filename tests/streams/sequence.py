"""The sequence headers' vectors: FFmpeg's reading of each, and the case lines of the writer and the reader."""

HEADER = ["obu_type", "obu_extension_flag", "obu_has_size_field", "temporal_id", "spatial_id"]
BEFORE_POINTS = [
    "seq_profile", "still_picture", "reduced_still_picture_header", "timing_info_present_flag",
    "num_units_in_display_tick", "time_scale", "equal_picture_interval", "num_ticks_per_picture_minus_1",
    "decoder_model_info_present_flag", "buffer_delay_length_minus_1", "num_units_in_decoding_tick",
    "buffer_removal_time_length_minus_1", "frame_presentation_time_length_minus_1",
    "initial_display_delay_present_flag", "operating_points_cnt_minus_1",
]
POINT = [
    "operating_point_idc", "seq_level_idx", "seq_tier", "decoder_model_present_for_this_op", "decoder_buffer_delay",
    "encoder_buffer_delay", "low_delay_mode_flag", "initial_display_delay_present_for_this_op", "initial_display_delay_minus_1",
]
AFTER_POINTS = [
    "frame_width_bits_minus_1", "frame_height_bits_minus_1", "max_frame_width_minus_1", "max_frame_height_minus_1",
    "frame_id_numbers_present_flag", "delta_frame_id_length_minus_2", "additional_frame_id_length_minus_1",
    "use_128x128_superblock", "enable_filter_intra", "enable_intra_edge_filter",
    "enable_interintra_compound", "enable_masked_compound", "enable_warped_motion", "enable_dual_filter",
    "enable_order_hint", "enable_jnt_comp", "enable_ref_frame_mvs",
    "seq_choose_screen_content_tools", "seq_force_screen_content_tools", "seq_choose_integer_mv", "seq_force_integer_mv",
    "order_hint_bits_minus_1", "OrderHintBits", "enable_superres", "enable_cdef", "enable_restoration",
    "high_bitdepth", "twelve_bit", "mono_chrome", "color_description_present_flag",
    "color_primaries", "transfer_characteristics", "matrix_coefficients", "color_range",
    "subsampling_x", "subsampling_y", "chroma_sample_position", "separate_uv_delta_q", "NumPlanes",
    "film_grain_params_present",
]


def subsampling(v):
    """Both subsamplings as the standard infers them; a coded one is in the header."""
    if v.get("mono_chrome"):
        return 1, 1
    if (v.get("color_primaries"), v.get("transfer_characteristics"), v.get("matrix_coefficients")) == (1, 13, 0):
        return 0, 0
    return [(1, 1), (0, 0), (1, 0)][v["seq_profile"]]


def filled(v):
    """The values of a header's fields, with those that the standard infers. Any other field is 0."""
    x, y = subsampling(v)
    if v.get("subsampling_x") == 0:
        y = 0
    order_hint_bits = v["order_hint_bits_minus_1"] + 1 if v.get("enable_order_hint") else 0
    inferred = {
        "seq_force_screen_content_tools": 2, "seq_force_integer_mv": 2, "OrderHintBits": order_hint_bits,
        "color_primaries": 2, "transfer_characteristics": 2, "matrix_coefficients": 2, "color_range": 1,
        "subsampling_x": x, "subsampling_y": y, "NumPlanes": 1 if v.get("mono_chrome") else 3,
    }
    return inferred | v


def numbers(v, points):
    """The record in the order of a `seq` line, with that many operating points."""
    names = HEADER + BEFORE_POINTS
    listed = [f"{name}[{i}]" for i in range(points) for name in POINT]
    return [v.get(name, 0) for name in names] + [points] + [v.get(name, 0) for name in listed + AFTER_POINTS]


def leb128(value):
    out = []
    while value >= 128:
        out.append(128 + value % 128)
        value //= 128
    return bytes(out + [value])


def payload_place(obu):
    return next(field.place for field in obu.fields if field.name == "seq_profile") // 8


def shortest(obu):
    """The OBU with the shortest size field, if it has one, and no zero bytes at its end."""
    extension, has_size = obu.data[0] & 4, obu.data[0] & 2
    body = obu.data[payload_place(obu):].rstrip(b"\0")
    return obu.data[:2 if extension else 1] + (leb128(len(body)) if has_size else b"") + body


def check_places(obu):
    """FFmpeg's fields must follow each other from the OBU's first bit to its last."""
    place = 0
    for field in obu.fields:
        assert field.place == place, f"{field.name} is at {field.place} and not at {place}"
        place += field.width
    assert place == 8 * len(obu.data), f"the fields end at {place}"


def reading(obu):
    """The block of sequence.txt: the bytes, and a line for each field."""
    check_places(obu)
    return [obu.data.hex().upper()] + [f"{f.place} {f.width} {f.name} {f.value}" for f in obu.fields]


def cases(obu):
    """The block of seq.txt: a case of the writer, of the reader and of the payload call, each with its answer."""
    v = filled(obu.values())
    written = shortest(obu).hex().upper()
    size, place = len(written) // 2, payload_place(obu)
    record = numbers(v, v.get("operating_points_cnt_minus_1", 0) + 1)
    lines = [
        f"seq {' '.join(map(str, record))}; buf={'00' * size}FFFF",
        f"0 {size} {written}FFFF",
        f"read {obu.data.hex().upper()}",
        f"0 {' '.join(map(str, numbers(v, 32)))}",
        f"payload {obu.data.hex().upper()}",
        f"{place} {len(obu.data) - place}",
    ]
    note = [] if size == len(obu.data) else [f"# the encoder's own spelling has {len(obu.data)} bytes"]
    return note + lines
