"""The syntax of case lines: the fields of each word, a line taken apart, an answer put together."""

# The fields of a case line, in its order: a name alone is an unsigned number of 32 bits, :b a flag (any number but 0 sets it),
# :u8, :i8 and :i16 narrower numbers, *n an array.
HEADER = "obu_type extension_flag:b has_size_field:b temporal_id spatial_id"
POINT = """operating_point_idc seq_level_idx seq_tier decoder_model_present_for_this_op:b decoder_buffer_delay encoder_buffer_delay
    low_delay_mode_flag:b initial_display_delay_present_for_this_op:b initial_display_delay_minus_1"""
FIELDS = {
    "seq": HEADER + """ seq_profile still_picture:b reduced_still_picture_header:b timing_info_present_flag:b num_units_in_display_tick
        time_scale equal_picture_interval:b num_ticks_per_picture_minus_1 decoder_model_info_present_flag:b buffer_delay_length_minus_1:u8
        num_units_in_decoding_tick buffer_removal_time_length_minus_1 frame_presentation_time_length_minus_1
        initial_display_delay_present_flag:b operating_points_cnt_minus_1 points frame_width_bits_minus_1:u8 frame_height_bits_minus_1:u8
        max_frame_width_minus_1 max_frame_height_minus_1 frame_id_numbers_present_flag:b delta_frame_id_length_minus_2
        additional_frame_id_length_minus_1 use_128x128_superblock:b enable_filter_intra:b enable_intra_edge_filter:b
        enable_interintra_compound:b enable_masked_compound:b enable_warped_motion:b enable_dual_filter:b enable_order_hint:b
        enable_jnt_comp:b enable_ref_frame_mvs:b seq_choose_screen_content_tools:b seq_force_screen_content_tools seq_choose_integer_mv:b
        seq_force_integer_mv order_hint_bits_minus_1:u8 OrderHintBits enable_superres:b enable_cdef:b enable_restoration:b high_bitdepth:b
        twelve_bit:b mono_chrome:b color_description_present_flag:b color_primaries transfer_characteristics matrix_coefficients
        color_range:b subsampling_x:b subsampling_y:b chroma_sample_position separate_uv_delta_q:b NumPlanes
        film_grain_params_present:b""",
    "td": HEADER,
    "quant": """planes separate_uv_delta_q:b base_q_idx delta_q_y_dc:i8 diff_uv_delta:b delta_q_u_dc:i8 delta_q_u_ac:i8 delta_q_v_dc:i8
        delta_q_v_ac:i8 using_qmatrix:b qm_y qm_u qm_v""",
    "seg": """primary_ref_frame segmentation_enabled:b segmentation_update_map:b segmentation_temporal_update:b segmentation_update_data:b
        feature_enabled:b*64 feature_data:i16*64""",
    "lf": """coded_lossless:b allow_intrabc:b planes loop_filter_level:u32*4 loop_filter_sharpness loop_filter_delta_enabled:b
        loop_filter_delta_update:b loop_filter_ref_deltas:i8*8 loop_filter_mode_deltas:i8*2""",
    "cdef": """coded_lossless:b allow_intrabc:b enable_cdef:b planes cdef_bits cdef_damping cdef_y_pri_strength:u32*8
        cdef_y_sec_strength:u32*8 cdef_uv_pri_strength:u32*8 cdef_uv_sec_strength:u32*8""",
    "lr": """all_lossless:b allow_intrabc:b enable_restoration:b planes use_128x128_superblock:b subsampling_x:b subsampling_y:b
        frame_restoration_type:u32*3 uses_lr:b uses_chroma_lr:b lr_unit_shift lr_uv_shift""",
}
# How many of a part's fields are its context; the record is behind them. The part's reader, a word with an r before it, takes the context alone, and the loop
# filter's the deltas that were before.
CONTEXT = {"quant": 2, "seg": 1, "lf": 3, "cdef": 4, "lr": 7}
BEFORE = {"lf": "previous_ref_deltas:i8*8 previous_mode_deltas:i8*2"}
# Characters of a line; a longer one is malformed.
LONGEST = 200000
# The words whose answer is a whole OBU; the others are parts, at a bit place.
WHOLE = ("seq", "td")
LIMITS = {"u32": (0, 2**32 - 1), "b": (-(2**63), 2**63 - 1), "u8": (0, 255), "i8": (-128, 127), "i16": (-(2**15), 2**15 - 1)}


def field_list(text):
    """[(name, type, count, is it an array)] of a text of fields."""
    out = []
    for word in text.split():
        name, _, kind = word.partition(":")
        kind, star, count = kind.partition("*")
        out.append((name, kind or "u32", int(count or 1), bool(star)))
    return out


POINT = field_list(POINT)
FIELDS = {word: field_list(text) for word, text in FIELDS.items()}
READERS = {"r" + word: word for word in CONTEXT}
RECORD = {word: FIELDS[word][n:] for word, n in CONTEXT.items()}
FIELDS |= {reader: FIELDS[word][:CONTEXT[word]] + field_list(BEFORE.get(word, "")) for reader, word in READERS.items()}


class Record:
    """The fields of a case line by name."""


def altered(record, **fields):
    out = Record()
    out.__dict__ = vars(record) | fields
    return out


class Bad(Exception):
    """A malformed line."""


def number(text):
    """At most 18 digits behind the zeros in front, whatever the field."""
    digits = text[1:] if text[:1] == "-" else text
    if not digits.isdecimal() or not digits.isascii() or len(digits.lstrip("0")) > 18:
        raise Bad
    return int(text)


def take(numbers, fields):
    record = Record()
    for name, kind, count, array in fields:
        if name == "points":
            k = next(numbers, -1)
            if not 0 <= k <= 32:
                raise Bad
            record.given = k
            record.points = [take(numbers, POINT) for _ in range(k)] + [NO_POINT] * (32 - k)
            continue
        least, most = LIMITS[kind]
        values = []
        for _ in range(count):
            v = next(numbers, None)
            if v is None or not least <= v <= most:
                raise Bad
            values.append(int(v != 0) if kind == "b" else v)
        setattr(record, name, values if array else values[0])
    return record


NO_POINT = take(iter([0] * 9), POINT)


def numbers(record, fields):
    """The numbers of a record, in the line's order."""
    for name, _, _, array in fields:
        if name == "points":
            yield record.given
            for point in record.points[: record.given]:
                yield from numbers(point, POINT)
        elif array:
            yield from getattr(record, name)
        else:
            yield getattr(record, name)


def words(text):
    return [word for word in text.split(" ") if word]


def word_of(line):
    return (words(line.partition(";")[0]) or [""])[0]


def hex_bytes(text):
    if len(text) % 2 or not all(c in "0123456789abcdefABCDEF" for c in text):
        raise Bad
    return bytes.fromhex(text)


def parse(line):
    """(word, record, buffer, place) of a case line of a writer; (word, context, input, place) of a part's reader."""
    if len(line) > LONGEST:
        raise Bad
    case, _, rest = line.partition(";")
    word, *texts = words(case) or [""]
    settings = dict(setting.split("=", 1) if "=" in setting else (setting, None) for setting in words(rest))
    lent, otherwise = ("in", b"") if word in READERS else ("buf", bytes(420))
    allowed = {lent} if word in WHOLE else {lent, "place"}
    if word not in FIELDS or len(settings) < len(words(rest)) or None in settings.values() or settings.keys() - allowed:
        raise Bad
    data = hex_bytes(settings[lent]) if lent in settings else otherwise
    place = number(settings.get("place", "0"))
    if not 0 <= place < 2**32:
        raise Bad
    numbers = iter([number(text) for text in texts])
    record = take(numbers, FIELDS[word])
    if next(numbers, None) is not None:
        raise Bad
    return word, record, data, place


def answer_line(numbers, buffer=b""):
    return " ".join([*map(str, numbers), buffer.hex().upper()]).rstrip()
