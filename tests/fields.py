#!/usr/bin/env python3
"""Works out what the program `fields` reads and must print from FFmpeg's reading of real headers, in tests/streams/sequence.txt:
    tests/fields.py stdin > crates/fields/stdin
    tests/fields.py > crates/fields/stdout
The rows of coded fields are FFmpeg's. Those of inferred fields are worked out here, from the standard's tables.

Also what the program `show` must print of its stdin, worked out from document 01's case 2:
    tests/fields.py show > crates/show/stdout
"""

import pathlib
import sys

VECTORS = pathlib.Path(__file__).parent / "streams" / "sequence.txt"

# Lines that no encoder makes, and what is printed for each.
REFUSED = [
    ("0A", "refused 4: the input ends inside header, size or body"),
    ("8A", "refused 5: a forbidden or reserved bit is set"),
    ("0A0518000011", "refused 6: the size field is wrong"),
    ("0A0418000010", "refused 7: the trailing bits are wrong"),
    ("1200", None),
    ("3200", "refused 1: obu_type is inconsistent"),
    ("0A0478000011", "refused 1: seq_profile is inconsistent"),
    ("0A041800001", "bad"),
    ("0A 04", "bad"),
]

# Case 2 of document 01, its size in three bytes and with three bytes of padding.
SHOWN = bytes.fromhex("0A 87 80 00 18 00 00 11 00 00 00")
SHOWN_FIELDS = """
1 obu_forbidden_bit 0, 4 obu_type 1, 1 obu_extension_flag 0, 1 obu_has_size_field 1, 1 obu_reserved_1bit 0, 24 obu_size 7,
3 seq_profile 0, 1 still_picture 1, 1 reduced_still_picture_header 1, 5 seq_level_idx[0] 0,
4 frame_width_bits_minus_1 0, 4 frame_height_bits_minus_1 0, 1 max_frame_width_minus_1 0, 1 max_frame_height_minus_1 0,
1 use_128x128_superblock 0, 1 enable_filter_intra 0, 1 enable_intra_edge_filter 0,
1 enable_superres 0, 1 enable_cdef 0, 1 enable_restoration 0,
1 high_bitdepth 0, 1 mono_chrome 1, 1 color_description_present_flag 0, 1 color_range 0, 1 film_grain_params_present 0,
1 trailing_one_bit 1""" + ", 1 trailing_zero_bit 0" * 24

HEADER = [
    "obu_forbidden_bit", "obu_type", "obu_extension_flag", "obu_has_size_field", "obu_reserved_1bit",
    "temporal_id", "spatial_id", "extension_header_reserved_3bits", "obu_size",
]
TIMING = [
    "seq_profile", "still_picture", "reduced_still_picture_header", "timing_info_present_flag",
    "num_units_in_display_tick", "time_scale", "equal_picture_interval", "num_ticks_per_picture_minus_1",
    "decoder_model_info_present_flag", "buffer_delay_length_minus_1", "num_units_in_decoding_tick",
    "buffer_removal_time_length_minus_1", "frame_presentation_time_length_minus_1",
    "initial_display_delay_present_flag", "operating_points_cnt_minus_1",
]
POINT = [
    "operating_point_idc", "seq_level_idx", "seq_tier", "decoder_model_present_for_this_op", "decoder_buffer_delay",
    "encoder_buffer_delay", "low_delay_mode_flag", "initial_display_delay_present_for_this_op", "initial_display_delay_minus_1",
]
TOOLS = ["interintra_compound", "masked_compound", "warped_motion", "dual_filter", "order_hint", "jnt_comp", "ref_frame_mvs"]
REST = [
    "frame_width_bits_minus_1", "frame_height_bits_minus_1", "max_frame_width_minus_1", "max_frame_height_minus_1",
    "frame_id_numbers_present_flag", "delta_frame_id_length_minus_2", "additional_frame_id_length_minus_1",
    "use_128x128_superblock", "enable_filter_intra", "enable_intra_edge_filter", *(f"enable_{tool}" for tool in TOOLS),
    "seq_choose_screen_content_tools", "seq_force_screen_content_tools", "seq_choose_integer_mv", "seq_force_integer_mv",
    "order_hint_bits_minus_1", "OrderHintBits", "enable_superres", "enable_cdef", "enable_restoration",
    "high_bitdepth", "twelve_bit", "mono_chrome", "color_description_present_flag",
    "color_primaries", "transfer_characteristics", "matrix_coefficients", "color_range",
    "subsampling_x", "subsampling_y", "chroma_sample_position", "separate_uv_delta_q", "NumPlanes", "film_grain_params_present",
    "trailing_one_bit",
]


def order(points):
    """The names of a header's fields, in the order of the tables."""
    return HEADER + TIMING + [f"{name}[{i}]" for i in range(points) for name in POINT] + REST


def subsampling(v):
    """Both subsamplings where they are not coded."""
    if v.get("mono_chrome") == 1:
        return 1, 1
    if (v.get("color_primaries"), v.get("transfer_characteristics"), v.get("matrix_coefficients")) == (1, 13, 0):
        return 0, 0
    return [(1, 1), (0, 0), (1, 0)][v["seq_profile"]]


def inferred(v, points, size):
    """What each field holds if it is not coded. A name that is missing then has no row."""
    x, y = subsampling(v)
    found = {
        "obu_size": size, "timing_info_present_flag": 0, "decoder_model_info_present_flag": 0,
        "initial_display_delay_present_flag": 0, "operating_points_cnt_minus_1": 0,
        "frame_id_numbers_present_flag": 0, **{f"enable_{tool}": 0 for tool in TOOLS},
        "seq_force_screen_content_tools": 2, "seq_force_integer_mv": 2,
        "OrderHintBits": v.get("order_hint_bits_minus_1", -1) + 1, "twelve_bit": 0, "mono_chrome": 0,
        "color_primaries": 2, "transfer_characteristics": 2, "matrix_coefficients": 2, "color_range": 1,
        "subsampling_x": x, "subsampling_y": 0 if v.get("subsampling_x") == 0 else y,
        "chroma_sample_position": 0, "separate_uv_delta_q": 0, "NumPlanes": 1 if v.get("mono_chrome") == 1 else 3,
        "operating_point_idc[0]": 0,
    }
    for i in range(points):
        found |= {f"seq_tier[{i}]": 0, f"decoder_model_present_for_this_op[{i}]": 0}
    if v["reduced_still_picture_header"]:
        found["initial_display_delay_present_for_this_op[0]"] = 0
    return found


def row(place, width, name, value, mark=""):
    left = f"{place:>7}{width:>6}  {name}"
    return f"{left}{value:>{72 - len(left)}}{mark}"


HEADING = row("bit", "width", "field", "value")


def listing(bytes_in_hex, rows):
    """The rows of one header, out of FFmpeg's."""
    coded = {name: (place, width, name, value) for place, width, name, value in rows if name != "trailing_zero_bit"}
    v = {name: int(field[3]) for name, field in coded.items()}
    points = v.get("operating_points_cnt_minus_1", 0) + 1
    size = len(bytes_in_hex) // 2 - 1 - v["obu_extension_flag"]
    uncoded = inferred(v, points, size)
    found = []
    for name in order(points):
        if name in coded:
            found.append(row(*coded.pop(name)))
        elif name in uncoded:
            found.append(row("-", "-", name, uncoded[name], "  inferred"))
    assert not coded, f"no place in the tables: {list(coded)}"
    return [HEADING] + found + [row(*field) for field in rows if field[2] == "trailing_zero_bit"]


def delimiter():
    """`12 00`"""
    values = [(0, 1, 0), (1, 4, 2), (5, 1, 0), (6, 1, 1), (7, 1, 0), (8, 8, 0)]
    names = HEADER[:5] + ["obu_size"]
    return [HEADING] + [row(place, width, name, value) for (place, width, value), name in zip(values, names)]


def shown():
    """The dump of one line, and the listing."""
    place, rows = 0, []
    for field in SHOWN_FIELDS.split(","):
        width, name, value = field.split()
        rows.append((place, width, name, value))
        place += int(width)
    assert place == 8 * len(SHOWN), place
    return [f"{0:>7}  {SHOWN.hex(' ').upper()}", ""] + listing(SHOWN.hex(), rows)


def blocks():
    """The vectors: a note, the header's bytes, and FFmpeg's rows."""
    notes, found = [], []
    for line in VECTORS.read_text().splitlines():
        words = line.split()
        if line.startswith("#"):
            notes.append(line)
        elif len(words) == 4:
            found[-1][2].append(words)
        elif words:
            found.append((notes, words[0], []))
            notes = []
    return found


def main():
    if sys.argv[1:] == ["show"]:
        print("\n".join(shown()))
        return
    is_input = sys.argv[1:] == ["stdin"]
    for notes, bytes_in_hex, rows in blocks():
        print("\n".join(notes + ([bytes_in_hex] if is_input else listing(bytes_in_hex, rows))), end="\n\n")
    for line, answer in REFUSED:
        print(line if is_input else f"{answer or chr(10).join(delimiter())}", end="\n\n")


if __name__ == "__main__":
    main()
