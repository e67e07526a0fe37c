#!/usr/bin/env python3
"""How much room is enough (request 10), by the words of the request: the record of each word that takes the most, and how much that is.

    oracle/room.py      writes tests/vectors/room.txt and the model's answers to it: each of these records with the room that is enough, and with a byte less
"""
import pathlib

from lines import FIELDS, WHOLE, Record, numbers
from model import answer

# Bytes of an OBU, bits of a part.
MOST = {"seq": 397, "td": 3, "quant": 62, "seg": 388, "lf": 109, "cdef": 100, "lr": 9}


def record(**fields):
    out = Record()
    out.__dict__ = fields
    return out


def header(obu_type):
    return dict(obu_type=obu_type, extension_flag=1, has_size_field=1, temporal_id=0, spatial_id=0)


def point(i):
    """Point i leaves out the i // 8 highest of four spatial layers and the i % 8 highest of eight temporal ones."""
    spatial, temporal = 4 - i // 8, 8 - i % 8
    return record(
        operating_point_idc=(2**spatial - 1) << 8 | (2**temporal - 1), seq_level_idx=31, seq_tier=1, decoder_model_present_for_this_op=1,
        decoder_buffer_delay=90000, encoder_buffer_delay=90000, low_delay_mode_flag=1, initial_display_delay_present_for_this_op=1,
        initial_display_delay_minus_1=9,
    )


# All 32 points with every optional field, the longest tick count, both extension and size.
LONGEST = {
    "seq": record(
        **header(1), seq_profile=2, still_picture=0, reduced_still_picture_header=0, timing_info_present_flag=1, num_units_in_display_tick=1,
        time_scale=60, equal_picture_interval=1, num_ticks_per_picture_minus_1=2**32 - 2, decoder_model_info_present_flag=1,
        buffer_delay_length_minus_1=31, num_units_in_decoding_tick=1, buffer_removal_time_length_minus_1=31,
        frame_presentation_time_length_minus_1=31, initial_display_delay_present_flag=1, operating_points_cnt_minus_1=31, given=32,
        points=[point(i) for i in range(32)], frame_width_bits_minus_1=15, frame_height_bits_minus_1=15, max_frame_width_minus_1=65535,
        max_frame_height_minus_1=65535, frame_id_numbers_present_flag=1, delta_frame_id_length_minus_2=7, additional_frame_id_length_minus_1=5,
        use_128x128_superblock=1, enable_filter_intra=1, enable_intra_edge_filter=1, enable_interintra_compound=1, enable_masked_compound=1,
        enable_warped_motion=1, enable_dual_filter=1, enable_order_hint=1, enable_jnt_comp=1, enable_ref_frame_mvs=1,
        seq_choose_screen_content_tools=0, seq_force_screen_content_tools=1, seq_choose_integer_mv=0, seq_force_integer_mv=1,
        order_hint_bits_minus_1=7, OrderHintBits=8, enable_superres=1, enable_cdef=1, enable_restoration=1, high_bitdepth=1, twelve_bit=1,
        mono_chrome=0, color_description_present_flag=1, color_primaries=9, transfer_characteristics=16, matrix_coefficients=9, color_range=1,
        subsampling_x=1, subsampling_y=1, chroma_sample_position=2, separate_uv_delta_q=1, NumPlanes=3, film_grain_params_present=1,
    ),
    "td": record(**header(2)),
    "quant": record(
        planes=3, separate_uv_delta_q=1, base_q_idx=255, delta_q_y_dc=-64, diff_uv_delta=1, delta_q_u_dc=63, delta_q_u_ac=-64, delta_q_v_dc=-64,
        delta_q_v_ac=63, using_qmatrix=1, qm_y=15, qm_u=15, qm_v=15,
    ),
    "seg": record(
        primary_ref_frame=0, segmentation_enabled=1, segmentation_update_map=1, segmentation_temporal_update=1, segmentation_update_data=1,
        feature_enabled=[1] * 64, feature_data=[0] * 64,
    ),
    "lf": record(
        coded_lossless=0, allow_intrabc=0, planes=3, loop_filter_level=[63] * 4, loop_filter_sharpness=7, loop_filter_delta_enabled=1,
        loop_filter_delta_update=1, loop_filter_ref_deltas=[-64] * 8, loop_filter_mode_deltas=[63] * 2,
    ),
    "cdef": record(
        coded_lossless=0, allow_intrabc=0, enable_cdef=1, planes=3, cdef_bits=3, cdef_damping=6, cdef_y_pri_strength=[15] * 8,
        cdef_y_sec_strength=[4] * 8, cdef_uv_pri_strength=[15] * 8, cdef_uv_sec_strength=[4] * 8,
    ),
    "lr": record(
        all_lossless=0, allow_intrabc=0, enable_restoration=1, planes=3, use_128x128_superblock=0, subsampling_x=1, subsampling_y=1,
        frame_restoration_type=[1] * 3, uses_lr=1, uses_chroma_lr=1, lr_unit_shift=2, lr_uv_shift=1,
    ),
}


def taken(line, answer):
    """How much an answer of a writer took, or 0 where it refused."""
    if not answer.startswith("0 "):
        return 0
    place = next((int(word[6:]) for word in line.split() if word.startswith("place=")), 0)
    return int(answer.split()[1]) - place


def line(word, length, place=0):
    """The word's longest record, from a place on, with a buffer of so many bytes."""
    text = " ".join(map(str, numbers(LONGEST[word], FIELDS[word])))
    return f"{word} {text} ; buf={'A5' * length}" + (f" place={place}" if place else "")


def stored():
    """The lines to store; those behind the sequence header are of its bytes."""
    for word, most in MOST.items():
        for place in (0,) if word in WHOLE else (0, 5):
            length = most if word in WHOLE else -(-(place + most) // 8)
            yield line(word, length, place)
            yield line(word, length - 1, place)
        if word == "seq":
            data = answer(line(word, most)).split()[2]
            yield "read " + data
            yield "payload " + data


def main():
    path = pathlib.Path(__file__).resolve().parent.parent / "tests" / "vectors"
    lines = list(stored())
    head = "# Made by oracle/room.py: the record of each word that takes the most, with the room that is enough and with a byte less.\n"
    (path / "room.txt").write_text(head + "".join(f"{each}\n" for each in lines))
    (path / "room.answers").write_text("".join(f"{answer(each)}\n" for each in lines))


if __name__ == "__main__":
    main()
