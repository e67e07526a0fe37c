//! How much room is enough: the longest record of each writer fills it to the last byte or bit, and
//! no record needs more.
use friscurella::*;

/// The record of `crates/room`, which takes 397 bytes: every optional field of all 32 operating
/// points, of four spatial and eight temporal layers.
fn longest_header() -> SequenceHeaderObu {
    let mut header = SequenceHeaderObu::video(65536, 65536, 12);
    header.obu_header.extension_flag = true;
    header.timing_info_present_flag = true;
    header.timing_info = TimingInfo {
        num_units_in_display_tick: 1,
        time_scale: 60,
        equal_picture_interval: true,
        num_ticks_per_picture_minus_1: u32::MAX - 1,
    };
    header.decoder_model_info_present_flag = true;
    header.decoder_model_info = DecoderModelInfo {
        buffer_delay_length_minus_1: 31,
        num_units_in_decoding_tick: 1,
        buffer_removal_time_length_minus_1: 31,
        frame_presentation_time_length_minus_1: 31,
    };
    header.initial_display_delay_present_flag = true;
    header.operating_points_cnt_minus_1 = 31;
    for (i, point) in header.operating_points.iter_mut().enumerate() {
        *point = OperatingPoint {
            idc: ((1 << (4 - i / 8)) - 1) << 8 | ((1 << (8 - i % 8)) - 1),
            seq_level_idx: 31,
            seq_tier: 1,
            decoder_model_present_for_this_op: true,
            decoder_buffer_delay: 90000,
            encoder_buffer_delay: 90000,
            low_delay_mode_flag: true,
            initial_display_delay_present_for_this_op: true,
            initial_display_delay_minus_1: 9,
        };
    }
    header.frame_id_numbers_present_flag = true;
    header.delta_frame_id_length_minus_2 = 7;
    header.additional_frame_id_length_minus_1 = 5;
    header.use_128x128_superblock = true;
    header.enable_filter_intra = true;
    header.enable_intra_edge_filter = true;
    header.enable_interintra_compound = true;
    header.enable_masked_compound = true;
    header.enable_warped_motion = true;
    header.enable_dual_filter = true;
    header.enable_order_hint = true;
    header.enable_jnt_comp = true;
    header.enable_ref_frame_mvs = true;
    header.seq_choose_screen_content_tools = false;
    header.seq_force_screen_content_tools = 1;
    header.seq_choose_integer_mv = false;
    header.seq_force_integer_mv = 1;
    header.order_hint_bits_minus_1 = 7;
    header.order_hint_bits = 8;
    header.enable_superres = true;
    header.enable_cdef = true;
    header.enable_restoration = true;
    header.color_config = ColorConfig {
        high_bitdepth: true,
        twelve_bit: true,
        mono_chrome: false,
        color_description_present_flag: true,
        color_primaries: 9,
        transfer_characteristics: 16,
        matrix_coefficients: 9,
        color_range: true,
        subsampling_x: true,
        subsampling_y: true,
        chroma_sample_position: 2,
        separate_uv_delta_q: true,
        num_planes: 3,
    };
    header.film_grain_params_present = true;
    header
}

/// The length that a refusal asks for.
fn needed<T: std::fmt::Debug>(answer: Result<T, Refusal>) -> usize {
    match answer {
        Err(Refusal::Short { needed, .. }) => needed as usize,
        other => panic!("{other:?}"),
    }
}

#[test]
fn the_longest_header_fills_its_room() {
    let header = longest_header();
    let mut out = [0xA5; SEQUENCE_HEADER_MAX + 1];
    assert_eq!(
        write_sequence_header(&header, &mut out),
        Ok(SEQUENCE_HEADER_MAX)
    );
    assert_eq!(out[SEQUENCE_HEADER_MAX], 0xA5);
    assert_eq!(
        read_sequence_header(&out[..SEQUENCE_HEADER_MAX]),
        Ok(header.clone())
    );

    let mut out = [0xA5; SEQUENCE_HEADER_MAX - 1];
    assert_eq!(
        needed(write_sequence_header(&header, &mut out)),
        SEQUENCE_HEADER_MAX
    );
    assert_eq!(out, [0xA5; SEQUENCE_HEADER_MAX - 1]);
}

#[test]
fn every_optional_field_counts() {
    type Change = fn(&mut SequenceHeaderObu);
    let changes: [(usize, Change); 9] = [
        (1, |h| h.obu_header.extension_flag = false),
        (2, |h| h.obu_header.has_size_field = false),
        (8, |h| h.timing_info.equal_picture_interval = false),
        (1, |h| {
            h.timing_info.num_ticks_per_picture_minus_1 = (1 << 29) - 2
        }),
        (11, |h| h.operating_points_cnt_minus_1 -= 1),
        (8, |h| {
            h.operating_points[31].decoder_model_present_for_this_op = false
        }),
        (8, |h| h.decoder_model_info.buffer_delay_length_minus_1 = 30),
        (20, |h| h.initial_display_delay_present_flag = false),
        (3, |h| {
            h.color_config.color_description_present_flag = false;
            h.color_config.color_primaries = 2;
            h.color_config.transfer_characteristics = 2;
            h.color_config.matrix_coefficients = 2;
        }),
    ];
    for (at, (less, change)) in changes.into_iter().enumerate() {
        let mut header = longest_header();
        change(&mut header);
        let written = write_sequence_header(&header, &mut [0; SEQUENCE_HEADER_MAX]);
        assert_eq!(written, Ok(SEQUENCE_HEADER_MAX - less), "change {at}");
    }
}

#[test]
fn the_longest_delimiter_fills_its_room() {
    let header = ObuHeader {
        obu_type: 2,
        extension_flag: true,
        has_size_field: true,
        temporal_id: 7,
        spatial_id: 3,
    };
    let mut out = [0xA5; TEMPORAL_DELIMITER_MAX];
    assert_eq!(
        write_temporal_delimiter(&header, &mut out),
        Ok(TEMPORAL_DELIMITER_MAX)
    );
    let short = write_temporal_delimiter(&header, &mut out[1..]);
    assert_eq!(needed(short), TEMPORAL_DELIMITER_MAX);
}

/// From each bit of a byte on, the part takes all `bits`, and a byte less is too short.
fn reaches(bits: usize, write: impl Fn(&mut [u8], u32) -> Result<u32, Refusal>) {
    for place in 0..16 {
        let bytes = (place + bits).div_ceil(8);
        let mut out = vec![0xA5; bytes];
        assert_eq!(write(&mut out, place as u32), Ok((place + bits) as u32));
        assert_eq!(needed(write(&mut out[1..], place as u32)), bytes);
    }
}

#[test]
fn the_longest_quantization_fills_its_room() {
    let context = QuantizationContext {
        planes: 3,
        separate_uv_delta_q: true,
    };
    let params = QuantizationParams {
        base_q_idx: 255,
        delta_q_y_dc: -64,
        diff_uv_delta: true,
        delta_q_u_dc: 63,
        delta_q_u_ac: -64,
        delta_q_v_dc: -64,
        delta_q_v_ac: 63,
        using_qmatrix: true,
        qm_y: 15,
        qm_u: 15,
        qm_v: 15,
    };
    reaches(QUANTIZATION_PARAMS_MAX_BITS, |out, place| {
        write_quantization_params(&params, &context, out, place)
    });
}

#[test]
fn the_longest_segmentation_fills_its_room() {
    let context = SegmentationContext {
        primary_ref_frame: 0,
    };
    let params = SegmentationParams {
        segmentation_enabled: true,
        segmentation_update_map: true,
        segmentation_temporal_update: true,
        segmentation_update_data: true,
        feature_enabled: [[true; 8]; 8],
        ..Default::default()
    };
    reaches(SEGMENTATION_PARAMS_MAX_BITS, |out, place| {
        write_segmentation_params(&params, &context, out, place)
    });
}

#[test]
fn the_longest_loop_filter_fills_its_room() {
    let context = LoopFilterContext {
        coded_lossless: false,
        allow_intrabc: false,
        planes: 3,
    };
    let params = LoopFilterParams {
        loop_filter_level: [63; 4],
        loop_filter_sharpness: 7,
        loop_filter_delta_enabled: true,
        loop_filter_delta_update: true,
        loop_filter_ref_deltas: [-64; 8],
        loop_filter_mode_deltas: [63; 2],
    };
    reaches(LOOP_FILTER_PARAMS_MAX_BITS, |out, place| {
        write_loop_filter_params(&params, &context, out, place)
    });
}

#[test]
fn the_longest_cdef_fills_its_room() {
    let context = CdefContext {
        coded_lossless: false,
        allow_intrabc: false,
        enable_cdef: true,
        planes: 3,
    };
    let params = CdefParams {
        cdef_bits: 3,
        cdef_damping: 6,
        cdef_y_pri_strength: [15; 8],
        cdef_y_sec_strength: [4; 8],
        cdef_uv_pri_strength: [15; 8],
        cdef_uv_sec_strength: [4; 8],
    };
    reaches(CDEF_PARAMS_MAX_BITS, |out, place| {
        write_cdef_params(&params, &context, out, place)
    });
}

#[test]
fn the_longest_restoration_fills_its_room() {
    let context = LoopRestorationContext {
        all_lossless: false,
        allow_intrabc: false,
        enable_restoration: true,
        planes: 3,
        use_128x128_superblock: false,
        subsampling_x: true,
        subsampling_y: true,
    };
    let params = LoopRestorationParams {
        frame_restoration_type: [1; 3],
        uses_lr: true,
        uses_chroma_lr: true,
        lr_unit_shift: 2,
        lr_uv_shift: 1,
    };
    reaches(LR_PARAMS_MAX_BITS, |out, place| {
        write_lr_params(&params, &context, out, place)
    });
}
