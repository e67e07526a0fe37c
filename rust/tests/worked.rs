//! The worked table that the library is proved to meet, through the functions of this crate; and
//! what they promise of the buffer.
use friscurella::*;
use std::fmt::Debug;

/// The element that a call refuses as inconsistent, with its index.
fn inconsistent<T: Debug>(answer: Result<T, Refusal>) -> (Element, u32) {
    match answer {
        Err(Refusal::Inconsistent { element, index, .. }) => (element, index),
        _ => panic!("{answer:?}"),
    }
}

/// The element that a call refuses as unfit, with its index and the width that it would need.
fn unfit<T: Debug>(answer: Result<T, Refusal>) -> (Element, u32, u32) {
    match answer {
        Err(Refusal::Unfit {
            element,
            index,
            width,
            ..
        }) => (element, index, width),
        _ => panic!("{answer:?}"),
    }
}

/// The length that a call would need.
fn needed<T: Debug>(answer: Result<T, Refusal>) -> u32 {
    match answer {
        Err(Refusal::Short { needed, .. }) => needed,
        _ => panic!("{answer:?}"),
    }
}

fn obu(obu_type: u32) -> ObuHeader {
    ObuHeader {
        obu_type,
        has_size_field: true,
        ..Default::default()
    }
}

/// Case 2: reduced still, 1 by 1, mono.
fn still() -> SequenceHeaderObu {
    SequenceHeaderObu {
        obu_header: obu(OBU_SEQUENCE_HEADER),
        still_picture: true,
        reduced_still_picture_header: true,
        seq_force_screen_content_tools: SELECT_SCREEN_CONTENT_TOOLS,
        seq_force_integer_mv: SELECT_INTEGER_MV,
        color_config: ColorConfig {
            mono_chrome: true,
            subsampling_x: true,
            subsampling_y: true,
            num_planes: 1,
            ..ColorConfig::unspecified()
        },
        ..Default::default()
    }
}

const STILL: [u8; 6] = [0x0A, 0x04, 0x18, 0x00, 0x00, 0x11];

/// Case 6: 1920 by 1080, level 8.
fn full() -> SequenceHeaderObu {
    let mut header = SequenceHeaderObu {
        obu_header: obu(OBU_SEQUENCE_HEADER),
        frame_width_bits_minus_1: 10,
        frame_height_bits_minus_1: 10,
        max_frame_width_minus_1: 1919,
        max_frame_height_minus_1: 1079,
        use_128x128_superblock: true,
        enable_filter_intra: true,
        enable_intra_edge_filter: true,
        enable_interintra_compound: true,
        enable_masked_compound: true,
        enable_warped_motion: true,
        enable_dual_filter: true,
        enable_order_hint: true,
        enable_jnt_comp: true,
        enable_ref_frame_mvs: true,
        seq_choose_screen_content_tools: true,
        seq_force_screen_content_tools: SELECT_SCREEN_CONTENT_TOOLS,
        seq_choose_integer_mv: true,
        seq_force_integer_mv: SELECT_INTEGER_MV,
        order_hint_bits_minus_1: 6,
        order_hint_bits: 7,
        enable_cdef: true,
        enable_restoration: true,
        color_config: ColorConfig {
            subsampling_x: true,
            subsampling_y: true,
            ..ColorConfig::unspecified()
        },
        ..Default::default()
    };
    header.operating_points[0].seq_level_idx = 8;
    header
}

/// Every group of fields coded, 32 operating points that all differ.
fn rich() -> SequenceHeaderObu {
    let mut header = SequenceHeaderObu {
        obu_header: ObuHeader {
            extension_flag: true,
            temporal_id: 5,
            spatial_id: 2,
            ..obu(OBU_SEQUENCE_HEADER)
        },
        seq_profile: 2,
        timing_info_present_flag: true,
        timing_info: TimingInfo {
            num_units_in_display_tick: 1001,
            time_scale: 60000,
            equal_picture_interval: true,
            num_ticks_per_picture_minus_1: 5,
        },
        decoder_model_info_present_flag: true,
        decoder_model_info: DecoderModelInfo {
            buffer_delay_length_minus_1: 31,
            num_units_in_decoding_tick: 4_000_000_001,
            buffer_removal_time_length_minus_1: 30,
            frame_presentation_time_length_minus_1: 29,
        },
        initial_display_delay_present_flag: true,
        operating_points_cnt_minus_1: 31,
        frame_id_numbers_present_flag: true,
        delta_frame_id_length_minus_2: 12,
        additional_frame_id_length_minus_1: 6,
        enable_superres: true,
        color_config: ColorConfig {
            high_bitdepth: true,
            twelve_bit: true,
            color_description_present_flag: true,
            color_primaries: 9,
            transfer_characteristics: 16,
            matrix_coefficients: 10,
            color_range: true,
            subsampling_x: true,
            subsampling_y: true,
            chroma_sample_position: 2,
            separate_uv_delta_q: true,
            num_planes: 3,
            ..Default::default()
        },
        film_grain_params_present: true,
        ..full()
    };
    for (i, point) in header.operating_points.iter_mut().enumerate() {
        let i = i as u32;
        let (third, half) = (i % 3, i % 2);
        *point = OperatingPoint {
            idc: 0x101 + i,
            seq_level_idx: i,
            seq_tier: u32::from(i > 7) & i,
            decoder_model_present_for_this_op: third != 1,
            decoder_buffer_delay: if third != 1 { 90000 + i } else { 0 },
            encoder_buffer_delay: if third != 1 { 0xF000_0000 + i } else { 0 },
            low_delay_mode_flag: third == 0,
            initial_display_delay_present_for_this_op: half == 1,
            initial_display_delay_minus_1: if half == 1 { i % 10 } else { 0 },
        };
    }
    header
}

#[test]
fn case_1_delimiter() {
    let mut out = [0xA5; 3];
    assert_eq!(
        write_temporal_delimiter(&obu(OBU_TEMPORAL_DELIMITER), &mut out),
        Ok(2)
    );
    assert_eq!(out, [0x12, 0x00, 0xA5]);
    let bare = ObuHeader {
        has_size_field: false,
        ..obu(OBU_TEMPORAL_DELIMITER)
    };
    assert_eq!(write_temporal_delimiter(&bare, &mut out), Ok(1));
    assert_eq!(out, [0x10, 0x00, 0xA5]);
    assert!(is_temporal_delimiter(&[0x12, 0x00]) && is_temporal_delimiter(&[0x10]));
    assert!(
        !is_temporal_delimiter(&[])
            && !is_temporal_delimiter(&STILL)
            && !is_temporal_delimiter(&[0x10, 0x00])
    );
    assert_eq!(
        inconsistent(write_temporal_delimiter(
            &obu(OBU_SEQUENCE_HEADER),
            &mut out
        )),
        (Element::ObuType, 0)
    );
}

#[test]
fn cases_2_and_3_still() {
    let mut out = [0xA5; 8];
    assert_eq!(write_sequence_header(&still(), &mut out), Ok(6));
    assert_eq!(out[..6], STILL);
    assert_eq!(out[6..], [0xA5; 2]);
    let mut short = [0xA5; 5];
    assert_eq!(needed(write_sequence_header(&still(), &mut short)), 6);
    assert_eq!(short, [0xA5; 5]);
}

#[test]
fn cases_4_and_5_read() {
    for spelling in [
        &STILL[..],
        &[0x0A, 0x84, 0x00, 0x18, 0x00, 0x00, 0x11],
        &[0x0A, 0x05, 0x18, 0x00, 0x00, 0x11, 0x00],
    ] {
        assert_eq!(read_sequence_header(spelling), Ok(still()));
    }
    assert_eq!(
        read_sequence_header(&[0x0A, 0x04, 0x18, 0x00, 0x00, 0x10]),
        Err(Refusal::Trailing)
    );
    assert_eq!(
        read_sequence_header(&[0x0A, 0x05, 0x18, 0x00, 0x00, 0x11]),
        Err(Refusal::Size)
    );
    assert_eq!(read_sequence_header(&[0x0A]), Err(Refusal::Ends));
    assert_eq!(read_sequence_header(&[]), Err(Refusal::Ends));
    assert_eq!(read_sequence_header(&[0x8A]), Err(Refusal::Reserved));
    assert_eq!(
        inconsistent(read_sequence_header(&[0x12, 0x00])),
        (Element::ObuType, 0)
    );
}

#[test]
fn case_6_full() {
    let mut out = [0; 13];
    assert_eq!(write_sequence_header(&full(), &mut out), Ok(13));
    assert_eq!(
        out,
        [0x0A, 0x0B, 0x00, 0x00, 0x00, 0x42, 0xAB, 0xBF, 0xC3, 0x77, 0xFF, 0xE6, 0x01]
    );
    assert_eq!(read_sequence_header(&out), Ok(full()));
}

#[test]
fn case_7_width() {
    let mut out = [0xA5; 64];
    let mut header = SequenceHeaderObu {
        frame_width_bits_minus_1: 7,
        max_frame_width_minus_1: 255,
        ..full()
    };
    assert!(write_sequence_header(&header, &mut out).is_ok());
    header.max_frame_width_minus_1 = 256;
    assert_eq!(
        inconsistent(write_sequence_header(&header, &mut out)),
        (Element::FrameWidthBitsMinus1, 0)
    );
}

#[test]
fn case_8_su() {
    let context = QuantizationContext {
        planes: 1,
        separate_uv_delta_q: false,
    };
    let write = |delta_q_y_dc, out: &mut [u8]| {
        write_quantization_params(
            &QuantizationParams {
                delta_q_y_dc,
                ..Default::default()
            },
            &context,
            out,
            0,
        )
    };
    for (delta, byte) in [(-1, 0xFF), (-64, 0xC0), (63, 0xBF)] {
        let mut out = [0; 3];
        assert_eq!(write(delta, &mut out), Ok(17));
        assert_eq!(out, [0, byte, 0]);
    }
    for delta in [64, -65, i8::MAX, i8::MIN] {
        assert_eq!(unfit(write(delta, &mut [0; 3])), (Element::DeltaQYDc, 0, 8));
    }
}

#[test]
fn case_9_uvlc() {
    for (ticks, bits, length) in [(0, 0b1, 1), (1, 0b010, 3), (2, 0b011, 3)] {
        let timing_info = TimingInfo {
            equal_picture_interval: true,
            num_ticks_per_picture_minus_1: ticks,
            ..Default::default()
        };
        let mut out = [0; 32];
        write_sequence_header(
            &SequenceHeaderObu {
                timing_info_present_flag: true,
                timing_info,
                ..full()
            },
            &mut out,
        )
        .unwrap();
        // Two bytes of header and size, three fields of 5 bits, the timing flag, two numbers of 32
        // bits and a flag.
        let at = 16 + 5 + 1 + 32 + 32 + 1;
        let read = (at..at + length).fold(0, |bits, i| 2 * bits + (out[i / 8] >> (7 - i % 8) & 1));
        assert_eq!(read, bits);
    }
    let timing_info = TimingInfo {
        equal_picture_interval: true,
        num_ticks_per_picture_minus_1: u32::MAX,
        ..Default::default()
    };
    let header = SequenceHeaderObu {
        timing_info_present_flag: true,
        timing_info,
        ..full()
    };
    assert_eq!(
        unfit(write_sequence_header(&header, &mut [0; 32])),
        (Element::NumTicksPerPictureMinus1, 0, 33)
    );
}

#[test]
fn case_10_quantization() {
    let context = QuantizationContext {
        planes: 1,
        separate_uv_delta_q: false,
    };
    let mut params = QuantizationParams {
        base_q_idx: 100,
        delta_q_y_dc: -1,
        ..Default::default()
    };
    let mut out = [0xFF; 3];
    assert_eq!(
        write_quantization_params(&params, &context, &mut out, 0),
        Ok(17)
    );
    assert_eq!(out, [0b0110_0100, 0b1111_1111, 0b0111_1111]);
    params.base_q_idx = u32::MAX;
    assert_eq!(
        unfit(write_quantization_params(&params, &context, &mut out, 0)),
        (Element::BaseQIdx, 0, 32)
    );
}

#[test]
fn case_11_cdef() {
    let context = CdefContext {
        enable_cdef: true,
        planes: 1,
        ..Default::default()
    };
    let mut params = CdefParams {
        cdef_damping: 3,
        ..Default::default()
    };
    params.cdef_y_pri_strength[0] = 1;
    params.cdef_y_sec_strength[0] = 4;
    let mut out = [0; 2];
    assert_eq!(write_cdef_params(&params, &context, &mut out, 0), Ok(10));
    assert_eq!(out, [0b0000_0001, 0b1100_0000]);
    params.cdef_bits = 1;
    params.cdef_y_sec_strength[1] = 3;
    let refusal = write_cdef_params(&params, &context, &mut out, 0).unwrap_err();
    assert_eq!(
        inconsistent::<u32>(Err(refusal)),
        (Element::CdefYSecStrength, 1)
    );
    assert_eq!(
        refusal.to_string(),
        "cdef_y_sec_strength[1] is inconsistent"
    );
}

#[test]
fn case_12_restoration() {
    let context = LoopRestorationContext {
        enable_restoration: true,
        planes: 1,
        ..Default::default()
    };
    for (lr_unit_shift, bits, end) in [(0, 0b1000, 3), (1, 0b1010, 4), (2, 0b1011, 4)] {
        let params = LoopRestorationParams {
            frame_restoration_type: [2, 0, 0],
            uses_lr: true,
            lr_unit_shift,
            ..Default::default()
        };
        let mut out = [0; 1];
        assert_eq!(write_lr_params(&params, &context, &mut out, 0), Ok(end));
        assert_eq!(out, [bits << 4]);
    }
}

#[test]
fn segmentation() {
    let context = SegmentationContext {
        primary_ref_frame: PRIMARY_REF_NONE,
    };
    let mut params = SegmentationParams {
        segmentation_enabled: true,
        segmentation_update_map: true,
        segmentation_update_data: true,
        ..Default::default()
    };
    params.feature_enabled[0][0] = true;
    params.feature_data[0][0] = -5;
    let mut out = [0; 10];
    assert_eq!(
        write_segmentation_params(&params, &context, &mut out, 0),
        Ok(74)
    );
    assert_eq!(out, [0b1111_1111, 0b0110_0000, 0, 0, 0, 0, 0, 0, 0, 0]);
    params.feature_enabled[1][5] = true; // place 13: bit 1 + 9 (value) + 13
    assert_eq!(
        write_segmentation_params(&params, &context, &mut out, 0),
        Ok(77)
    );
    assert_eq!(out[2], 0b0000_0001);
    params.segmentation_update_data = false;
    assert_eq!(
        inconsistent(write_segmentation_params(&params, &context, &mut out, 0)),
        (Element::SegmentationUpdateData, 0)
    );
}

#[test]
fn loop_filter() {
    let context = LoopFilterContext {
        planes: 1,
        ..Default::default()
    };
    let mut params = LoopFilterParams {
        loop_filter_level: [1, 2, 0, 0],
        loop_filter_sharpness: 3,
        ..Default::default()
    };
    let mut out = [0xFF; 3];
    assert_eq!(
        write_loop_filter_params(&params, &context, &mut out, 0),
        Ok(16)
    );
    assert_eq!(out, [0b0000_0100, 0b0010_0110, 0xFF]);
    params.loop_filter_delta_enabled = true;
    params.loop_filter_delta_update = true;
    params.loop_filter_ref_deltas[7] = 64;
    assert_eq!(
        unfit(write_loop_filter_params(&params, &context, &mut [0; 32], 0)),
        (Element::LoopFilterRefDeltas, 7, 8)
    );
    params.loop_filter_ref_deltas[7] = 63;
    assert_eq!(
        write_loop_filter_params(&params, &context, &mut [0; 32], 0),
        Ok(15 + 2 + 80)
    );
}

/// Where nothing is coded, the reference deltas are the standard's defaults, place by place.
#[test]
fn loop_filter_defaults() {
    for (coded_lossless, allow_intrabc) in [(true, false), (false, true)] {
        let context = LoopFilterContext {
            coded_lossless,
            allow_intrabc,
            planes: 3,
        };
        let with = |loop_filter_ref_deltas| {
            let params = LoopFilterParams {
                loop_filter_ref_deltas,
                ..Default::default()
            };
            write_loop_filter_params(&params, &context, &mut [], 0)
        };
        let refused = |deltas| inconsistent(with(deltas)) == (Element::LoopFilterRefDeltas, 0);
        assert_eq!(with(DEFAULT_REF_DELTAS), Ok(0));
        for i in 0..8 {
            let mut deltas = DEFAULT_REF_DELTAS;
            deltas[i] += 1;
            assert!(refused(deltas));
        }
        let mut exchanged = DEFAULT_REF_DELTAS; // as cros-codecs has them
        exchanged.swap(4, 5);
        assert!(refused(exchanged));
    }
}

#[test]
fn a_part_keeps_the_bits_around_it() {
    let context = LoopRestorationContext {
        enable_restoration: true,
        planes: 1,
        ..Default::default()
    };
    let params = LoopRestorationParams {
        frame_restoration_type: [2, 0, 0],
        uses_lr: true,
        ..Default::default()
    };
    let mut out = [0xFF; 2];
    assert_eq!(write_lr_params(&params, &context, &mut out, 7), Ok(10));
    assert_eq!(out, [0xFF, 0b0011_1111]);
    for place in [14, 17, u32::MAX] {
        let least = (u64::from(place) + 3).div_ceil(8) as u32;
        assert_eq!(
            needed(write_lr_params(&params, &context, &mut out, place)),
            least
        );
        assert_eq!(out, [0xFF, 0b0011_1111]);
    }
}

#[test]
fn there_and_back() {
    let header = rich();
    let mut out = [0xA5; 1000];
    let length = write_sequence_header(&header, &mut out).unwrap();
    assert!(out[length..].iter().all(|&byte| byte == 0xA5));
    assert_eq!(read_sequence_header(&out[..length]), Ok(header));
}

#[test]
fn a_refusal_names_its_point_and_keeps_the_buffer() {
    let mut header = rich();
    header.operating_points[3].seq_tier = 1;
    let mut out = [0xA5; 1000];
    let refusal = write_sequence_header(&header, &mut out).unwrap_err();
    assert_eq!(inconsistent::<usize>(Err(refusal)), (Element::SeqTier, 3));
    assert_eq!(refusal.to_string(), "seq_tier[3] is inconsistent");
    header.operating_points[2].idc = 4096;
    let refusal = write_sequence_header(&header, &mut out).unwrap_err();
    assert_eq!(
        refusal.to_string(),
        "operating_point_idc[2] does not fit its field: 13 bits are needed"
    );
    header.seq_profile = 3;
    assert_eq!(
        write_sequence_header(&header, &mut out)
            .unwrap_err()
            .to_string(),
        "seq_profile is inconsistent"
    );
    assert_eq!(out, [0xA5; 1000]);
}

#[test]
fn an_unfit_value_is_told_the_width_it_needs() {
    let mut out = [0xA5; 64];
    for (width_bits, width) in [(16, 5), (31, 5), (32, 6), (255, 8)] {
        let header = SequenceHeaderObu {
            frame_width_bits_minus_1: width_bits,
            ..still()
        };
        assert_eq!(
            unfit(write_sequence_header(&header, &mut out)),
            (Element::FrameWidthBitsMinus1, 0, width)
        );
    }
    for (level, width) in [(32, 6), (63, 6), (64, 7), (u32::MAX, 32)] {
        let mut header = still();
        header.operating_points[0].seq_level_idx = level;
        assert_eq!(
            unfit(write_sequence_header(&header, &mut out)),
            (Element::SeqLevelIdx, 0, width)
        );
    }
    assert_eq!(out, [0xA5; 64]);
}

#[test]
fn no_width_helps() {
    let context = CdefContext {
        enable_cdef: true,
        planes: 1,
        ..Default::default()
    };
    for cdef_damping in [0, 2, 7, u32::MAX] {
        let params = CdefParams {
            cdef_damping,
            ..Default::default()
        };
        let refusal = write_cdef_params(&params, &context, &mut [0; 8], 0).unwrap_err();
        assert_eq!(unfit::<u32>(Err(refusal)), (Element::CdefDamping, 0, 0));
        assert_eq!(
            refusal.to_string(),
            "cdef_damping does not fit its field: no width helps"
        );
    }
}

#[test]
fn long_slices() {
    let mut out = vec![0xA5; 65537];
    assert_eq!(
        write_sequence_header(&still(), &mut out),
        Err(Refusal::Long)
    );
    assert_eq!(
        write_temporal_delimiter(&obu(OBU_TEMPORAL_DELIMITER), &mut out),
        Err(Refusal::Long)
    );
    assert_eq!(
        write_cdef_params(&CdefParams::default(), &CdefContext::default(), &mut out, 0),
        Err(Refusal::Long)
    );
    assert_eq!(read_sequence_header(&out), Err(Refusal::Long));
    assert!(out.iter().all(|&byte| byte == 0xA5));
    assert_eq!(write_sequence_header(&still(), &mut out[1..]), Ok(6));
}

#[test]
fn payload_is_a_part_of_the_input() {
    assert_eq!(payload(&STILL), &STILL[2..]);
    assert_eq!(payload(&STILL).as_ptr(), STILL[2..].as_ptr());
    assert_eq!(
        payload(&[0x08, 0x18, 0x00, 0x00, 0x11]),
        [0x18, 0x00, 0x00, 0x11]
    );
    assert_eq!(
        payload(&[0x0A, 0x84, 0x00, 0x18, 0x00, 0x00, 0x11]),
        [0x18, 0x00, 0x00, 0x11]
    );
    for refused in [&[][..], &STILL[..5], &[0x12, 0x00]] {
        assert!(payload(refused).is_empty());
    }
}

#[test]
fn refusals_are_errors_in_words() {
    let refusal = write_sequence_header(&still(), &mut [0; 5]).unwrap_err();
    let error: Box<dyn std::error::Error> = Box::new(refusal);
    assert_eq!(
        error.to_string(),
        "the buffer is too short: 6 bytes are needed"
    );
    let delimiter = obu(OBU_TEMPORAL_DELIMITER);
    let bare = ObuHeader {
        has_size_field: false,
        ..delimiter
    };
    assert_eq!(
        write_temporal_delimiter(&bare, &mut [])
            .unwrap_err()
            .to_string(),
        "the buffer is too short: 1 byte is needed"
    );
    assert_eq!(
        Element::from_number(36).map(Element::name),
        Some("OrderHintBits")
    );
    assert_eq!(Element::from_number(48), None);
}

#[test]
fn video_to_start_from() {
    let mut out = [0; 64];
    for size in [1, 2, 3, 255, 256, 257, 1920, 65535, 65536] {
        for depth in [8, 10, 12] {
            let header = SequenceHeaderObu::video(size, 65537 - size, depth);
            assert_eq!(header.max_frame_width_minus_1 + 1, size);
            assert_eq!(header.max_frame_height_minus_1 + 1, 65537 - size);
            let length = write_sequence_header(&header, &mut out).unwrap();
            assert_eq!(read_sequence_header(&out[..length]), Ok(header));
        }
    }
    for (width, height, depth) in [(0, 1, 8), (1, 65537, 8), (u32::MAX, 1, 8), (1, 1, 9)] {
        let header = SequenceHeaderObu::video(width, height, depth);
        assert!(write_sequence_header(&header, &mut out).is_err());
    }
    let mut header = SequenceHeaderObu::video(1920, 1080, 8);
    header.operating_points[0].seq_level_idx = 8;
    assert_eq!(header, full());
}

#[test]
fn the_library_is_of_this_version() {
    assert_eq!(version(), VERSION);
}
