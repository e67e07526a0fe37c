//! The parts of the frame header, read: what their writers wrote, bits that no writer writes, and
//! both refusals.
use friscurella::*;
use std::fmt::Debug;

/// What is written is read as `want`, with the same end, at whatever place and whatever stands
/// around it. A byte less is refused, and so are a place beyond the end and a slice too long.
fn there_and_back<Params: Copy + Debug + PartialEq>(
    want: Params,
    write: impl Fn(&mut [u8], u32) -> Result<u32, Refusal>,
    read: impl Fn(&[u8], u32) -> Result<(Params, u32), Refusal>,
) {
    for around in [0x00, 0xFF] {
        for place in 0..16 {
            let mut bytes = [around; 64];
            let end = write(&mut bytes, place).unwrap();
            let length = end.div_ceil(8) as usize;
            assert_eq!(read(&bytes[..length], place), Ok((want, end)));
            assert_eq!(read(&bytes, place), Ok((want, end)));
            if end > place {
                assert_eq!(read(&bytes[..length - 1], place), Err(Refusal::Ends));
            }
        }
    }
    for place in [65, 1 << 16, 1 << 31, u32::MAX] {
        assert_eq!(read(&[0; 8], place), Err(Refusal::Ends));
        assert_eq!(read(&[0; SLICE_LIMIT + 1], place), Err(Refusal::Long));
    }
    assert_eq!(read(&[0; SLICE_LIMIT + 1], 0), Err(Refusal::Long));
}

/// Each part: what is written of `params` is read as `want`.
fn quantization(
    context: QuantizationContext,
    params: QuantizationParams,
    want: QuantizationParams,
) {
    there_and_back(
        want,
        |out, place| write_quantization_params(&params, &context, out, place),
        |input, place| read_quantization_params(input, place, &context),
    );
}

fn segmentation(
    context: SegmentationContext,
    params: SegmentationParams,
    want: SegmentationParams,
) {
    there_and_back(
        want,
        |out, place| write_segmentation_params(&params, &context, out, place),
        |input, place| read_segmentation_params(input, place, &context),
    );
}

fn loop_filter(
    context: LoopFilterContext,
    previous: LoopFilterDeltas,
    params: LoopFilterParams,
    want: LoopFilterParams,
) {
    there_and_back(
        want,
        |out, place| write_loop_filter_params(&params, &context, out, place),
        |input, place| read_loop_filter_params(input, place, &context, &previous),
    );
}

fn cdef(context: CdefContext, params: CdefParams, want: CdefParams) {
    there_and_back(
        want,
        |out, place| write_cdef_params(&params, &context, out, place),
        |input, place| read_cdef_params(input, place, &context),
    );
}

fn restoration(
    context: LoopRestorationContext,
    params: LoopRestorationParams,
    want: LoopRestorationParams,
) {
    there_and_back(
        want,
        |out, place| write_lr_params(&params, &context, out, place),
        |input, place| read_lr_params(input, place, &context),
    );
}

const OLD: LoopFilterDeltas = LoopFilterDeltas {
    loop_filter_ref_deltas: [11, -12, 13, -14, 15, -16, 17, -18],
    loop_filter_mode_deltas: [63, -64],
};

#[test]
fn quantization_params() {
    let full = QuantizationParams {
        base_q_idx: 255,
        delta_q_y_dc: -64,
        diff_uv_delta: true,
        delta_q_u_dc: 63,
        delta_q_u_ac: -3,
        delta_q_v_dc: 4,
        delta_q_v_ac: -5,
        using_qmatrix: true,
        qm_y: 15,
        qm_u: 3,
        qm_v: 4,
    };
    for planes in [0, 2, 3, u32::MAX] {
        let mut context = QuantizationContext {
            planes,
            separate_uv_delta_q: true,
        };
        quantization(context, full, full);
        context.separate_uv_delta_q = false;
        let of_u = QuantizationParams {
            diff_uv_delta: false,
            delta_q_v_dc: 63,
            delta_q_v_ac: -3,
            qm_v: 3,
            ..full
        };
        quantization(context, of_u, of_u);
    }

    let context = QuantizationContext {
        planes: 1,
        separate_uv_delta_q: false,
    };
    let mono = QuantizationParams {
        base_q_idx: 100,
        delta_q_y_dc: -1,
        ..Default::default()
    };
    let not_coded = QuantizationParams {
        diff_uv_delta: true,
        qm_y: 16,
        qm_u: 17,
        qm_v: 18,
        ..mono
    };
    quantization(context, mono, mono);
    quantization(context, not_coded, mono);
}

#[test]
fn segmentation_params() {
    let none = SegmentationContext {
        primary_ref_frame: PRIMARY_REF_NONE,
    };
    let mut wide = SegmentationParams {
        segmentation_enabled: true,
        segmentation_update_map: true,
        segmentation_temporal_update: false,
        segmentation_update_data: true,
        feature_enabled: [[true; 8]; 8],
        feature_data: [
            [i16::MIN; 8],
            [i16::MAX; 8],
            [-256, -64, -64, -64, -64, -1, -1, -1],
            [256, 64, 64, 64, 64, 8, 1, 1],
            [-255, -63, -63, -63, -63, 0, 0, 0],
            [255, 63, 63, 63, 63, 7, 0, 0],
            [-5, 1, -2, 3, -4, 5, 6, 7],
            [0; 8],
        ],
    };
    let low = [-255, -63, -63, -63, -63, 0, 0, 0];
    let high = [255, 63, 63, 63, 63, 7, 0, 0];
    let mut clipped = wide;
    clipped.feature_data = [
        low,
        high,
        low,
        high,
        low,
        high,
        [-5, 1, -2, 3, -4, 5, 0, 0],
        [0; 8],
    ];
    segmentation(none, wide, clipped);

    // Data of a feature that is not enabled is not coded.
    wide.feature_enabled[5] = [false; 8];
    clipped.feature_enabled[5] = [false; 8];
    clipped.feature_data[5] = [0; 8];
    segmentation(none, wide, clipped);

    for primary_ref_frame in [0, 6, 8, u32::MAX] {
        let reference = SegmentationContext { primary_ref_frame };
        segmentation(reference, wide, clipped);
        for bits in 0..8 {
            let params = SegmentationParams {
                segmentation_enabled: true,
                segmentation_update_map: bits & 1 != 0,
                segmentation_temporal_update: bits & 2 != 0,
                segmentation_update_data: bits & 4 != 0,
                ..Default::default()
            };
            let want = SegmentationParams {
                segmentation_temporal_update: bits & 3 == 3,
                ..params
            };
            segmentation(reference, params, want);
        }
        wide.segmentation_enabled = false;
        segmentation(reference, wide, Default::default());
        segmentation(none, wide, Default::default());
        wide.segmentation_enabled = true;
    }
}

#[test]
fn loop_filter_params() {
    let context = LoopFilterContext {
        planes: 3,
        ..Default::default()
    };
    let full = LoopFilterParams {
        loop_filter_level: [0, 63, 20, 21],
        loop_filter_sharpness: 7,
        loop_filter_delta_enabled: true,
        loop_filter_delta_update: true,
        loop_filter_ref_deltas: [-64, 63, 0, 1, -1, 2, -2, 3],
        loop_filter_mode_deltas: [0, -3],
    };
    loop_filter(context, OLD, full, full);

    let mono = LoopFilterContext {
        planes: 1,
        ..context
    };
    let mut want = full;
    want.loop_filter_level = [0, 63, 0, 0];
    loop_filter(mono, OLD, full, want);
    want.loop_filter_level = [0; 4];
    let mut params = full;
    params.loop_filter_level = [0, 0, 64, u32::MAX];
    loop_filter(context, OLD, params, want);
}

/// Where a delta is not coded, the previous one stands.
#[test]
fn previous_deltas() {
    let context = LoopFilterContext {
        planes: 1,
        ..Default::default()
    };
    for previous in [OLD, LoopFilterDeltas::default()] {
        for enabled in [false, true] {
            let params = LoopFilterParams {
                loop_filter_sharpness: 5,
                loop_filter_delta_enabled: enabled,
                loop_filter_delta_update: !enabled,
                loop_filter_ref_deltas: [i8::MAX; 8],
                loop_filter_mode_deltas: [i8::MIN; 2],
                ..Default::default()
            };
            let want = LoopFilterParams {
                loop_filter_delta_update: false,
                loop_filter_ref_deltas: previous.loop_filter_ref_deltas,
                loop_filter_mode_deltas: previous.loop_filter_mode_deltas,
                ..params
            };
            loop_filter(context, previous, params, want);
            assert_eq!(want.deltas(), previous);
        }
    }

    // Levels 0 and 0, sharpness 0, enabled, updated; then a clear flag, a set flag and zero, four
    // clear flags, a set flag and -1, a clear flag; and of the modes a set flag and zero, a clear
    // flag.
    let bytes = [
        0x00,
        0x01,
        0b1010_0000,
        0b0000_0011,
        0b1111_1101,
        0b0000_0000,
    ];
    let want = LoopFilterParams {
        loop_filter_delta_enabled: true,
        loop_filter_delta_update: true,
        loop_filter_ref_deltas: [11, 0, 13, -14, 15, -16, -1, -18],
        loop_filter_mode_deltas: [0, -64],
        ..Default::default()
    };
    let answer = read_loop_filter_params(&bytes, 0, &context, &OLD);
    assert_eq!(answer, Ok((want, 48)));
    for length in 0..bytes.len() {
        let answer = read_loop_filter_params(&bytes[..length], 0, &context, &OLD);
        assert_eq!(answer, Err(Refusal::Ends));
    }
    loop_filter(context, LoopFilterDeltas::default(), want, want);
}

/// Each frame of a row has the one before as its primary reference.
#[test]
fn frames_in_a_row() {
    let mut previous = LoopFilterDeltas::default();
    let mut next = |coded_lossless, update: Option<[i8; 8]>| {
        let context = LoopFilterContext {
            coded_lossless,
            planes: 3,
            ..Default::default()
        };
        let params = LoopFilterParams {
            loop_filter_delta_enabled: !coded_lossless,
            loop_filter_delta_update: update.is_some(),
            loop_filter_ref_deltas: update.unwrap_or(DEFAULT_REF_DELTAS),
            ..Default::default()
        };
        let mut bytes = [0; 16];
        write_loop_filter_params(&params, &context, &mut bytes, 0).unwrap();
        let (params, _) = read_loop_filter_params(&bytes, 0, &context, &previous).unwrap();
        previous = params.deltas();
        params.loop_filter_ref_deltas
    };
    let first = [9, 8, 7, 6, 5, 4, 3, 2];
    assert_eq!(next(false, None), DEFAULT_REF_DELTAS);
    assert_eq!(next(false, Some(first)), first);
    assert_eq!(next(false, None), first);
    assert_eq!(next(true, None), DEFAULT_REF_DELTAS);
    assert_eq!(next(false, None), DEFAULT_REF_DELTAS);
}

#[test]
fn cdef_params() {
    let context = CdefContext {
        enable_cdef: true,
        planes: 3,
        ..Default::default()
    };
    let mono = CdefContext {
        planes: 1,
        ..context
    };
    let mut params = CdefParams {
        cdef_bits: 3,
        cdef_damping: 6,
        cdef_y_pri_strength: [0, 1, 2, 3, 12, 13, 14, 15],
        cdef_y_sec_strength: [0, 1, 2, 4, 4, 2, 1, 0],
        cdef_uv_pri_strength: [15, 14, 13, 12, 3, 2, 1, 0],
        cdef_uv_sec_strength: [4, 2, 1, 0, 0, 1, 2, 4],
    };
    for bits in (0..4).rev() {
        params.cdef_bits = bits;
        params.cdef_damping = 3 + bits;
        let mut want = params;
        for i in 1 << bits..8 {
            want.cdef_y_pri_strength[i] = 0;
            want.cdef_y_sec_strength[i] = 0;
            want.cdef_uv_pri_strength[i] = 0;
            want.cdef_uv_sec_strength[i] = 0;
        }
        cdef(context, params, want);
        want.cdef_uv_pri_strength = [0; 8];
        want.cdef_uv_sec_strength = [0; 8];
        cdef(mono, params, want);
    }
}

#[test]
fn lr_params() {
    for context in (0..16).map(|bits| LoopRestorationContext {
        enable_restoration: true,
        planes: if bits & 1 != 0 { 1 } else { 3 },
        use_128x128_superblock: bits & 2 != 0,
        subsampling_x: bits & 4 != 0,
        subsampling_y: bits & 8 != 0,
        ..Default::default()
    }) {
        let mono = context.planes == 1;
        for kinds in [[0, 0, 0], [1, 0, 0], [0, 2, 0], [0, 0, 3], [3, 2, 1]] {
            let coded = if mono { [kinds[0], 0, 0] } else { kinds };
            let uses_lr = coded != [0; 3];
            let uses_chroma_lr = coded[1..] != [0; 2];
            let shifted = uses_chroma_lr && context.subsampling_x && context.subsampling_y;
            let least = u32::from(context.use_128x128_superblock);
            for lr_unit_shift in if uses_lr { least..3 } else { 0..1 } {
                for lr_uv_shift in 0..=u32::from(shifted) {
                    let want = LoopRestorationParams {
                        frame_restoration_type: coded,
                        uses_lr,
                        uses_chroma_lr,
                        lr_unit_shift,
                        lr_uv_shift,
                    };
                    let params = LoopRestorationParams {
                        frame_restoration_type: kinds,
                        ..want
                    };
                    restoration(context, params, want);
                }
            }
        }
    }
}

/// A part that is off has no bits, and is what its writer asks for, whatever is not looked at.
#[test]
fn parts_that_are_off() {
    let filter = LoopFilterParams {
        loop_filter_ref_deltas: DEFAULT_REF_DELTAS,
        ..Default::default()
    };
    let junk = LoopFilterParams {
        loop_filter_level: [0, 0, 3, 4],
        loop_filter_sharpness: 9,
        loop_filter_delta_update: true,
        ..filter
    };
    for (lossless, allow_intrabc) in [(true, false), (false, true), (true, true)] {
        let context = LoopFilterContext {
            coded_lossless: lossless,
            allow_intrabc,
            planes: 3,
        };
        loop_filter(context, OLD, filter, filter);
        loop_filter(context, OLD, junk, filter);
    }

    let strengths = CdefParams {
        cdef_damping: 3,
        ..Default::default()
    };
    let mut junk = strengths;
    junk.cdef_y_pri_strength[1..].fill(99);
    junk.cdef_uv_sec_strength[1..].fill(99);
    let kinds = LoopRestorationParams::default();
    let shifts = LoopRestorationParams {
        uses_chroma_lr: true,
        lr_unit_shift: 9,
        lr_uv_shift: 9,
        ..kinds
    };
    for off in [
        (true, false, true),
        (false, true, true),
        (false, false, false),
    ] {
        let (lossless, allow_intrabc, enabled) = off;
        let context = CdefContext {
            coded_lossless: lossless,
            allow_intrabc,
            enable_cdef: enabled,
            planes: 1,
        };
        cdef(context, strengths, strengths);
        cdef(context, junk, strengths);
        let context = LoopRestorationContext {
            all_lossless: lossless,
            allow_intrabc,
            enable_restoration: enabled,
            planes: 3,
            ..Default::default()
        };
        restoration(context, kinds, kinds);
        restoration(context, shifts, kinds);
        for length in [0, 1, 7, SLICE_LIMIT] {
            let end = 8 * length as u32;
            let input = vec![0xFF; length];
            assert_eq!(read_lr_params(&input, end, &context), Ok((kinds, end)));
            let beyond = read_lr_params(&input, end + 1, &context);
            assert_eq!(beyond, Err(Refusal::Ends));
        }
    }
}

/// A set flag and zero, which no writer writes, are zero.
#[test]
fn a_set_flag_and_zero() {
    let context = QuantizationContext {
        planes: 1,
        separate_uv_delta_q: false,
    };
    let params = QuantizationParams {
        base_q_idx: 1,
        ..Default::default()
    };
    let read = |input: &[u8]| read_quantization_params(input, 0, &context);
    assert_eq!(read(&[0x01, 0b0011_1111]), Ok((params, 10)));
    assert_eq!(read(&[0x01, 0b1000_0000, 0b0111_1111]), Ok((params, 17)));
    assert_eq!(read(&[0x01, 0b1000_0000]), Err(Refusal::Ends));
}

/// The values -256 and -64, which no writer writes, are clipped.
#[test]
fn beyond_the_limit() {
    let mut bytes = [0; 11];
    bytes[..2].copy_from_slice(&[0b1110_0000, 0b0001_1000]);
    let context = SegmentationContext {
        primary_ref_frame: PRIMARY_REF_NONE,
    };
    let mut params = SegmentationParams {
        segmentation_enabled: true,
        segmentation_update_map: true,
        segmentation_update_data: true,
        ..Default::default()
    };
    params.feature_enabled[0][..2].fill(true);
    params.feature_data[0][..2].copy_from_slice(&[-255, -63]);
    let answer = read_segmentation_params(&bytes, 0, &context);
    assert_eq!(answer, Ok((params, 1 + 64 + 9 + 7)));
}

/// The parts of one frame, each behind the one before, by the contexts of a sequence header.
#[test]
fn one_behind_the_other() -> Result<(), Refusal> {
    let header = SequenceHeaderObu::video(1920, 1080, 8);
    let by_header = quantization_context(&header);
    let by_reference = segmentation_context(PRIMARY_REF_NONE);
    let by_filter = loop_filter_context(&header, false, false);
    let by_cdef = cdef_context(&header, false, false);
    let by_lr = lr_context(&header, false, false);

    let quantization = QuantizationParams {
        base_q_idx: 100,
        ..Default::default()
    };
    let mut segmentation = SegmentationParams {
        segmentation_enabled: true,
        segmentation_update_map: true,
        segmentation_update_data: true,
        ..Default::default()
    };
    segmentation.feature_enabled[2][1] = true;
    segmentation.feature_data[2][1] = -7;
    let filter = LoopFilterParams {
        loop_filter_level: [1, 2, 3, 4],
        loop_filter_ref_deltas: DEFAULT_REF_DELTAS,
        ..Default::default()
    };
    let cdef = CdefParams {
        cdef_damping: 5,
        ..Default::default()
    };
    let lr = LoopRestorationParams {
        frame_restoration_type: [0, 2, 0],
        uses_lr: true,
        uses_chroma_lr: true,
        lr_unit_shift: 2,
        lr_uv_shift: 1,
    };

    let mut bytes = [0xA5; 64];
    let end = write_quantization_params(&quantization, &by_header, &mut bytes, 5)?;
    let end = write_segmentation_params(&segmentation, &by_reference, &mut bytes, end)?;
    let end = write_loop_filter_params(&filter, &by_filter, &mut bytes, end)?;
    let end = write_cdef_params(&cdef, &by_cdef, &mut bytes, end)?;
    let end = write_lr_params(&lr, &by_lr, &mut bytes, end)?;

    let (read, at) = read_quantization_params(&bytes, 5, &by_header)?;
    assert_eq!(read, quantization);
    let (read, at) = read_segmentation_params(&bytes, at, &by_reference)?;
    assert_eq!(read, segmentation);
    let previous = LoopFilterDeltas::default();
    let (read, at) = read_loop_filter_params(&bytes, at, &by_filter, &previous)?;
    assert_eq!(read, filter);
    let (read, at) = read_cdef_params(&bytes, at, &by_cdef)?;
    assert_eq!(read, cdef);
    assert_eq!(read_lr_params(&bytes, at, &by_lr)?, (lr, end));
    Ok(())
}
