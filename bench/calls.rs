// Inside the crate's synthesizer, whose part writers are private: the cases' records, and the calls.
use super::*;
use crate::codec::av1::parser::*;

pub struct Record { sequence: SequenceHeaderObu, frame: FrameHeaderObu }

fn small() -> Record {
    let mut sequence = SequenceHeaderObu::default();
    sequence.obu_header.obu_type = ObuType::SequenceHeader;
    sequence.obu_header.has_size_field = true;
    sequence.num_planes = 3;
    let c = &mut sequence.color_config;
    c.color_primaries = ColorPrimaries::Unspecified;
    c.transfer_characteristics = TransferCharacteristics::Unspecified;
    c.matrix_coefficients = MatrixCoefficients::Unspecified;
    c.subsampling_x = true;
    c.subsampling_y = true;
    let mut frame = FrameHeaderObu::default();
    frame.primary_ref_frame = PRIMARY_REF_NONE;
    frame.cdef_params.cdef_damping = 3;
    frame.loop_filter_params.loop_filter_ref_deltas = [1, 0, 0, 0, -1, 0, -1, -1];
    Record { sequence, frame }
}

// Worked case 6.
fn common(q: &mut SequenceHeaderObu) {
    q.operating_points[0].seq_level_idx = 8;
    q.frame_width_bits_minus_1 = 10;
    q.frame_height_bits_minus_1 = 10;
    q.max_frame_width_minus_1 = 1919;
    q.max_frame_height_minus_1 = 1079;
    q.use_128x128_superblock = true;
    q.enable_filter_intra = true;
    q.enable_intra_edge_filter = true;
    q.enable_interintra_compound = true;
    q.enable_masked_compound = true;
    q.enable_warped_motion = true;
    q.enable_dual_filter = true;
    q.enable_order_hint = true;
    q.enable_jnt_comp = true;
    q.enable_ref_frame_mvs = true;
    q.seq_choose_screen_content_tools = true;
    q.seq_force_screen_content_tools = 2;
    q.seq_choose_integer_mv = true;
    q.seq_force_integer_mv = 2;
    q.order_hint_bits_minus_1 = 6;
    q.order_hint_bits = 7;
    q.enable_cdef = true;
    q.enable_restoration = true;
}

// 32 operating points: idc, level and tier.
fn points(q: &mut SequenceHeaderObu) {
    common(q);
    q.operating_points_cnt_minus_1 = 31;
    for (i, p) in q.operating_points.iter_mut().enumerate() {
        p.idc = 0x101 + i as u32;
        p.seq_level_idx = 8;
        p.seq_tier = (i & 1) as u32;
    }
}

// The same with everything that a header can have.
fn everything(q: &mut SequenceHeaderObu) {
    points(q);
    q.timing_info_present_flag = true;
    q.timing_info = TimingInfo { num_units_in_display_tick: 1001, time_scale: 60000, equal_picture_interval: true, num_ticks_per_picture_minus_1: 5 };
    q.decoder_model_info_present_flag = true;
    q.decoder_model_info = DecoderModelInfo {
        buffer_delay_length_minus_1: 31,
        num_units_in_decoding_tick: 1001,
        buffer_removal_time_length_minus_1: 31,
        frame_presentation_time_length_minus_1: 31,
    };
    q.initial_display_delay_present_flag = true;
    for (i, p) in q.operating_points.iter_mut().enumerate() {
        p.decoder_model_present_for_this_op = true;
        p.decoder_buffer_delay = 90000 + i as u32;
        p.encoder_buffer_delay = 0xF0000000 + i as u32;
        p.low_delay_mode_flag = i & 1 == 0;
        p.initial_display_delay_present_for_this_op = true;
        p.initial_display_delay_minus_1 = 9;
    }
    q.frame_id_numbers_present_flag = true;
    q.delta_frame_id_length_minus_2 = 12;
    let c = &mut q.color_config;
    c.color_description_present_flag = true;
    c.color_primaries = ColorPrimaries::try_from(9).unwrap();
    c.transfer_characteristics = TransferCharacteristics::try_from(16).unwrap();
    c.matrix_coefficients = MatrixCoefficients::try_from(9).unwrap();
}

fn record(number: u32) -> Record {
    let mut r = small();
    let (q, f) = (&mut r.sequence, &mut r.frame);
    match number {
        2 => {
            q.still_picture = true;
            q.reduced_still_picture_header = true;
            q.seq_force_screen_content_tools = 2;
            q.seq_force_integer_mv = 2;
            q.color_config.mono_chrome = true;
            q.num_planes = 1;
        }
        6 => common(q),
        32 => points(q),
        33 => everything(q),
        10 => {
            q.num_planes = 1;
            q.color_config.mono_chrome = true;
            f.quantization_params.base_q_idx = 100;
            f.quantization_params.delta_q_y_dc = -1;
        }
        50 => {
            q.color_config.separate_uv_delta_q = true;
            let p = &mut f.quantization_params;
            p.base_q_idx = 255;
            p.delta_q_y_dc = -64;
            p.diff_uv_delta = true;
            p.delta_q_u_dc = 63;
            p.delta_q_u_ac = -3;
            p.delta_q_v_dc = 4;
            p.delta_q_v_ac = -5;
            p.using_qmatrix = true;
            p.qm_y = 15;
            p.qm_u = 3;
            p.qm_v = 4;
        }
        51 => {}
        52 => {
            let g = &mut f.segmentation_params;
            g.segmentation_enabled = true;
            g.segmentation_update_map = true;
            g.segmentation_update_data = true;
            for i in 0..8 {
                for j in 0..8 {
                    g.feature_enabled[i][j] = true;
                    g.feature_data[i][j] = [-300, 40, -63, 64, 5, 7, 0, 0][j] + i as i16;
                }
            }
        }
        53 => {
            f.loop_filter_params.loop_filter_level = [10, 12, 0, 0];
            f.loop_filter_params.loop_filter_sharpness = 3;
        }
        54 => {
            let g = &mut f.loop_filter_params;
            g.loop_filter_level = [10, 12, 20, 21];
            g.loop_filter_sharpness = 7;
            g.loop_filter_delta_enabled = true;
            g.loop_filter_delta_update = true;
            g.loop_filter_mode_deltas = [-64, 63];
        }
        11 => {
            q.num_planes = 1;
            q.enable_cdef = true;
            f.cdef_params.cdef_y_pri_strength[0] = 1;
            f.cdef_params.cdef_y_sec_strength[0] = 4;
        }
        56 => {
            q.enable_cdef = true;
            let g = &mut f.cdef_params;
            g.cdef_bits = 3;
            g.cdef_damping = 6;
            for i in 0..8 {
                g.cdef_y_pri_strength[i] = i as u32;
                g.cdef_y_sec_strength[i] = [0, 1, 2, 4][i & 3];
                g.cdef_uv_pri_strength[i] = 15;
                g.cdef_uv_sec_strength[i] = 4;
            }
        }
        57 => q.enable_restoration = true,
        58 => {
            q.enable_restoration = true;
            let g = &mut f.loop_restoration_params;
            g.frame_restoration_type = [FrameRestorationType::Wiener, FrameRestorationType::SgrProj, FrameRestorationType::Switchable];
            g.uses_lr = true;
            g.uses_chroma_lr = true;
            g.lr_unit_shift = 1;
            g.lr_uv_shift = 1;
        }
        _ => panic!("no such case"),
    }
    r
}

#[no_mangle]
pub extern "C" fn crate_record(number: u32) -> *const Record { Box::leak(Box::new(record(number))) }

fn done(result: SynthesizerResult<()>, size: usize, left: usize) -> i64 {
    match result {
        Ok(()) => (size - left) as i64,
        Err(_) => -1,
    }
}

#[no_mangle]
pub unsafe extern "C" fn crate_seq(r: &Record, out: *mut u8, size: usize) -> i64 {
    let mut slice = std::slice::from_raw_parts_mut(out, size);
    let result = Synthesizer::<SequenceHeaderObu, &mut &mut [u8]>::synthesize(&r.sequence, &mut slice);
    done(result, size, slice.len())
}

macro_rules! part {
    ($name:ident, $s:ident, $q:ident, $write:expr) => {
        #[no_mangle]
        pub unsafe extern "C" fn $name(r: &Record, out: *mut u8, size: usize) -> i64 {
            let mut slice = std::slice::from_raw_parts_mut(out, size);
            let $q = &r.sequence;
            let result = {
                let mut $s = Synthesizer::<FrameHeaderObu, &mut &mut [u8]>::new(&mut slice, &r.frame);
                $write
            };
            done(result, size, slice.len())
        }
    };
}
part!(crate_quant, s, q, s.quantization_params(q));
part!(crate_seg, s, q, s.segmentation_params());
part!(crate_lf, s, q, s.loop_filter_params(q));
part!(crate_cdef, s, q, s.cdef_params(q));
part!(crate_lr, s, q, s.lr_params(q));
