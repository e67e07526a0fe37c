//! The records, with the names of the standard. `f(n)`, `su(n)` and `uvlc` are the codes of section
//! 4.10, and a condition says when a field is coded. A field that is not coded has to hold the
//! value said here for that case; if none is said, it is not looked at.
use crate::ffi;
use crate::numbers::{from_unsigned, record, Numbers};

/// The most bytes of a slice that a writer or a reader takes.
pub const SLICE_LIMIT: usize = 65536;

/// The most operating points of a sequence header.
pub const MAX_OPERATING_POINTS: usize = 32;

/// `obu_type` of a sequence header.
pub const OBU_SEQUENCE_HEADER: u32 = 1;

/// `obu_type` of a temporal delimiter.
pub const OBU_TEMPORAL_DELIMITER: u32 = 2;

/// `seq_force_screen_content_tools` where the frame header chooses.
pub const SELECT_SCREEN_CONTENT_TOOLS: u32 = 2;

/// `seq_force_integer_mv` where the frame header chooses.
pub const SELECT_INTEGER_MV: u32 = 2;

/// `primary_ref_frame` where there is none.
pub const PRIMARY_REF_NONE: u32 = 7;

/// `loop_filter_ref_deltas` where nothing is coded. By reference number: intra, LAST, LAST2, LAST3,
/// GOLDEN, BWDREF, ALTREF2, ALTREF. (Before 0.3.0, and in cros-codecs 0.0.6, the values of GOLDEN and
/// BWDREF are exchanged: such a record is refused now.)
pub const DEFAULT_REF_DELTAS: [i8; 8] = [1, 0, 0, 0, -1, 0, -1, -1];

record! {
    /// `obu_header` (5.3.2).
    #[derive(Clone, Copy, Debug, Default, PartialEq, Eq, Hash)]
    pub struct ObuHeader {
        /// f(4): what the OBU is. Each writer takes its own type only.
        pub obu_type: u32,
        /// `obu_extension_flag`, f(1): whether the two ids are coded.
        pub extension_flag: bool,
        /// `obu_has_size_field`, f(1): whether the OBU's size is coded.
        pub has_size_field: bool,
        /// f(3), with `extension_flag`.
        pub temporal_id: u32,
        /// f(2), with `extension_flag`.
        pub spatial_id: u32,
    }
}

record! {
    /// `timing_info` (5.5.3).
    #[derive(Clone, Copy, Debug, Default, PartialEq, Eq, Hash)]
    pub struct TimingInfo {
        /// f(32)
        pub num_units_in_display_tick: u32,
        /// f(32)
        pub time_scale: u32,
        /// f(1)
        pub equal_picture_interval: bool,
        /// uvlc, with `equal_picture_interval`; 2^32 - 1 has no code.
        pub num_ticks_per_picture_minus_1: u32,
    }
}

record! {
    /// `decoder_model_info` (5.5.4).
    #[derive(Clone, Copy, Debug, Default, PartialEq, Eq, Hash)]
    pub struct DecoderModelInfo {
        /// f(5): the bits, less one, of the buffer delays of each operating point.
        pub buffer_delay_length_minus_1: u8,
        /// f(32)
        pub num_units_in_decoding_tick: u32,
        /// f(5)
        pub buffer_removal_time_length_minus_1: u32,
        /// f(5)
        pub frame_presentation_time_length_minus_1: u32,
    }
}

record! {
    /// One operating point of the sequence header (5.5.1), with its `operating_parameters_info`
    /// (5.5.5).
    #[derive(Clone, Copy, Debug, Default, PartialEq, Eq, Hash)]
    pub struct OperatingPoint {
        /// `operating_point_idc`, f(12); 0 in a reduced header.
        pub idc: u32,
        /// f(5)
        pub seq_level_idx: u32,
        /// f(1), 0 or 1, at levels over 7; else 0. Not looked at in a reduced header.
        pub seq_tier: u32,
        /// f(1), with `decoder_model_info_present_flag`; else 0. 0 in a reduced header.
        pub decoder_model_present_for_this_op: bool,
        /// f(`buffer_delay_length_minus_1` + 1), with `decoder_model_present_for_this_op`.
        pub decoder_buffer_delay: u32,
        /// f(`buffer_delay_length_minus_1` + 1), with `decoder_model_present_for_this_op`.
        pub encoder_buffer_delay: u32,
        /// f(1), with `decoder_model_present_for_this_op`.
        pub low_delay_mode_flag: bool,
        /// f(1), with `initial_display_delay_present_flag`; 0 in a reduced header.
        pub initial_display_delay_present_for_this_op: bool,
        /// f(4), with `initial_display_delay_present_for_this_op`, where that is coded.
        pub initial_display_delay_minus_1: u32,
    }
}

record! {
    /// `color_config` (5.5.2). sRGB is `color_primaries` 1, `transfer_characteristics` 13 and
    /// `matrix_coefficients` 0; "with three planes" is where `mono_chrome` is not set.
    #[derive(Clone, Copy, Debug, Default, PartialEq, Eq, Hash)]
    pub struct ColorConfig {
        /// f(1)
        pub high_bitdepth: bool,
        /// f(1), in profile 2 with `high_bitdepth`; else 0.
        pub twelve_bit: bool,
        /// f(1), in profiles 0 and 2; else 0.
        pub mono_chrome: bool,
        /// f(1)
        pub color_description_present_flag: bool,
        /// f(8), with `color_description_present_flag`; else 2.
        pub color_primaries: u32,
        /// f(8), with `color_description_present_flag`; else 2.
        pub transfer_characteristics: u32,
        /// f(8), with `color_description_present_flag`; else 2.
        pub matrix_coefficients: u32,
        /// f(1); 1 with three planes of sRGB.
        pub color_range: bool,
        /// 1 if `mono_chrome`, 0 for sRGB; else 1 in profile 0, 0 in profile 1, and in profile 2
        /// f(1) with `twelve_bit`, 1 without.
        pub subsampling_x: bool,
        /// 1 if `mono_chrome`, 0 for sRGB; else 1 in profile 0, 0 in profile 1, and in profile 2
        /// f(1) with `twelve_bit` and `subsampling_x`, 0 without.
        pub subsampling_y: bool,
        /// f(2), with three planes of 4:2:0 that are not sRGB; else 0.
        pub chroma_sample_position: u32,
        /// f(1), with three planes; else 0.
        pub separate_uv_delta_q: bool,
        /// `NumPlanes`, not coded: 1 if `mono_chrome`; else 3.
        pub num_planes: u32,
    }
}

impl ColorConfig {
    /// All 0, but for three planes and a colour description that is not there: 2, 2, 2.
    pub fn unspecified() -> ColorConfig {
        ColorConfig {
            color_primaries: 2,
            transfer_characteristics: 2,
            matrix_coefficients: 2,
            num_planes: 3,
            ..ColorConfig::default()
        }
    }
}

record! {
    /// A sequence header OBU (5.5.1).
    #[derive(Clone, Debug, Default, PartialEq, Eq, Hash)]
    pub struct SequenceHeaderObu {
        /// Its type is [`OBU_SEQUENCE_HEADER`].
        pub obu_header: ObuHeader,
        /// f(3): 0 to 2.
        pub seq_profile: u32,
        /// f(1)
        pub still_picture: bool,
        /// f(1): most fields below are then not coded.
        pub reduced_still_picture_header: bool,
        /// f(1); 0 in a reduced header, which is refused under `reduced_still_picture_header` if
        /// not.
        pub timing_info_present_flag: bool,
        /// With `timing_info_present_flag`.
        pub timing_info: TimingInfo,
        /// f(1), with `timing_info_present_flag`; else 0. Not looked at in a reduced header.
        pub decoder_model_info_present_flag: bool,
        /// With `decoder_model_info_present_flag`.
        pub decoder_model_info: DecoderModelInfo,
        /// f(1); 0 in a reduced header.
        pub initial_display_delay_present_flag: bool,
        /// f(5): 0 to 31; 0 in a reduced header.
        pub operating_points_cnt_minus_1: u32,
        /// The first `operating_points_cnt_minus_1` + 1 of them.
        pub operating_points: [OperatingPoint; MAX_OPERATING_POINTS],
        /// f(4): the bits, less one, of the width below.
        pub frame_width_bits_minus_1: u8,
        /// f(4): the bits, less one, of the height below.
        pub frame_height_bits_minus_1: u8,
        /// f(`frame_width_bits_minus_1` + 1)
        pub max_frame_width_minus_1: u32,
        /// f(`frame_height_bits_minus_1` + 1)
        pub max_frame_height_minus_1: u32,
        /// f(1); 0 in a reduced header.
        pub frame_id_numbers_present_flag: bool,
        /// f(4), with `frame_id_numbers_present_flag`.
        pub delta_frame_id_length_minus_2: u32,
        /// f(3), with `frame_id_numbers_present_flag`.
        pub additional_frame_id_length_minus_1: u32,
        /// f(1)
        pub use_128x128_superblock: bool,
        /// f(1)
        pub enable_filter_intra: bool,
        /// f(1)
        pub enable_intra_edge_filter: bool,
        /// f(1); 0 in a reduced header.
        pub enable_interintra_compound: bool,
        /// f(1); 0 in a reduced header.
        pub enable_masked_compound: bool,
        /// f(1); 0 in a reduced header.
        pub enable_warped_motion: bool,
        /// f(1); 0 in a reduced header.
        pub enable_dual_filter: bool,
        /// f(1); 0 in a reduced header.
        pub enable_order_hint: bool,
        /// f(1), with `enable_order_hint`; else 0.
        pub enable_jnt_comp: bool,
        /// f(1), with `enable_order_hint`; else 0.
        pub enable_ref_frame_mvs: bool,
        /// f(1). Not looked at in a reduced header.
        pub seq_choose_screen_content_tools: bool,
        /// f(1), 0 or 1; [`SELECT_SCREEN_CONTENT_TOOLS`] with `seq_choose_screen_content_tools` or
        /// in a reduced header.
        pub seq_force_screen_content_tools: u32,
        /// f(1), where `seq_force_screen_content_tools` is over 0. Not looked at in a reduced
        /// header.
        pub seq_choose_integer_mv: bool,
        /// f(1), 0 or 1; [`SELECT_INTEGER_MV`] with `seq_choose_integer_mv`, where
        /// `seq_force_screen_content_tools` is 0, or in a reduced header.
        pub seq_force_integer_mv: u32,
        /// f(3), with `enable_order_hint`.
        pub order_hint_bits_minus_1: u8,
        /// `OrderHintBits`, not coded: one more than `order_hint_bits_minus_1` with
        /// `enable_order_hint`; else 0.
        pub order_hint_bits: u32,
        /// f(1)
        pub enable_superres: bool,
        /// f(1)
        pub enable_cdef: bool,
        /// f(1)
        pub enable_restoration: bool,
        /// 5.5.2
        pub color_config: ColorConfig,
        /// f(1)
        pub film_grain_params_present: bool,
    }
}

impl SequenceHeaderObu {
    /// A header to start from: 4:2:0 video of 8, 10 or 12 bits, with a size field, at level 31
    /// (maximum parameters), every coding tool but superres enabled; no timing, no colour
    /// description, no frame ids, no film grain.
    /// [`write_sequence_header`](crate::write_sequence_header) accepts it for a width and a height
    /// of 1 to 65,536, and refuses it for others and for another bit depth.
    pub fn video(width: u32, height: u32, bit_depth: u32) -> SequenceHeaderObu {
        from_unsigned(&ffi::video(width, height, bit_depth))
    }
}

record! {
    /// What the headers say before `quantization_params`.
    #[derive(Clone, Copy, Debug, Default, PartialEq, Eq, Hash)]
    pub struct QuantizationContext {
        /// `num_planes`: any number but 1 counts as 3.
        pub planes: u32,
        /// Of the sequence header's `color_config`.
        pub separate_uv_delta_q: bool,
    }
}

record! {
    /// `quantization_params` (5.9.12). A delta is f(1) and, if it is not 0, su(7): -64 to 63.
    #[derive(Clone, Copy, Debug, Default, PartialEq, Eq, Hash)]
    pub struct QuantizationParams {
        /// f(8)
        pub base_q_idx: u32,
        /// `DeltaQYDc`, a delta.
        pub delta_q_y_dc: i8,
        /// f(1), with three planes and `separate_uv_delta_q`; 0 with three planes and without. Not
        /// looked at with one.
        pub diff_uv_delta: bool,
        /// `DeltaQUDc`, a delta with three planes; else 0.
        pub delta_q_u_dc: i8,
        /// `DeltaQUAc`, a delta with three planes; else 0.
        pub delta_q_u_ac: i8,
        /// `DeltaQVDc`, a delta with three planes and `diff_uv_delta`; else that of U, which is 0
        /// with one plane.
        pub delta_q_v_dc: i8,
        /// `DeltaQVAc`, a delta with three planes and `diff_uv_delta`; else that of U, which is 0
        /// with one plane.
        pub delta_q_v_ac: i8,
        /// f(1)
        pub using_qmatrix: bool,
        /// f(4), with `using_qmatrix`.
        pub qm_y: u32,
        /// f(4), with `using_qmatrix`.
        pub qm_u: u32,
        /// f(4), with `using_qmatrix` and `separate_uv_delta_q`; that of U with `using_qmatrix`
        /// alone.
        pub qm_v: u32,
    }
}

record! {
    /// What the frame header says before `segmentation_params`.
    #[derive(Clone, Copy, Debug, Default, PartialEq, Eq, Hash)]
    pub struct SegmentationContext {
        /// [`PRIMARY_REF_NONE`]; any other number is a reference.
        pub primary_ref_frame: u32,
    }
}

record! {
    /// `segmentation_params` (5.9.14). Only `segmentation_enabled` is looked at where it is not
    /// set. A refusal's index is 8 times the segment, plus the feature.
    #[derive(Clone, Copy, Debug, Default, PartialEq, Eq, Hash)]
    pub struct SegmentationParams {
        /// f(1)
        pub segmentation_enabled: bool,
        /// f(1), with a reference; else 1.
        pub segmentation_update_map: bool,
        /// f(1), with a reference and `segmentation_update_map`; 0 without a reference.
        pub segmentation_temporal_update: bool,
        /// f(1), with a reference; else 1.
        pub segmentation_update_data: bool,
        /// `FeatureEnabled`, of each segment its eight features: f(1) each, with
        /// `segmentation_update_data`; else 0.
        pub feature_enabled: [[bool; 8]; 8],
        /// `FeatureData`, where `feature_enabled` is set: su(9) of feature 0, clipped to -255 to
        /// 255; su(7) of 1 to 4, clipped to -63 to 63; f(3) of 5, clipped to 0 to 7; no bits of 6
        /// and 7. All are 0 without `segmentation_update_data`.
        pub feature_data: [[i16; 8]; 8],
    }
}

record! {
    /// What the headers say before `loop_filter_params`.
    #[derive(Clone, Copy, Debug, Default, PartialEq, Eq, Hash)]
    pub struct LoopFilterContext {
        /// `CodedLossless`
        pub coded_lossless: bool,
        /// Of the frame header.
        pub allow_intrabc: bool,
        /// `num_planes`: any number but 1 counts as 3.
        pub planes: u32,
    }
}

record! {
    /// `loop_filter_params` (5.9.11). Nothing is coded with `coded_lossless` or `allow_intrabc`.
    #[derive(Clone, Copy, Debug, Default, PartialEq, Eq, Hash)]
    pub struct LoopFilterParams {
        /// f(6) each, 2 and 3 only with three planes and if 0 or 1 is not 0. 0 and 1 are 0 where
        /// nothing is coded.
        pub loop_filter_level: [u32; 4],
        /// f(3)
        pub loop_filter_sharpness: u32,
        /// f(1)
        pub loop_filter_delta_enabled: bool,
        /// f(1), with `loop_filter_delta_enabled`.
        pub loop_filter_delta_update: bool,
        /// A set flag and su(7) each, where `loop_filter_delta_update` is coded and set;
        /// [`DEFAULT_REF_DELTAS`] where nothing is coded.
        pub loop_filter_ref_deltas: [i8; 8],
        /// A set flag and su(7) each, where `loop_filter_delta_update` is coded and set; 0, 0 where
        /// nothing is coded.
        pub loop_filter_mode_deltas: [i8; 2],
    }
}

record! {
    /// The deltas before `loop_filter_params`, which its reader is lent: those of the frame that
    /// `primary_ref_frame` refers to ([`LoopFilterParams::deltas`]); without one, the default.
    #[derive(Clone, Copy, Debug, PartialEq, Eq, Hash)]
    pub struct LoopFilterDeltas {
        /// By reference number, as [`DEFAULT_REF_DELTAS`].
        pub loop_filter_ref_deltas: [i8; 8],
        /// By mode.
        pub loop_filter_mode_deltas: [i8; 2],
    }
}

impl Default for LoopFilterDeltas {
    /// The standard's defaults: [`DEFAULT_REF_DELTAS`], and 0, 0.
    fn default() -> LoopFilterDeltas {
        LoopFilterDeltas {
            loop_filter_ref_deltas: DEFAULT_REF_DELTAS,
            loop_filter_mode_deltas: [0, 0],
        }
    }
}

impl LoopFilterParams {
    /// The deltas, for a frame that has this one as its primary reference.
    pub fn deltas(&self) -> LoopFilterDeltas {
        LoopFilterDeltas {
            loop_filter_ref_deltas: self.loop_filter_ref_deltas,
            loop_filter_mode_deltas: self.loop_filter_mode_deltas,
        }
    }
}

record! {
    /// What the headers say before `cdef_params`.
    #[derive(Clone, Copy, Debug, Default, PartialEq, Eq, Hash)]
    pub struct CdefContext {
        /// `CodedLossless`
        pub coded_lossless: bool,
        /// Of the frame header.
        pub allow_intrabc: bool,
        /// Of the sequence header.
        pub enable_cdef: bool,
        /// `num_planes`: any number but 1 counts as 3.
        pub planes: u32,
    }
}

record! {
    /// `cdef_params` (5.9.19). Nothing is coded with `coded_lossless` or `allow_intrabc` or without
    /// `enable_cdef`: then the first of each strength is 0, and the others are not looked at.
    #[derive(Clone, Copy, Debug, Default, PartialEq, Eq, Hash)]
    pub struct CdefParams {
        /// f(2): the first 2^`cdef_bits` of each strength are coded; 0 where nothing is coded.
        pub cdef_bits: u32,
        /// 3 to 6, f(2) of 3 less; 3 where nothing is coded.
        pub cdef_damping: u32,
        /// f(4) each.
        pub cdef_y_pri_strength: [u32; 8],
        /// 0, 1, 2 or 4 each, f(2).
        pub cdef_y_sec_strength: [u32; 8],
        /// f(4) each, with three planes.
        pub cdef_uv_pri_strength: [u32; 8],
        /// 0, 1, 2 or 4 each, f(2), with three planes.
        pub cdef_uv_sec_strength: [u32; 8],
    }
}

record! {
    /// What the headers say before `lr_params`.
    #[derive(Clone, Copy, Debug, Default, PartialEq, Eq, Hash)]
    pub struct LoopRestorationContext {
        /// `AllLossless`
        pub all_lossless: bool,
        /// Of the frame header.
        pub allow_intrabc: bool,
        /// Of the sequence header.
        pub enable_restoration: bool,
        /// `num_planes`: any number but 1 counts as 3.
        pub planes: u32,
        /// Of the sequence header.
        pub use_128x128_superblock: bool,
        /// Of the sequence header's `color_config`.
        pub subsampling_x: bool,
        /// Of the sequence header's `color_config`.
        pub subsampling_y: bool,
    }
}

record! {
    /// `lr_params` (5.9.20). Nothing is coded with `all_lossless` or `allow_intrabc` or without
    /// `enable_restoration`: then `frame_restoration_type` is 0, 0, 0, `uses_lr` is not set, and no
    /// more is looked at.
    #[derive(Clone, Copy, Debug, Default, PartialEq, Eq, Hash)]
    pub struct LoopRestorationParams {
        /// `lr_type`, f(2) each: none 0, switchable 1, Wiener 2, self-guided 3. With one plane only
        /// the first is coded.
        pub frame_restoration_type: [u32; 3],
        /// `UsesLr`, not coded: whether a coded kind is not 0.
        pub uses_lr: bool,
        /// `usesChromaLr`, not coded: whether a coded kind of chroma is not 0.
        pub uses_chroma_lr: bool,
        /// With `uses_lr`: 0 to 2, in the bits 0, 10 and 11; with `use_128x128_superblock` 1 or 2,
        /// f(1) of one less.
        pub lr_unit_shift: u32,
        /// f(1), 0 or 1, with `uses_chroma_lr` and 4:2:0; else 0 with `uses_lr`.
        pub lr_uv_shift: u32,
    }
}
