// Stands in for the crate's src/codec/av1/parser.rs, which is not published with the four files: types and constants only, no behaviour.
// docs/DIFFERENCES.md says which of the types are forced by compiling the four files (forced.py finds out) and which are not.

pub const FEATURE_BITS: [u8; SEG_LVL_MAX] = [8, 6, 6, 6, 6, 3, 0, 0];
pub const FEATURE_MAX: [i32; SEG_LVL_MAX] = [255, 63, 63, 63, 63, 7, 0, 0];
pub const FEATURE_SIGNED: [bool; SEG_LVL_MAX] = [true, true, true, true, true, false, false, false];
pub const MAX_NUM_OPERATING_POINTS: usize = 32;
pub const MAX_NUM_PLANES: usize = 3;
pub const MAX_SEGMENTS: usize = 8;
pub const NUM_REF_FRAMES: usize = 8;
pub const PRIMARY_REF_NONE: u32 = 7;
pub const REFS_PER_FRAME: usize = 7;
pub const SEG_LVL_MAX: usize = 8;
pub const SELECT_INTEGER_MV: usize = 2;
pub const SELECT_SCREEN_CONTENT_TOOLS: usize = 2;
pub const SUPERRES_DENOM_BITS: usize = 3;
pub const SUPERRES_DENOM_MIN: usize = 9;
pub const SUPERRES_NUM: usize = 8;
pub const TOTAL_REFS_PER_FRAME: usize = 8;

// An enum whose members have the numbers given, and the member of a number.
macro_rules! numbered {
    ($name:ident { $first:ident = $n0:literal, $($member:ident = $n:literal),* }) => {
        #[derive(Clone, Copy, Debug, Default, PartialEq, Eq, PartialOrd, Ord)]
        pub enum $name { #[default] $first = $n0, $($member = $n),* }
        impl TryFrom<i64> for $name {
            type Error = ();
            fn try_from(n: i64) -> Result<Self, ()> { match n { $n0 => Ok(Self::$first), $($n => Ok(Self::$member),)* _ => Err(()) } }
        }
    };
}
numbered!(ObuType { Reserved0 = 0, SequenceHeader = 1, TemporalDelimiter = 2, FrameHeader = 3, TileGroup = 4, Metadata = 5, Frame = 6,
    RedundantFrameHeader = 7, TileList = 8, Reserved9 = 9, Reserved10 = 10, Reserved11 = 11, Reserved12 = 12, Reserved13 = 13, Reserved14 = 14, Padding = 15 });
numbered!(Profile { Profile0 = 0, Profile1 = 1, Profile2 = 2 });
numbered!(BitDepth { Depth8 = 8, Depth10 = 10, Depth12 = 12 });
numbered!(ChromaSamplePosition { Unknown = 0, Vertical = 1, Colocated = 2, Reserved = 3 });
numbered!(FrameType { KeyFrame = 0, InterFrame = 1, IntraOnlyFrame = 2, SwitchFrame = 3 });
numbered!(FrameRestorationType { None = 0, Wiener = 1, SgrProj = 2, Switchable = 3 });
numbered!(InterpolationFilter { EightTap = 0, EightTapSmooth = 1, EightTapSharp = 2, Bilinear = 3, Switchable = 4 });
numbered!(ReferenceFrameType { Intra = 0, Last = 1, Last2 = 2, Last3 = 3, Golden = 4, BwdRef = 5, AltRef2 = 6, AltRef = 7 });
numbered!(TxMode { Only4x4 = 0, Largest = 1, Select = 2 });
numbered!(WarpModelType { Identity = 0, Translation = 1, RotZoom = 2, Affine = 3 });

// The colour enums are cast to numbers of eight bits, so every such number has a member here; the crate's may have fewer.
macro_rules! bytes {
    ($($name:ident { $($member:ident = $v:ident),* })*) => { $(
        impl $name { $(pub const $member: Self = $name::$v;)* }
        bytes!(@ $name V0 V1 V2 V3 V4 V5 V6 V7 V8 V9 V10 V11 V12 V13 V14 V15 V16 V17 V18 V19 V20 V21 V22 V23 V24 V25 V26 V27 V28 V29 V30 V31
            V32 V33 V34 V35 V36 V37 V38 V39 V40 V41 V42 V43 V44 V45 V46 V47 V48 V49 V50 V51 V52 V53 V54 V55 V56 V57 V58 V59 V60 V61 V62 V63
            V64 V65 V66 V67 V68 V69 V70 V71 V72 V73 V74 V75 V76 V77 V78 V79 V80 V81 V82 V83 V84 V85 V86 V87 V88 V89 V90 V91 V92 V93 V94 V95
            V96 V97 V98 V99 V100 V101 V102 V103 V104 V105 V106 V107 V108 V109 V110 V111 V112 V113 V114 V115 V116 V117 V118 V119 V120 V121 V122 V123 V124 V125 V126 V127
            V128 V129 V130 V131 V132 V133 V134 V135 V136 V137 V138 V139 V140 V141 V142 V143 V144 V145 V146 V147 V148 V149 V150 V151 V152 V153 V154 V155 V156 V157 V158 V159
            V160 V161 V162 V163 V164 V165 V166 V167 V168 V169 V170 V171 V172 V173 V174 V175 V176 V177 V178 V179 V180 V181 V182 V183 V184 V185 V186 V187 V188 V189 V190 V191
            V192 V193 V194 V195 V196 V197 V198 V199 V200 V201 V202 V203 V204 V205 V206 V207 V208 V209 V210 V211 V212 V213 V214 V215 V216 V217 V218 V219 V220 V221 V222 V223
            V224 V225 V226 V227 V228 V229 V230 V231 V232 V233 V234 V235 V236 V237 V238 V239 V240 V241 V242 V243 V244 V245 V246 V247 V248 V249 V250 V251 V252 V253 V254 V255);
    )* };
    (@ $name:ident $v0:ident $($v:ident)*) => {
        #[derive(Clone, Copy, Debug, Default, PartialEq, Eq, PartialOrd, Ord)]
        #[repr(u8)]
        pub enum $name { #[default] $v0, $($v),* }
        impl TryFrom<i64> for $name {
            type Error = ();
            fn try_from(n: i64) -> Result<Self, ()> { [Self::$v0, $(Self::$v),*].get(n as usize).copied().ok_or(()) }
        }
    };
}
bytes!(ColorPrimaries { Bt709 = V1, Unspecified = V2 }
    TransferCharacteristics { Unspecified = V2, Srgb = V13 }
    MatrixCoefficients { Identity = V0, Unspecified = V2 });

#[derive(Clone, Debug, Default, PartialEq)]
pub struct ObuHeader {
    pub obu_type: ObuType,
    pub extension_flag: bool,
    pub has_size_field: bool,
    pub temporal_id: u32,
    pub spatial_id: u32,
}
#[derive(Clone, Debug, Default, PartialEq)]
pub struct TemporalDelimiterObu {
    pub obu_header: ObuHeader,
}
#[derive(Clone, Debug, Default, PartialEq)]
pub struct OperatingPoint {
    pub idc: u32,
    pub seq_level_idx: u32,
    pub seq_tier: u32,
    pub decoder_model_present_for_this_op: bool,
    pub decoder_buffer_delay: u32,
    pub encoder_buffer_delay: u32,
    pub low_delay_mode_flag: bool,
    pub initial_display_delay_present_for_this_op: bool,
    pub initial_display_delay_minus_1: u32,
}
#[derive(Clone, Debug, Default, PartialEq)]
pub struct TimingInfo {
    pub num_units_in_display_tick: u32,
    pub time_scale: u32,
    pub equal_picture_interval: bool,
    pub num_ticks_per_picture_minus_1: u32,
}
#[derive(Clone, Debug, Default, PartialEq)]
pub struct DecoderModelInfo {
    pub buffer_delay_length_minus_1: u8,
    pub num_units_in_decoding_tick: u32,
    pub buffer_removal_time_length_minus_1: u8,
    pub frame_presentation_time_length_minus_1: u32,
}
#[derive(Clone, Debug, Default, PartialEq)]
pub struct ColorConfig {
    pub high_bitdepth: bool,
    pub twelve_bit: bool,
    pub mono_chrome: bool,
    pub color_description_present_flag: bool,
    pub color_primaries: ColorPrimaries,
    pub transfer_characteristics: TransferCharacteristics,
    pub matrix_coefficients: MatrixCoefficients,
    pub color_range: bool,
    pub subsampling_x: bool,
    pub subsampling_y: bool,
    pub chroma_sample_position: ChromaSamplePosition,
    pub separate_uv_delta_q: bool,
}
#[derive(Clone, Debug, Default, PartialEq)]
pub struct SequenceHeaderObu {
    pub obu_header: ObuHeader,
    pub seq_profile: Profile,
    pub still_picture: bool,
    pub reduced_still_picture_header: bool,
    pub timing_info_present_flag: bool,
    pub timing_info: TimingInfo,
    pub decoder_model_info_present_flag: bool,
    pub decoder_model_info: DecoderModelInfo,
    pub initial_display_delay_present_flag: bool,
    pub operating_points_cnt_minus_1: u32,
    pub operating_points: [OperatingPoint; 32],
    pub frame_width_bits_minus_1: u32,
    pub frame_height_bits_minus_1: u32,
    pub max_frame_width_minus_1: u16,
    pub max_frame_height_minus_1: u16,
    pub frame_id_numbers_present_flag: bool,
    pub delta_frame_id_length_minus_2: u32,
    pub additional_frame_id_length_minus_1: u32,
    pub use_128x128_superblock: bool,
    pub enable_filter_intra: bool,
    pub enable_intra_edge_filter: bool,
    pub enable_interintra_compound: bool,
    pub enable_masked_compound: bool,
    pub enable_warped_motion: bool,
    pub enable_dual_filter: bool,
    pub enable_order_hint: bool,
    pub enable_jnt_comp: bool,
    pub enable_ref_frame_mvs: bool,
    pub seq_choose_screen_content_tools: bool,
    pub seq_force_screen_content_tools: u32,
    pub seq_choose_integer_mv: bool,
    pub seq_force_integer_mv: u32,
    pub order_hint_bits_minus_1: i32,
    pub order_hint_bits: i32,
    pub enable_superres: bool,
    pub enable_cdef: bool,
    pub enable_restoration: bool,
    pub color_config: ColorConfig,
    pub film_grain_params_present: bool,
    pub bit_depth: BitDepth,
    pub num_planes: u32,
}
#[derive(Clone, Debug, Default, PartialEq)]
pub struct LoopFilterParams {
    pub loop_filter_level: [u32; 4],
    pub loop_filter_sharpness: u32,
    pub loop_filter_delta_enabled: bool,
    pub loop_filter_delta_update: bool,
    pub loop_filter_ref_deltas: [i32; 8],
    pub loop_filter_mode_deltas: [i32; 2],
    pub delta_lf_present: bool,
    pub delta_lf_res: u32,
    pub delta_lf_multi: bool,
}
#[derive(Clone, Debug, Default, PartialEq)]
pub struct QuantizationParams {
    pub base_q_idx: u32,
    pub diff_uv_delta: bool,
    pub using_qmatrix: bool,
    pub qm_y: u32,
    pub qm_u: u32,
    pub qm_v: u32,
    pub delta_q_y_dc: i32,
    pub delta_q_u_dc: i32,
    pub delta_q_u_ac: i32,
    pub delta_q_v_dc: i32,
    pub delta_q_v_ac: i32,
    pub delta_q_present: bool,
    pub delta_q_res: u32,
}
#[derive(Clone, Debug, Default, PartialEq)]
pub struct SegmentationParams {
    pub segmentation_enabled: bool,
    pub segmentation_update_map: bool,
    pub segmentation_temporal_update: bool,
    pub segmentation_update_data: bool,
    pub feature_enabled: [[bool; 8]; 8],
    pub feature_data: [[i16; 8]; 8],
}
#[derive(Clone, Debug, Default, PartialEq)]
pub struct TileInfo {
    pub uniform_tile_spacing_flag: bool,
    pub tile_cols: u32,
    pub tile_cols_log2: u32,
    pub tile_rows: u32,
    pub tile_rows_log2: u32,
}
#[derive(Clone, Debug, Default, PartialEq)]
pub struct CdefParams {
    pub cdef_bits: u32,
    pub cdef_damping: u32,
    pub cdef_y_pri_strength: [u32; 8],
    pub cdef_y_sec_strength: [u32; 8],
    pub cdef_uv_pri_strength: [u32; 8],
    pub cdef_uv_sec_strength: [u32; 8],
}
#[derive(Clone, Debug, Default, PartialEq)]
pub struct LoopRestorationParams {
    pub frame_restoration_type: [FrameRestorationType; 3],
    pub uses_lr: bool,
    pub uses_chroma_lr: bool,
    pub lr_unit_shift: u32,
    pub lr_uv_shift: u32,
}
#[derive(Clone, Debug, Default, PartialEq)]
pub struct GlobalMotionParams {
    pub is_global: [bool; 8],
    pub is_rot_zoom: [bool; 8],
    pub is_translation: [bool; 8],
    pub gm_type: [WarpModelType; 8],
}
#[derive(Clone, Debug, Default, PartialEq)]
pub struct FilmGrainParams {
    pub apply_grain: bool,
}
#[derive(Clone, Debug, Default, PartialEq)]
pub struct FrameHeaderObu {
    pub obu_header: ObuHeader,
    pub show_existing_frame: bool,
    pub show_frame: bool,
    pub showable_frame: bool,
    pub frame_is_intra: bool,
    pub error_resilient_mode: bool,
    pub disable_cdf_update: bool,
    pub frame_size_override_flag: bool,
    pub buffer_removal_time_present_flag: bool,
    pub allow_intrabc: bool,
    pub frame_refs_short_signaling: bool,
    pub allow_high_precision_mv: bool,
    pub is_motion_mode_switchable: bool,
    pub use_ref_frame_mvs: bool,
    pub disable_frame_end_update_cdf: bool,
    pub coded_lossless: bool,
    pub all_lossless: bool,
    pub render_and_frame_size_different: bool,
    pub use_superres: bool,
    pub is_filter_switchable: bool,
    pub reference_select: bool,
    pub allow_warped_motion: bool,
    pub reduced_tx_set: bool,
    pub frame_to_show_map_idx: u32,
    pub display_frame_id: u32,
    pub allow_screen_content_tools: u32,
    pub force_integer_mv: u32,
    pub current_frame_id: u32,
    pub order_hint: u32,
    pub primary_ref_frame: u32,
    pub refresh_frame_flags: u32,
    pub last_frame_idx: u32,
    pub gold_frame_idx: u32,
    pub frame_width: u32,
    pub frame_height: u32,
    pub upscaled_width: u32,
    pub render_width: u32,
    pub render_height: u32,
    pub superres_denom: u32,
    pub tx_mode_select: u32,
    pub frame_presentation_time: u32,
    pub frame_type: FrameType,
    pub ref_order_hint: [u32; 8],
    pub ref_frame_idx: [u32; 7],
    pub lossless_array: [bool; 8],
    pub interpolation_filter: InterpolationFilter,
    pub loop_filter_params: LoopFilterParams,
    pub quantization_params: QuantizationParams,
    pub segmentation_params: SegmentationParams,
    pub tile_info: TileInfo,
    pub cdef_params: CdefParams,
    pub loop_restoration_params: LoopRestorationParams,
    pub tx_mode: TxMode,
    pub global_motion_params: GlobalMotionParams,
    pub film_grain_params: FilmGrainParams,
}
