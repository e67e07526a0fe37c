// Answers case lines from the crate's own functions. A child module of synthesizer.rs, so it sees the functions of the parts, which are private.
use super::*;
use crate::codec::av1::parser::*;
use std::cell::RefCell;
use std::io::BufRead;
use std::panic::{catch_unwind, AssertUnwindSafe};
use std::rc::Rc;

/// Why a line has no answer from the crate.
enum Not {
    /// The line is malformed.
    Bad,
    /// The crate's type of a field has no such value.
    Held(&'static str, i64),
}

/// The numbers of a line, taken one by one. The limits of `u`, `u8`, `i8`, `i16` are those of this project's record (a number beyond them is
/// malformed); what the crate's own type cannot hold is kept in `held`, the first only, until the whole line is seen to be well formed.
struct Numbers { left: std::vec::IntoIter<i64>, held: Option<(&'static str, i64)> }

impl Numbers {
    fn within(&mut self, least: i64, most: i64) -> Result<i64, Not> {
        let n = self.left.next().ok_or(Not::Bad)?;
        if least <= n && n <= most { Ok(n) } else { Err(Not::Bad) }
    }
    fn flag(&mut self) -> Result<bool, Not> { Ok(self.within(i64::MIN, i64::MAX)? != 0) }
    fn hold<T: TryFrom<i64> + Default>(&mut self, name: &'static str, n: i64) -> T {
        T::try_from(n).unwrap_or_else(|_| { self.held.get_or_insert((name, n)); T::default() })
    }
    fn u<T: TryFrom<i64> + Default>(&mut self, name: &'static str) -> Result<T, Not> { let n = self.within(0, u32::MAX as i64)?; Ok(self.hold(name, n)) }
    fn u8<T: TryFrom<i64> + Default>(&mut self, name: &'static str) -> Result<T, Not> { let n = self.within(0, u8::MAX as i64)?; Ok(self.hold(name, n)) }
    fn i8<T: TryFrom<i64> + Default>(&mut self, name: &'static str) -> Result<T, Not> { let n = self.within(i8::MIN as i64, i8::MAX as i64)?; Ok(self.hold(name, n)) }
    fn i16<T: TryFrom<i64> + Default>(&mut self, name: &'static str) -> Result<T, Not> { let n = self.within(i16::MIN as i64, i16::MAX as i64)?; Ok(self.hold(name, n)) }
    fn end(&mut self) -> Result<(), Not> {
        if self.left.next().is_some() { return Err(Not::Bad); }
        match self.held { Some((name, n)) => Err(Not::Held(name, n)), None => Ok(()) }
    }
}

fn obu_header(n: &mut Numbers) -> Result<ObuHeader, Not> {
    Ok(ObuHeader { obu_type: n.u("obu_type")?, extension_flag: n.flag()?, has_size_field: n.flag()?, temporal_id: n.u("temporal_id")?, spatial_id: n.u("spatial_id")? })
}

fn operating_point(n: &mut Numbers) -> Result<OperatingPoint, Not> {
    Ok(OperatingPoint {
        idc: n.u("idc")?,
        seq_level_idx: n.u("seq_level_idx")?,
        seq_tier: n.u("seq_tier")?,
        decoder_model_present_for_this_op: n.flag()?,
        decoder_buffer_delay: n.u("decoder_buffer_delay")?,
        encoder_buffer_delay: n.u("encoder_buffer_delay")?,
        low_delay_mode_flag: n.flag()?,
        initial_display_delay_present_for_this_op: n.flag()?,
        initial_display_delay_minus_1: n.u("initial_display_delay_minus_1")?,
    })
}

fn color_config(n: &mut Numbers) -> Result<ColorConfig, Not> {
    Ok(ColorConfig {
        high_bitdepth: n.flag()?,
        twelve_bit: n.flag()?,
        mono_chrome: n.flag()?,
        color_description_present_flag: n.flag()?,
        color_primaries: n.u("color_primaries")?,
        transfer_characteristics: n.u("transfer_characteristics")?,
        matrix_coefficients: n.u("matrix_coefficients")?,
        color_range: n.flag()?,
        subsampling_x: n.flag()?,
        subsampling_y: n.flag()?,
        chroma_sample_position: n.u("chroma_sample_position")?,
        separate_uv_delta_q: n.flag()?,
    })
}

fn sequence(n: &mut Numbers) -> Result<SequenceHeaderObu, Not> {
    let mut q = SequenceHeaderObu { obu_header: obu_header(n)?, ..Default::default() };
    q.seq_profile = n.u("seq_profile")?;
    q.still_picture = n.flag()?;
    q.reduced_still_picture_header = n.flag()?;
    q.timing_info_present_flag = n.flag()?;
    q.timing_info = TimingInfo {
        num_units_in_display_tick: n.u("num_units_in_display_tick")?,
        time_scale: n.u("time_scale")?,
        equal_picture_interval: n.flag()?,
        num_ticks_per_picture_minus_1: n.u("num_ticks_per_picture_minus_1")?,
    };
    q.decoder_model_info_present_flag = n.flag()?;
    q.decoder_model_info = DecoderModelInfo {
        buffer_delay_length_minus_1: n.u8("buffer_delay_length_minus_1")?,
        num_units_in_decoding_tick: n.u("num_units_in_decoding_tick")?,
        buffer_removal_time_length_minus_1: n.u("buffer_removal_time_length_minus_1")?,
        frame_presentation_time_length_minus_1: n.u("frame_presentation_time_length_minus_1")?,
    };
    q.initial_display_delay_present_flag = n.flag()?;
    q.operating_points_cnt_minus_1 = n.u("operating_points_cnt_minus_1")?;
    for i in 0..n.within(0, 32)? { q.operating_points[i as usize] = operating_point(n)?; }
    q.frame_width_bits_minus_1 = n.u8("frame_width_bits_minus_1")?;
    q.frame_height_bits_minus_1 = n.u8("frame_height_bits_minus_1")?;
    q.max_frame_width_minus_1 = n.u("max_frame_width_minus_1")?;
    q.max_frame_height_minus_1 = n.u("max_frame_height_minus_1")?;
    q.frame_id_numbers_present_flag = n.flag()?;
    q.delta_frame_id_length_minus_2 = n.u("delta_frame_id_length_minus_2")?;
    q.additional_frame_id_length_minus_1 = n.u("additional_frame_id_length_minus_1")?;
    q.use_128x128_superblock = n.flag()?;
    q.enable_filter_intra = n.flag()?;
    q.enable_intra_edge_filter = n.flag()?;
    q.enable_interintra_compound = n.flag()?;
    q.enable_masked_compound = n.flag()?;
    q.enable_warped_motion = n.flag()?;
    q.enable_dual_filter = n.flag()?;
    q.enable_order_hint = n.flag()?;
    q.enable_jnt_comp = n.flag()?;
    q.enable_ref_frame_mvs = n.flag()?;
    q.seq_choose_screen_content_tools = n.flag()?;
    q.seq_force_screen_content_tools = n.u("seq_force_screen_content_tools")?;
    q.seq_choose_integer_mv = n.flag()?;
    q.seq_force_integer_mv = n.u("seq_force_integer_mv")?;
    q.order_hint_bits_minus_1 = n.u8("order_hint_bits_minus_1")?;
    q.order_hint_bits = n.u("OrderHintBits")?;
    q.enable_superres = n.flag()?;
    q.enable_cdef = n.flag()?;
    q.enable_restoration = n.flag()?;
    q.color_config = color_config(n)?;
    q.num_planes = n.u("NumPlanes")?;
    q.film_grain_params_present = n.flag()?;
    derived(&mut q);
    Ok(q)
}

/// BitDepth, which the crate keeps beside the coded fields, as the standard derives it (5.5.2).
fn derived(q: &mut SequenceHeaderObu) {
    let twelve = q.seq_profile == Profile::Profile2 && q.color_config.twelve_bit;
    q.bit_depth = match (q.color_config.high_bitdepth, twelve) { (false, _) => BitDepth::Depth8, (true, false) => BitDepth::Depth10, (true, true) => BitDepth::Depth12 };
}

fn quantization(n: &mut Numbers, q: &mut SequenceHeaderObu) -> Result<FrameHeaderObu, Not> {
    q.num_planes = n.u("planes")?;
    q.color_config.separate_uv_delta_q = n.flag()?;
    Ok(FrameHeaderObu {
        quantization_params: QuantizationParams {
            base_q_idx: n.u("base_q_idx")?,
            delta_q_y_dc: n.i8("delta_q_y_dc")?,
            diff_uv_delta: n.flag()?,
            delta_q_u_dc: n.i8("delta_q_u_dc")?,
            delta_q_u_ac: n.i8("delta_q_u_ac")?,
            delta_q_v_dc: n.i8("delta_q_v_dc")?,
            delta_q_v_ac: n.i8("delta_q_v_ac")?,
            using_qmatrix: n.flag()?,
            qm_y: n.u("qm_y")?,
            qm_u: n.u("qm_u")?,
            qm_v: n.u("qm_v")?,
            ..Default::default()
        },
        ..Default::default()
    })
}

fn segmentation(n: &mut Numbers) -> Result<FrameHeaderObu, Not> {
    let mut h = FrameHeaderObu { primary_ref_frame: n.u("primary_ref_frame")?, ..Default::default() };
    let p = &mut h.segmentation_params;
    p.segmentation_enabled = n.flag()?;
    p.segmentation_update_map = n.flag()?;
    p.segmentation_temporal_update = n.flag()?;
    p.segmentation_update_data = n.flag()?;
    for i in 0..64 { p.feature_enabled[i / 8][i % 8] = n.flag()?; }
    for i in 0..64 { p.feature_data[i / 8][i % 8] = n.i16("feature_data")?; }
    Ok(h)
}

fn loop_filter(n: &mut Numbers, q: &mut SequenceHeaderObu) -> Result<FrameHeaderObu, Not> {
    let mut h = FrameHeaderObu { coded_lossless: n.flag()?, allow_intrabc: n.flag()?, ..Default::default() };
    q.num_planes = n.u("planes")?;
    let p = &mut h.loop_filter_params;
    for x in &mut p.loop_filter_level { *x = n.u("loop_filter_level")?; }
    p.loop_filter_sharpness = n.u("loop_filter_sharpness")?;
    p.loop_filter_delta_enabled = n.flag()?;
    p.loop_filter_delta_update = n.flag()?;
    for x in &mut p.loop_filter_ref_deltas { *x = n.i8("loop_filter_ref_deltas")?; }
    for x in &mut p.loop_filter_mode_deltas { *x = n.i8("loop_filter_mode_deltas")?; }
    Ok(h)
}

fn cdef(n: &mut Numbers, q: &mut SequenceHeaderObu) -> Result<FrameHeaderObu, Not> {
    let mut h = FrameHeaderObu { coded_lossless: n.flag()?, allow_intrabc: n.flag()?, ..Default::default() };
    q.enable_cdef = n.flag()?;
    q.num_planes = n.u("planes")?;
    let p = &mut h.cdef_params;
    p.cdef_bits = n.u("cdef_bits")?;
    p.cdef_damping = n.u("cdef_damping")?;
    for x in &mut p.cdef_y_pri_strength { *x = n.u("cdef_y_pri_strength")?; }
    for x in &mut p.cdef_y_sec_strength { *x = n.u("cdef_y_sec_strength")?; }
    for x in &mut p.cdef_uv_pri_strength { *x = n.u("cdef_uv_pri_strength")?; }
    for x in &mut p.cdef_uv_sec_strength { *x = n.u("cdef_uv_sec_strength")?; }
    Ok(h)
}

fn restoration(n: &mut Numbers, q: &mut SequenceHeaderObu) -> Result<FrameHeaderObu, Not> {
    let mut h = FrameHeaderObu { all_lossless: n.flag()?, allow_intrabc: n.flag()?, ..Default::default() };
    q.enable_restoration = n.flag()?;
    q.num_planes = n.u("planes")?;
    q.use_128x128_superblock = n.flag()?;
    q.color_config.subsampling_x = n.flag()?;
    q.color_config.subsampling_y = n.flag()?;
    let p = &mut h.loop_restoration_params;
    for x in &mut p.frame_restoration_type { *x = kind(n)?; }
    p.uses_lr = n.flag()?;
    p.uses_chroma_lr = n.flag()?;
    p.lr_unit_shift = n.u("lr_unit_shift")?;
    p.lr_uv_shift = n.u("lr_uv_shift")?;
    Ok(h)
}

/// A case line has the coded kind; the crate's member of that name.
fn kind(n: &mut Numbers) -> Result<FrameRestorationType, Not> {
    use FrameRestorationType::*;
    let k = n.within(0, u32::MAX as i64)?;
    let kind = [None, Switchable, Wiener, SgrProj].get(k as usize);
    if kind.is_none() { n.held.get_or_insert(("frame_restoration_type", k)); }
    Ok(*kind.unwrap_or(&None))
}

/// How a call of the crate ended: nothing if done, or one word for the form and one for the reason.
fn ending(result: std::thread::Result<SynthesizerResult<()>>) -> Option<String> {
    use crate::bitstream_utils::BitWriterError;
    match result {
        Ok(Ok(())) => None,
        Ok(Err(SynthesizerError::InvalidSyntaxElementValue(name))) => Some(format!("refused {name}")),
        Ok(Err(SynthesizerError::Io(_) | SynthesizerError::ObuWriter(ObuWriterError::BitWriterError(BitWriterError::Io(_))))) => Some("short".into()),
        Ok(Err(e)) => Some(format!("error {}", one_word(&e.to_string()))),
        Err(panic) => {
            let text = panic.downcast_ref::<String>().cloned().or(panic.downcast_ref::<&str>().map(|s| s.to_string()));
            Some(format!("panic {}", one_word(&text.unwrap_or_default())))
        }
    }
}
fn one_word(text: &str) -> String { text.replace(' ', "_") }
fn hex(bytes: &[u8]) -> String { bytes.iter().map(|b| format!("{b:02X}")).collect() }
fn guarded(call: impl FnOnce() -> SynthesizerResult<()>) -> Option<String> { ending(catch_unwind(AssertUnwindSafe(call))) }

/// A whole OBU, written into the lent buffer as the crate does it. Where the buffer ends too early, a second call with room enough
/// tells the length.
fn obu(buffer: &mut [u8], synthesize: impl Fn(&mut dyn Write) -> SynthesizerResult<()>) -> String {
    let length = buffer.len();
    let mut rest = &mut *buffer;
    let end = guarded(|| synthesize(&mut rest));
    let count = length - rest.len();
    match end {
        None => format!("0 {count} {}", hex(buffer)),
        Some(s) if s == "short" => {
            let mut whole = Vec::new();
            match guarded(|| synthesize(&mut whole)) {
                None => format!("short {} {}", whole.len(), hex(buffer)),
                Some(_) => format!("short - {}", hex(buffer)),
            }
        }
        Some(end) => format!("{end} {count} {}", hex(buffer)),
    }
}

/// Where a part's bits go: a list that the driver still holds after a panic.
#[derive(Clone, Default)]
struct Sink(Rc<RefCell<Vec<u8>>>);
impl Write for Sink {
    fn write(&mut self, bytes: &[u8]) -> std::io::Result<usize> { self.0.borrow_mut().extend_from_slice(bytes); Ok(bytes.len()) }
    fn flush(&mut self) -> std::io::Result<()> { Ok(()) }
}

/// A part at a bit place. The crate has no such call: its writer first gets the place's remainder by eight as zero bits, so that the part
/// starts inside a byte; what it wrote after them goes into the buffer bit by bit, as far as the buffer goes.
fn part<'o>(buffer: &mut [u8], place: u64, h: &'o FrameHeaderObu, write: impl FnOnce(&mut Synthesizer<'o, FrameHeaderObu, Sink>) -> SynthesizerResult<()>) -> String {
    let sink = Sink::default();
    let mut s = Synthesizer::new(sink.clone(), h);
    let before = (place % 8) as usize;
    s.f(before, 0u32).unwrap();
    let end = guarded(|| write(&mut s));
    let (pending, byte) = s.writer.pending();
    let mut bytes = sink.0.borrow().clone();
    let count = (bytes.len() * 8 + pending as usize - before) as u64;
    bytes.push(byte);
    let room = buffer.len() as u64 * 8;
    for i in (0..count).take_while(|i| place + i < room) {
        let (from, to) = (before + i as usize, (place + i) as usize);
        let bit = bytes[from / 8] >> (7 - from % 8) & 1;
        buffer[to / 8] = buffer[to / 8] & !(128 >> (to % 8)) | bit << (7 - to % 8);
    }
    match end {
        None if place + count > room => format!("short {} {}", (place + count).div_ceil(8), hex(buffer)),
        None => format!("0 {} {}", place + count, hex(buffer)),
        Some(end) => format!("{end} {} {}", place + count, hex(buffer)),
    }
}

fn bytes_of(text: &str) -> Result<Vec<u8>, Not> {
    if text.len() % 2 != 0 || !text.bytes().all(|c| c.is_ascii_hexdigit()) { return Err(Not::Bad); }
    Ok((0..text.len() / 2).map(|i| u8::from_str_radix(&text[2 * i..2 * i + 2], 16).unwrap()).collect())
}
fn number(text: &str) -> Result<i64, Not> {
    let digits = text.strip_prefix('-').unwrap_or(text);
    if digits.is_empty() || !digits.bytes().all(|c| c.is_ascii_digit()) || digits.trim_start_matches('0').len() > 18 { return Err(Not::Bad); }
    text.parse().map_err(|_| Not::Bad)
}

fn words_of(text: &str) -> impl Iterator<Item = &str> { text.split(' ').filter(|word| !word.is_empty()) }

fn answer(line: &str) -> Result<String, Not> {
    let (case, settings) = match line.split_once(';') { Some((case, settings)) => (case, settings), None => (line, "") };
    let mut words = words_of(case);
    let word = words.next().unwrap_or("");
    if word == "read" || word == "payload" {
        if let Some(input) = words.next() { bytes_of(input)?; }
        return if words.next().is_none() && settings.is_empty() { Ok("-".into()) } else { Err(Not::Bad) };
    }
    let (mut buffer, mut place) = (None, None);
    for setting in words_of(settings) {
        match setting.split_once('=') {
            Some(("buf", text)) if buffer.is_none() => buffer = Some(bytes_of(text)?),
            Some(("place", text)) if place.is_none() && word != "seq" && word != "td" => place = Some(u32::try_from(number(text)?).map_err(|_| Not::Bad)?),
            _ => return Err(Not::Bad),
        }
    }
    let (mut buffer, place) = (buffer.unwrap_or(vec![0; 420]), place.unwrap_or(0) as u64);
    let numbers = words.map(number).collect::<Result<Vec<_>, _>>()?;
    let n = &mut Numbers { left: numbers.into_iter(), held: None };
    let mut q = SequenceHeaderObu::default();
    match word {
        "seq" => {
            let q = sequence(n)?;
            n.end()?;
            Ok(obu(&mut buffer, |out| Synthesizer::<SequenceHeaderObu, _>::synthesize(&q, out)))
        }
        "td" => {
            let h = TemporalDelimiterObu { obu_header: obu_header(n)? };
            n.end()?;
            Ok(obu(&mut buffer, |out| Synthesizer::<TemporalDelimiterObu, _>::synthesize(&h, out)))
        }
        _ => {
            let h = match word {
                "quant" => quantization(n, &mut q)?,
                "seg" => segmentation(n)?,
                "lf" => loop_filter(n, &mut q)?,
                "cdef" => cdef(n, &mut q)?,
                "lr" => restoration(n, &mut q)?,
                _ => return Err(Not::Bad),
            };
            n.end()?;
            Ok(part(&mut buffer, place, &h, |s| match word {
                "quant" => s.quantization_params(&q),
                "seg" => s.segmentation_params(),
                "lf" => s.loop_filter_params(&q),
                "cdef" => s.cdef_params(&q),
                _ => s.lr_params(&q),
            }))
        }
    }
}

pub fn main() {
    std::panic::set_hook(Box::new(|_| {}));
    let mut out = std::io::BufWriter::new(std::io::stdout().lock());
    for line in std::io::stdin().lock().split(b'\n') {
        let line = line.unwrap();
        let (first, long) = (line.iter().find(|c| **c != b' '), line.len() > 200_000);
        if !long && (first.is_none() || first == Some(&b'#')) { continue; }
        let said = if long { Err(Not::Bad) } else { std::str::from_utf8(&line).map_err(|_| Not::Bad).and_then(answer) };
        let said = match said { Ok(said) => said, Err(Not::Bad) => "bad".into(), Err(Not::Held(name, n)) => format!("cannot {name} {n}") };
        writeln!(out, "{}", said.trim_end()).unwrap();
    }
}
