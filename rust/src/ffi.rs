//! The calls of `libfriscurella.a`, as `include/friscurella.h` declares them, and a safe function
//! for each. All unsafe code of the crate is here.
//!
//! What each call asks of its caller is what a reference gives: arrays of the stated length, a
//! slice's pointer with its length, and nothing that is written overlapping anything else. The
//! calls accept every content, keep no pointer, and do not unwind.

/// A number and its three values. (Each call that fills an answer also returns its number.)
pub type Answer = [u32; 4];

#[link(name = "friscurella", kind = "static")]
extern "C" {
    fn friscurella_version() -> u32;
    fn friscurella_explain(answer: &Answer, text: *mut u8, size: usize) -> u32;
    fn friscurella_video(width: u32, height: u32, bit_depth: u32, record: &mut [u32; 348]);
    fn friscurella_write_sequence_header(
        record: &[u32; 348],
        out: *mut u8,
        length: usize,
        answer: &mut Answer,
    ) -> u32;
    fn friscurella_write_temporal_delimiter(
        record: &[u32; 5],
        out: *mut u8,
        length: usize,
        answer: &mut Answer,
    ) -> u32;
    fn friscurella_write_quantization_params(
        record: &[i32; 13],
        place: u32,
        out: *mut u8,
        length: usize,
        answer: &mut Answer,
    ) -> u32;
    fn friscurella_write_segmentation_params(
        record: &[i32; 133],
        place: u32,
        out: *mut u8,
        length: usize,
        answer: &mut Answer,
    ) -> u32;
    fn friscurella_write_loop_filter_params(
        record: &[i32; 20],
        place: u32,
        out: *mut u8,
        length: usize,
        answer: &mut Answer,
    ) -> u32;
    fn friscurella_write_cdef_params(
        record: &[i32; 38],
        place: u32,
        out: *mut u8,
        length: usize,
        answer: &mut Answer,
    ) -> u32;
    fn friscurella_write_lr_params(
        record: &[i32; 14],
        place: u32,
        out: *mut u8,
        length: usize,
        answer: &mut Answer,
    ) -> u32;
    fn friscurella_make_quantization_context(header: &[u32; 348], context: &mut [i32; 2]);
    fn friscurella_make_loop_filter_context(
        header: &[u32; 348],
        coded_lossless: bool,
        allow_intrabc: bool,
        context: &mut [i32; 3],
    );
    fn friscurella_make_cdef_context(
        header: &[u32; 348],
        coded_lossless: bool,
        allow_intrabc: bool,
        context: &mut [i32; 4],
    );
    fn friscurella_make_lr_context(
        header: &[u32; 348],
        all_lossless: bool,
        allow_intrabc: bool,
        context: &mut [i32; 7],
    );
    fn friscurella_read_sequence_header(
        input: *const u8,
        length: usize,
        record: &mut [u32; 348],
        answer: &mut Answer,
    ) -> u32;
    fn friscurella_read_quantization_params(
        input: *const u8,
        length: usize,
        place: u32,
        record: &mut [i32; 13],
        answer: &mut Answer,
    ) -> u32;
    fn friscurella_read_segmentation_params(
        input: *const u8,
        length: usize,
        place: u32,
        record: &mut [i32; 133],
        answer: &mut Answer,
    ) -> u32;
    fn friscurella_read_loop_filter_params(
        input: *const u8,
        length: usize,
        place: u32,
        previous: &[i32; 10],
        record: &mut [i32; 20],
        answer: &mut Answer,
    ) -> u32;
    fn friscurella_read_cdef_params(
        input: *const u8,
        length: usize,
        place: u32,
        record: &mut [i32; 38],
        answer: &mut Answer,
    ) -> u32;
    fn friscurella_read_lr_params(
        input: *const u8,
        length: usize,
        place: u32,
        record: &mut [i32; 14],
        answer: &mut Answer,
    ) -> u32;
    fn friscurella_payload(input: *const u8, length: usize, part: &mut [u32; 2]);
    fn friscurella_is_temporal_delimiter(input: *const u8, length: usize) -> bool;
}

pub fn version() -> u32 {
    // SAFETY: nothing is lent.
    unsafe { friscurella_version() }
}

/// Puts the sentence of an answer into `text`, with a 0 behind it, and tells the length of the
/// whole sentence.
pub fn explain(answer: &Answer, text: &mut [u8]) -> usize {
    // SAFETY: `text` is lent for the call, with its own length.
    unsafe { friscurella_explain(answer, text.as_mut_ptr(), text.len()) as usize }
}

pub fn video(width: u32, height: u32, bit_depth: u32) -> [u32; 348] {
    let mut record = [0; 348];
    // SAFETY: `record` is a local.
    unsafe { friscurella_video(width, height, bit_depth, &mut record) };
    record
}

/// A function for each writer, of an OBU or of a part at a place.
macro_rules! writers {
    ($($name:ident $call:ident [$number:ty; $count:literal] ($($place:ident)?);)+) => {
        $(pub fn $name(record: &[$number; $count] $(, $place: u32)?, out: &mut [u8]) -> Answer {
            let mut answer = [0; 4];
            // SAFETY: `out` is lent for the call, with its own length; `answer` is a local. Any
            // place is allowed.
            unsafe { $call(record $(, $place)?, out.as_mut_ptr(), out.len(), &mut answer) };
            answer
        })+
    };
}

writers! {
    write_sequence_header friscurella_write_sequence_header [u32; 348] ();
    write_temporal_delimiter friscurella_write_temporal_delimiter [u32; 5] ();
    write_quantization_params friscurella_write_quantization_params [i32; 13] (place);
    write_segmentation_params friscurella_write_segmentation_params [i32; 133] (place);
    write_loop_filter_params friscurella_write_loop_filter_params [i32; 20] (place);
    write_cdef_params friscurella_write_cdef_params [i32; 38] (place);
    write_lr_params friscurella_write_lr_params [i32; 14] (place);
}

/// A function for each context that goes by the sequence header, with the frame's own flags.
macro_rules! contexts {
    ($($name:ident $call:ident $count:literal ($($flag:ident),*);)+) => {
        $(pub fn $name(header: &[u32; 348] $(, $flag: bool)*) -> [i32; $count] {
            let mut context = [0; $count];
            // SAFETY: `header` is lent for the call; `context` is a local.
            unsafe { $call(header $(, $flag)*, &mut context) };
            context
        })+
    };
}

contexts! {
    quantization_context friscurella_make_quantization_context 2 ();
    loop_filter_context friscurella_make_loop_filter_context 3 (coded_lossless, allow_intrabc);
    cdef_context friscurella_make_cdef_context 4 (coded_lossless, allow_intrabc);
    lr_context friscurella_make_lr_context 7 (all_lossless, allow_intrabc);
}

pub fn read_sequence_header(input: &[u8]) -> ([u32; 348], Answer) {
    let (mut record, mut answer) = ([0; 348], [0; 4]);
    // SAFETY: `input` is lent for the call, with its own length; `record` and `answer` are locals.
    unsafe {
        friscurella_read_sequence_header(input.as_ptr(), input.len(), &mut record, &mut answer)
    };
    (record, answer)
}

/// A function for each reader of a part. The context in the record is read, and the rest is filled.
macro_rules! readers {
    ($($name:ident $call:ident $count:literal ($($previous:ident)?);)+) => {
        $(pub fn $name(
            input: &[u8],
            place: u32,
            $($previous: &[i32; 10],)?
            record: &mut [i32; $count],
        ) -> Answer {
            let mut answer = [0; 4];
            // SAFETY: `input` is lent for the call, with its own length, and so are the arrays;
            // `answer` is a local. Any place is allowed.
            unsafe {
                $call(input.as_ptr(), input.len(), place, $($previous,)? record, &mut answer)
            };
            answer
        })+
    };
}

readers! {
    read_quantization_params friscurella_read_quantization_params 13 ();
    read_segmentation_params friscurella_read_segmentation_params 133 ();
    read_loop_filter_params friscurella_read_loop_filter_params 20 (previous);
    read_cdef_params friscurella_read_cdef_params 38 ();
    read_lr_params friscurella_read_lr_params 14 ();
}

pub fn payload(input: &[u8]) -> [u32; 2] {
    let mut part = [0; 2];
    // SAFETY: `input` is lent for the call, with its own length; `part` is a local.
    unsafe { friscurella_payload(input.as_ptr(), input.len(), &mut part) };
    part
}

pub fn is_temporal_delimiter(input: &[u8]) -> bool {
    // SAFETY: `input` is lent for the call, with its own length. The answer is a C `bool`, which is
    // 0 or 1.
    unsafe { friscurella_is_temporal_delimiter(input.as_ptr(), input.len()) }
}
