//! The C header, this crate and the library have the same records, constants, elements, refusals.
use crate::numbers::{signed, unsigned, Numbers};
use crate::{record::*, refusal, version, Element, Refusal, VERSION};
use std::fmt::Debug;
use std::prelude::v1::*;
use std::{format, vec};

const HEADER: &str = include_str!("../../include/friscurella.h");
const MANIFEST: &str = include_str!("../Cargo.toml");
const ELEMENTS: &str = include_str!("../../crates/bits/src/element.rt");

/// The C header without its comments.
fn code() -> String {
    let mut code = String::new();
    for piece in HEADER.split("*/") {
        code += piece.split("/*").next().unwrap();
    }
    code
}

/// The constants of the C header whose names begin so, in its order.
fn constants(prefix: &str) -> Vec<(String, usize)> {
    let named = |line: &str| {
        let name = line.trim().strip_prefix("FRISCURELLA_")?;
        let (name, number) = name.strip_prefix(prefix)?.split_once(" = ")?;
        let number = number.trim_end().trim_end_matches(',');
        Some((name.to_string(), number.parse().unwrap()))
    };
    code().lines().filter_map(named).collect()
}

/// The value of a constant, or a number that is written out.
fn value(words: &str) -> usize {
    match words.strip_prefix("FRISCURELLA_") {
        Some(name) => constants(name)[0].1,
        None => words.parse().unwrap(),
    }
}

/// The members of a struct of the C header: their types, names and the lengths of their arrays.
fn members(record: &str) -> Vec<(String, String, Vec<usize>)> {
    let code = code();
    let (_, body) = code
        .split_once(&format!("struct friscurella_{record} {{"))
        .unwrap();
    let (body, _) = body.split_once('}').unwrap();
    let member = |words: &str| {
        let (kind, name) = words.trim().rsplit_once(' ')?;
        let mut words = name.split('[');
        let name = words.next()?.to_string();
        let lengths = words.map(|word| value(word.trim_end_matches(']')));
        Some((kind.to_string(), name, lengths.collect()))
    };
    body.split(';').filter_map(member).collect()
}

/// The name of each number of a struct of the C header, with the members that lead to it. All
/// numbers are of one type.
fn numbers_of(record: &str, number: &str, at: &str) -> Vec<String> {
    let mut names = Vec::new();
    for (kind, name, lengths) in members(record) {
        let mut places = vec![format!("{at}.{name}")];
        for length in lengths {
            let each = |place: String| (0..length).map(move |i| format!("{place}[{i}]"));
            places = places.into_iter().flat_map(each).collect();
        }
        match kind.strip_prefix("struct friscurella_") {
            Some(nested) => {
                names.extend(places.iter().flat_map(|at| numbers_of(nested, number, at)))
            }
            None => {
                assert_eq!(kind, number, "{name}");
                names.extend(places);
            }
        }
    }
    names
}

fn names<T: Numbers>() -> Vec<String> {
    let mut names = Vec::new();
    T::names("", &mut names);
    names
}

/// The names of a part: the context first.
fn part<Context: Numbers, Params: Numbers>() -> Vec<String> {
    let mut names = Vec::new();
    Context::names(".context", &mut names);
    Params::names("", &mut names);
    names
}

fn assert_same<T: PartialEq + Debug>(a: &[T], b: &[T]) {
    a.iter().zip(b).for_each(|(a, b)| assert_eq!(a, b));
    assert_eq!(a.len(), b.len());
}

/// The struct has the names, in their order, and claims as many numbers.
fn assert_record(record: &str, number: &str, names: &[String]) {
    assert_same(&numbers_of(record, number, ""), names);
    let claim = format!("FRISCURELLA_NUMBERS({record}, {});", names.len());
    assert!(HEADER.lines().any(|line| line == claim), "{claim}");
}

#[test]
fn records_are_those_of_the_c_header() {
    assert_record("sequence_header", "uint32_t", &names::<SequenceHeaderObu>());
    assert_record("obu_header", "uint32_t", &names::<ObuHeader>());
    let quantization = part::<QuantizationContext, QuantizationParams>();
    assert_record("quantization_params", "int32_t", &quantization);
    let segmentation = part::<SegmentationContext, SegmentationParams>();
    assert_record("segmentation_params", "int32_t", &segmentation);
    let loop_filter = part::<LoopFilterContext, LoopFilterParams>();
    assert_record("loop_filter_params", "int32_t", &loop_filter);
    let deltas = names::<LoopFilterDeltas>();
    assert_record("loop_filter_deltas", "int32_t", &deltas);
    let cdef = part::<CdefContext, CdefParams>();
    assert_record("cdef_params", "int32_t", &cdef);
    let restoration = part::<LoopRestorationContext, LoopRestorationParams>();
    assert_record("lr_params", "int32_t", &restoration);
}

#[test]
fn contexts_are_those_of_the_c_header() {
    let quantization = names::<QuantizationContext>();
    assert_record("quantization_context", "int32_t", &quantization);
    let segmentation = names::<SegmentationContext>();
    assert_record("segmentation_context", "int32_t", &segmentation);
    let loop_filter = names::<LoopFilterContext>();
    assert_record("loop_filter_context", "int32_t", &loop_filter);
    assert_record("cdef_context", "int32_t", &names::<CdefContext>());
    assert_record("lr_context", "int32_t", &names::<LoopRestorationContext>());
}

#[test]
fn answers_are_those_of_the_c_header() {
    let answer = [".number", ".first", ".second", ".third"].map(String::from);
    assert_record("answer", "uint32_t", &answer);
    assert_record("part", "uint32_t", &[".start", ".length"].map(String::from));
}

#[test]
fn names_are_as_many_as_the_numbers() {
    let sequence = names::<SequenceHeaderObu>();
    assert_eq!(sequence.len(), SequenceHeaderObu::COUNT);
    assert_eq!(sequence[20 + 9 * 3 + 2], ".operating_points[3].seq_tier");
    let segmentation = names::<SegmentationParams>();
    assert_eq!(segmentation[4 + 8 * 2 + 1], ".feature_enabled[2][1]");
}

#[test]
fn constants_are_those_of_the_c_header() {
    let (tools, mv) = (SELECT_SCREEN_CONTENT_TOOLS, SELECT_INTEGER_MV);
    let ours = [
        ("SLICE_LIMIT", SLICE_LIMIT),
        ("MAX_OPERATING_POINTS", MAX_OPERATING_POINTS),
        ("OBU_SEQUENCE_HEADER", OBU_SEQUENCE_HEADER as usize),
        ("OBU_TEMPORAL_DELIMITER", OBU_TEMPORAL_DELIMITER as usize),
        ("SELECT_SCREEN_CONTENT_TOOLS", tools as usize),
        ("SELECT_INTEGER_MV", mv as usize),
        ("PRIMARY_REF_NONE", PRIMARY_REF_NONE as usize),
    ];
    let ours = ours.map(|(name, value)| (name.to_string(), value));
    let theirs = constants("");
    assert_same(&theirs[..ours.len()], &ours);
    assert_eq!(theirs[ours.len()].0, "DONE");
    let deltas = format!("{DEFAULT_REF_DELTAS:?}");
    let deltas = deltas.trim_matches(['[', ']']);
    let define = format!("#define FRISCURELLA_DEFAULT_REF_DELTAS {{{deltas}}}");
    assert!(HEADER.lines().any(|line| line == define), "{define}");
}

#[test]
fn version_is_everywhere_the_same() {
    assert_eq!(version(), VERSION);
    let define = format!("#define FRISCURELLA_VERSION {VERSION}");
    assert!(HEADER.lines().any(|line| line == define));
    let (major, minor, patch) = (VERSION / 10000, VERSION / 100 % 100, VERSION % 100);
    let package = format!("version = \"{major}.{minor}.{patch}\"");
    assert!(MANIFEST.lines().any(|line| line == package));
}

#[test]
fn elements_are_those_of_the_library_and_of_the_c_header() {
    let declared = |line: &str| {
        let (name, number) = line.strip_prefix("pub const ")?.split_once(": u8 = ")?;
        Some((name.to_string(), number.strip_suffix(';')?.parse().unwrap()))
    };
    let library: Vec<(String, usize)> = ELEMENTS.lines().filter_map(declared).collect();
    assert!(!library.is_empty());
    assert_same(&constants("ELEMENT_"), &library);

    let constant = |element: &Element| match element {
        Element::OrderHintBits => "ORDER_HINT_BITS".to_string(),
        Element::NumPlanes => "NUM_PLANES".to_string(),
        element => element.name().to_uppercase(),
    };
    let numbered = |e| (constant(e), e.number() as usize);
    let numbers: Vec<_> = Element::ALL.iter().map(numbered).collect();
    assert_same(&numbers, &library);
}

#[test]
fn refusals_are_those_of_the_c_header() {
    let named: Vec<_> = constants("")
        .into_iter()
        .skip_while(|(name, _)| name != "DONE")
        .take_while(|(name, _)| !name.starts_with("ELEMENT_"))
        .collect();
    assert_eq!(named.len(), 9);
    for (place, (name, number)) in named.iter().enumerate() {
        assert_eq!(*number, place);
        match refusal::done([place as u32, 17, 3, 0]) {
            Ok(first) => assert_eq!((first, name.as_str()), (17, "DONE")),
            Err(refused) => {
                let told = format!("{refused:?}").to_uppercase();
                assert!(told.starts_with(name), "{told}: {name}");
                let answer = refusal::answer(refused);
                assert_eq!(refusal::done(answer), Err(refused));
            }
        }
    }
}

#[test]
fn what_is_not_known_is_a_refusal() {
    for answer in [
        [9, 0, 0, 0],
        [u32::MAX, 1, 2, 3],
        [1, 0, 0, 0],
        [1, 48, 0, 0],
        [2, 81, 5, 9],
        [2, 256 + 1, 0, 0],
    ] {
        let refused = refusal::done(answer).unwrap_err();
        assert!(matches!(refused, Refusal::Unknown { .. }), "{refused:?}");
        assert_eq!(refusal::answer(refused), answer);
        assert!(!refused.to_string().is_empty());
    }
}

/// The sentences of the library name the elements as this crate does, each one another.
#[test]
fn sentences_name_their_elements() {
    for number in [1, 2] {
        let sentence = |e: &Element| refusal::done([number, e.number(), 7, 0]).unwrap_err();
        let sentences: Vec<_> = Element::ALL.iter().map(sentence).collect();
        for (element, refused) in Element::ALL.iter().zip(&sentences) {
            let sentence = refused.to_string();
            assert!(sentence.len() + 10 < refusal::ROOM, "{sentence}");
            let is_word = |c: char| c == '_' || c.is_ascii_alphanumeric();
            let mut words = sentence.split(|c| !is_word(c));
            assert!(words.any(|word| word == element.name()), "{sentence}");
            let others = sentences.iter().filter(|other| *other != refused);
            others.for_each(|other| assert_ne!(other.to_string(), sentence));
        }
    }
}

#[test]
fn numbers_go_there_and_back() {
    let mut next = 0;
    let header = SequenceHeaderObu::take(&mut || {
        next += 1;
        next % 256
    });
    let there: [u32; 348] = unsigned(&header);
    assert_eq!(there[20], 21);
    let mut numbers = there.into_iter().map(i64::from);
    let back = SequenceHeaderObu::take(&mut || numbers.next().unwrap());
    assert_eq!(back, header);
}

#[test]
fn large_numbers_of_parts_count_as_the_largest() {
    let context = LoopRestorationContext {
        planes: 3,
        ..Default::default()
    };
    let params = LoopRestorationParams {
        lr_uv_shift: u32::MAX,
        ..Default::default()
    };
    let numbers: [i32; 14] = signed(&context, &params);
    assert_eq!((numbers[3], numbers[13]), (3, -1));
}
