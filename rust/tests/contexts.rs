//! The plane count of a sequence header, and the contexts of the parts that are built from it.
use friscurella::*;

/// Video of three planes; and with one, as `mono_chrome` asks.
fn video(mono_chrome: bool) -> SequenceHeaderObu {
    let mut header = SequenceHeaderObu::video(1920, 1080, 8);
    header.color_config.mono_chrome = mono_chrome;
    header.color_config.num_planes = if mono_chrome { 1 } else { 3 };
    header
}

fn written(header: &SequenceHeaderObu) -> Result<Vec<u8>, Refusal> {
    let mut out = [0xA5; 64];
    let length = write_sequence_header(header, &mut out)?;
    Ok(out[..length].to_vec())
}

#[test]
fn planes_are_one_exactly_with_mono_chrome() {
    for mono_chrome in [false, true] {
        let mut header = video(mono_chrome);
        let bytes = written(&header).unwrap();
        assert_eq!(read_sequence_header(&bytes), Ok(header.clone()));
        let right = header.color_config.num_planes;
        for planes in [0, 1, 2, 3, 4, 255, u32::MAX] {
            header.color_config.num_planes = planes;
            match written(&header) {
                Ok(_) => assert_eq!(planes, right),
                Err(refusal) => {
                    assert_ne!(planes, right);
                    assert_eq!(refusal.to_string(), "NumPlanes is inconsistent");
                }
            }
        }
    }
}

/// The contexts of a header with one or three planes, of every frame.
fn check(header: &SequenceHeaderObu, planes: u32) {
    let color = header.color_config;
    let quantization = QuantizationContext {
        planes,
        separate_uv_delta_q: color.separate_uv_delta_q,
    };
    assert_eq!(quantization_context(header), quantization);
    for (lossless, allow_intrabc) in [(false, false), (false, true), (true, false), (true, true)] {
        let loop_filter = LoopFilterContext {
            coded_lossless: lossless,
            allow_intrabc,
            planes,
        };
        let context = loop_filter_context(header, lossless, allow_intrabc);
        assert_eq!(context, loop_filter);
        let cdef = CdefContext {
            coded_lossless: lossless,
            allow_intrabc,
            enable_cdef: header.enable_cdef,
            planes,
        };
        assert_eq!(cdef_context(header, lossless, allow_intrabc), cdef);
        let restoration = LoopRestorationContext {
            all_lossless: lossless,
            allow_intrabc,
            enable_restoration: header.enable_restoration,
            planes,
            use_128x128_superblock: header.use_128x128_superblock,
            subsampling_x: color.subsampling_x,
            subsampling_y: color.subsampling_y,
        };
        assert_eq!(lr_context(header, lossless, allow_intrabc), restoration);
    }
}

#[test]
fn contexts_are_those_of_the_header() {
    for (mono_chrome, planes) in [(false, 3), (true, 1)] {
        let mut header = video(mono_chrome);
        check(&header, planes);
        header.color_config.separate_uv_delta_q ^= true;
        check(&header, planes);
        header.enable_cdef ^= true;
        check(&header, planes);
        header.enable_restoration ^= true;
        check(&header, planes);
        header.use_128x128_superblock ^= true;
        check(&header, planes);
        header.color_config.subsampling_x ^= true;
        check(&header, planes);
        header.color_config.subsampling_y ^= true;
        check(&header, planes);
    }
}

#[test]
fn any_number_of_planes_but_one_counts_as_three() {
    let mut header = video(false);
    for planes in [0, 2, 3, 4, i32::MAX as u32, 1 << 31, u32::MAX] {
        header.color_config.num_planes = planes;
        check(&header, 3);
    }
    header.color_config.num_planes = 1;
    check(&header, 1);
}

#[test]
fn primary_references_are_as_given() {
    for primary_ref_frame in [0, 6, PRIMARY_REF_NONE, 8, u32::MAX] {
        let context = segmentation_context(primary_ref_frame);
        assert_eq!(context, SegmentationContext { primary_ref_frame });
    }
}
