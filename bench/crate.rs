//! The crate's side: its own files (CROS_CODECS is the path of its folder src) as a static library, with the records of the cases and the calls that are measured.
//! REFUSING is its synthesizer.rs with the one cfg line turned that lets a release build refuse. One call is one whole synthesize, or one part
//! from bit 0 on, into a lent slice.
#![allow(dead_code, unused, unpredictable_function_pointer_comparisons)]

pub mod bitstream_utils {
    include!(concat!(env!("CROS_CODECS"), "/bitstream_utils.rs"));
}
pub mod codec {
    // What bitstream_utils.rs wants of the H.264 and H.265 parsers.
    macro_rules! nalu {
        () => {
            pub struct Nalu<'a> { pub data: std::borrow::Cow<'a, [u8]> }
            impl<'a> Nalu<'a> {
                pub fn next(_: &mut std::io::Cursor<&'a [u8]>) -> Result<Self, String> { Err(String::new()) }
            }
        };
    }
    pub mod h264 { pub mod parser { nalu!(); } }
    pub mod h265 { pub mod parser { nalu!(); } }
    pub mod av1 {
        pub mod parser { include!("../oracle/driver/parser.rs"); }
        pub mod helpers { include!(concat!(env!("CROS_CODECS"), "/codec/av1/helpers.rs")); }
        pub mod writer { include!(concat!(env!("CROS_CODECS"), "/codec/av1/writer.rs")); }
        pub mod synthesizer {
            include!(env!("REFUSING"));
            pub mod calls { include!("calls.rs"); }
        }
    }
}
