// The crate's four files, unchanged, in modules of the crate's names; CROS_CODECS is the path of its folder src.
// What is added to a module stands below its file, where it sees what is private.
#![allow(dead_code, unused, non_upper_case_globals)]

pub mod bitstream_utils {
    include!(concat!(env!("CROS_CODECS"), "/bitstream_utils.rs"));
    impl<W: Write> BitWriter<W> {
        pub fn pending(&self) -> (u8, u8) { (self.nth_bit, self.curr_byte) }
    }
}
pub mod codec {
    // What bitstream_utils.rs wants of the H.264 and H.265 parsers.
    macro_rules! nalu {
        () => {
            pub struct Nalu<'a> { pub data: std::borrow::Cow<'a, [u8]> }
            impl<'a> Nalu<'a> {
                pub fn next(_: &mut std::io::Cursor<&'a [u8]>) -> Result<Self, String> { Err(String::new()) }
            }
        };
    }
    pub mod h264 { pub mod parser { nalu!(); } }
    pub mod h265 { pub mod parser { nalu!(); } }
    pub mod av1 {
        pub mod parser { include!("parser.rs"); }
        pub mod helpers { include!(concat!(env!("CROS_CODECS"), "/codec/av1/helpers.rs")); }
        pub mod writer {
            include!(concat!(env!("CROS_CODECS"), "/codec/av1/writer.rs"));
            impl<W: Write> ObuWriter<W> {
                pub fn pending(&self) -> (u8, u8) { self.0.pending() }
            }
        }
        pub mod synthesizer {
            include!(concat!(env!("CROS_CODECS"), "/codec/av1/synthesizer.rs"));
            #[cfg(not(types_only))]
            pub mod driver { include!("driver.rs"); }
        }
    }
}
#[cfg(not(types_only))]
fn main() { codec::av1::synthesizer::driver::main() }
#[cfg(types_only)]
fn main() {}
