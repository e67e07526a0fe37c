//! Writes the sequence header of a 1920 by 1080 video, reads it back, does the same with a part of
//! a frame header that goes by it, and shows a refusal.
use friscurella::{
    quantization_context, read_quantization_params, read_sequence_header,
    write_quantization_params, write_sequence_header, QuantizationParams, Refusal,
    SequenceHeaderObu, SEQUENCE_HEADER_MAX,
};

fn main() -> Result<(), Refusal> {
    assert_eq!(friscurella::version(), friscurella::VERSION);
    let mut header = SequenceHeaderObu::video(1920, 1080, 8);
    header.operating_points[0].seq_level_idx = 8; // level 4.0
    let mut buffer = [0; SEQUENCE_HEADER_MAX]; // enough for any sequence header
    let length = write_sequence_header(&header, &mut buffer)?;
    print!("written:");
    for byte in &buffer[..length] {
        print!(" {byte:02X}");
    }
    println!();

    let back = read_sequence_header(&buffer[..length])?;
    let (width, height) = (back.max_frame_width_minus_1, back.max_frame_height_minus_1);
    println!("read: {} by {}", width + 1, height + 1);

    let context = quantization_context(&back);
    let params = QuantizationParams {
        base_q_idx: 100,
        ..Default::default()
    };
    let end = write_quantization_params(&params, &context, &mut buffer, 0)?;
    println!("quantization of {} planes: {end} bits", context.planes);

    let (part, end) = read_quantization_params(&buffer, 0, &context)?;
    let base = part.base_q_idx;
    println!("read: base_q_idx {base}, and the next part begins at bit {end}");

    // The tier is coded at levels over 7 only.
    header.operating_points[0].seq_level_idx = 7;
    header.operating_points[0].seq_tier = 1;
    match write_sequence_header(&header, &mut buffer) {
        Ok(_) => panic!("a tier at level 7 was written"),
        Err(refusal) => println!("refused: {refusal}"),
    }
    Ok(())
}
