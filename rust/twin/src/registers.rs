//! The registers of an image.

use crate::image::read;
use crate::rules::Refusal;
use crate::sha384::Sha384;
use crate::stream::{stream_sections, Stream};

/// The register of a stream's digest: SHA-384 of 48 zero bytes and the SHA-384 of the stream.
pub(crate) fn register(measured: Sha384) -> [u8; 48] {
    let mut extended = Sha384::new();
    // 96 bytes are never refused.
    let _ = extended.update(&[0; 48]);
    let _ = extended.update(&measured.finish());
    extended.finish()
}

/// Registers 0, 1 and 2 of `image`, from its streams Whole, Boot and App.
pub fn registers(image: &[u8]) -> Result<[[u8; 48]; 3], Refusal> {
    let reading = read(image)?;
    let mut registers = [[0; 48]; 3];
    for (to, stream) in registers
        .iter_mut()
        .zip([Stream::Whole, Stream::Boot, Stream::App])
    {
        let mut measured = Sha384::new();
        for section in stream_sections(&reading.sections, stream) {
            measured.update(section.data(image))?;
        }
        *to = register(measured);
    }
    Ok(registers)
}
