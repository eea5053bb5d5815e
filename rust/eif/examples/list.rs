//! Lists the sections of an image: `cargo run --example list -- FILE`.

use std::error::Error;
use std::{env, fs};

fn main() -> Result<(), Box<dyn Error>> {
    let name = env::args_os().nth(1).ok_or("which file?")?;
    let bytes = fs::read(name)?;
    let image = eif::read(&bytes)?;
    for (section, data) in image.iter() {
        let start = &data[..data.len().min(8)];
        println!(
            "{:12} {:>8} bytes, beginning {start:02x?}",
            section.section_type,
            data.len()
        );
    }
    println!("the kernel has {} bytes", image.kernel().len());
    Ok(())
}
