//! The checksums of zlib and libdeflate, where the machine has these libraries.
//!
//! They are loaded when the benchmark runs, so that it builds without them.

use std::ffi::{c_char, c_int, c_void, CString};

extern "C" {
    fn dlopen(file: *const c_char, flags: c_int) -> *mut c_void;
    fn dlsym(library: *mut c_void, symbol: *const c_char) -> *mut c_void;
}

const RTLD_NOW: c_int = 2;

/// The address of a function of a shared library.
fn symbol(file: &str, name: &str) -> Option<*mut c_void> {
    let [file, name] = [file, name].map(|text| CString::new(text).expect("no zero byte"));
    // SAFETY: both are strings that end in a zero byte, and a library is never unloaded.
    let found = unsafe {
        let library = dlopen(file.as_ptr(), RTLD_NOW);
        if library.is_null() {
            return None;
        }
        dlsym(library, name.as_ptr())
    };
    (!found.is_null()).then_some(found)
}

/// `unsigned long crc32_z(unsigned long crc, const unsigned char *buf, size_t len)`, and libdeflate's, which
/// takes and gives 32 bits.
type Zlib = unsafe extern "C" fn(u64, *const u8, usize) -> u64;
type Libdeflate = unsafe extern "C" fn(u32, *const u8, usize) -> u32;

/// A checksum that another library computes.
#[derive(Clone, Copy)]
pub enum Checksum {
    Zlib(Zlib),
    Libdeflate(Libdeflate),
}

impl Checksum {
    pub fn zlib() -> Option<Checksum> {
        let found = symbol("libz.so.1", "crc32_z")?;
        // SAFETY: zlib declares it so.
        Some(Checksum::Zlib(unsafe {
            std::mem::transmute::<*mut c_void, Zlib>(found)
        }))
    }

    pub fn libdeflate() -> Option<Checksum> {
        let found = symbol("libdeflate.so.0", "libdeflate_crc32")?;
        // SAFETY: libdeflate declares it so.
        Some(Checksum::Libdeflate(unsafe {
            std::mem::transmute::<*mut c_void, Libdeflate>(found)
        }))
    }

    pub fn of(self, bytes: &[u8]) -> u32 {
        // SAFETY: the pointer and the length are a slice's.
        unsafe {
            match self {
                Checksum::Zlib(crc32) => crc32(0, bytes.as_ptr(), bytes.len()) as u32,
                Checksum::Libdeflate(crc32) => crc32(0, bytes.as_ptr(), bytes.len()),
            }
        }
    }
}
