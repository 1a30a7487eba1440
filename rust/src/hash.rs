//! The hash SM3.
use crate::{ffi, BadArgument};

/// The SM3 hash of a message (GB/T 32905-2016). Messages of 2^32 bytes and more are refused.
///
/// ```
/// # use dykeladder::sm3;
/// assert_eq!(sm3(b"abc").unwrap()[..4], [0x66, 0xc7, 0xf0, 0xf4]);
/// ```
pub fn sm3(message: &[u8]) -> Result<[u8; 32], BadArgument> {
    let mut digest = [0; 32];
    BadArgument::unless_done(ffi::sm3(message, &mut digest)).map(|()| digest)
}
