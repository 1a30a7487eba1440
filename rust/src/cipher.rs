//! The cipher SM4. The types have the lengths, so nothing is left to refuse.
use crate::{ffi, BadArgument};

const LENGTHS: &str = "the lengths are in range by their types";

/// One block encrypted by SM4 under a key (GB/T 32907-2016).
///
/// ```
/// # use dykeladder::sm4;
/// let key = [0x01, 0x23, 0x45, 0x67, 0x89, 0xab, 0xcd, 0xef, 0xfe, 0xdc, 0xba, 0x98, 0x76, 0x54, 0x32, 0x10];
/// assert_eq!(sm4(&key, &key)[..4], [0x68, 0x1e, 0xdf, 0x34]);
/// ```
pub fn sm4(key: &[u8; 16], block: &[u8; 16]) -> [u8; 16] {
    let mut out = [0; 16];
    BadArgument::unless_done(ffi::sm4(key, block, &mut out)).expect(LENGTHS);
    out
}

/// The round keys of an SM4 key, made once for many blocks. They are as secret as the key.
///
/// ```
/// # use dykeladder::{sm4, Sm4Keys};
/// let key = [7; 16];
/// let keys = Sm4Keys::new(&key);
/// assert_eq!(keys.encrypt(&[1; 16]), sm4(&key, &[1; 16]));
/// ```
#[derive(Clone)]
pub struct Sm4Keys([u32; 32]);

impl Sm4Keys {
    /// The round keys of a key.
    pub fn new(key: &[u8; 16]) -> Sm4Keys {
        let mut keys = [0; 32];
        BadArgument::unless_done(ffi::sm4_keys(key, &mut keys)).expect(LENGTHS);
        Sm4Keys(keys)
    }

    /// One block encrypted under these round keys.
    pub fn encrypt(&self, block: &[u8; 16]) -> [u8; 16] {
        let mut out = [0; 16];
        BadArgument::unless_done(ffi::sm4_encrypt(&self.0, block, &mut out)).expect(LENGTHS);
        out
    }
}
