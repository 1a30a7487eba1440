//! The functions of `include/dykeladder.h`, each behind a safe function: the only unsafe code of the crate.
//!
//! The header asks this of a caller and no more: a pointer leads to as many elements as its length says, aligned, and a buffer that
//! may be written overlaps no other and is in one call at a time. Slices give the first, `&mut` gives the second. Calls of the same
//! shape share a type whose field is private, so that nothing but the library's own functions can stand there.
use crate::{Heading, Particulars, Track};

/// What a success carries.
pub type Values = [i64; 3];

/// What is read of a message: its type, caller, call number, service, options and number of items.
pub type MessageFields = [u64; 6];

/// What is read of an item: its identifier, and the place and the length of its content.
pub type ItemFields = [u64; 3];

// Laid out as in the header, to be compared with it.
#[rustfmt::skip]
extern "C" {
    fn dl_sm3(message: *const u8, message_len: usize,
              digest: *mut u8, digest_len: usize) -> u16;

    fn dl_sm4(key: *const u8, key_len: usize,
              block: *const u8, block_len: usize,
              out: *mut u8, out_len: usize) -> u16;

    fn dl_sm4_keys(key: *const u8, key_len: usize,
                   keys: *mut u32, keys_len: usize) -> u16;

    fn dl_sm4_encrypt(keys: *const u32, keys_len: usize,
                      block: *const u8, block_len: usize,
                      out: *mut u8, out_len: usize) -> u16;

    fn dl_password(algorithm: u8, key: *const u8, key_len: usize,
                   has_time: u8, time: u64,
                   has_count: u8, count: u32,
                   challenge: *const u8, challenge_len: usize,
                   digits: u8, out: *mut u8, out_len: usize) -> u16;

    fn dl_check(kind: u8, algorithm: u8, digits: u8,
                period: u8, next: u64, offset: u16,
                now: u64, size: u8,
                key: *const u8, key_len: usize,
                challenge: *const u8, challenge_len: usize,
                presented: *const u8, presented_len: usize,
                following: *const u8, following_len: usize,
                step: *mut u64, step_len: usize,
                computed: *mut u64, computed_len: usize,
                fresh: *mut u64, fresh_len: usize) -> u16;

    fn dl_load(table: *mut u8, table_len: usize, serial: u64,
               kind: u8, algorithm: u8, digits: u8,
               period: u8, limit: u8,
               key: *const u8, key_len: usize,
               wait: u32, expiry: u64) -> u16;

    fn dl_login(table: *mut u8, table_len: usize, serial: u64, now: u64,
                password: *const u8, password_len: usize,
                values: *mut i64, values_len: usize) -> u16;

    fn dl_challenge_login(table: *mut u8, table_len: usize, serial: u64, now: u64,
                          challenge: *const u8, challenge_len: usize,
                          password: *const u8, password_len: usize,
                          values: *mut i64, values_len: usize) -> u16;

    fn dl_activate(table: *mut u8, table_len: usize, serial: u64, now: u64,
                   password: *const u8, password_len: usize,
                   following: *const u8, following_len: usize,
                   values: *mut i64, values_len: usize) -> u16;

    fn dl_lock(table: *mut u8, table_len: usize, serial: u64, now: u64) -> u16;

    fn dl_unlock(table: *mut u8, table_len: usize, serial: u64, now: u64,
                 password: *const u8, password_len: usize,
                 values: *mut i64, values_len: usize) -> u16;

    fn dl_suspend(table: *mut u8, table_len: usize, serial: u64, now: u64) -> u16;

    fn dl_resume(table: *mut u8, table_len: usize, serial: u64, now: u64,
                 password: *const u8, password_len: usize,
                 values: *mut i64, values_len: usize) -> u16;

    fn dl_sync(table: *mut u8, table_len: usize, serial: u64, now: u64, choice: u8,
               password: *const u8, password_len: usize,
               following: *const u8, following_len: usize,
               values: *mut i64, values_len: usize) -> u16;

    fn dl_void(table: *mut u8, table_len: usize, serial: u64, now: u64) -> u16;

    fn dl_query(table: *const u8, table_len: usize, serial: u64, now: u64,
                values: *mut i64, values_len: usize) -> u16;

    fn dl_serve_message(table: *mut u8, table_len: usize,
                        message: *const u8, message_len: usize,
                        now: u64, values: *mut i64, values_len: usize) -> u16;

    fn dl_message_read(message: *const u8, message_len: usize,
                       fields: *mut u64, fields_len: usize) -> u16;

    fn dl_message_item(message: *const u8, message_len: usize,
                       index: usize, fields: *mut u64, fields_len: usize) -> u16;

    fn dl_message_write(r#type: u32, caller: u64, number: u64,
                        service: u32, options: u32,
                        identifiers: *const u32, identifiers_len: usize,
                        lengths: *const u32, lengths_len: usize,
                        contents: *const u8, contents_len: usize,
                        out: *mut u8, out_len: usize,
                        written: *mut u64, written_len: usize) -> u16;
}

pub fn sm3(message: &[u8], digest: &mut [u8]) -> u16 {
    // SAFETY: both are slices, and only the `&mut` one is written.
    unsafe { dl_sm3(message.as_ptr(), message.len(), digest.as_mut_ptr(), digest.len()) }
}

pub fn sm4(key: &[u8], block: &[u8], out: &mut [u8]) -> u16 {
    // SAFETY: all three are slices, and only the `&mut` one is written.
    unsafe { dl_sm4(key.as_ptr(), key.len(), block.as_ptr(), block.len(), out.as_mut_ptr(), out.len()) }
}

pub fn sm4_keys(key: &[u8], keys: &mut [u32]) -> u16 {
    // SAFETY: both are slices, and only the `&mut` one is written.
    unsafe { dl_sm4_keys(key.as_ptr(), key.len(), keys.as_mut_ptr(), keys.len()) }
}

pub fn sm4_encrypt(keys: &[u32], block: &[u8], out: &mut [u8]) -> u16 {
    // SAFETY: all three are slices, and only the `&mut` one is written.
    unsafe { dl_sm4_encrypt(keys.as_ptr(), keys.len(), block.as_ptr(), block.len(), out.as_mut_ptr(), out.len()) }
}

pub fn password(
    algorithm: u8,
    key: &[u8],
    time: Option<u64>,
    count: Option<u32>,
    challenge: &[u8],
    digits: u8,
    out: &mut [u8],
) -> u16 {
    let (has_time, has_count) = (time.is_some().into(), count.is_some().into());
    let (time, count) = (time.unwrap_or(0), count.unwrap_or(0));
    let (key, key_len) = (key.as_ptr(), key.len());
    let (challenge, challenge_len) = (challenge.as_ptr(), challenge.len());
    let (out, out_len) = (out.as_mut_ptr(), out.len());
    // SAFETY: all three buffers are slices, and only the `&mut` one is written.
    unsafe {
        dl_password(algorithm, key, key_len, has_time, time, has_count, count, challenge, challenge_len, digits, out, out_len)
    }
}

/// What a check writes: the accepted step, how many passwords were computed, and how many unused steps match.
#[derive(Default)]
pub struct Found {
    pub step: u64,
    pub computed: u64,
    pub fresh: u64,
}

#[rustfmt::skip]
pub fn check(track: &Track<'_>, offset: u16, now: u64, size: u8, texts: [&[u8]; 3], found: &mut Found) -> u16 {
    let (kind, period) = track.kind.numbers();
    let [challenge, presented, following] = texts.map(<[u8]>::as_ptr);
    let [challenge_len, presented_len, following_len] = texts.map(<[u8]>::len);
    // SAFETY: the texts and the key are slices, and only the three numbers, each in the place of one element, are written.
    unsafe {
        dl_check(
            kind, track.algorithm as u8, track.digits, period, track.next.0, offset, now, size,
            track.key.as_ptr(), track.key.len(), challenge, challenge_len, presented, presented_len, following, following_len,
            &mut found.step, 1, &mut found.computed, 1, &mut found.fresh, 1,
        )
    }
}

#[rustfmt::skip]
pub fn load(table: &mut [u8], token: &Particulars<'_>) -> u16 {
    let (kind, period) = token.kind.numbers();
    // SAFETY: table and key are slices, and only the table, a `&mut`, is written.
    unsafe {
        dl_load(
            table.as_mut_ptr(), table.len(), token.serial.0, kind, token.algorithm as u8, token.digits, period, token.limit,
            token.key.as_ptr(), token.key.len(), token.wait, token.expiry.0,
        )
    }
}

/// A call with no more than a serial and a clock.
pub struct Plain(unsafe extern "C" fn(*mut u8, usize, u64, u64) -> u16);

pub const LOCK: Plain = Plain(dl_lock);
pub const SUSPEND: Plain = Plain(dl_suspend);
pub const VOID: Plain = Plain(dl_void);

impl Plain {
    pub fn call(self, table: &mut [u8], serial: u64, now: u64) -> u16 {
        // SAFETY: the function is one of the three above, and the table is a `&mut` slice.
        unsafe { self.0(table.as_mut_ptr(), table.len(), serial, now) }
    }
}

/// A call with one password.
pub struct Single(unsafe extern "C" fn(*mut u8, usize, u64, u64, *const u8, usize, *mut i64, usize) -> u16);

pub const LOGIN: Single = Single(dl_login);
pub const UNLOCK: Single = Single(dl_unlock);
pub const RESUME: Single = Single(dl_resume);

impl Single {
    pub fn call(self, table: &mut [u8], serial: u64, now: u64, password: &[u8], values: &mut Values) -> u16 {
        let (table, table_len) = (table.as_mut_ptr(), table.len());
        let (password, password_len) = (password.as_ptr(), password.len());
        // SAFETY: the function is one of the three above; all buffers are slices, and only the `&mut` ones are written.
        unsafe { self.0(table, table_len, serial, now, password, password_len, values.as_mut_ptr(), values.len()) }
    }
}

/// A call with a challenge and a password, or with two passwords.
pub struct Double(unsafe extern "C" fn(*mut u8, usize, u64, u64, *const u8, usize, *const u8, usize, *mut i64, usize) -> u16);

pub const CHALLENGE_LOGIN: Double = Double(dl_challenge_login);
pub const ACTIVATE: Double = Double(dl_activate);

impl Double {
    pub fn call(self, table: &mut [u8], serial: u64, now: u64, texts: [&[u8]; 2], values: &mut Values) -> u16 {
        let (table, table_len) = (table.as_mut_ptr(), table.len());
        let ([first, second], [first_len, second_len]) = (texts.map(<[u8]>::as_ptr), texts.map(<[u8]>::len));
        let (values, values_len) = (values.as_mut_ptr(), values.len());
        // SAFETY: the function is one of the two above; all buffers are slices, and only the `&mut` ones are written.
        unsafe { self.0(table, table_len, serial, now, first, first_len, second, second_len, values, values_len) }
    }
}

#[rustfmt::skip]
pub fn sync(table: &mut [u8], serial: u64, now: u64, choice: u8, passwords: [&[u8]; 2], values: &mut Values) -> u16 {
    let [password, following] = passwords;
    // SAFETY: all buffers are slices, and only the `&mut` ones are written.
    unsafe {
        dl_sync(
            table.as_mut_ptr(), table.len(), serial, now, choice, password.as_ptr(), password.len(),
            following.as_ptr(), following.len(), values.as_mut_ptr(), values.len(),
        )
    }
}

pub fn query(table: &[u8], serial: u64, now: u64, values: &mut Values) -> u16 {
    // SAFETY: both are slices, and only the `&mut` one is written.
    unsafe { dl_query(table.as_ptr(), table.len(), serial, now, values.as_mut_ptr(), values.len()) }
}

pub fn serve_message(table: &mut [u8], message: &[u8], now: u64, values: &mut Values) -> u16 {
    let (table, table_len) = (table.as_mut_ptr(), table.len());
    // SAFETY: all three are slices, and only the `&mut` ones are written.
    unsafe { dl_serve_message(table, table_len, message.as_ptr(), message.len(), now, values.as_mut_ptr(), values.len()) }
}

pub fn message_read(message: &[u8], fields: &mut MessageFields) -> u16 {
    // SAFETY: both are slices, and only the `&mut` one is written.
    unsafe { dl_message_read(message.as_ptr(), message.len(), fields.as_mut_ptr(), fields.len()) }
}

pub fn message_item(message: &[u8], index: usize, fields: &mut ItemFields) -> u16 {
    // SAFETY: both are slices, and only the `&mut` one is written.
    unsafe { dl_message_item(message.as_ptr(), message.len(), index, fields.as_mut_ptr(), fields.len()) }
}

#[rustfmt::skip]
pub fn message_write(heading: &Heading, identifiers: &[u32], lengths: &[u32], contents: &[u8], out: &mut [u8], written: &mut u64) -> u16 {
    // SAFETY: the buffers are slices, and only the `&mut` one and the number, in the place of one element, are written.
    unsafe {
        dl_message_write(
            heading.message_type.0, heading.caller, heading.number, heading.service, heading.options,
            identifiers.as_ptr(), identifiers.len(), lengths.as_ptr(), lengths.len(), contents.as_ptr(), contents.len(),
            out.as_mut_ptr(), out.len(), written, 1,
        )
    }
}
