//! The calls of `argon2_phc.h`, on memory that is borrowed for a call. All `unsafe` code of this package is in this file.

#![allow(unsafe_code)]

use crate::bound::{Bound, BoundError};
use crate::login::LoggedIn;
use crate::password_hash;
use crate::{Algorithm, Argon2, Block, Error, Result, Version};
use std::ffi::{CStr, c_char, c_int};
use std::{mem, ptr};

/// `argon2p_params`.
#[repr(C)]
struct Settings {
    size: usize,
    algorithm: u32,
    version: u32,
    m_cost: u32,
    t_cost: u32,
    p_cost: u32,
    threads: u32,
    output_len: usize,
    has_output_len: u32,
    reserved: u32,
    secret: *const u8,
    secret_len: usize,
    data: *const u8,
    data_len: usize,
    keyid: *const u8,
    keyid_len: usize,
}

/// `argon2p_verifier`.
#[repr(C)]
struct Verifier {
    size: usize,
    m_cost: u32,
    t_cost: u32,
    p_cost: u32,
    min_output: u32,
    max_output: u32,
    threads: u32,
    has_old_secret: u32,
    reserved: u32,
    secret: *const u8,
    secret_len: usize,
    old_secret: *const u8,
    old_secret_len: usize,
}

/// `argon2p_shown`.
#[repr(C)]
#[derive(Clone, Copy)]
struct ShownParts {
    size: usize,
    name_len: u32,
    has_version: u32,
    text_version: u32,
    params_at: u32,
    params_len: u32,
    salt_len: u32,
    output_len: u32,
    algorithm: u32,
    version: u32,
    m_cost: u32,
    t_cost: u32,
    p_cost: u32,
    keyid_len: u32,
    data_len: u32,
    salt: [u8; 48],
    output: [u8; 64],
    keyid: [u8; 8],
    data: [u8; 32],
}

/// What a PHC string shows.
pub(crate) struct Shown<'text> {
    text: &'text str,
    parts: ShownParts,
    code: c_int,
}

/// Names numbers of the header, for the test that reads the header too.
macro_rules! numbers {
    ($list:ident: $type:ty, $($name:ident = $number:literal,)*) => {
        $(const $name: $type = $number;)*

        #[cfg(test)]
        const $list: &[(&str, $type)] = &[$((stringify!($name), $number)),*];
    };
}

numbers! {
    CODES: c_int,
    OK = 0,
    OUTPUT_TOO_SHORT = -2,
    OUTPUT_TOO_LONG = -3,
    PASSWORD_TOO_LONG = -5,
    SALT_TOO_SHORT = -6,
    SALT_TOO_LONG = -7,
    DATA_TOO_LONG = -9,
    SECRET_TOO_LONG = -11,
    PASSES_TOO_FEW = -12,
    MEMORY_TOO_LITTLE = -14,
    LANES_TOO_FEW = -16,
    LANES_TOO_MANY = -17,
    OUT_OF_MEMORY = -22,
    MISMATCH = -35,
    KEYID_TOO_LONG = -69,
    ALGORITHM = -70,
    VERSION = -71,
    BLOCKS_TOO_FEW = -73,
    NO_RANDOM = -74,
    WANTED_OUT_OF_BOUND = -75,
    TEXT_INVALID = -80,
    TEXT_MEMORY = -81,
    TEXT_PASSES = -82,
    TEXT_LANES = -83,
    TEXT_KEYID = -84,
    TEXT_DATA = -85,
    TEXT_PARAMETERS = -86,
    TEXT_INCOMPLETE = -87,
    ABOVE_BOUND = -88,
}

numbers! {
    OUTCOMES: c_int,
    CURRENT = 0,
    RENEWED = 1,
}

numbers! {
    BOUNDS: u32,
    BOUND_MEMORY = 2_097_152,
    BOUND_PASSES = 64,
    BOUND_LANES = 64,
}

/// The bound that the library has by default.
pub(crate) const DEFAULT_BOUND: Bound = Bound {
    m_cost: BOUND_MEMORY,
    t_cost: BOUND_PASSES,
    p_cost: BOUND_LANES,
};

/// The room for a stored hash with its zero byte.
const TEXT_SIZE: usize = 327;

/// The most threads of a call; 0 is as many as lanes.
const THREADS: u32 = if cfg!(feature = "parallel") { 0 } else { 1 };

unsafe extern "C" {
    fn argon2p_error_message(code: c_int) -> *const c_char;
    fn argon2p_check(settings: *const Settings) -> c_int;
    fn argon2p_hash_into(
        settings: *const Settings,
        pwd: *const u8,
        pwd_len: usize,
        salt: *const u8,
        salt_len: usize,
        out: *mut u8,
        out_len: usize,
        memory: *mut Block,
        blocks: usize,
    ) -> c_int;
    fn argon2p_fill_memory(
        settings: *const Settings,
        pwd: *const u8,
        pwd_len: usize,
        salt: *const u8,
        salt_len: usize,
        memory: *mut Block,
        blocks: usize,
    ) -> c_int;
    fn argon2p_hash(
        settings: *const Settings,
        pwd: *const u8,
        pwd_len: usize,
        salt: *const u8,
        salt_len: usize,
        text: *mut u8,
        room: usize,
    ) -> c_int;
    fn argon2p_verify(
        verifier: *const Verifier,
        text: *const u8,
        text_len: usize,
        pwd: *const u8,
        pwd_len: usize,
        by_old_secret: *mut c_int,
    ) -> c_int;
    fn argon2p_log_in(
        wanted: *const Settings,
        verifier: *const Verifier,
        text: *const u8,
        text_len: usize,
        pwd: *const u8,
        pwd_len: usize,
        fresh: *mut u8,
        room: usize,
        outcome: *mut c_int,
    ) -> c_int;
    fn argon2p_parse(text: *const u8, text_len: usize, shown: *mut ShownParts) -> c_int;
    fn argon2p_needs_rehash(
        wanted: *const Settings,
        text: *const u8,
        text_len: usize,
        answer: *mut c_int,
    ) -> c_int;
    fn argon2p_is_weaker(
        wanted: *const Settings,
        text: *const u8,
        text_len: usize,
        answer: *mut c_int,
    ) -> c_int;
    fn argon2p_encode(
        settings: *const Settings,
        salt: *const u8,
        salt_len: usize,
        hash: *const u8,
        hash_len: usize,
        text: *mut u8,
        room: usize,
    ) -> c_int;
}

impl Settings {
    /// Returns the settings of a hasher, with pointers into the hasher.
    fn of(argon2: &Argon2<'_>) -> Self {
        let params = &argon2.params;
        Self {
            output_len: params.output_len().unwrap_or_default(),
            has_output_len: params.output_len().is_some().into(),
            secret: argon2.secret.map_or(ptr::null(), <[u8]>::as_ptr),
            secret_len: argon2.secret.map_or(0, <[u8]>::len),
            data: params.data().as_ptr(),
            data_len: params.data().len(),
            keyid: params.keyid().as_ptr(),
            keyid_len: params.keyid().len(),
            algorithm: argon2.algorithm as u32,
            version: argon2.version.into(),
            ..Self::with_costs(params.m_cost(), params.t_cost(), params.p_cost())
        }
    }

    /// Returns settings with these costs.
    fn with_costs(m_cost: u32, t_cost: u32, p_cost: u32) -> Self {
        Self {
            size: size_of::<Self>(),
            algorithm: Algorithm::default() as u32,
            version: Version::default().into(),
            m_cost,
            t_cost,
            p_cost,
            threads: THREADS,
            output_len: 0,
            has_output_len: 0,
            reserved: 0,
            secret: ptr::null(),
            secret_len: 0,
            data: ptr::null(),
            data_len: 0,
            keyid: ptr::null(),
            keyid_len: 0,
        }
    }
}

impl Verifier {
    /// Returns what verifies under the secret of a hasher and an old secret, with pointers to both.
    fn of(argon2: &Argon2<'_>, old_secret: Option<&[u8]>, bound: &Bound) -> Self {
        Self {
            size: size_of::<Self>(),
            m_cost: bound.m_cost,
            t_cost: bound.t_cost,
            p_cost: bound.p_cost,
            min_output: 0,
            max_output: u32::MAX,
            threads: THREADS,
            has_old_secret: old_secret.is_some().into(),
            reserved: 0,
            secret: argon2.secret.map_or(ptr::null(), <[u8]>::as_ptr),
            secret_len: argon2.secret.map_or(0, <[u8]>::len),
            old_secret: old_secret.map_or(ptr::null(), <[u8]>::as_ptr),
            old_secret_len: old_secret.map_or(0, <[u8]>::len),
        }
    }
}

/// Returns Ok if parameters are valid.
pub(crate) fn check_params(
    m_cost: u32,
    t_cost: u32,
    p_cost: u32,
    output_len: Option<usize>,
) -> Result<()> {
    check(&Settings {
        output_len: output_len.unwrap_or_default(),
        has_output_len: output_len.is_some().into(),
        ..Settings::with_costs(m_cost, t_cost, p_cost)
    })
}

/// Returns Ok if the settings of a hasher are valid.
pub(crate) fn check_hasher(argon2: &Argon2<'_>) -> Result<()> {
    check(&Settings::of(argon2))
}

fn check(settings: &Settings) -> Result<()> {
    // SAFETY: the call reads only the settings, and no byte to which they point.
    match unsafe { argon2p_check(settings) } {
        OK => Ok(()),
        code => Err(error(code)),
    }
}

/// Writes a tag, on memory of the caller or of the library.
pub(crate) fn tag(
    argon2: &Argon2<'_>,
    pwd: &[u8],
    salt: &[u8],
    out: &mut [u8],
    memory: Option<&mut [Block]>,
) -> Result<()> {
    let (memory, blocks) = memory.map_or((ptr::null_mut(), 0), |it| (it.as_mut_ptr(), it.len()));
    // SAFETY: each pointer goes with the length of what it points to, or is null with length 0. The call writes to `out` and to
    // the memory. Only this call borrows them, so they overlap nothing else. A `Block` has the layout of `argon2p_block`, with a
    // larger alignment, and any words are valid in it.
    let code = unsafe {
        argon2p_hash_into(
            &Settings::of(argon2),
            pwd.as_ptr(),
            pwd.len(),
            salt.as_ptr(),
            salt.len(),
            out.as_mut_ptr(),
            out.len(),
            memory,
            blocks,
        )
    };
    if code == OK { Ok(()) } else { Err(error(code)) }
}

/// Fills memory of the caller.
pub(crate) fn fill(
    argon2: &Argon2<'_>,
    pwd: &[u8],
    salt: &[u8],
    memory: &mut [Block],
) -> Result<()> {
    // SAFETY: as in `tag`.
    let code = unsafe {
        argon2p_fill_memory(
            &Settings::of(argon2),
            pwd.as_ptr(),
            pwd.len(),
            salt.as_ptr(),
            salt.len(),
            memory.as_mut_ptr(),
            memory.len(),
        )
    };
    if code == OK { Ok(()) } else { Err(error(code)) }
}

/// Returns the hash of a password, to be stored. If there is no salt, the library draws one.
pub(crate) fn hash(
    argon2: &Argon2<'_>,
    pwd: &[u8],
    salt: Option<&[u8]>,
) -> password_hash::Result<String> {
    let (salt, salt_len) = salt.map_or((ptr::null(), 0), |it| (it.as_ptr(), it.len()));
    text_of(|text, room| {
        // SAFETY: each pointer goes with the length of what it points to, or is null with length 0. Only this call borrows the
        // bytes that it writes.
        unsafe {
            argon2p_hash(
                &Settings::of(argon2),
                pwd.as_ptr(),
                pwd.len(),
                salt,
                salt_len,
                text,
                room,
            )
        }
    })
}

/// Returns the stored hash with this salt and the tag `hash` under the settings of a hasher.
pub(crate) fn encode(
    argon2: &Argon2<'_>,
    salt: &[u8],
    hash: &[u8],
) -> password_hash::Result<String> {
    text_of(|text, room| {
        // SAFETY: as in `hash`.
        unsafe {
            argon2p_encode(
                &Settings::of(argon2),
                salt.as_ptr(),
                salt.len(),
                hash.as_ptr(),
                hash.len(),
                text,
                room,
            )
        }
    })
}

/// Returns the stored hash that a call writes. The call gets the address and the length of its room.
fn text_of(call: impl FnOnce(*mut u8, usize) -> c_int) -> password_hash::Result<String> {
    let mut room = [0; TEXT_SIZE];
    match call(room.as_mut_ptr(), room.len()) {
        OK => Ok(text_in(&room)),
        code => Err(refusal(code)),
    }
}

/// Returns the stored hash before the zero byte in its room.
fn text_in(room: &[u8]) -> String {
    let text = room.split(|byte| *byte == 0).next().unwrap_or_default();
    String::from_utf8_lossy(text).into_owned()
}

/// Verifies a password by a stored hash, which must ask for no more than a bound. Returns whether it was the old secret, and not
/// the hasher's secret, that accepted the password.
pub(crate) fn verify(
    argon2: &Argon2<'_>,
    old_secret: Option<&[u8]>,
    pwd: &[u8],
    text: &str,
    bound: &Bound,
) -> std::result::Result<bool, BoundError> {
    let mut by_old_secret = 0;
    // SAFETY: each pointer goes with the length of what it points to, or is null with length 0. Only this call borrows the number
    // that it writes.
    let code = unsafe {
        argon2p_verify(
            &Verifier::of(argon2, old_secret, bound),
            text.as_ptr(),
            text.len(),
            pwd.as_ptr(),
            pwd.len(),
            &raw mut by_old_secret,
        )
    };
    match code {
        OK => Ok(by_old_secret != 0),
        code => Err(bound_refusal(code)),
    }
}

/// Verifies like `verify`, and makes a new hash under the settings of the hasher if one is due.
pub(crate) fn log_in(
    argon2: &Argon2<'_>,
    old_secret: Option<&[u8]>,
    pwd: &[u8],
    text: &str,
    bound: &Bound,
) -> std::result::Result<LoggedIn, BoundError> {
    let mut outcome = CURRENT;
    let mut fresh = [0; TEXT_SIZE];
    // SAFETY: as in `verify`. Only this call borrows the bytes and the number that it writes.
    let code = unsafe {
        argon2p_log_in(
            &Settings::of(argon2),
            &Verifier::of(argon2, old_secret, bound),
            text.as_ptr(),
            text.len(),
            pwd.as_ptr(),
            pwd.len(),
            fresh.as_mut_ptr(),
            fresh.len(),
            &raw mut outcome,
        )
    };
    match (code, outcome) {
        (OK, CURRENT) => Ok(LoggedIn::Current),
        (OK, RENEWED) => Ok(LoggedIn::Renewed(text_in(&fresh))),
        (OK, _) => Ok(LoggedIn::Kept),
        (code, _) => Err(bound_refusal(code)),
    }
}

/// A call of the library that compares a stored hash with settings.
type Comparison = unsafe extern "C" fn(*const Settings, *const u8, usize, *mut c_int) -> c_int;

/// Returns whether a stored hash shows other settings than the settings of a hasher.
pub(crate) fn needs_rehash(argon2: &Argon2<'_>, text: &str) -> password_hash::Result<bool> {
    compare(argon2p_needs_rehash, argon2, text)
}

/// Returns whether a stored hash is weaker than new hashes of a hasher.
pub(crate) fn is_weaker(argon2: &Argon2<'_>, text: &str) -> password_hash::Result<bool> {
    compare(argon2p_is_weaker, argon2, text)
}

/// Returns whether a call answers with another number than 0.
fn compare(call: Comparison, argon2: &Argon2<'_>, text: &str) -> password_hash::Result<bool> {
    let mut answer = 0;
    // SAFETY: each pointer goes with the length of what it points to. Only this call borrows the number that it writes.
    let code = unsafe {
        call(
            &Settings::of(argon2),
            text.as_ptr(),
            text.len(),
            &raw mut answer,
        )
    };
    match code {
        OK => Ok(answer != 0),
        code => Err(refusal(code)),
    }
}

/// Returns what a PHC string shows, or `None` if `text` is outside the grammar.
pub(crate) fn parse(text: &str) -> Option<Shown<'_>> {
    // SAFETY: all members are integers, for which zeros are valid.
    let mut parts: ShownParts = unsafe { mem::zeroed() };
    parts.size = size_of::<ShownParts>();
    // SAFETY: the pointer goes with the length of `text`. Only this call borrows the structure that it writes.
    let code = unsafe { argon2p_parse(text.as_ptr(), text.len(), &raw mut parts) };
    (code != TEXT_INVALID).then_some(Shown { text, parts, code })
}

impl<'text> Shown<'text> {
    fn part(&self, from: u32, len: u32) -> &'text str {
        let from = from as usize;
        self.text.get(from..from + len as usize).unwrap_or_default()
    }

    /// The identifier.
    pub(crate) fn name(&self) -> &'text str {
        self.part(1, self.parts.name_len)
    }

    /// The version, if there is one.
    pub(crate) fn version(&self) -> Option<u32> {
        (self.parts.has_version != 0).then_some(self.parts.text_version)
    }

    /// The parameter list, empty if there is none.
    pub(crate) fn list(&self) -> &'text str {
        self.part(self.parts.params_at, self.parts.params_len)
    }

    /// The salt, empty if there is none.
    pub(crate) fn salt(&self) -> &[u8] {
        front(&self.parts.salt, self.parts.salt_len)
    }

    /// The tag, empty if there is none.
    pub(crate) fn output(&self) -> &[u8] {
        front(&self.parts.output, self.parts.output_len)
    }

    /// Memory, passes and lanes, if the PHC string is a hash of Argon2.
    pub(crate) fn costs(&self) -> password_hash::Result<(u32, u32, u32)> {
        match self.code {
            OK => Ok((self.parts.m_cost, self.parts.t_cost, self.parts.p_cost)),
            code => Err(refusal(code)),
        }
    }

    /// The key identifier, empty if there is none or if the PHC string is no hash of Argon2.
    pub(crate) fn keyid(&self) -> &[u8] {
        front(&self.parts.keyid, self.parts.keyid_len)
    }

    /// The associated data, empty if there is none or if the PHC string is no hash of Argon2.
    pub(crate) fn data(&self) -> &[u8] {
        front(&self.parts.data, self.parts.data_len)
    }
}

/// Returns the first `len` bytes.
fn front(bytes: &[u8], len: u32) -> &[u8] {
    bytes.get(..len as usize).unwrap_or_default()
}

/// Sets words to zero, even if nothing reads them again.
pub(crate) fn wipe(words: &mut [u64]) {
    for word in words {
        // SAFETY: only this call borrows the word.
        unsafe { ptr::write_volatile(word, 0) };
    }
}

/// Returns the error of a hasher for a code.
fn error(code: c_int) -> Error {
    match code {
        OUTPUT_TOO_SHORT => Error::OutputTooShort,
        OUTPUT_TOO_LONG => Error::OutputTooLong,
        PASSWORD_TOO_LONG => Error::PwdTooLong,
        SALT_TOO_SHORT => Error::SaltTooShort,
        SALT_TOO_LONG => Error::SaltTooLong,
        DATA_TOO_LONG => Error::AdTooLong,
        SECRET_TOO_LONG => Error::SecretTooLong,
        PASSES_TOO_FEW => Error::TimeTooSmall,
        MEMORY_TOO_LITTLE | BLOCKS_TOO_FEW => Error::MemoryTooLittle,
        LANES_TOO_FEW => Error::ThreadsTooFew,
        LANES_TOO_MANY => Error::ThreadsTooMany,
        OUT_OF_MEMORY => Error::OutOfMemory,
        KEYID_TOO_LONG => Error::KeyIdTooLong,
        ALGORITHM => Error::AlgorithmInvalid,
        VERSION => Error::VersionInvalid,
        _ => another_library(code),
    }
}

/// Returns the error of a stored hash for a code.
fn refusal(code: c_int) -> password_hash::Error {
    use password_hash::Error as To;
    match code {
        NO_RANDOM => To::Crypto,
        TEXT_INVALID => To::EncodingInvalid,
        TEXT_MEMORY => To::ParamInvalid { name: "m" },
        TEXT_PASSES => To::ParamInvalid { name: "t" },
        TEXT_LANES => To::ParamInvalid { name: "p" },
        TEXT_KEYID => To::ParamInvalid { name: "keyid" },
        TEXT_DATA => To::ParamInvalid { name: "data" },
        TEXT_PARAMETERS => To::ParamsInvalid,
        TEXT_INCOMPLETE | MISMATCH => To::PasswordInvalid,
        code => error(code).into(),
    }
}

/// Returns the error of a stored hash that is verified within a bound, for a code.
fn bound_refusal(code: c_int) -> BoundError {
    match code {
        ABOVE_BOUND => BoundError::TooExpensive,
        WANTED_OUT_OF_BOUND => BoundError::WantedTooExpensive,
        code => refusal(code).into(),
    }
}

/// Ends a call that was refused by a code which the library of this package never returns for it.
fn another_library(code: c_int) -> ! {
    // SAFETY: the call accepts any number, and returns a constant string that ends with a zero byte.
    let message = unsafe { CStr::from_ptr(argon2p_error_message(code)) };
    panic!("another libargon2 than this package's is linked: {message:?} ({code})");
}

#[cfg(test)]
mod tests {
    use super::*;
    use std::path::Path;

    /// Each number is the number of the header. A package outside the repository has no header.
    #[test]
    fn numbers_are_those_of_the_header() {
        let header = Path::new(env!("CARGO_MANIFEST_DIR")).join("../c/argon2_phc.h");
        let Ok(header) = std::fs::read_to_string(header) else {
            return;
        };
        for (name, code) in CODES {
            let line = format!("ARGON2P_{name} = {code}");
            let mut ends = header.split(&line).skip(1);
            let is_whole = |it: &str| !it.starts_with(|c: char| c.is_ascii_digit());
            assert!(ends.any(is_whole), "{line}");
        }
        let check_define = |name: &str, number: &dyn ToString| {
            let define = format!("#define ARGON2P_{name} {}", number.to_string());
            let mut lines = header.lines().map(|it| it.split("/*").next().unwrap_or(it));
            assert!(lines.any(|it| it.trim_end() == define), "{define}");
        };
        for (name, outcome) in OUTCOMES {
            check_define(name, outcome);
        }
        for (name, most) in BOUNDS {
            check_define(name, most);
        }
        check_define("TEXT_SIZE", &TEXT_SIZE);
    }
}
