//! Derives keys from passwords.

use std::fmt::{self, Display};

/// No key could be derived.
#[derive(Clone, Copy, Debug, Eq, PartialEq)]
pub struct Error;

/// A result with [`Error`].
pub type Result<T> = std::result::Result<T, Error>;

impl Display for Error {
    fn fmt(&self, f: &mut fmt::Formatter<'_>) -> fmt::Result {
        f.write_str("key derivation failed")
    }
}

impl std::error::Error for Error {}

/// Derives keys.
pub trait Kdf {
    /// Fills `out` with a key that is derived from `secret` and `salt`.
    ///
    /// # Errors
    /// [`Error`] if there is no key; `out` is then as before.
    fn derive_key(&self, secret: &[u8], salt: &[u8], out: &mut [u8]) -> Result<()>;
}

/// Derives keys from passwords.
pub trait Pbkdf: Kdf {}
