//! A bound on what a stored hash may ask for.

use crate::password_hash;
use crate::{Argon2, sys};
use std::fmt::{self, Display};

/// The most that a stored hash may ask for.
#[derive(Clone, Copy, Debug, Eq, PartialEq)]
pub struct Bound {
    /// Blocks of 1024 bytes.
    pub m_cost: u32,
    /// Passes.
    pub t_cost: u32,
    /// Lanes.
    pub p_cost: u32,
}

/// The default bound of the library.
impl Default for Bound {
    fn default() -> Self {
        Self::DEFAULT
    }
}

impl Bound {
    /// The default bound of the library, which has 2 GiB, 64 passes and 64 lanes. The most expensive stored hash within it needs
    /// half a minute of a processor or more, so set what your own hashes need.
    pub const DEFAULT: Self = sys::DEFAULT_BOUND;

    /// The bound that no stored hash is above.
    pub(crate) const LARGEST: Self = Self {
        m_cost: u32::MAX,
        t_cost: u32::MAX,
        p_cost: u32::MAX,
    };

    /// Verifies a password by the stored hash `text`. It is Ok if the stored hash asks for no more than this bound, and accepts
    /// the password under the secret key ("pepper") of `argon2`.
    ///
    /// # Errors
    /// The first of these that holds:
    /// - [`BoundError::Refused`] with the error of reading the stored hash or its parameters.
    /// - [`BoundError::TooExpensive`] if a cost is above the bound, before any memory is requested.
    /// - [`BoundError::Refused`] with the error of `verify_password`.
    pub fn verify(
        &self,
        argon2: &Argon2<'_>,
        password: &[u8],
        text: &str,
    ) -> Result<(), BoundError> {
        sys::verify(argon2, None, password, text, self).map(drop)
    }

    /// Verifies a password while the secret changes, like [`Argon2::log_in`], which also makes the new hash. If the stored hash does not accept the password under the secret of
    /// `argon2`, this tries `old_secret`. An old secret of no bytes is for hashes that were stored without a secret. Returns
    /// whether the old secret accepted the password. In that case store a new hash.
    ///
    /// # Errors
    /// The errors of [`Bound::verify`], of both secrets. An old secret above 4294967295 bytes is refused by
    /// [`ParamsInvalid`](password_hash::Error::ParamsInvalid) before memory is requested.
    pub fn verify_under_both(
        &self,
        argon2: &Argon2<'_>,
        old_secret: &[u8],
        password: &[u8],
        text: &str,
    ) -> Result<bool, BoundError> {
        sys::verify(argon2, Some(old_secret), password, text, self)
    }
}

/// Why a stored hash does not accept a password within a bound.
#[derive(Clone, Copy, Debug, Eq, PartialEq)]
pub enum BoundError {
    /// The stored hash asks for more than the bound.
    TooExpensive,
    /// New hashes ask for more than the bound, whatever the stored hash and the password are.
    WantedTooExpensive,
    /// Reading the stored hash, or verifying the password by it, fails with this error.
    Refused(password_hash::Error),
}

impl Display for BoundError {
    fn fmt(&self, f: &mut fmt::Formatter<'_>) -> fmt::Result {
        match self {
            BoundError::TooExpensive => f.write_str("text asks for more than the bound"),
            BoundError::WantedTooExpensive => f.write_str("new hashes ask for more than the bound"),
            BoundError::Refused(error) => error.fmt(f),
        }
    }
}

impl std::error::Error for BoundError {}

impl From<password_hash::Error> for BoundError {
    fn from(error: password_hash::Error) -> BoundError {
        BoundError::Refused(error)
    }
}
