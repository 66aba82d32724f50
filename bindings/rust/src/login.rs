//! A login by a stored hash.

use crate::bound::{Bound, BoundError};
use crate::{Argon2, password_hash, sys};

#[cfg(doc)]
use crate::password_hash::Error;

/// What becomes of the stored hash after a login that is accepted.
#[derive(Clone, Debug, Eq, PartialEq)]
pub enum LoggedIn {
    /// The stored hash stays.
    Current,
    /// Store this hash in place of the stored hash.
    Renewed(String),
    /// A new hash was due, and could not be made, because the system refused memory or random bytes. The stored hash stays, and
    /// the next login tries again.
    Kept,
}

impl Argon2<'_> {
    /// Verifies a password by the stored hash `text` within a bound, and makes a new hash if one is due. A new hash is due if only
    /// the old secret accepted the password, or if the stored hash is weaker than new hashes ([`Argon2::is_weaker`]). It is made
    /// under the settings of this hasher, with a salt that the library draws. An old secret of no bytes is for hashes that were
    /// stored without a secret.
    ///
    /// It is Ok if and only if the stored hash is accepted as by [`Bound::verify`], or by [`Bound::verify_under_both`] if there is
    /// an old secret. An accepted password is never an error.
    ///
    /// # Errors
    /// The first of these that holds:
    /// - [`BoundError::WantedTooExpensive`] if a cost of this hasher is above the bound.
    /// - [`BoundError::Refused`] with [`Error::OutputSize`] if the output length of this hasher is above 64.
    /// - the errors of [`Bound::verify`] or [`Bound::verify_under_both`].
    pub fn log_in(
        &self,
        bound: &Bound,
        old_secret: Option<&[u8]>,
        password: &[u8],
        text: &str,
    ) -> Result<LoggedIn, BoundError> {
        sys::log_in(self, old_secret, password, text, bound)
    }

    /// Returns whether the stored hash `text` is weaker than a new hash of this hasher, so that [`Argon2::log_in`] replaces it. It
    /// is weaker if it shows another algorithm, version, key identifier or associated data, a lower cost or a shorter tag. A stored
    /// hash with higher costs or a longer tag is not weaker. The call does not look at the secret.
    ///
    /// # Errors
    /// The error of reading the stored hash or its settings, as for `verify_password`.
    pub fn is_weaker(&self, text: &str) -> password_hash::Result<bool> {
        sys::is_weaker(self, text)
    }
}
