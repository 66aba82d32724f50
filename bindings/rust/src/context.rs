//! A hasher with its settings.

use crate::bound::{Bound, BoundError};
use crate::password_hash::{
    self, CustomizedPasswordHasher, PasswordHasher, PasswordVerifier, phc::PasswordHash,
};
use crate::{Algorithm, Block, Kdf, Params, Pbkdf, Result, Version, kdf, sys};
use std::fmt;

#[cfg(doc)]
use crate::Error;

/// A hasher, which has a variant, a version, parameters, and possibly a secret key ("pepper").
#[derive(Clone, Default)]
pub struct Argon2<'key> {
    pub(crate) algorithm: Algorithm,
    pub(crate) version: Version,
    pub(crate) params: Params,
    pub(crate) secret: Option<&'key [u8]>,
}

/// Shows no secret.
impl fmt::Debug for Argon2<'_> {
    fn fmt(&self, f: &mut fmt::Formatter<'_>) -> fmt::Result {
        f.debug_struct("Argon2")
            .field("algorithm", &self.algorithm)
            .field("version", &self.version)
            .field("params", &self.params)
            .finish_non_exhaustive()
    }
}

impl<'key> Argon2<'key> {
    /// Makes a hasher without a secret.
    #[must_use]
    pub fn new(algorithm: Algorithm, version: Version, params: Params) -> Self {
        Self {
            algorithm,
            version,
            params,
            secret: None,
        }
    }

    /// Makes a hasher with a secret. An empty secret gives the same tags as no secret.
    ///
    /// # Errors
    /// [`Error::SecretTooLong`](crate::Error::SecretTooLong) if it is longer than [`MAX_SECRET_LEN`](crate::MAX_SECRET_LEN).
    pub fn new_with_secret(
        secret: &'key [u8],
        algorithm: Algorithm,
        version: Version,
        params: Params,
    ) -> Result<Self> {
        let argon2 = Self {
            algorithm,
            version,
            params,
            secret: Some(secret),
        };
        sys::check_hasher(&argon2)?;
        Ok(argon2)
    }

    /// The parameters.
    #[must_use]
    pub const fn params(&self) -> &Params {
        &self.params
    }

    /// Fills `out` with the tag of a password and a salt. The memory comes from `malloc`, and is erased.
    ///
    /// # Errors
    /// The first of these that holds; `out` is then as before:
    /// - [`Error::OutputTooShort`] if `out` is shorter than the parameters' output length, or than 4 bytes if they name none.
    /// - [`Error::OutputTooLong`] if `out` is longer than that output length, or than 4294967295 bytes.
    /// - [`Error::PwdTooLong`] if the password is longer than [`MAX_PWD_LEN`](crate::MAX_PWD_LEN).
    /// - [`Error::SaltTooShort`] if the salt is shorter than [`MIN_SALT_LEN`](crate::MIN_SALT_LEN).
    /// - [`Error::SaltTooLong`] if it is longer than [`MAX_SALT_LEN`](crate::MAX_SALT_LEN).
    /// - [`Error::OutOfMemory`] if the system refused memory.
    pub fn hash_password_into(&self, pwd: &[u8], salt: &[u8], out: &mut [u8]) -> Result<()> {
        sys::tag(self, pwd, salt, out, None)
    }

    /// Fills `out` with the tag of a password and a salt, on memory that you supply. The call uses [`Params::block_count`]
    /// blocks.
    ///
    /// # Errors
    /// The errors of [`Argon2::hash_password_into`], except that [`Error::MemoryTooLittle`] replaces [`Error::OutOfMemory`], and
    /// means that there are fewer blocks. With an error `out` and the memory are as before.
    pub fn hash_password_into_with_memory(
        &self,
        pwd: &[u8],
        salt: &[u8],
        out: &mut [u8],
        mut memory_blocks: impl AsMut<[Block]>,
    ) -> Result<()> {
        sys::tag(self, pwd, salt, out, Some(memory_blocks.as_mut()))
    }

    /// Fills memory that you supply as for an output of 0 bytes, lane by lane, and makes no tag.
    ///
    /// # Errors
    /// The first of these that holds; the memory is then as before:
    /// - [`Error::PwdTooLong`], [`Error::SaltTooShort`], [`Error::SaltTooLong`] as for [`Argon2::hash_password_into`].
    /// - [`Error::MemoryTooLittle`] if there are fewer than [`Params::block_count`] blocks.
    pub fn fill_memory(
        &self,
        pwd: &[u8],
        salt: &[u8],
        mut memory_blocks: impl AsMut<[Block]>,
    ) -> Result<()> {
        sys::fill(self, pwd, salt, memory_blocks.as_mut())
    }

    /// Returns whether the stored hash `text` shows another algorithm, version, parameter or length of its tag than a new hash of
    /// this hasher. The call does not look at the secret.
    ///
    /// This is for reports, for example of which stored hashes do not have the settings of today. It is also true for a stored hash
    /// that is stronger. To decide which hashes to replace, call [`Argon2::log_in`] or [`Argon2::is_weaker`].
    ///
    /// # Errors
    /// The error of reading the stored hash or its settings, as for `verify_password`.
    pub fn needs_rehash(&self, text: &str) -> password_hash::Result<bool> {
        sys::needs_rehash(self, text)
    }
}

impl From<Params> for Argon2<'_> {
    fn from(params: Params) -> Self {
        Self::new(Algorithm::default(), Version::default(), params)
    }
}

impl From<&Params> for Argon2<'_> {
    fn from(params: &Params) -> Self {
        Self::from(params.clone())
    }
}

/// Derives keys by [`Argon2::hash_password_into`].
impl Kdf for Argon2<'_> {
    fn derive_key(&self, secret: &[u8], salt: &[u8], out: &mut [u8]) -> kdf::Result<()> {
        Ok(self.hash_password_into(secret, salt, out)?)
    }
}

impl Pbkdf for Argon2<'_> {}

/// Makes stored hashes. If the parameters have no output length, the tag has 32 bytes. The errors are, in this order:
///
/// - [`SaltInvalid`](password_hash::Error::SaltInvalid) if the salt has fewer than 8 or more than 48 bytes.
/// - [`OutputSize`](password_hash::Error::OutputSize) if the output length is above 64.
/// - the errors of [`Argon2::hash_password_into`].
impl PasswordHasher<PasswordHash> for Argon2<'_> {
    fn hash_password_with_salt(
        &self,
        password: &[u8],
        salt: &[u8],
    ) -> password_hash::Result<PasswordHash> {
        PasswordHash::new(&sys::hash(self, password, Some(salt))?)
    }
}

/// Hashes under the secret of `self`. If no identifier is given, it hashes by Argon2id, and if no version is given, by version
/// 0x13.
///
/// Refuses an unknown identifier by [`Algorithm`](password_hash::Error::Algorithm), then an unknown version by
/// [`Version`](password_hash::Error::Version). Then the errors are the errors of `hash_password_with_salt`.
impl CustomizedPasswordHasher<PasswordHash> for Argon2<'_> {
    type Params = Params;

    fn hash_password_customized(
        &self,
        password: &[u8],
        salt: &[u8],
        algorithm: Option<&str>,
        version: Option<u32>,
        params: Params,
    ) -> password_hash::Result<PasswordHash> {
        let hasher = Argon2 {
            algorithm: algorithm.map_or(Ok(Algorithm::default()), Algorithm::try_from)?,
            version: version.map_or(Ok(Version::default()), Version::try_from)?,
            params,
            secret: self.secret,
        };
        hasher.hash_password_with_salt(password, salt)
    }
}

/// Verifies a password by a stored hash, under the secret of `self`. The error is the first of these that holds:
///
/// - [`EncodingInvalid`](password_hash::Error::EncodingInvalid): the stored hash is outside the grammar.
/// - [`PasswordInvalid`](password_hash::Error::PasswordInvalid): there is no salt or no tag.
/// - the error of its [`Params`].
/// - [`Algorithm`](password_hash::Error::Algorithm): no variant has the identifier.
/// - [`Version`](password_hash::Error::Version): the version is neither 16 nor 19. A stored hash without a version is of
///   version 16.
/// - [`OutOfMemory`](password_hash::Error::OutOfMemory): the system refused memory.
/// - [`PasswordInvalid`](password_hash::Error::PasswordInvalid): the password does not have this tag.
///
/// A stored hash may ask for up to 4 TiB of memory. To bound what it may ask for, call [`Bound::verify`].
impl PasswordVerifier<str> for Argon2<'_> {
    fn verify_password(&self, password: &[u8], hash: &str) -> password_hash::Result<()> {
        self.verify_password(password, &PasswordHash::new(hash)?)
    }
}

/// Verifies a password by the PHC string that this hash prints.
impl PasswordVerifier<PasswordHash> for Argon2<'_> {
    fn verify_password(&self, password: &[u8], hash: &PasswordHash) -> password_hash::Result<()> {
        // (the library checks the parameters of a stored hash first)
        if hash.salt.is_none() || hash.hash.is_none() {
            return Err(password_hash::Error::PasswordInvalid);
        }
        match Bound::LARGEST.verify(self, password, &hash.to_string()) {
            Ok(()) => Ok(()),
            Err(BoundError::Refused(error)) => Err(error),
            Err(BoundError::TooExpensive | BoundError::WantedTooExpensive) => {
                unreachable!("no cost is above the largest")
            }
        }
    }
}
