//! Makes stored hashes of passwords, and verifies passwords by them.

pub mod phc;

use std::fmt::{self, Debug, Display};

/// A result with [`Error`].
pub type Result<T> = std::result::Result<T, Error>;

/// Why no hash is made, or a stored hash does not accept a password.
#[derive(Clone, Copy, Debug, Eq, PartialEq)]
#[non_exhaustive]
pub enum Error {
    /// No variant has the identifier.
    Algorithm,
    /// The system gave no random bytes.
    Crypto,
    /// The stored hash is outside the grammar.
    EncodingInvalid,
    /// The system refused memory.
    OutOfMemory,
    /// The tag has a length that no stored hash has, or another length than the parameters name.
    OutputSize,
    /// A parameter is invalid.
    ParamInvalid {
        /// Its name.
        name: &'static str,
    },
    /// The parameters are invalid.
    ParamsInvalid,
    /// The stored hash does not accept the password, or the password is too long.
    PasswordInvalid,
    /// The salt has a length that no stored hash has.
    SaltInvalid,
    /// No version has the number.
    Version,
}

impl Display for Error {
    fn fmt(&self, f: &mut fmt::Formatter<'_>) -> fmt::Result {
        f.write_str(match self {
            Error::Algorithm => "algorithm is not supported",
            Error::Crypto => "no random bytes",
            Error::EncodingInvalid => "encoding is invalid",
            Error::OutOfMemory => "out of memory",
            Error::OutputSize => "output size is invalid",
            Error::ParamInvalid { name } => return write!(f, "parameter {name} is invalid"),
            Error::ParamsInvalid => "parameters are invalid",
            Error::PasswordInvalid => "password is invalid",
            Error::SaltInvalid => "salt is invalid",
            Error::Version => "version is not supported",
        })
    }
}

impl std::error::Error for Error {}

/// Hashes passwords to values of `H`.
pub trait PasswordHasher<H> {
    /// Hashes a password with this salt.
    ///
    /// # Errors
    /// The hasher names them.
    fn hash_password_with_salt(&self, password: &[u8], salt: &[u8]) -> Result<H>;

    /// Hashes a password with a salt of 16 bytes, which the system draws.
    ///
    /// # Errors
    /// [`Error::Crypto`] if the system gives no random bytes, and the errors of [`PasswordHasher::hash_password_with_salt`].
    fn hash_password(&self, password: &[u8]) -> Result<H> {
        self.hash_password_with_salt(password, &phc::Salt::generate()?)
    }
}

/// Hashes passwords under parameters of the caller.
pub trait CustomizedPasswordHasher<H> {
    /// The parameters.
    type Params: Clone + Debug + Default;

    /// Hashes a password under an algorithm, a version and parameters. `None` means the default algorithm, or the default
    /// version.
    ///
    /// # Errors
    /// The hasher names them.
    fn hash_password_customized(
        &self,
        password: &[u8],
        salt: &[u8],
        algorithm: Option<&str>,
        version: Option<u32>,
        params: Self::Params,
    ) -> Result<H>;

    /// Hashes a password under these parameters, by the default algorithm and version.
    ///
    /// # Errors
    /// The errors of [`CustomizedPasswordHasher::hash_password_customized`].
    fn hash_password_with_params(
        &self,
        password: &[u8],
        salt: &[u8],
        params: Self::Params,
    ) -> Result<H> {
        self.hash_password_customized(password, salt, None, None, params)
    }
}

/// Verifies passwords by values of `H`.
pub trait PasswordVerifier<H: ?Sized> {
    /// Verifies that a password has this hash.
    ///
    /// # Errors
    /// [`Error::PasswordInvalid`] if the password does not have this hash. The verifier names other errors.
    fn verify_password(&self, password: &[u8], hash: &H) -> Result<()>;
}
