//! Why a call fails.

use crate::{kdf, password_hash};
use std::fmt::{self, Display};

/// A result with [`Error`].
pub type Result<T> = std::result::Result<T, Error>;

/// Why a call that hashes or makes a value fails.
#[derive(Clone, Copy, Debug, Eq, PartialEq)]
pub enum Error {
    /// The associated data is too long.
    AdTooLong,
    /// No variant has the identifier.
    AlgorithmInvalid,
    /// A string is not the Base64 of a value.
    B64Encoding(B64Error),
    /// The key identifier is too long.
    KeyIdTooLong,
    /// The memory cost is too small, or the memory of the caller has too few blocks.
    MemoryTooLittle,
    /// No call returns this error.
    MemoryTooMuch,
    /// The output is too short.
    OutputTooShort,
    /// The output is too long.
    OutputTooLong,
    /// The password is too long.
    PwdTooLong,
    /// The salt is too short.
    SaltTooShort,
    /// The salt is too long.
    SaltTooLong,
    /// The secret is too long.
    SecretTooLong,
    /// There is no lane.
    ThreadsTooFew,
    /// There are too many lanes.
    ThreadsTooMany,
    /// There is no pass.
    TimeTooSmall,
    /// No version has the number.
    VersionInvalid,
    /// The system refused memory.
    OutOfMemory,
}

impl Display for Error {
    fn fmt(&self, f: &mut fmt::Formatter<'_>) -> fmt::Result {
        f.write_str(match self {
            Error::AdTooLong => "associated data is too long",
            Error::AlgorithmInvalid => "algorithm identifier invalid",
            Error::B64Encoding(cause) => return write!(f, "B64 encoding invalid: {cause}"),
            Error::KeyIdTooLong => "key ID is too long",
            Error::MemoryTooLittle => "memory cost is too small",
            Error::MemoryTooMuch => "memory cost is too large",
            Error::OutputTooShort => "output is too short",
            Error::OutputTooLong => "output is too long",
            Error::PwdTooLong => "password is too long",
            Error::SaltTooShort => "salt is too short",
            Error::SaltTooLong => "salt is too long",
            Error::SecretTooLong => "secret is too long",
            Error::ThreadsTooFew => "not enough threads",
            Error::ThreadsTooMany => "too many threads",
            Error::TimeTooSmall => "time cost is too small",
            Error::VersionInvalid => "invalid version",
            Error::OutOfMemory => "out of memory",
        })
    }
}

impl std::error::Error for Error {
    fn source(&self) -> Option<&(dyn std::error::Error + 'static)> {
        match self {
            Error::B64Encoding(cause) => Some(cause),
            _ => None,
        }
    }
}

/// Why a string is not the Base64 of a value.
#[derive(Clone, Copy, Debug, Eq, PartialEq)]
pub enum B64Error {
    /// It is not the Base64 of any bytes.
    InvalidEncoding,
    /// It is longer than the Base64 of the most bytes that the value may have.
    InvalidLength,
}

impl Display for B64Error {
    fn fmt(&self, f: &mut fmt::Formatter<'_>) -> fmt::Result {
        f.write_str(match self {
            B64Error::InvalidEncoding => "invalid Base64 encoding",
            B64Error::InvalidLength => "invalid Base64 length",
        })
    }
}

impl std::error::Error for B64Error {}

impl From<B64Error> for Error {
    fn from(cause: B64Error) -> Error {
        Error::B64Encoding(cause)
    }
}

impl From<Error> for kdf::Error {
    fn from(_: Error) -> kdf::Error {
        kdf::Error
    }
}

impl From<Error> for password_hash::Error {
    fn from(error: Error) -> password_hash::Error {
        use password_hash::Error as To;
        match error {
            Error::AdTooLong => To::ParamInvalid { name: "data" },
            Error::KeyIdTooLong => To::ParamInvalid { name: "keyid" },
            Error::MemoryTooLittle | Error::MemoryTooMuch => To::ParamInvalid { name: "m" },
            Error::ThreadsTooFew | Error::ThreadsTooMany => To::ParamInvalid { name: "p" },
            Error::TimeTooSmall => To::ParamInvalid { name: "t" },
            Error::AlgorithmInvalid => To::Algorithm,
            Error::VersionInvalid => To::Version,
            Error::B64Encoding(_) => To::EncodingInvalid,
            Error::OutputTooShort | Error::OutputTooLong => To::OutputSize,
            Error::PwdTooLong => To::PasswordInvalid,
            Error::SaltTooShort | Error::SaltTooLong => To::SaltInvalid,
            Error::SecretTooLong => To::ParamsInvalid,
            Error::OutOfMemory => To::OutOfMemory,
        }
    }
}
