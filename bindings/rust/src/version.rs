//! The versions of Argon2.

use crate::{Error, Result};

/// A version of Argon2.
#[derive(Clone, Copy, Debug, Default, Eq, Ord, PartialEq, PartialOrd)]
#[repr(u32)]
pub enum Version {
    /// Version 16, in which each pass overwrites the blocks of the pass before.
    V0x10 = 0x10,
    /// Version 19, the version of RFC 9106, in which each block is xored with the same block of the pass before.
    #[default]
    V0x13 = 0x13,
}

impl From<Version> for u32 {
    fn from(version: Version) -> u32 {
        version as u32
    }
}

/// Returns the version with this number.
///
/// # Errors
/// [`Error::VersionInvalid`] if no version has the number.
impl TryFrom<u32> for Version {
    type Error = Error;

    fn try_from(number: u32) -> Result<Self> {
        let version = [Version::V0x10, Version::V0x13]
            .into_iter()
            .find(|it| u32::from(*it) == number);
        version.ok_or(Error::VersionInvalid)
    }
}
