//! The variants of Argon2.

use crate::password_hash::{self, phc::Ident};
use crate::{Error, Result};
use std::fmt::{self, Display};
use std::str::FromStr;

/// The identifier of Argon2d in a PHC string.
pub const ARGON2D_IDENT: Ident = Ident::literal("argon2d");
/// The identifier of Argon2i in a PHC string.
pub const ARGON2I_IDENT: Ident = Ident::literal("argon2i");
/// The identifier of Argon2id in a PHC string.
pub const ARGON2ID_IDENT: Ident = Ident::literal("argon2id");

/// A variant of Argon2.
#[derive(Clone, Copy, Debug, Default, Eq, Ord, PartialEq, PartialOrd)]
pub enum Algorithm {
    /// Everywhere the password decides which blocks are read.
    Argon2d = 0,
    /// The password never decides which blocks are read.
    Argon2i = 1,
    /// Reads blocks like Argon2i in the first half of the first pass, and then like Argon2d.
    #[default]
    Argon2id = 2,
}

impl Algorithm {
    const ALL: [Algorithm; 3] = [Algorithm::Argon2d, Algorithm::Argon2i, Algorithm::Argon2id];

    /// Returns the variant with this identifier.
    ///
    /// # Errors
    /// [`Error::AlgorithmInvalid`] if there is none.
    pub fn new(id: impl AsRef<str>) -> Result<Self> {
        id.as_ref().parse()
    }

    /// The identifier of the variant.
    #[must_use]
    pub const fn as_str(&self) -> &'static str {
        match self {
            Algorithm::Argon2d => "argon2d",
            Algorithm::Argon2i => "argon2i",
            Algorithm::Argon2id => "argon2id",
        }
    }

    /// The identifier of the variant in PHC strings.
    #[must_use]
    pub const fn ident(&self) -> Ident {
        match self {
            Algorithm::Argon2d => ARGON2D_IDENT,
            Algorithm::Argon2i => ARGON2I_IDENT,
            Algorithm::Argon2id => ARGON2ID_IDENT,
        }
    }
}

impl AsRef<str> for Algorithm {
    fn as_ref(&self) -> &str {
        self.as_str()
    }
}

impl Display for Algorithm {
    fn fmt(&self, f: &mut fmt::Formatter<'_>) -> fmt::Result {
        f.pad(self.as_str())
    }
}

/// Does what [`Algorithm::new`] does.
impl FromStr for Algorithm {
    type Err = Error;

    fn from_str(id: &str) -> Result<Self> {
        let algorithm = Algorithm::ALL.into_iter().find(|it| it.as_str() == id);
        algorithm.ok_or(Error::AlgorithmInvalid)
    }
}

/// Does what [`Algorithm::new`] does, with the error [`password_hash::Error::Algorithm`].
impl TryFrom<&str> for Algorithm {
    type Error = password_hash::Error;

    fn try_from(id: &str) -> password_hash::Result<Self> {
        Ok(Algorithm::new(id)?)
    }
}

impl From<Algorithm> for Ident {
    fn from(algorithm: Algorithm) -> Ident {
        algorithm.ident()
    }
}
