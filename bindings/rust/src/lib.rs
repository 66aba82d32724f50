#![doc = include_str!("../README.md")]
#![warn(clippy::expect_used, clippy::unwrap_used)]

#[cfg(not(target_pointer_width = "64"))]
compile_error!("libargon2 has lengths of 64 bits");

mod algorithm;
mod block;
pub mod bound;
mod bytes;
mod context;
mod error;
pub mod kdf;
mod login;
mod params;
pub mod password_hash;
mod sys;
mod version;

pub use algorithm::{ARGON2D_IDENT, ARGON2I_IDENT, ARGON2ID_IDENT, Algorithm};
pub use block::Block;
pub use bound::Bound;
pub use context::Argon2;
pub use error::{B64Error, Error, Result};
pub use kdf::{Kdf, Pbkdf};
pub use login::LoggedIn;
pub use params::{AssociatedData, KeyId, Params, ParamsBuilder};
pub use password_hash::{
    CustomizedPasswordHasher, PasswordHasher, PasswordVerifier, phc::PasswordHash,
};
pub use version::Version;

/// The most bytes of a password.
pub const MAX_PWD_LEN: usize = 0xFFFF_FFFF;
/// The fewest bytes of a salt.
pub const MIN_SALT_LEN: usize = 8;
/// The most bytes of a salt.
pub const MAX_SALT_LEN: usize = 0xFFFF_FFFF;
/// The bytes that a salt of a password should have.
pub const RECOMMENDED_SALT_LEN: usize = 16;
/// The most bytes of a secret.
pub const MAX_SECRET_LEN: usize = 0xFFFF_FFFF;
