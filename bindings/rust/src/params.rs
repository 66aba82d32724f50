//! The parameters of a hash.

use crate::bytes::Bytes;
use crate::password_hash::{
    self,
    phc::{self, ParamsString, PasswordHash},
};
use crate::{ARGON2ID_IDENT, Algorithm, Argon2, B64Error, Error, Result, Version, sys};
use std::fmt::{self, Display};
use std::str::FromStr;

/// The parameters of a hash, which are valid.
#[derive(Clone, Debug, Eq, PartialEq)]
pub struct Params {
    m_cost: u32,
    t_cost: u32,
    p_cost: u32,
    keyid: KeyId,
    data: AssociatedData,
    output_len: Option<usize>,
}

impl Params {
    /// The memory cost of [`Params::DEFAULT`].
    pub const DEFAULT_M_COST: u32 = 19456;
    /// The least memory cost.
    pub const MIN_M_COST: u32 = 8;
    /// The largest memory cost.
    pub const MAX_M_COST: u32 = u32::MAX;
    /// The number of passes of [`Params::DEFAULT`].
    pub const DEFAULT_T_COST: u32 = 2;
    /// The least number of passes.
    pub const MIN_T_COST: u32 = 1;
    /// The largest number of passes.
    pub const MAX_T_COST: u32 = u32::MAX;
    /// The number of lanes of [`Params::DEFAULT`].
    pub const DEFAULT_P_COST: u32 = 1;
    /// The least number of lanes.
    pub const MIN_P_COST: u32 = 1;
    /// The largest number of lanes.
    pub const MAX_P_COST: u32 = 0x00FF_FFFF;
    /// The most bytes of a key identifier.
    pub const MAX_KEYID_LEN: usize = 8;
    /// The most bytes of associated data.
    pub const MAX_DATA_LEN: usize = 32;
    /// The bytes of the tag in a stored hash if the parameters name no output length.
    pub const DEFAULT_OUTPUT_LEN: usize = 32;
    /// The fewest bytes of an output.
    pub const MIN_OUTPUT_LEN: usize = 4;
    /// The most bytes of an output.
    pub const MAX_OUTPUT_LEN: usize = 0xFFFF_FFFF;

    /// 19 MiB, two passes, one lane, no key identifier, no associated data, no output length.
    pub const DEFAULT: Self = Self {
        m_cost: Self::DEFAULT_M_COST,
        t_cost: Self::DEFAULT_T_COST,
        p_cost: Self::DEFAULT_P_COST,
        keyid: KeyId::EMPTY,
        data: AssociatedData::EMPTY,
        output_len: None,
    };

    /// Makes parameters without a key identifier and associated data. `m_cost` is the number of blocks of 1024 bytes, `t_cost`
    /// the number of passes, and `p_cost` the number of lanes. An output has the length `output_len`, or any length if it is
    /// `None`.
    ///
    /// # Errors
    /// The first of these that holds:
    /// - [`Error::MemoryTooLittle`] if `m_cost` is below 8.
    /// - [`Error::ThreadsTooFew`] if `p_cost` is 0.
    /// - [`Error::ThreadsTooMany`] if `p_cost` is above 16777215.
    /// - [`Error::MemoryTooLittle`] if `m_cost` is below 8 times `p_cost`.
    /// - [`Error::TimeTooSmall`] if `t_cost` is 0.
    /// - [`Error::OutputTooShort`] if `output_len` is below 4.
    /// - [`Error::OutputTooLong`] if `output_len` is above 4294967295.
    pub fn new(m_cost: u32, t_cost: u32, p_cost: u32, output_len: Option<usize>) -> Result<Self> {
        sys::check_params(m_cost, t_cost, p_cost, output_len)?;
        Ok(Self {
            m_cost,
            t_cost,
            p_cost,
            output_len,
            ..Self::DEFAULT
        })
    }

    /// The number of blocks of 1024 bytes that the parameters ask for.
    #[must_use]
    pub const fn m_cost(&self) -> u32 {
        self.m_cost
    }

    /// The number of passes.
    #[must_use]
    pub const fn t_cost(&self) -> u32 {
        self.t_cost
    }

    /// The number of lanes.
    #[must_use]
    pub const fn p_cost(&self) -> u32 {
        self.p_cost
    }

    /// The key identifier, which stored hashes show, and which changes no tag.
    #[must_use]
    pub fn keyid(&self) -> &[u8] {
        self.keyid.as_bytes()
    }

    /// The associated data.
    #[must_use]
    pub fn data(&self) -> &[u8] {
        self.data.as_bytes()
    }

    /// The length of an output in bytes, or `None` if an output may have any length.
    #[must_use]
    pub const fn output_len(&self) -> Option<usize> {
        self.output_len
    }

    /// The number of blocks of 1024 bytes that a hash fills. It is the largest multiple of four times the lanes up to `m_cost`.
    #[must_use]
    pub const fn block_count(&self) -> usize {
        (self.m_cost - self.m_cost % (4 * self.p_cost)) as usize
    }
}

impl Default for Params {
    fn default() -> Self {
        Self::DEFAULT
    }
}

/// Prints the parameter list of a PHC string: `m=..,t=..,p=..`, then `,keyid=..` and `,data=..` if they are not empty.
impl Display for Params {
    fn fmt(&self, f: &mut fmt::Formatter<'_>) -> fmt::Result {
        let text = phc::list_text(self).map_err(|_| fmt::Error)?;
        f.pad(&text)
    }
}

/// Reads a parameter list, which names no output length.
///
/// # Errors
/// [`ParamsInvalid`](password_hash::Error::ParamsInvalid) if it is no list, and otherwise the errors of a [`ParamsString`].
impl FromStr for Params {
    type Err = password_hash::Error;

    fn from_str(list: &str) -> password_hash::Result<Self> {
        Params::try_from(&list.parse::<ParamsString>()?)
    }
}

/// Reads the parameters of a list, which name no output length.
///
/// # Errors
/// The first of these that holds:
/// - [`ParamInvalid`](password_hash::Error::ParamInvalid) with the name of the first item that is refused, or
///   [`ParamsInvalid`](password_hash::Error::ParamsInvalid) if there is no parameter of that name.
/// - [`ParamsInvalid`](password_hash::Error::ParamsInvalid) if `m`, `t` or `p` is missing.
/// - the error of [`Params::new`].
impl TryFrom<&ParamsString> for Params {
    type Error = password_hash::Error;

    fn try_from(list: &ParamsString) -> password_hash::Result<Self> {
        let whole = PasswordHash {
            algorithm: ARGON2ID_IDENT,
            version: None,
            params: list.clone(),
            salt: None,
            hash: None,
        };
        let text = whole.to_string();
        let shown = sys::parse(&text).ok_or(password_hash::Error::ParamsInvalid)?;
        let (m_cost, t_cost, p_cost) = shown.costs()?;
        Ok(Self {
            m_cost,
            t_cost,
            p_cost,
            keyid: KeyId::new(shown.keyid())?,
            data: AssociatedData::new(shown.data())?,
            output_len: None,
        })
    }
}

/// Reads the parameters of a PHC string. Their output length is the length of its tag, if it has a tag.
///
/// # Errors
/// The errors of its parameter list.
impl TryFrom<&PasswordHash> for Params {
    type Error = password_hash::Error;

    fn try_from(hash: &PasswordHash) -> password_hash::Result<Self> {
        let output_len = hash.hash.as_ref().map(|it| it.len());
        Ok(Self {
            output_len,
            ..Self::try_from(&hash.params)?
        })
    }
}

/// Never fails.
impl TryFrom<&Params> for ParamsString {
    type Error = password_hash::Error;

    fn try_from(params: &Params) -> password_hash::Result<Self> {
        params.to_string().parse()
    }
}

/// Never fails.
impl TryFrom<Params> for ParamsString {
    type Error = password_hash::Error;

    fn try_from(params: Params) -> password_hash::Result<Self> {
        Self::try_from(&params)
    }
}

/// Makes the type of a parameter whose value is bytes.
macro_rules! byte_list {
    ($(#[$doc:meta])* $name:ident, $max:expr, $error:expr) => {
        $(#[$doc])*
        #[derive(Clone, Copy, Debug, Default, Eq, Hash, Ord, PartialEq, PartialOrd)]
        pub struct $name(Bytes<{ $max }>);

        impl $name {
            /// The most bytes.
            pub const MAX_LEN: usize = $max;

            /// No bytes.
            pub const EMPTY: Self = Self(Bytes::EMPTY);

            /// Makes a value of these bytes.
            ///
            /// # Errors
            #[doc = concat!("[`", stringify!($error), "`] if they are more than ", stringify!($max), ".")]
            pub fn new(bytes: &[u8]) -> Result<Self> {
                Bytes::new(bytes).map(Self).ok_or($error)
            }

            /// Reads the bytes from their Base64.
            ///
            /// # Errors
            /// [`Error::B64Encoding`] with [`B64Error::InvalidLength`] if `text` is longer than the Base64 of the most bytes, or
            /// with [`B64Error::InvalidEncoding`] if it is not the Base64 of any bytes.
            pub fn from_b64(text: &str) -> Result<Self> {
                if text.len() > (4 * Self::MAX_LEN).div_ceil(3) {
                    return Err(B64Error::InvalidLength.into());
                }
                let bytes = phc::base64_bytes(text).and_then(|it| Bytes::new(&it));
                Ok(Self(bytes.ok_or(B64Error::InvalidEncoding)?))
            }

            /// The bytes.
            #[must_use]
            pub fn as_bytes(&self) -> &[u8] {
                self.0.as_bytes()
            }

            /// How many bytes there are.
            #[must_use]
            pub const fn len(&self) -> usize {
                self.0.len()
            }

            /// Whether there are none.
            #[must_use]
            pub const fn is_empty(&self) -> bool {
                self.len() == 0
            }
        }

        impl AsRef<[u8]> for $name {
            fn as_ref(&self) -> &[u8] {
                self.as_bytes()
            }
        }

        #[doc = concat!("Does what [`", stringify!($name), "::from_b64`] does.")]
        impl FromStr for $name {
            type Err = Error;

            fn from_str(text: &str) -> Result<Self> {
                Self::from_b64(text)
            }
        }

        #[doc = concat!("Does what [`", stringify!($name), "::new`] does.")]
        impl TryFrom<&[u8]> for $name {
            type Error = Error;

            fn try_from(bytes: &[u8]) -> Result<Self> {
                Self::new(bytes)
            }
        }
    };
}

byte_list! {
    /// The identifier of a key, which stored hashes show, and which changes no tag.
    KeyId, Params::MAX_KEYID_LEN, Error::KeyIdTooLong
}

byte_list! {
    /// Associated data, which changes the tag.
    AssociatedData, Params::MAX_DATA_LEN, Error::AdTooLong
}

/// Settings from which [`Params`] are made.
#[derive(Clone, Debug, Eq, PartialEq)]
pub struct ParamsBuilder {
    m_cost: u32,
    t_cost: u32,
    p_cost: u32,
    keyid: Option<KeyId>,
    data: Option<AssociatedData>,
    output_len: Option<usize>,
}

impl ParamsBuilder {
    /// The settings of [`Params::DEFAULT`].
    pub const DEFAULT: Self = Self {
        m_cost: Params::DEFAULT_M_COST,
        t_cost: Params::DEFAULT_T_COST,
        p_cost: Params::DEFAULT_P_COST,
        keyid: None,
        data: None,
        output_len: None,
    };

    /// The settings of [`Params::DEFAULT`].
    #[must_use]
    pub const fn new() -> Self {
        Self::DEFAULT
    }

    /// Sets the number of blocks of 1024 bytes that the parameters ask for.
    pub fn m_cost(&mut self, m_cost: u32) -> &mut Self {
        self.m_cost = m_cost;
        self
    }

    /// Sets the number of passes.
    pub fn t_cost(&mut self, t_cost: u32) -> &mut Self {
        self.t_cost = t_cost;
        self
    }

    /// Sets the number of lanes.
    pub fn p_cost(&mut self, p_cost: u32) -> &mut Self {
        self.p_cost = p_cost;
        self
    }

    /// Sets the key identifier.
    pub fn keyid(&mut self, keyid: KeyId) -> &mut Self {
        self.keyid = Some(keyid);
        self
    }

    /// Sets the associated data.
    pub fn data(&mut self, data: AssociatedData) -> &mut Self {
        self.data = Some(data);
        self
    }

    /// Sets the length of an output in bytes.
    pub fn output_len(&mut self, len: usize) -> &mut Self {
        self.output_len = Some(len);
        self
    }

    /// The parameters with these settings.
    ///
    /// # Errors
    /// The errors of [`Params::new`].
    pub fn build(&self) -> Result<Params> {
        Ok(Params {
            keyid: self.keyid.unwrap_or_default(),
            data: self.data.unwrap_or_default(),
            ..Params::new(self.m_cost, self.t_cost, self.p_cost, self.output_len)?
        })
    }

    /// A context with these parameters.
    ///
    /// # Errors
    /// The errors of [`Params::new`].
    pub fn context(&self, algorithm: Algorithm, version: Version) -> Result<Argon2<'_>> {
        Ok(Argon2::new(algorithm, version, self.build()?))
    }
}

impl Default for ParamsBuilder {
    fn default() -> Self {
        Self::DEFAULT
    }
}

/// Does what [`ParamsBuilder::build`] does.
impl TryFrom<ParamsBuilder> for Params {
    type Error = Error;

    fn try_from(builder: ParamsBuilder) -> Result<Self> {
        builder.build()
    }
}
