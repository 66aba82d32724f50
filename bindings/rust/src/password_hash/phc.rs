//! PHC strings, by the grammar of docs/PHC.md.

use super::{Error, Result};
use crate::bytes::Bytes;
use crate::{Argon2, Params, sys};
use std::fmt::{self, Debug, Display};
use std::ops::Deref;
use std::str::{self, FromStr};

pub use crate::algorithm::{ARGON2D_IDENT, ARGON2I_IDENT, ARGON2ID_IDENT};

/// The identifier of an algorithm or a parameter. It has 1 to 32 letters from `a` to `z`, digits and `-`.
#[derive(Clone, Copy, Eq, Hash, Ord, PartialEq, PartialOrd)]
pub struct Ident(Bytes<{ Self::MAX_LENGTH }>);

impl Ident {
    /// The most bytes of an identifier.
    pub const MAX_LENGTH: usize = 32;

    /// Makes an identifier of a string.
    ///
    /// # Errors
    /// [`Error::EncodingInvalid`] if the string is no identifier.
    pub fn new(text: &str) -> Result<Self> {
        let whole = format!("${text}");
        let shown = sys::parse(&whole).filter(|it| it.name() == text);
        shown
            .map(|it| Self::literal(it.name()))
            .ok_or(Error::EncodingInvalid)
    }

    /// Makes an identifier of a string, which must be an identifier.
    pub(crate) const fn literal(text: &str) -> Self {
        Self(Bytes::literal(text.as_bytes()))
    }

    /// The identifier as a string.
    #[must_use]
    pub fn as_str(&self) -> &str {
        str::from_utf8(self.0.as_bytes()).unwrap_or_default()
    }
}

impl AsRef<str> for Ident {
    fn as_ref(&self) -> &str {
        self.as_str()
    }
}

impl Deref for Ident {
    type Target = str;

    fn deref(&self) -> &str {
        self.as_str()
    }
}

impl Debug for Ident {
    fn fmt(&self, f: &mut fmt::Formatter<'_>) -> fmt::Result {
        f.debug_tuple("Ident").field(&self.as_str()).finish()
    }
}

impl Display for Ident {
    fn fmt(&self, f: &mut fmt::Formatter<'_>) -> fmt::Result {
        f.pad(self.as_str())
    }
}

/// Does what [`Ident::new`] does.
impl FromStr for Ident {
    type Err = Error;

    fn from_str(text: &str) -> Result<Self> {
        Self::new(text)
    }
}

/// Does what [`Ident::new`] does.
impl TryFrom<&str> for Ident {
    type Error = Error;

    fn try_from(text: &str) -> Result<Self> {
        Self::new(text)
    }
}

/// The value of a parameter. It has 1 to 64 letters, digits, `/`, `+`, `.` and `-`.
#[derive(Clone, Copy, Debug, Eq, PartialEq)]
pub struct Value<'list>(&'list str);

impl<'list> Value<'list> {
    /// The value as a string.
    #[must_use]
    pub fn as_str(&self) -> &'list str {
        self.0
    }

    /// Reads the value as a decimal.
    ///
    /// # Errors
    /// [`Error::ParamsInvalid`] if the value is no decimal up to 4294967295.
    pub fn decimal(&self) -> Result<u32> {
        // (the version of a PHC string is a decimal of this kind)
        let text = format!("$a$v={}", self.0);
        let shown = sys::parse(&text).ok_or(Error::ParamsInvalid)?;
        shown.version().ok_or(Error::ParamsInvalid)
    }
}

impl AsRef<str> for Value<'_> {
    fn as_ref(&self) -> &str {
        self.0
    }
}

impl Display for Value<'_> {
    fn fmt(&self, f: &mut fmt::Formatter<'_>) -> fmt::Result {
        f.pad(self.0)
    }
}

/// A parameter list, which has names with values. No name occurs twice, and the list has at most 127 bytes.
#[derive(Clone, Default, Eq, PartialEq)]
pub struct ParamsString(String);

impl ParamsString {
    /// The empty list.
    #[must_use]
    pub fn new() -> Self {
        Self::default()
    }

    /// Appends a name with the decimal of a number.
    ///
    /// # Errors
    /// [`Error::ParamsInvalid`] if the longer list would be no parameter list. The list is then as before.
    pub fn add_decimal(&mut self, name: impl AsRef<str>, value: u32) -> Result<()> {
        self.add(name.as_ref(), &value.to_string())
    }

    /// Appends a name with the Base64 of bytes.
    ///
    /// # Errors
    /// [`Error::ParamsInvalid`] if the longer list would be no parameter list. The list is then as before.
    pub fn add_b64_bytes(&mut self, name: impl AsRef<str>, bytes: &[u8]) -> Result<()> {
        let value = base64_text(bytes).map_err(|_| Error::ParamsInvalid)?;
        self.add(name.as_ref(), &value)
    }

    fn add(&mut self, name: &str, value: &str) -> Result<()> {
        let name = Ident::new(name).map_err(|_| Error::ParamsInvalid)?;
        let mark = if self.is_empty() { "" } else { "," };
        *self = format!("{self}{mark}{name}={value}").parse()?;
        Ok(())
    }

    /// The value with this name.
    #[must_use]
    pub fn get(&self, name: impl AsRef<str>) -> Option<Value<'_>> {
        let item = self.items().find(|(it, _)| *it == name.as_ref());
        item.map(|(_, value)| value)
    }

    /// The names and values, in the order of the list.
    pub fn iter(&self) -> impl Iterator<Item = (Ident, Value<'_>)> {
        self.items()
            .map(|(name, value)| (Ident::literal(name), value))
    }

    fn items(&self) -> impl Iterator<Item = (&str, Value<'_>)> {
        let items = self.0.split(',').filter_map(|it| it.split_once('='));
        items.map(|(name, value)| (name, Value(value)))
    }

    /// The list as a string.
    #[must_use]
    pub fn as_str(&self) -> &str {
        &self.0
    }

    /// The number of bytes of the list.
    #[must_use]
    pub fn len(&self) -> usize {
        self.0.len()
    }

    /// Whether the list has no parameter.
    #[must_use]
    pub fn is_empty(&self) -> bool {
        self.0.is_empty()
    }
}

impl AsRef<str> for ParamsString {
    fn as_ref(&self) -> &str {
        &self.0
    }
}

impl Debug for ParamsString {
    fn fmt(&self, f: &mut fmt::Formatter<'_>) -> fmt::Result {
        f.debug_tuple("ParamsString").field(&self.0).finish()
    }
}

impl Display for ParamsString {
    fn fmt(&self, f: &mut fmt::Formatter<'_>) -> fmt::Result {
        f.pad(&self.0)
    }
}

/// Reads a list from a string, which may be empty. If the string is no list, the error is [`Error::ParamsInvalid`].
impl FromStr for ParamsString {
    type Err = Error;

    fn from_str(text: &str) -> Result<Self> {
        let whole = format!("$a${text}");
        let is_list = text.is_empty() || sys::parse(&whole).is_some_and(|it| it.list() == text);
        is_list
            .then(|| Self(text.to_owned()))
            .ok_or(Error::ParamsInvalid)
    }
}

/// Makes the type of a field whose value is bytes.
macro_rules! field {
    ($(#[$doc:meta])* $name:ident, $min:literal to $max:literal, $error:ident) => {
        $(#[$doc])*
        #[derive(Clone, Copy, Debug, Eq, PartialEq)]
        pub struct $name(Bytes<$max>);

        impl $name {
            /// The fewest bytes.
            pub const MIN_LENGTH: usize = $min;
            /// The most bytes.
            pub const MAX_LENGTH: usize = $max;

            /// Makes a field of these bytes.
            ///
            /// # Errors
            #[doc = concat!("[`Error::", stringify!($error), "`] if they are fewer than ", $min, " or more than ", $max, ".")]
            pub fn new(bytes: &[u8]) -> Result<Self> {
                let long = Some(bytes).filter(|it| it.len() >= Self::MIN_LENGTH);
                long.and_then(Bytes::new).map(Self).ok_or(Error::$error)
            }

            /// The bytes.
            #[must_use]
            pub fn as_bytes(&self) -> &[u8] {
                self.0.as_bytes()
            }
        }

        impl AsRef<[u8]> for $name {
            fn as_ref(&self) -> &[u8] {
                self.as_bytes()
            }
        }

        impl Deref for $name {
            type Target = [u8];

            fn deref(&self) -> &[u8] {
                self.as_bytes()
            }
        }

        /// Prints the Base64 of the bytes.
        impl Display for $name {
            fn fmt(&self, f: &mut fmt::Formatter<'_>) -> fmt::Result {
                f.pad(&base64_text(self).map_err(|_| fmt::Error)?)
            }
        }
    };
}

field! {
    /// A salt.
    Salt, 8 to 48, SaltInvalid
}

field! {
    /// A tag.
    Output, 4 to 64, OutputSize
}

impl Salt {
    /// The number of bytes of a salt that the system draws.
    pub const RECOMMENDED_LENGTH: usize = 16;

    /// Makes a salt of 16 random bytes of the system.
    ///
    /// # Errors
    /// [`Error::Crypto`] if the system gives no random bytes.
    pub fn generate() -> Result<Self> {
        // (the library draws salts only for stored hashes, so this makes the cheapest one)
        let cheapest = Argon2::from(Params::new(8, 1, 1, None)?);
        let hash = PasswordHash::new(&sys::hash(&cheapest, &[], None)?)?;
        hash.salt.ok_or(Error::Crypto)
    }
}

/// The fields of a PHC string. A tag without a salt is neither printed nor verified.
#[derive(Clone, Debug, Eq, PartialEq)]
pub struct PasswordHash {
    /// The identifier of the algorithm.
    pub algorithm: Ident,
    /// The version, if the PHC string has one.
    pub version: Option<u32>,
    /// The parameters.
    pub params: ParamsString,
    /// The salt, if the PHC string has one.
    pub salt: Option<Salt>,
    /// The tag, if the PHC string has one.
    pub hash: Option<Output>,
}

impl PasswordHash {
    /// Reads a PHC string.
    ///
    /// # Errors
    /// [`Error::EncodingInvalid`] if `text` is outside the grammar.
    pub fn new(text: &str) -> Result<Self> {
        let shown = sys::parse(text).ok_or(Error::EncodingInvalid)?;
        Ok(Self {
            algorithm: Ident::literal(shown.name()),
            version: shown.version(),
            params: ParamsString(shown.list().to_owned()),
            salt: Salt::new(shown.salt()).ok(),
            hash: Output::new(shown.output()).ok(),
        })
    }
}

/// Prints the PHC string.
impl Display for PasswordHash {
    fn fmt(&self, f: &mut fmt::Formatter<'_>) -> fmt::Result {
        write!(f, "${}", self.algorithm)?;
        if let Some(version) = self.version {
            write!(f, "$v={version}")?;
        }
        if !self.params.is_empty() {
            write!(f, "${}", self.params)?;
        }
        if let Some(salt) = &self.salt {
            write!(f, "${salt}")?;
            if let Some(hash) = &self.hash {
                write!(f, "${hash}")?;
            }
        }
        Ok(())
    }
}

/// Does what [`PasswordHash::new`] does.
impl FromStr for PasswordHash {
    type Err = Error;

    fn from_str(text: &str) -> Result<Self> {
        Self::new(text)
    }
}

/// Does what [`PasswordHash::new`] does.
impl TryFrom<&str> for PasswordHash {
    type Error = Error;

    fn try_from(text: &str) -> Result<Self> {
        Self::new(text)
    }
}

// The library reads and writes lists and Base64 only as parts of whole PHC strings. A tag has at least four bytes. So shorter
// bytes are read and written after six zero bytes, whose Base64 is eight characters.
const FRONT: [u8; 6] = [0; 6];
const FRONT_TEXT: &str = "AAAAAAAA";
const NO_SALT: [u8; Salt::MIN_LENGTH] = [0; Salt::MIN_LENGTH];
const NO_SALT_TEXT: &str = "AAAAAAAAAAA";

/// Returns the parameter list of parameters.
pub(crate) fn list_text(params: &Params) -> Result<String> {
    let text = sys::encode(&params.into(), &NO_SALT, &FRONT)?;
    Ok(text.split('$').nth(3).unwrap_or_default().to_owned())
}

/// Returns the Base64 of at most 64 bytes. If there are more bytes, the error is [`Error::OutputSize`].
fn base64_text(bytes: &[u8]) -> Result<String> {
    let is_short = bytes.len() < Output::MIN_LENGTH;
    let front = if is_short { &FRONT[..] } else { &[] };
    let text = sys::encode(&Argon2::default(), &NO_SALT, &[front, bytes].concat())?;
    let base64 = text.rsplit('$').next().unwrap_or_default();
    Ok(base64[if is_short { FRONT_TEXT.len() } else { 0 }..].to_owned())
}

/// Returns the bytes of a Base64, if it is the Base64 of at most 58 bytes.
pub(crate) fn base64_bytes(text: &str) -> Option<Vec<u8>> {
    let whole = format!("$a${NO_SALT_TEXT}${FRONT_TEXT}{text}");
    let shown = sys::parse(&whole)?;
    shown.output().get(FRONT.len()..).map(<[u8]>::to_vec)
}
