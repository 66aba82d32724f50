//! Answers the requests of vectors/programs/README.md by the crate `argon2`.

use argon2::password_hash::PasswordVerifier;
use argon2::{Algorithm, Argon2, AssociatedData, ParamsBuilder, PasswordHash, Version};
use std::error::Error;
use std::io::{self, BufRead};

type Result<T> = std::result::Result<T, Box<dyn Error>>;

fn bytes(word: &str) -> Result<Vec<u8>> {
    let digits = if word == "-" { "" } else { word };
    let pairs = (0..digits.len()).step_by(2);
    Ok(pairs
        .map(|at| u8::from_str_radix(&digits[at..at + 2], 16))
        .collect::<std::result::Result<_, _>>()?)
}

fn hash(words: &[&str]) -> Result<String> {
    let [
        length,
        algorithm,
        version,
        m,
        t,
        p,
        password,
        salt,
        secret,
        data,
    ] = words
    else {
        return Err("ten words".into());
    };
    let data = bytes(data)?;
    if data.len() > AssociatedData::MAX_LEN {
        // (the crate has no call that takes it)
        return Ok("unknown".into());
    }
    let params = ParamsBuilder::new()
        .m_cost(m.parse()?)
        .t_cost(t.parse()?)
        .p_cost(p.parse()?)
        .data(AssociatedData::new(&data)?)
        .build()?;
    let secret = bytes(secret)?;
    let version = Version::try_from(version.parse::<u32>()?)?;
    let argon2 = Argon2::new_with_secret(&secret, Algorithm::new(algorithm)?, version, params)?;
    let mut out = vec![0; length.parse()?];
    argon2.hash_password_into(&bytes(password)?, &bytes(salt)?, &mut out)?;
    Ok(out.iter().map(|it| format!("{it:02x}")).collect())
}

fn verify(words: &[&str]) -> Result<String> {
    let [text, password, secret] = words else {
        return Err("three words".into());
    };
    let (text, secret) = (String::from_utf8(bytes(text)?)?, bytes(secret)?);
    let argon2 = Argon2::new_with_secret(
        &secret,
        Algorithm::default(),
        Version::default(),
        Default::default(),
    )?;
    argon2.verify_password(&bytes(password)?, &PasswordHash::new(&text)?)?;
    Ok("accepted".into())
}

/// The logins, which only this project's package has.
#[cfg(feature = "login")]
mod logins {
    use super::{Result, bytes};
    use argon2::{
        Algorithm, Argon2, AssociatedData, Bound, KeyId, LoggedIn, ParamsBuilder, Version,
    };

    /// Makes a hasher of eight words and a secret.
    fn hasher<'key>(words: &[&str], secret: &'key [u8]) -> Result<Argon2<'key>> {
        let [algorithm, version, m, t, p, length, keyid, data] = words else {
            return Err("eight words".into());
        };
        let params = ParamsBuilder::new()
            .m_cost(m.parse()?)
            .t_cost(t.parse()?)
            .p_cost(p.parse()?)
            .output_len(length.parse()?)
            .keyid(KeyId::new(&bytes(keyid)?)?)
            .data(AssociatedData::new(&bytes(data)?)?)
            .build()?;
        let version = Version::try_from(version.parse::<u32>()?)?;
        let algorithm = Algorithm::new(algorithm)?;
        Ok(Argon2::new_with_secret(secret, algorithm, version, params)?)
    }

    pub fn login(words: &[&str]) -> Result<String> {
        let Some((settings, [m, t, p, secret, old_secret, text, password])) =
            words.split_at_checked(8)
        else {
            return Err("fifteen words".into());
        };
        let (secret, old_secret) = (
            bytes(secret)?,
            (*old_secret != "none")
                .then(|| bytes(old_secret))
                .transpose()?,
        );
        let (text, password) = (String::from_utf8(bytes(text)?)?, bytes(password)?);
        let bound = Bound {
            m_cost: m.parse()?,
            t_cost: t.parse()?,
            p_cost: p.parse()?,
        };
        let argon2 = hasher(settings, &secret)?;
        let log_in = |text: &str| argon2.log_in(&bound, old_secret.as_deref(), &password, text);
        Ok(match log_in(&text)? {
            LoggedIn::Current => "current",
            LoggedIn::Kept => "kept",
            LoggedIn::Renewed(fresh) if log_in(&fresh)? == LoggedIn::Current => "renewed",
            LoggedIn::Renewed(_) => "a new hash that is not current",
        }
        .into())
    }

    pub fn weaker(words: &[&str]) -> Result<String> {
        let Some((settings, [text])) = words.split_at_checked(8) else {
            return Err("nine words".into());
        };
        let text = String::from_utf8(bytes(text)?)?;
        Ok(hasher(settings, &[])?.is_weaker(&text)?.to_string())
    }
}

fn main() -> Result<()> {
    for line in io::stdin().lock().lines() {
        let line = line?;
        let words: Vec<&str> = line.split(' ').collect();
        let answer = match words[0] {
            "hash" => hash(&words[1..]),
            "verify" => verify(&words[1..]),
            #[cfg(feature = "login")]
            "login" => logins::login(&words[1..]),
            #[cfg(feature = "login")]
            "weaker" => logins::weaker(&words[1..]),
            _ => Ok("unknown".into()),
        };
        println!(
            "{}",
            answer.unwrap_or_else(|error| format!("refused: {error}"))
        );
    }
    Ok(())
}
