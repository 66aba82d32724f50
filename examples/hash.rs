use argon2::password_hash::{Error, PasswordHasher, PasswordVerifier, Result};
use argon2::{Argon2, PasswordHash};

fn main() -> Result<()> {
    let argon2 = Argon2::default();
    let stored = argon2.hash_password(b"correct horse")?.to_string();
    println!("{stored}");

    let hash = PasswordHash::new(&stored)?;
    let accepts = |password: &[u8]| match argon2.verify_password(password, &hash) {
        Err(Error::PasswordInvalid) => Ok(false),
        answer => answer.map(|()| true),
    };
    println!("{} {}", accepts(b"correct horse")?, accepts(b"wrong horse")?);
    Ok(())
}
