//! Tests of logins. An independent model made the stored hashes, with the salt `somesaltsomesalt`.

use argon2::bound::BoundError;
use argon2::password_hash::{Error, PasswordHasher, PasswordVerifier};
use argon2::{Algorithm, Argon2, Bound, LoggedIn, Params, Version};

/// Of `password` under the secret `new`, with the wanted costs.
const WANTED: &str = "$argon2id$v=19$m=64,t=2,p=2$c29tZXNhbHRzb21lc2FsdA$wf+/z3ApdSzrWPBA1cueogOIa3n2E7izTnFTTKskyAQ";
/// With less memory.
const LESS_MEMORY: &str = "$argon2id$v=19$m=63,t=2,p=2$c29tZXNhbHRzb21lc2FsdA$Z6xNAa+fQhkOLTphAV/WE1dIU937qt0z4Hehvq9xRAg";
/// With fewer passes.
const FEWER_PASSES: &str = "$argon2id$v=19$m=64,t=1,p=2$c29tZXNhbHRzb21lc2FsdA$m1MROEWABDCtq2m82waHrOY0AKvPCa3jewlQEM1g0H0";
/// With more passes.
const MORE_PASSES: &str = "$argon2id$v=19$m=64,t=3,p=2$c29tZXNhbHRzb21lc2FsdA$UKoXOq5LP/dqNtXwPa516IgeBZwUFyLt/Scdy0EfKuo";
/// With more memory, passes and lanes.
const MORE_OF_ALL: &str = "$argon2id$v=19$m=72,t=3,p=3$c29tZXNhbHRzb21lc2FsdA$U1Z8IVK9IlfltkTR6Yw9yZAkd6pay/0KR8ictqgRFJk";
/// Under the secret `old`.
const OLD: &str = "$argon2id$v=19$m=64,t=2,p=2$c29tZXNhbHRzb21lc2FsdA$y8HF4ztqFtn0pKubgR5TJFyMp28Nf92x7VYRKe3iPaQ";
/// Of no bytes.
const EMPTY: &str = "$argon2id$v=19$m=64,t=2,p=2$c29tZXNhbHRzb21lc2FsdA$WZ2qpoUbSzcxYhNjXhI0Dv9mwxYSJRKsb474jOXZ08Q";
/// Of no bytes, without a secret.
const EMPTY_WITHOUT_SECRET: &str = "$argon2id$v=19$m=64,t=2,p=2$c29tZXNhbHRzb21lc2FsdA$DZC2m3oGi3BAzTKyt9fBw+4wlbCctT1+ABi5q2uCcKc";

const BOUND: Bound = Bound {
    m_cost: 128,
    t_cost: 4,
    p_cost: 4,
};

fn hasher(m: u32, t: u32, p: u32, output_len: Option<usize>) -> Argon2<'static> {
    let params = Params::new(m, t, p, output_len).expect("valid parameters");
    Argon2::new_with_secret(b"new", Algorithm::Argon2id, Version::V0x13, params).expect("a secret")
}

/// An old secret, a password, a stored hash, and the answer to their login.
type Row<'row> = (Option<&'row [u8]>, &'row [u8], &'row str, Answer);

/// The answer to a login.
#[derive(Clone, Copy)]
enum Answer {
    Current,
    Renewed,
    Refused(BoundError),
}

#[test]
fn a_login_renews_a_weaker_hash_and_keeps_a_stronger_one() {
    use Answer::{Current, Refused, Renewed};
    let wrong = Refused(BoundError::Refused(Error::PasswordInvalid));
    let outside = Refused(BoundError::Refused(Error::EncodingInvalid));
    let dear = WANTED.replace("t=2", "t=5");
    let wanted = hasher(64, 2, 2, None);
    let rows: [Row<'_>; 19] = [
        (None, b"password", WANTED, Current),
        (Some(b"old"), b"password", WANTED, Current),
        (Some(b"new"), b"password", WANTED, Current),
        (None, b"passwore", WANTED, wrong),
        (None, b"", WANTED, wrong),
        (None, b"password", LESS_MEMORY, Renewed),
        (None, b"passwore", LESS_MEMORY, wrong),
        (None, b"password", FEWER_PASSES, Renewed),
        (None, b"password", MORE_PASSES, Current),
        (None, b"password", MORE_OF_ALL, Current),
        (Some(b"old"), b"password", OLD, Renewed),
        (Some(b"old"), b"passwore", OLD, wrong),
        (None, b"password", OLD, wrong),
        (None, b"", EMPTY, Current),
        (Some(b""), b"", EMPTY_WITHOUT_SECRET, Renewed),
        (None, b"", EMPTY_WITHOUT_SECRET, wrong),
        (
            Some(b"old"),
            b"password",
            &dear,
            Refused(BoundError::TooExpensive),
        ),
        (None, b"password", "", outside),
        (None, b"password", "$2b$10$x", outside),
    ];
    for (old_secret, password, text, answer) in rows {
        let found = wanted.log_in(&BOUND, old_secret, password, text);
        match (answer, found) {
            (Current, Ok(LoggedIn::Current)) => {}
            (Refused(error), Err(found)) => assert_eq!(found, error, "{text}"),
            (Renewed, Ok(LoggedIn::Renewed(fresh))) => {
                assert_eq!(wanted.verify_password(password, fresh.as_str()), Ok(()));
                assert_eq!(wanted.needs_rehash(&fresh), Ok(false));
                let again = wanted.log_in(&BOUND, None, password, &fresh);
                assert_eq!(again, Ok(LoggedIn::Current), "{fresh}");
            }
            (_, found) => panic!("{text}: {found:?}"),
        }
    }
}

#[test]
fn settings_above_the_bound_are_refused_first() {
    let above = Err(BoundError::WantedTooExpensive);
    for wanted in [
        hasher(129, 2, 2, None),
        hasher(64, 5, 2, None),
        hasher(64, 2, 5, None),
        hasher(129, 2, 2, Some(65)),
    ] {
        for (password, text) in [(&b"password"[..], WANTED), (b"passwore", WANTED), (b"", "")] {
            assert_eq!(wanted.log_in(&BOUND, None, password, text), above);
        }
    }
    let long = hasher(64, 2, 2, Some(65)).log_in(&BOUND, None, b"passwore", "");
    assert_eq!(long, Err(BoundError::Refused(Error::OutputSize)));
    let least = hasher(128, 4, 4, Some(64)).log_in(&BOUND, None, b"password", WANTED);
    assert!(matches!(least, Ok(LoggedIn::Renewed(_))));
}

#[test]
fn a_weaker_hash_is_lower_shorter_or_of_another_kind() {
    let wanted = hasher(64, 2, 2, None);
    for text in [WANTED, OLD, MORE_PASSES, MORE_OF_ALL] {
        assert_eq!(wanted.is_weaker(text), Ok(false), "{text}");
    }
    for text in [
        LESS_MEMORY,
        FEWER_PASSES,
        &WANTED.replace("2id", "2i"),
        &WANTED.replace("$v=19", ""),
        &WANTED.replace("p=2", "p=2,keyid=AA"),
        &WANTED.replace("p=2", "p=2,data=AA"),
        &WANTED.replace("t=2,p=2", "t=9,p=1"),
    ] {
        assert_eq!(wanted.is_weaker(text), Ok(true), "{text}");
    }
    assert_eq!(hasher(64, 2, 2, Some(33)).is_weaker(WANTED), Ok(true));
    assert_eq!(hasher(64, 2, 2, Some(31)).is_weaker(WANTED), Ok(false));
    assert_eq!(wanted.is_weaker("$2b$10$x"), Err(Error::EncodingInvalid));
}

#[test]
fn the_default_bound() {
    let bound = Bound::default();
    assert_eq!(
        (bound.m_cost, bound.t_cost, bound.p_cost),
        (2_097_152, 64, 64)
    );
    let wanted = hasher(64, 2, 2, None);
    let within = |text: &str| bound.verify(&wanted, b"password", text);
    assert_eq!(within(WANTED), Ok(()));
    for (old, new) in [
        ("m=64", "m=2097153"),
        ("t=2", "t=65"),
        ("m=64,t=2,p=2", "m=520,t=2,p=65"),
    ] {
        assert_eq!(
            within(&WANTED.replace(old, new)),
            Err(BoundError::TooExpensive),
            "{new}"
        );
    }
}

#[test]
fn an_empty_password_is_hashed_like_any_other() {
    let hash = hasher(64, 2, 2, None).hash_password_with_salt(b"", b"somesaltsomesalt");
    assert_eq!(hash.map(|it| it.to_string()), Ok(EMPTY.to_owned()));
}

#[test]
fn errors_print() {
    assert_eq!(
        BoundError::WantedTooExpensive.to_string(),
        "new hashes ask for more than the bound"
    );
}
