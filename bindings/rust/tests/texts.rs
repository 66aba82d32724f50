//! Tests of parameters, of the fields of PHC strings, and of hashes that are made, stored and verified.

use argon2::Error as HashError;
use argon2::bound::BoundError;
use argon2::password_hash::phc::{Ident, Output, ParamsString, Salt};
use argon2::password_hash::{
    CustomizedPasswordHasher, Error, PasswordHasher, PasswordVerifier, Result,
};
use argon2::{
    Algorithm, Argon2, AssociatedData, B64Error, Bound, KeyId, Params, ParamsBuilder, PasswordHash,
    Version, kdf,
};

/// The hash that the reference implementation makes of `password` and `somesalt`.
const REFERENCE: &str =
    "$argon2id$v=19$m=256,t=2,p=2$c29tZXNhbHQ$bQk8UB/VmZZF4Oo79iDXuL5/0ttZwg2f/5U52iv1cDc";

const M: Error = Error::ParamInvalid { name: "m" };

fn verify(password: &str, text: &str) -> Result<()> {
    let argon2 = Argon2::default();
    let answer = argon2.verify_password(password.as_bytes(), text);
    if let Ok(hash) = PasswordHash::new(text) {
        assert_eq!(argon2.verify_password(password.as_bytes(), &hash), answer);
    }
    answer
}

#[test]
fn parameters_are_refused_in_order() {
    let refusal = |m, t, p, n| Params::new(m, t, p, n).err();
    assert_eq!(refusal(7, 0, 0, Some(0)), Some(HashError::MemoryTooLittle));
    assert_eq!(refusal(8, 0, 0, Some(0)), Some(HashError::ThreadsTooFew));
    assert_eq!(
        refusal(8, 0, 1 << 24, Some(0)),
        Some(HashError::ThreadsTooMany)
    );
    assert_eq!(refusal(15, 0, 2, Some(0)), Some(HashError::MemoryTooLittle));
    assert_eq!(
        refusal(134_217_719, 1, 16_777_215, None),
        Some(HashError::MemoryTooLittle)
    );
    assert_eq!(refusal(8, 0, 1, Some(0)), Some(HashError::TimeTooSmall));
    assert_eq!(refusal(8, 1, 1, Some(0)), Some(HashError::OutputTooShort));
    assert_eq!(refusal(8, 1, 1, Some(3)), Some(HashError::OutputTooShort));
    assert_eq!(
        refusal(8, 1, 1, Some(1 << 32)),
        Some(HashError::OutputTooLong)
    );
    assert_eq!(refusal(8, 1, 1, Some(4)), None);
    assert_eq!(
        refusal(u32::MAX, u32::MAX, 16_777_215, Some((1 << 32) - 1)),
        None
    );
    let builder = ParamsBuilder::new().m_cost(1 << 27).p_cost(1 << 24).build();
    assert_eq!(builder, Err(HashError::ThreadsTooMany));
}

#[test]
fn block_counts() {
    let count = |m, p| Params::new(m, 1, p, None).map(|it| it.block_count());
    assert_eq!(count(33, 2), Ok(32));
    assert_eq!(count(u32::MAX, 16_777_215), Ok(4_294_967_040));
    assert_eq!(count(u32::MAX, 1), Ok(4_294_967_292));
    assert_eq!(count(134_217_720, 16_777_215), Ok(134_217_720));
}

#[test]
fn parameters_print_and_are_read() {
    assert_eq!(Params::default().to_string(), "m=19456,t=2,p=1");
    let read: Result<Params> = "p=2,m=33,t=1".parse();
    assert_eq!(read.map(|it| it.to_string()), Ok("m=33,t=1,p=2".to_owned()));
    for (list, error) in [
        ("", Error::ParamsInvalid),
        ("t=0", Error::ParamsInvalid),
        ("t=x", Error::ParamInvalid { name: "t" }),
        ("m=8,t=1", Error::ParamsInvalid),
        ("m=7,t=1,p=1", M),
        ("m=08,t=1,p=1", M),
        ("m=4294967296,t=2,p=1", M),
        ("m=65536,t=2,p=0", Error::ParamInvalid { name: "p" }),
        ("m=65536,t=0,p=1", Error::ParamInvalid { name: "t" }),
        (
            "m=65536,t=2,p=1,keyid=dummy",
            Error::ParamInvalid { name: "keyid" },
        ),
        (
            "m=65536,t=2,p=1,data=dummy",
            Error::ParamInvalid { name: "data" },
        ),
        ("m=65536,t=2,p=1,x=1", Error::ParamsInvalid),
        ("m=65536,m=65536", Error::ParamsInvalid),
        ("m=8,", Error::ParamsInvalid),
        ("m=8$", Error::ParamsInvalid),
        ("m=8$AAAAAAAAAAA", Error::ParamsInvalid),
        ("v=1", Error::ParamsInvalid),
    ] {
        assert_eq!(list.parse::<Params>(), Err(error), "{list}");
    }
    let text = "m=65536,t=2,p=256,keyid=8PDw8A,data=Dw8PDw8P";
    let params: Params = text.parse().expect("a list");
    assert_eq!(params.keyid(), [0xf0; 4]);
    assert_eq!(params.data(), [0x0f; 6]);
    assert_eq!(params.to_string(), text);
    assert_eq!(
        ParamsString::try_from(&params).expect("a list").as_str(),
        text
    );
    assert_eq!(
        Params::try_from(&ParamsString::try_from(params.clone()).expect("a list")),
        Ok(params)
    );
}

#[test]
fn byte_lists() {
    assert_eq!(KeyId::new(&[0; 9]), Err(HashError::KeyIdTooLong));
    assert_eq!(AssociatedData::new(&[0; 33]), Err(HashError::AdTooLong));
    let length = Err(B64Error::InvalidLength.into());
    let encoding = Err(B64Error::InvalidEncoding.into());
    assert_eq!(KeyId::from_b64("AAAAAAAAAAAA"), length);
    assert_eq!(KeyId::from_b64("8PDw8B"), encoding);
    assert_eq!(KeyId::from_b64("8PDw$A"), encoding);
    assert_eq!(KeyId::from_b64("8PDw8A"), KeyId::new(&[0xf0; 4]));
    assert_eq!("".parse(), Ok(KeyId::EMPTY));
    assert_eq!("AA".parse(), KeyId::new(&[0]));
    assert_eq!(
        "dummy".parse::<AssociatedData>(),
        Err(B64Error::InvalidEncoding.into())
    );
    assert_eq!(
        AssociatedData::from_b64(&"A".repeat(43)),
        AssociatedData::new(&[0; 32])
    );
    let too_long = AssociatedData::from_b64(&"A".repeat(44));
    assert_eq!(too_long, Err(B64Error::InvalidLength.into()));
    let of = |bytes: &[u8]| KeyId::try_from(bytes).expect("a short one");
    assert!(of(&[]) < of(&[0]) && of(&[0]) < of(&[0, 0]) && of(&[0, 0]) < of(&[1]));
    assert_eq!((of(&[]).is_empty(), of(&[0, 0]).len()), (true, 2));
}

#[test]
fn variants_and_versions() {
    for (algorithm, name) in [
        (Algorithm::Argon2d, "argon2d"),
        (Algorithm::Argon2i, "argon2i"),
        (Algorithm::Argon2id, "argon2id"),
    ] {
        assert_eq!(Algorithm::new(name), Ok(algorithm));
        assert_eq!(algorithm.to_string(), name);
        assert_eq!(
            Ident::from(algorithm),
            Ident::new(name).expect("an identifier")
        );
    }
    assert_eq!(Algorithm::new("argon2"), Err(HashError::AlgorithmInvalid));
    assert_eq!(Algorithm::try_from("Argon2id"), Err(Error::Algorithm));
    assert_eq!(Version::try_from(16), Ok(Version::V0x10));
    assert_eq!(Version::try_from(19), Ok(Version::V0x13));
    assert_eq!(Version::try_from(17), Err(HashError::VersionInvalid));
}

#[test]
fn lists_grow_within_the_grammar() {
    let mut list = ParamsString::new();
    for name in ["v", "", "M", "m=1,t"] {
        assert_eq!(
            list.add_decimal(name, 1),
            Err(Error::ParamsInvalid),
            "{name}"
        );
    }
    assert!(list.is_empty());
    assert_eq!(list.add_decimal("m", 8), Ok(()));
    assert_eq!(list.add_decimal("m", 8), Err(Error::ParamsInvalid));
    assert_eq!(list.add_b64_bytes("x", &[]), Err(Error::ParamsInvalid));
    assert_eq!(list.add_b64_bytes("x", &[0; 49]), Err(Error::ParamsInvalid));
    assert_eq!(list.add_b64_bytes("x", &[0; 65]), Err(Error::ParamsInvalid));
    assert_eq!(list.add_b64_bytes("x", &[0xf0; 2]), Ok(()));
    assert_eq!(list.as_str(), "m=8,x=8PA");
    assert_eq!(list.get("m").map(|it| it.decimal()), Some(Ok(8)));
    assert_eq!(
        list.get("x").map(|it| it.decimal()),
        Some(Err(Error::ParamsInvalid))
    );
    assert_eq!(list.get("t"), None);
    let names: Vec<_> = list
        .iter()
        .map(|(name, value)| format!("{name} {value}"))
        .collect();
    assert_eq!(names, ["m 8", "x 8PA"]);
    let list: Result<ParamsString> = "a=0,b=08,c=4294967295,d=4294967296".parse();
    let list = list.expect("a list");
    let numbers: Vec<_> = list.iter().map(|(_, value)| value.decimal().ok()).collect();
    assert_eq!(numbers, [Some(0), None, Some(u32::MAX), None]);
    for text in ["m=8,", ",m=8", "m==8", "m=8,m=8", "m", "m=8$t=1"] {
        assert_eq!(
            text.parse::<ParamsString>(),
            Err(Error::ParamsInvalid),
            "{text}"
        );
    }
}

#[test]
fn fields_of_bytes() {
    for (n, is_salt, is_output) in [
        (3, false, false),
        (4, false, true),
        (7, false, true),
        (8, true, true),
        (48, true, true),
    ]
    .into_iter()
    .chain([(49, false, true), (64, false, true), (65, false, false)])
    {
        let bytes = vec![0xff; n];
        assert_eq!(Salt::new(&bytes).is_ok(), is_salt, "{n}");
        assert_eq!(Output::new(&bytes).is_ok(), is_output, "{n}");
    }
    assert_eq!(
        Salt::new(b"somesalt").map(|it| it.to_string()),
        Ok("c29tZXNhbHQ".to_owned())
    );
    assert_eq!(
        Output::new(&[0xff; 4]).map(|it| it.to_string()),
        Ok("/////w".to_owned())
    );
    assert_eq!(
        Output::new(&[0; 64]).map(|it| it.to_string()),
        Ok("A".repeat(86))
    );
    let (one, other) = (Salt::generate(), Salt::generate());
    assert!(one.is_ok_and(|it| it.len() == Salt::RECOMMENDED_LENGTH));
    assert_ne!(one, other);
}

#[test]
fn texts_are_read_and_printed() {
    let longest = format!(
        "${}$v=4294967295$a={},b={}${}${}",
        "a".repeat(32),
        "x".repeat(64),
        "x".repeat(58),
        "A".repeat(64),
        "A".repeat(86)
    );
    assert_eq!(longest.len(), 326);
    for text in [
        "$argon2id",
        "$argon2id$v=19",
        "$scrypt$ln=16",
        REFERENCE,
        &longest,
    ] {
        assert_eq!(
            text.parse::<PasswordHash>().map(|it| it.to_string()),
            Ok(text.to_owned())
        );
    }
    assert_eq!(verify("x", &longest), Err(Error::ParamsInvalid));
    for text in [
        "",
        "argon2id",
        "$",
        "$argon2id$",
        "$Argon2id",
        "$argon2id$v=019",
        "$argon2id$v=4294967296",
        "$argon2id$c29tZXNhbHR",
        "$argon2id$c29tZXNhbHQ$AAAA",
        "$argon2id$c29tZXNhbHQ$AAAAA",
        "$argon2id$c29tZXNhbHQ$AAAAAA$",
        "$argon2id\0",
        "$argon2id\n",
        "$argon2\u{e9}",
        &longest.replace(",b=", ",b=x"),
    ] {
        assert_eq!(
            PasswordHash::new(text),
            Err(Error::EncodingInvalid),
            "{text}"
        );
        assert_eq!(verify("x", text), Err(Error::EncodingInvalid), "{text}");
    }
    for text in ["", "A", "a=b", "a$b", "a$v=1", "-$"] {
        assert_eq!(Ident::new(text), Err(Error::EncodingInvalid), "{text}");
    }
}

#[test]
fn passwords_are_hashed_and_verify() {
    let params = Params::new(256, 2, 2, None).expect("valid parameters");
    let argon2 = Argon2::from(params.clone());
    let hash = argon2
        .hash_password_with_salt(b"password", b"somesalt")
        .expect("a hash");
    assert_eq!(hash.to_string(), REFERENCE);
    assert_eq!(verify("password", REFERENCE), Ok(()));
    assert_eq!(verify("sassword", REFERENCE), Err(Error::PasswordInvalid));
    let other = Argon2::new(Algorithm::Argon2i, Version::V0x10, Params::default());
    let by_params =
        other.hash_password_customized(b"password", b"somesalt", None, None, params.clone());
    assert_eq!(by_params, Ok(hash));
    let by = |id, version, salt: &[u8]| {
        other
            .hash_password_customized(b"x", salt, id, version, params.clone())
            .err()
    };
    assert_eq!(by(Some("argon2"), Some(17), b"x"), Some(Error::Algorithm));
    assert_eq!(by(Some("argon2d"), Some(17), b"x"), Some(Error::Version));
    assert_eq!(
        by(Some("argon2d"), Some(16), b"weesalt"),
        Some(Error::SaltInvalid)
    );
    assert_eq!(by(None, None, &[0; 49]), Some(Error::SaltInvalid));
    assert_eq!(by(None, None, &[0; 48]), None);
    let long = Argon2::from(Params::new(8, 1, 1, Some(65)).expect("valid parameters"));
    assert_eq!(
        long.hash_password_with_salt(b"x", b"x"),
        Err(Error::SaltInvalid)
    );
    assert_eq!(long.hash_password(b"x"), Err(Error::OutputSize));

    let (one, other) = (
        argon2.hash_password(b"password"),
        argon2.hash_password(b"password"),
    );
    assert_ne!(one, other);
    assert_eq!(
        argon2.verify_password(b"password", &one.expect("a hash")),
        Ok(())
    );
}

#[test]
fn texts_with_an_identifier_and_data() {
    let mut builder = ParamsBuilder::new();
    let key_id = KeyId::new(&[0xf0; 4]).expect("four bytes");
    let data = AssociatedData::new(&[0x0f; 6]).expect("six bytes");
    builder
        .m_cost(32)
        .t_cost(2)
        .p_cost(3)
        .data(data)
        .keyid(key_id);
    let argon2 = builder
        .context(Algorithm::Argon2d, Version::V0x10)
        .expect("valid parameters");
    let text = argon2
        .hash_password_with_salt(b"password", &[0; 8])
        .expect("a hash")
        .to_string();
    assert_eq!(
        text,
        "$argon2d$v=16$m=32,t=2,p=3,keyid=8PDw8A,data=Dw8PDw8P$AAAAAAAAAAA$KnH4gniiaFnDvlA1xev3yovC4cnrrI6tnHOYtmja90o"
    );
    assert_eq!(verify("password", &text), Ok(()));
    assert_eq!(
        verify("password", &text.replace("keyid=8PDw8A,", "")),
        Ok(())
    );
    assert_eq!(
        verify("password", &text.replace("Dw8PDw8P", "Dw8PDw8Q")),
        Err(Error::PasswordInvalid)
    );
}

#[test]
fn texts_of_other_settings() {
    let refuses = |text: &str, error| assert_eq!(verify("password", text), Err(error), "{text}");
    refuses(
        "$argon2id$v=19$m=8,t=1,p=1$c29tZXNhbHQ",
        Error::PasswordInvalid,
    );
    refuses("$argon2id$v=19$m=7$c29tZXNhbHQ", Error::PasswordInvalid);
    refuses(
        "$argon2$v=19$m=8,t=1,p=1$c29tZXNhbHQ$AAAAAA",
        Error::Algorithm,
    );
    refuses("$argon2$v=42$m=7,t=1,p=1$c29tZXNhbHQ$AAAAAA", M);
    refuses("$argon2$v=42$m=7$c29tZXNhbHQ$AAAAAA", Error::ParamsInvalid);
    refuses(
        "$argon2i$v=42$m=65536,t=2,p=1$c29tZXNhbHQ$AAAAAA",
        Error::Version,
    );
    // (without a version the version is 0x10, and the parameters may have any order)
    let text = "$argon2i$p=2,m=256,t=2$c29tZXNhbHQ$tsEVYKap1h6scGt5ovl9aLRGOqOth+AMB+KwHpDFZPs";
    assert_eq!(verify("password", text), Ok(()));
    let hash = PasswordHash::new(text).expect("a text");
    assert_eq!(
        (hash.version, hash.hash.map(|it| it.len())),
        (None, Some(32))
    );
    assert_eq!(
        Params::try_from(&hash).map(|it| it.output_len()),
        Ok(Some(32))
    );
}

#[test]
fn a_hash_without_a_salt_is_neither_printed_nor_verify() {
    let mut hash = PasswordHash::new(REFERENCE).expect("a text");
    hash.salt = None;
    assert_eq!(hash.to_string(), "$argon2id$v=19$m=256,t=2,p=2");
    assert_eq!(
        Argon2::default().verify_password(b"password", &hash),
        Err(Error::PasswordInvalid)
    );
}

#[test]
fn a_secret_is_needed_again() {
    let params = Params::new(8, 1, 1, Some(16)).expect("valid parameters");
    let with = |secret| {
        Argon2::new_with_secret(secret, Algorithm::Argon2id, Version::V0x13, params.clone())
    };
    let (argon2, other) = (
        with(b"pepper").expect("a secret"),
        with(b"paprika").expect("a secret"),
    );
    let hash = argon2
        .hash_password_with_salt(b"hunter42", b"example-salt")
        .expect("a hash");
    assert_eq!(argon2.verify_password(b"hunter42", &hash), Ok(()));
    assert_eq!(
        other.verify_password(b"hunter42", &hash),
        Err(Error::PasswordInvalid)
    );
    assert_eq!(
        Argon2::default().verify_password(b"hunter42", &hash),
        Err(Error::PasswordInvalid)
    );
}

#[test]
fn an_old_secret_accepts_older_texts() {
    let params = Params::new(256, 2, 2, None).expect("valid parameters");
    let (id, version) = (Algorithm::Argon2id, Version::V0x13);
    let argon2 = Argon2::new_with_secret(b"new", id, version, params.clone()).expect("a secret");
    let older = Argon2::new_with_secret(b"old", id, version, params).expect("a secret");
    let by = |old: &[u8], password: &[u8], text: &str| {
        let bound = Bound {
            m_cost: 256,
            t_cost: 2,
            p_cost: 2,
        };
        bound.verify_under_both(&argon2, old, password, text)
    };
    let text = argon2
        .hash_password(b"password")
        .expect("a hash")
        .to_string();
    let old = older
        .hash_password(b"password")
        .expect("a hash")
        .to_string();
    let wrong = Err(Error::PasswordInvalid.into());
    assert_eq!(by(b"old", b"password", &text), Ok(false));
    assert_eq!(by(b"old", b"password", &old), Ok(true));
    assert_eq!(by(b"old", b"sassword", &old), wrong);
    assert_eq!(by(b"older", b"password", &old), wrong);
    assert_eq!(by(b"", b"password", REFERENCE), Ok(true));
    assert_eq!(by(b"old", b"password", REFERENCE), wrong);
}

#[test]
fn a_bound_comes_before_memory() {
    let argon2 = Argon2::default();
    let within = |m_cost, t_cost, p_cost, password: &[u8], text: &str| {
        Bound {
            m_cost,
            t_cost,
            p_cost,
        }
        .verify(&argon2, password, text)
    };
    assert_eq!(within(256, 2, 2, b"password", REFERENCE), Ok(()));
    let wrong = Err(Error::PasswordInvalid.into());
    assert_eq!(within(256, 2, 2, b"sassword", REFERENCE), wrong);
    for (m, t, p) in [(255, 2, 2), (256, 1, 2), (256, 2, 1)] {
        assert_eq!(
            within(m, t, p, b"password", REFERENCE),
            Err(BoundError::TooExpensive)
        );
    }
    let dear = "$argon2id$v=19$m=4294967295,t=4294967295,p=1$c29tZXNhbHQ$AAAAAA";
    assert_eq!(
        within(1 << 20, 8, 8, b"x", dear),
        Err(BoundError::TooExpensive)
    );
    let outside = Err(Error::EncodingInvalid.into());
    assert_eq!(within(1 << 20, 8, 8, b"x", "x"), outside);
}

#[test]
fn other_settings_ask_for_renewal() {
    let hasher = |m, t, p, n| Argon2::from(Params::new(m, t, p, n).expect("valid parameters"));
    assert_eq!(hasher(256, 2, 2, None).needs_rehash(REFERENCE), Ok(false));
    assert_eq!(
        hasher(256, 2, 2, Some(32)).needs_rehash(REFERENCE),
        Ok(false)
    );
    for other in [
        hasher(256, 2, 2, Some(16)),
        hasher(257, 2, 2, None),
        hasher(256, 1, 2, None),
    ] {
        assert_eq!(other.needs_rehash(REFERENCE), Ok(true));
    }
    let fresh = hasher(256, 2, 2, None);
    assert_eq!(
        fresh.needs_rehash(&REFERENCE.replace("$v=19", "")),
        Ok(true)
    );
    assert_eq!(
        fresh.needs_rehash(&REFERENCE.replace("2id", "2i")),
        Ok(true)
    );
    assert_eq!(
        fresh.needs_rehash(&REFERENCE.replace("p=2", "p=2,data=AA")),
        Ok(true)
    );
    assert_eq!(fresh.needs_rehash("$2b$10$x"), Err(Error::EncodingInvalid));
}

#[test]
fn errors_print() {
    for (error, text) in [
        (HashError::AdTooLong, "associated data is too long"),
        (HashError::MemoryTooLittle, "memory cost is too small"),
        (
            B64Error::InvalidEncoding.into(),
            "B64 encoding invalid: invalid Base64 encoding",
        ),
        (HashError::OutOfMemory, "out of memory"),
    ] {
        assert_eq!(error.to_string(), text);
        assert_eq!(kdf::Error::from(error).to_string(), "key derivation failed");
    }
    assert_eq!(
        Error::from(HashError::KeyIdTooLong).to_string(),
        "parameter keyid is invalid"
    );
    assert_eq!(
        BoundError::TooExpensive.to_string(),
        "text asks for more than the bound"
    );
    let boxed: Box<dyn std::error::Error> = HashError::from(B64Error::InvalidLength).into();
    assert_eq!(
        boxed.source().map(ToString::to_string).as_deref(),
        Some("invalid Base64 length")
    );
}
