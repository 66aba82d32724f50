//! Tests of tags, of filled memory, and of what hashing refuses.

use argon2::{
    Algorithm, Argon2, AssociatedData, Block, Error, Kdf, Params, ParamsBuilder, Version,
};

/// The tags of RFC 9106, section 5, and the tags of version 0x10 that the reference implementation prints.
const TAGS: [(Algorithm, Version, &str); 6] = [
    (
        Algorithm::Argon2d,
        Version::V0x10,
        "96a9d4e5a1734092c85e29f410a45914a5dd1f5cbf08b2670da68a0285abf32b",
    ),
    (
        Algorithm::Argon2i,
        Version::V0x10,
        "87aeedd6517ab830cd9765cd8231abb2e647a5dee08f7c05e02fcb763335d0fd",
    ),
    (
        Algorithm::Argon2id,
        Version::V0x10,
        "b64615f07789b66b645b67ee9ed3b377ae350b6bfcbb0fc95141ea8f322613c0",
    ),
    (
        Algorithm::Argon2d,
        Version::V0x13,
        "512b391b6f1162975371d30919734294f868e3be3984f3c1a13a4db9fabe4acb",
    ),
    (
        Algorithm::Argon2i,
        Version::V0x13,
        "c814d9d1dc7f37aa13f0d77f2494bda1c8de6b016dd388d29952a4c4672b6ce8",
    ),
    (
        Algorithm::Argon2id,
        Version::V0x13,
        "0d640df58d78766c08c037a34a8b53c9d01ef0452d75b65eb52520e96b01e659",
    ),
];

const PASSWORD: [u8; 32] = [1; 32];
const SALT: [u8; 16] = [2; 16];

fn hex(bytes: &[u8]) -> String {
    let digits: Vec<_> = bytes.iter().map(|byte| format!("{byte:02x}")).collect();
    digits.concat()
}

/// 32 blocks, three passes, four lanes, and twelve bytes of data.
fn params(output_len: Option<usize>) -> Params {
    let mut builder = ParamsBuilder::new();
    let data = AssociatedData::new(&[4; 12]).expect("data");
    builder.m_cost(32).t_cost(3).p_cost(4).data(data);
    if let Some(len) = output_len {
        builder.output_len(len);
    }
    builder.build().expect("valid parameters")
}

fn with_secret(algorithm: Algorithm, version: Version) -> Argon2<'static> {
    Argon2::new_with_secret(&[3; 8], algorithm, version, params(None)).expect("a short secret")
}

fn ones() -> Block {
    let mut block = Block::new();
    block.as_mut().fill(u64::MAX);
    block
}

#[test]
fn tags_on_memory_of_the_library() {
    for (algorithm, version, tag) in TAGS {
        let mut out = [0; 32];
        let argon2 = with_secret(algorithm, version);
        argon2
            .hash_password_into(&PASSWORD, &SALT, &mut out)
            .expect("a tag");
        assert_eq!(hex(&out), tag);
        let mut key = [0; 32];
        argon2
            .derive_key(&PASSWORD, &SALT, &mut key)
            .expect("a key");
        assert_eq!(key, out);
    }
}

#[test]
fn tags_on_lent_memory_whatever_it_had() {
    let mut memory = vec![ones(); 40];
    for (algorithm, version, tag) in TAGS {
        let mut out = [0; 32];
        with_secret(algorithm, version)
            .hash_password_into_with_memory(&PASSWORD, &SALT, &mut out, &mut memory[..])
            .expect("a tag");
        assert_eq!(hex(&out), tag);
        assert!(memory[32..].iter().all(|it| it.as_ref() == ones().as_ref()));
    }
}

#[test]
fn filled_memory_is_that_of_an_output_of_no_bytes() {
    let argon2 = with_secret(Algorithm::Argon2id, Version::V0x13);
    let (mut memory, mut other) = (vec![Block::default(); 32], vec![ones(); 33]);
    argon2
        .fill_memory(&PASSWORD, &SALT, &mut memory[..])
        .expect("32 blocks");
    argon2
        .fill_memory(&PASSWORD, &SALT, &mut other[..])
        .expect("33 blocks");
    for (block, same) in memory.iter().zip(&other) {
        assert_eq!(block.as_ref(), same.as_ref());
    }
    assert_eq!(other[32].as_ref(), ones().as_ref());
    let last = memory
        .chunks(8)
        .fold(Block::new(), |sum, lane| sum ^ &lane[7]);
    assert_eq!(last.as_ref()[..2], FILLED);

    let refused = argon2.fill_memory(&PASSWORD, &SALT, &mut other[..31]);
    assert_eq!(refused, Err(Error::MemoryTooLittle));
    assert_eq!(
        argon2.fill_memory(&PASSWORD, &SALT[..7], [ones()]),
        Err(Error::SaltTooShort)
    );
}

/// The first words of the last column's xor, by a model in Python that shares no code with the library.
const FILLED: [u64; 2] = [0x30a0_8e7d_fab0_4a8e, 0xcdaf_314b_a93f_d6f2];

#[test]
fn refusals_come_in_order_and_leave_the_output() {
    let case = |output_len, n: usize, salt: &[u8], blocks: usize| {
        let argon2 = Argon2::from(params(output_len));
        let (mut out, mut memory) = (vec![7; n], vec![ones(); blocks]);
        let lent = argon2.hash_password_into_with_memory(b"x", salt, &mut out, &mut memory[..]);
        assert!(lent.is_ok() || out.iter().all(|byte| *byte == 7));
        assert!(lent.is_ok() || memory.iter().all(|it| it.as_ref() == ones().as_ref()));
        if blocks >= 32 {
            assert_eq!(argon2.hash_password_into(b"x", salt, &mut out), lent);
            assert_eq!(
                argon2.derive_key(b"x", salt, &mut out).is_ok(),
                lent.is_ok()
            );
        }
        lent
    };
    let (short, salt) = ([2; 7], [2; 8]);
    assert_eq!(case(None, 0, &short, 31), Err(Error::OutputTooShort));
    assert_eq!(case(None, 3, &short, 32), Err(Error::OutputTooShort));
    assert_eq!(case(None, 32, &short, 31), Err(Error::SaltTooShort));
    assert_eq!(case(Some(16), 15, &short, 32), Err(Error::OutputTooShort));
    assert_eq!(case(Some(16), 17, &short, 32), Err(Error::OutputTooLong));
    assert_eq!(case(Some(16), 16, &short, 32), Err(Error::SaltTooShort));
    assert_eq!(case(Some(16), 16, &salt, 31), Err(Error::MemoryTooLittle));
    assert_eq!(case(Some(16), 16, &salt, 0), Err(Error::MemoryTooLittle));
    assert_eq!(case(Some(16), 16, &salt, 32), Ok(()));
    assert_eq!(case(None, 4, &salt, 32), Ok(()));
}

#[test]
fn long_inputs_are_refused() {
    // (zeros that nothing touches take no memory)
    let long = vec![0; 1 << 32];
    let argon2 = Argon2::from(params(None));
    let mut out = [7; 32];
    assert_eq!(
        argon2.hash_password_into(&long, b"x", &mut out),
        Err(Error::PwdTooLong)
    );
    assert_eq!(
        argon2.hash_password_into(b"x", &long, &mut out),
        Err(Error::SaltTooLong)
    );
    assert_eq!(out, [7; 32]);
    let secret = Argon2::new_with_secret(
        &long,
        Algorithm::default(),
        Version::default(),
        Params::default(),
    );
    assert_eq!(secret.err(), Some(Error::SecretTooLong));
    let mut long = long;
    let refused = argon2.hash_password_into(b"x", b"x", &mut long);
    assert_eq!(refused, Err(Error::OutputTooLong));
}

#[test]
fn lanes_of_a_large_hash() {
    let mut out = [0; 32];
    let params = Params::new(4096, 1, 4, Some(32)).expect("valid parameters");
    Argon2::from(&params)
        .hash_password_into(b"password", b"somesalt", &mut out)
        .expect("a tag");
    assert_eq!(hex(&out), LARGE);
}

/// By the same model.
const LARGE: &str = "f1c6f4956e317c22d2af0cc7ea5540c5974e41d4971c50e4af01f4ffaacbe661";

#[test]
fn a_secret_of_no_bytes_is_none() {
    let (mut out, mut other) = ([0; 32], [0; 32]);
    let argon2 = Argon2::new(Algorithm::Argon2id, Version::V0x13, params(None));
    let empty = Argon2::new_with_secret(&[], Algorithm::Argon2id, Version::V0x13, params(None));
    argon2
        .hash_password_into(b"x", &SALT, &mut out)
        .expect("a tag");
    empty
        .expect("a secret")
        .hash_password_into(b"x", &SALT, &mut other)
        .expect("a tag");
    assert_eq!(out, other);
    assert!(format!("{:?}", with_secret(Algorithm::Argon2id, Version::V0x13)).ends_with(", .. }"));
}

#[test]
fn blocks_are_words() {
    let mut block = ones() ^ &Block::new();
    assert_eq!(block.as_ref(), [u64::MAX; 128]);
    block ^= &ones();
    assert_eq!(block.as_ref(), Block::default().as_ref());
    let mut block = ones();
    block.zeroize();
    assert_eq!(block.as_ref(), [0; 128]);
    assert_eq!(size_of::<Block>(), Block::SIZE);
}
