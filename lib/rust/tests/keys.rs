//! Keys, codes and sealed texts without a handle.

use snmpsec::{localise, mac, open, password_key, seal, Error, Protocol, LARGEST_KEY};

const PROTOCOLS: [Protocol; 3] = [Protocol::Md5, Protocol::Sha1, Protocol::Sha256];

const ENGINE: [u8; 12] = [0, 0, 0, 0, 0, 0, 0, 0, 0, 0, 0, 2];

/// The key, the initialization vector as boots, time and salt, and the text of NIST SP 800-38A, section F.3.13.
const KEY: [u8; 16] = [
    0x2b, 0x7e, 0x15, 0x16, 0x28, 0xae, 0xd2, 0xa6, 0xab, 0xf7, 0x15, 0x88, 0x09, 0xcf, 0x4f, 0x3c,
];
const BOOTS: u32 = 0x0001_0203;
const TIME: u32 = 0x0405_0607;
const SALT: [u8; 8] = [8, 9, 10, 11, 12, 13, 14, 15];
const PLAIN: [u8; 32] = [
    0x6b, 0xc1, 0xbe, 0xe2, 0x2e, 0x40, 0x9f, 0x96, 0xe9, 0x3d, 0x7e, 0x11, 0x73, 0x93, 0x17, 0x2a,
    0xae, 0x2d, 0x8a, 0x57, 0x1e, 0x03, 0xac, 0x9c, 0x9e, 0xb7, 0x6f, 0xac, 0x45, 0xaf, 0x8e, 0x51,
];
const SEALED: &str = "3b3fd92eb72dad20333449f8e83cfb4ac8a64537a0b3a93fcde3cdad9f1ce58b";

fn hex(octets: &[u8]) -> String {
    octets.iter().map(|octet| format!("{octet:02x}")).collect()
}

/// Of the password `maplesyrup` the key, and that key localised (RFC 3414, sections A.3.1 and A.3.2; the third by
/// Python's hashlib).
#[test]
fn a_password_gives_keys() {
    let keys = [
        (
            "9faf3283884e92834ebc9847d8edd963",
            "526f5eed9fcce26f8964c2930787d82b",
        ),
        (
            "9fb5cc0381497b3793528939ff788d5d79145211",
            "6695febc9288e36282235fc7151f128497b38f3f",
        ),
        (
            "ab51014d1e077f6017df2b12bee5f5aa72993177e9bb569c4dff5a4ca0b4afac",
            "8982e0e549e866db361a6b625d84cccc11162d453ee8ce3a6445c2d6776f0f8b",
        ),
    ];
    for (protocol, (expected, localised)) in PROTOCOLS.into_iter().zip(keys) {
        let key = password_key(protocol, b"maplesyrup").unwrap();
        assert_eq!(hex(&key), expected);
        assert_eq!(hex(&localise(protocol, &key, &ENGINE).unwrap()), localised);
    }
}

/// The code of `Hi There` under octets 0b (RFC 2202, sections 2 and 3; RFC 4231, section 4.2).
#[test]
fn a_code_is_of_what_is_joined() {
    let codes = [
        (16, "9294727a3638bb1c13f48ef8"),
        (20, "b617318655057264e28bc0b6"),
        (20, "b0344c61d8db38535ca8afceaf0bf12b881dc200c9833da7"),
    ];
    for (protocol, (key_len, expected)) in PROTOCOLS.into_iter().zip(codes) {
        let key = vec![0x0b; key_len];
        for at in 0..=8 {
            let (front, back) = b"Hi There".split_at(at);
            assert_eq!(hex(&mac(protocol, &key, front, 0, back).unwrap()), expected);
        }
        let spelled = [b"Hi ".as_slice(), &[0; 24], b"There"].concat();
        assert_eq!(
            mac(protocol, &key, b"Hi ", 24, b"There"),
            mac(protocol, &key, &spelled, 0, b"")
        );
    }
}

/// Each front of the text is sealed to the front of its sealed text.
#[test]
fn a_text_of_any_length_is_sealed_and_opened() {
    for len in 0..=PLAIN.len() {
        let mut text = PLAIN[..len].to_vec();
        seal(&KEY, BOOTS, TIME, &SALT, &mut text).unwrap();
        assert_eq!(hex(&text), SEALED[..2 * len]);
        open(&KEY, BOOTS, TIME, &SALT, &mut text).unwrap();
        assert_eq!(text, PLAIN[..len]);
    }
}

#[test]
fn what_is_out_of_range_is_refused() {
    let long = [1; LARGEST_KEY + 1];
    let refused = Err(Error::BadArgument);
    for protocol in PROTOCOLS {
        assert_eq!(password_key(protocol, b"maplesy"), refused);
        assert_eq!(localise(protocol, &long, &ENGINE), refused);
        assert_eq!(localise(protocol, &KEY, &ENGINE[..4]), refused);
        assert_eq!(localise(protocol, &KEY, &long), refused);
        assert_eq!(mac(protocol, &long, b"", 0, b""), refused);
        assert_eq!(mac(protocol, &KEY, b"", 25, b""), refused);
        assert!(password_key(protocol, b"maplesyr").is_ok());
        assert!(localise(protocol, &long[..32], &ENGINE[..5]).is_ok());
        assert!(localise(protocol, b"", &long[..32]).is_ok());
        assert!(mac(protocol, &long[..32], b"", 24, b"").is_ok());
    }
}

#[test]
fn a_text_stays_where_its_key_or_salt_is_refused() {
    let long = [1; 17];
    let mut text = PLAIN;
    for (key_len, salt_len) in [(15, 8), (17, 8), (0, 8), (16, 7), (16, 9), (16, 0)] {
        let (key, salt) = (&long[..key_len], &long[..salt_len]);
        assert_eq!(seal(key, 1, 2, salt, &mut text), Err(Error::BadArgument));
        assert_eq!(open(key, 1, 2, salt, &mut text), Err(Error::BadArgument));
    }
    assert_eq!(text, PLAIN);
}
