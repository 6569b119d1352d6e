//! The paper's "Counter samples": M and the rows of the table, and rows of change requests K9, K8, K7 and K6.

use crate::paper::style::{CR, CRLF, LF, MIXED, NONE};

/// The M of the paper.
pub const M: &[u8] = b"-----BEGIN A-----\nZg==\n-----END A-----\n";

/// The data of an accepted text, or the number and place of a refusal.
pub type Sample = Result<&'static [u8], (u32, usize)>;

/// M with another body, which stands between the two boundaries.
pub fn m_with(body: &[u8]) -> Vec<u8> {
    [b"-----BEGIN A-----".as_slice(), body, b"-----END A-----\n"].concat()
}

/// M with other labels.
pub fn m_labelled(opening: &[u8], closing: &[u8]) -> Vec<u8> {
    let parts = [b"-----BEGIN ", opening, b"-----\nZg==\n-----END ", closing, b"-----\n"];
    parts.concat()
}

/// The data of M, and with a byte or two more.
const F: Sample = Ok(b"\x66");
const FO: Sample = Ok(b"\x66\x6f");
const FOO: Sample = Ok(b"\x66\x6f\x6f");

/// A body that fails at the place.
const fn body_fails(place: usize) -> Sample {
    Err((4, place))
}

/// M with these bodies, and what lax, standard and strict answer.
fn with_bodies(bodies: &[(&[u8], [Sample; 3])]) -> Vec<(Vec<u8>, [Sample; 3])> {
    bodies.iter().map(|&(body, samples)| (m_with(body), samples)).collect()
}

/// The rows of the table, in its order: the text, then lax, standard and strict.
pub fn rows() -> Vec<(Vec<u8>, [Sample; 3])> {
    let f = F;
    let none: Sample = Ok(b"");
    vec![
        (M.to_vec(), [f; 3]),
        (m_with(b"\nZh==\n"), [f, Err((9, 19)), Err((9, 19))]),
        (M[..38].to_vec(), [f, f, Err((5, 38))]),
        (m_with(b"\n"), [none, Err((4, 18)), Err((4, 18))]),
        (m_with(b"\n\n"), [none, none, Err((4, 18))]),
        (m_with(b"\r\n"), [none, Err((4, 19)), Err((4, 19))]),
        (m_with(b"\nZg=\n"), [Err((8, 22)), Err((8, 22)), Err((4, 21))]),
        (m_with(b"\nZm 9v\n"), [Ok(b"foo"), Err((4, 21)), Err((4, 20))]),
        (m_with(b"\nZg=\n=\n"), [f, f, Err((4, 21))]),
        (m_with(b"\nZg\n==\n"), [f, f, Err((4, 20))]),
        (
            b"-----BEGIN A-----\nZg==\n-----END B-----\n".to_vec(),
            [Err((7, 32)); 3],
        ),
        (m_with(b"-\nZg==\n"), [Err((5, 18)), Err((4, 17)), Err((4, 17))]),
        ([b" ", M].concat(), [f, Err((3, 0)), Err((3, 0))]),
        (b"-----begin A-----\nZg==\n-----END A-----\n".to_vec(), [Err((3, 5)); 3]),
        (Vec::new(), [Err((3, 0)); 3]),
    ]
}

/// M with pads on two lines, after change request K9; the last two have one pad, or too many.
pub fn split_pads() -> Vec<(Vec<u8>, [Sample; 3])> {
    let (f, fo, no) = (F, FO, body_fails);
    with_bodies(&[
        (b"\nZg=\r\n=\n", [f, f, no(21)]),
        (b"\nZg=\r=\n", [f, f, no(21)]),
        (b"\nZg=\t \r\n=\t\n", [f, f, no(21)]),
        (b"\nZg\n=\n=\n", [f, f, no(20)]),
        (b"\nZg=\n =\n", [f, no(22), no(21)]),
        (b"\nZg=\n\n=\n", [f, no(22), no(21)]),
        (b"\nZg=\n\r=\n", [f, no(22), no(21)]),
        (b"\nZg=\r\n\n=\n", [f, no(23), no(21)]),
        (b"\nZg=\x0c\n=\n", [f, no(21), no(21)]),
        (b"\nZg=\n=", [f, no(23), no(21)]),
        (b"\nZg=\n==\n", [no(23), no(23), no(21)]),
        (b"\nZg=\n=\n=\n", [no(24), no(24), no(21)]),
        (b"\nZg==\n=\n", [no(23); 3]),
        (b"\nZg=\nZg==\n", [no(22), no(22), no(21)]),
        (b"\nZm8=\n", [fo; 3]),
        (b"\nZm8=\n=\n", [Err((8, 25)), Err((8, 25)), no(23)]),
    ])
}

/// M with spare bits that are not zero, after change request K8; the last two have none, or counts that do not fit.
pub fn spare_bits() -> Vec<(Vec<u8>, [Sample; 3])> {
    let (f, fo, foo, no) = (F, FO, FOO, body_fails);
    let spare = |place: usize| -> Sample { Err((9, place)) };
    with_bodies(&[
        (b"\nZo==\n", [f, spare(19), spare(19)]),
        (b"\nZm9=\n", [fo, spare(20), spare(20)]),
        (b"\nZm+=\n", [fo, spare(20), spare(20)]),
        (b"\nZh=\n=\n", [f, spare(19), no(21)]),
        (b"\nZh\n==\n", [f, spare(19), no(20)]),
        (b"\nZh \r\n=\r=\t\n", [f, spare(19), no(20)]),
        (b"\nZm9\n=\n", [fo, spare(20), no(21)]),
        (b"\nZ\nh\n=\n=\n", [f, spare(20), no(19)]),
        (b"\nZm9v\n", [foo; 3]),
        (b"\nZh=\n", [Err((8, 22)), Err((8, 22)), no(21)]),
    ])
}

/// A text, and its style under lax, standard and strict, where they take it.
pub type Styled = (Vec<u8>, [Option<u32>; 3]);

/// M with these line ends.
fn m_ending(ends: [&[u8]; 3]) -> Vec<u8> {
    let [opening, data, closing] = ends;
    let parts = [
        b"-----BEGIN A-----",
        opening,
        b"Zg==",
        data,
        b"-----END A-----",
        closing,
    ];
    parts.concat()
}

/// M in each style and mixed, after change request K7. In the last rows a CR or nothing ends the text.
pub fn lined_styles() -> Vec<Styled> {
    let rows: [([&[u8]; 3], u32); 10] = [
        ([b"\n", b"\n", b"\n"], LF),
        ([b"\r\n", b"\r\n", b"\r\n"], CRLF),
        ([b"\r", b"\r", b"\r"], CR),
        ([b"\r", b"\n", b"\n"], MIXED),
        ([b"\n", b"\r\n", b"\n"], MIXED),
        ([b"\r\n", b"\r\n", b"\n"], MIXED),
        ([b"\r", b"\r", b"\r\n"], MIXED),
        ([b"\r\n", b"\r\n", b"\r"], MIXED),
        ([b"\n", b"\n", b""], LF),
        ([b"\r\n", b"\r\n", b""], CRLF),
    ];
    let taken = |ends: [&[u8]; 3], style| [Some(style), Some(style), (!ends[2].is_empty()).then_some(style)];
    rows.map(|(ends, style)| (m_ending(ends), taken(ends, style))).to_vec()
}

/// White at each place where lax takes it, in a message that has no line ends beside it.
pub fn white_styles() -> Vec<Styled> {
    let rows: [(&[u8], u32); 16] = [
        (b"", NONE),
        (b" \t\x0b\x0c", NONE),
        (b"\n", LF),
        (b"\x0b\n\x0c\n", LF),
        (b"\r\n", CRLF),
        (b"\r\n\r\n", CRLF),
        (b"\r\n \r\n", CRLF),
        (b"\r", CR),
        (b"\r\r", CR),
        (b"\r\x0b", CR),
        (b"\r \n", MIXED),
        (b"\r\x0c\n", MIXED),
        (b"\n\r", MIXED),
        (b"\r\r\n", MIXED),
        (b"\r\n\r", MIXED),
        (b"\r\n\n", MIXED),
    ];
    let texts = |(white, style)| spread(white).map(|text| (text, [Some(style), None, None]));
    rows.into_iter().flat_map(texts).collect()
}

/// M without line ends, and with this before the opening, behind it, between characters, around the pads, before the closing
/// or behind it.
pub fn spread(white: &[u8]) -> [Vec<u8>; 7] {
    let parts: [&[u8]; 7] = [b"", b"-----BEGIN A-----", b"Z", b"g", b"=", b"=", b"-----END A-----"];
    std::array::from_fn(|place| {
        let (before, behind) = parts.split_at(place + 1);
        [&before.concat(), white, &behind.concat()].concat()
    })
}

/// Labels that are in no family, after change request K6: the two that it names, what differs little from a known one or has one
/// in it, and what other tools write.
pub const OTHER_LABELS: [&[u8]; 24] = [
    b"",
    b"A",
    b"CRL",
    b"CERTIFICATE CHAIN",
    b"certificate",
    b"Certificate",
    b"CERTIFICATe",
    b"CERTIFICAT",
    b"ERTIFICATE",
    b"CERTIFICATES",
    b"CERTIFICATE-REQUEST",
    b"NEW CERTIFICATE",
    b"TRUSTED CERTIFICATE",
    b"X509 CERTIFICATE REQUEST",
    b"X.509 CRL",
    b"X509CRL",
    b"PKCS",
    b"PKCS 7",
    b"PKCS #7 SIGNED DATA",
    b"CMS CMS",
    b"KEY",
    b"RSA PRIVATE KEY",
    b"RSA PUBLIC KEY",
    b"SSH2 ENCRYPTED PRIVATE KEY",
];
