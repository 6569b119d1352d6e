//! Change request K6: which family a label is of. Every byte counts, and so does case.

/// The labels of RFC 7468, figure 4, in its order, and those that count as one of them.
pub const KNOWN: [(&[u8], u32); 12] = [
    (b"CERTIFICATE", 1),
    (b"X509 CRL", 2),
    (b"CERTIFICATE REQUEST", 3),
    (b"PKCS7", 4),
    (b"CMS", 5),
    (b"PRIVATE KEY", 6),
    (b"ENCRYPTED PRIVATE KEY", 7),
    (b"ATTRIBUTE CERTIFICATE", 8),
    (b"PUBLIC KEY", 9),
    (b"X509 CERTIFICATE", 1),
    (b"X.509 CERTIFICATE", 1),
    (b"NEW CERTIFICATE REQUEST", 3),
];

/// The family of all others, and what stands where none is told.
pub const OTHER: u32 = 0;
/// How many families there are, that of all others among them.
pub const FAMILIES: usize = 10;

/// The family of a label.
pub fn family_of(label: &[u8]) -> u32 {
    let known = KNOWN.iter().find(|(name, _)| *name == label);
    known.map_or(OTHER, |(_, family)| *family)
}
