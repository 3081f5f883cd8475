//! Requirement blobs read and written by a plain program of boxes and vectors, with the checks of
//! docs/FORMATS.md and their order. It is what `bench/opcodes.sh` measures the proved library against, and it
//! makes the requirements that both read.

mod plain_texts;

use std::env;
use std::fs;
use std::io;
use std::path::Path;
use std::time::Instant;

const MAGIC: u32 = 0xfade_0c00;
const MOST_BYTES: usize = 1_048_576;
const MOST_DEPTH: u32 = 256;

#[derive(Debug, PartialEq)]
enum Req {
    Never,
    Always,
    Ident(Vec<u8>),
    AppleAnchor,
    AnchorHash(i32, [u8; 20]),
    LegacyInfo(Vec<u8>, Vec<u8>),
    Both(Box<Req>, Box<Req>),
    Either(Box<Req>, Box<Req>),
    CdHash([u8; 20]),
    Negate(Box<Req>),
    InfoField(Vec<u8>, Match),
    CertField(i32, Vec<u8>, Match),
    TrustedCert(i32),
    TrustedAny,
    CertOid(i32, Vec<u8>, Match),
    AppleGeneric,
    EntitlementField(Vec<u8>, Match),
    CertPolicy(i32, Vec<u8>, Match),
    NamedAnchor(Vec<u8>),
    NamedCode(Vec<u8>),
    Platform(i32),
    Notarized,
    LegacyDevId,
    SkipFalse(u32, Vec<u8>),
    SkipNext(u32, Vec<u8>, Box<Req>),
}

#[derive(Debug, PartialEq)]
enum Match {
    Exists,
    Absent,
    Equal(Vec<u8>),
    Contains(Vec<u8>),
    Begins(Vec<u8>),
    Ends(Vec<u8>),
    Less(Vec<u8>),
    Greater(Vec<u8>),
    LessEqual(Vec<u8>),
    GreaterEqual(Vec<u8>),
}

#[derive(Clone, Copy, Debug, PartialEq)]
enum Fault {
    Short,
    BadMagic,
    BadLength,
    TooLong,
    BadKind,
    TooDeep { at: u32 },
    Cut { at: u32 },
    UnknownOp { at: u32, op: u32 },
    OutOfScopeOp { at: u32 },
    UnknownMatch { at: u32, suffix: u32 },
    BadPadding { at: u32 },
    BadHashLength { at: u32 },
    BadOid { at: u32 },
    BadKey { at: u32 },
    Trailing { at: u32 },
}

/// A cursor over one blob.
struct Reader<'a> {
    whole: &'a [u8],
    at: usize,
}

impl<'a> Reader<'a> {
    fn place(&self) -> u32 {
        self.at as u32
    }

    fn word(&mut self) -> Result<u32, Fault> {
        let Some(bytes) = self.whole[self.at..].first_chunk::<4>() else {
            return Err(Fault::Cut { at: self.place() });
        };
        self.at += 4;
        Ok(u32::from_be_bytes(*bytes))
    }

    fn number(&mut self) -> Result<i32, Fault> {
        Ok(self.word()? as i32)
    }

    /// A length and that many bytes, which nothing fills up.
    fn unpadded(&mut self) -> Result<&'a [u8], Fault> {
        let at = self.place();
        let count = self.word()? as usize;
        let rest = &self.whole[self.at..];
        if rest.len() < count {
            return Err(Fault::Cut { at });
        }
        self.at += count;
        Ok(&rest[..count])
    }

    /// A length, that many bytes, and zeros up to a multiple of four.
    fn datum(&mut self) -> Result<&'a [u8], Fault> {
        let at = self.place();
        let count = self.word()? as usize;
        let padded = (count + 3) & !3;
        let rest = &self.whole[self.at..];
        if rest.len() < padded {
            return Err(Fault::Cut { at });
        }
        if rest[count..padded].iter().any(|byte| *byte != 0) {
            return Err(Fault::BadPadding { at });
        }
        self.at += padded;
        Ok(&rest[..count])
    }

    fn text(&mut self) -> Result<Vec<u8>, Fault> {
        Ok(self.datum()?.to_vec())
    }

    fn hash(&mut self) -> Result<[u8; 20], Fault> {
        let at = self.place();
        self.datum()?.try_into().map_err(|_| Fault::BadHashLength { at })
    }

    fn key(&mut self) -> Result<Vec<u8>, Fault> {
        let at = self.place();
        let key = self.datum()?;
        let reserved: [&[u8]; 3] = [b"field.", b"policy.", b"timestamp."];
        if reserved.iter().any(|front| key.starts_with(front)) {
            return Err(Fault::BadKey { at });
        }
        Ok(key.to_vec())
    }

    fn oid(&mut self) -> Result<Vec<u8>, Fault> {
        let at = self.place();
        let oid = self.datum()?;
        if is_oid(oid) { Ok(oid.to_vec()) } else { Err(Fault::BadOid { at }) }
    }

    fn test(&mut self) -> Result<Match, Fault> {
        let at = self.place();
        Ok(match self.word()? {
            0 => Match::Exists,
            1 => Match::Equal(self.text()?),
            2 => Match::Contains(self.text()?),
            3 => Match::Begins(self.text()?),
            4 => Match::Ends(self.text()?),
            5 => Match::Less(self.text()?),
            6 => Match::Greater(self.text()?),
            7 => Match::LessEqual(self.text()?),
            8 => Match::GreaterEqual(self.text()?),
            14 => Match::Absent,
            suffix => return Err(Fault::UnknownMatch { at, suffix }),
        })
    }

    fn boxed(&mut self, depth: u32) -> Result<Box<Req>, Fault> {
        Ok(Box::new(self.req(depth)?))
    }

    /// An expression of at most this depth.
    fn req(&mut self, depth: u32) -> Result<Req, Fault> {
        let at = self.place();
        if depth == 0 {
            return Err(Fault::TooDeep { at });
        }
        let op = self.word()?;
        Ok(match op & 0xff_ffff {
            0 => Req::Never,
            1 => Req::Always,
            2 => Req::Ident(self.text()?),
            3 => Req::AppleAnchor,
            4 => Req::AnchorHash(self.number()?, self.hash()?),
            5 => Req::LegacyInfo(self.text()?, self.text()?),
            6 => Req::Both(self.boxed(depth - 1)?, self.boxed(depth - 1)?),
            7 => Req::Either(self.boxed(depth - 1)?, self.boxed(depth - 1)?),
            8 => Req::CdHash(self.hash()?),
            9 => Req::Negate(self.boxed(depth - 1)?),
            10 => Req::InfoField(self.text()?, self.test()?),
            11 => Req::CertField(self.number()?, self.key()?, self.test()?),
            12 => Req::TrustedCert(self.number()?),
            13 => Req::TrustedAny,
            14 => Req::CertOid(self.number()?, self.oid()?, self.test()?),
            15 => Req::AppleGeneric,
            16 => Req::EntitlementField(self.text()?, self.test()?),
            17 => Req::CertPolicy(self.number()?, self.oid()?, self.test()?),
            18 => Req::NamedAnchor(self.text()?),
            19 => Req::NamedCode(self.text()?),
            20 => Req::Platform(self.number()?),
            21 => Req::Notarized,
            22 => return Err(Fault::OutOfScopeOp { at }),
            23 => Req::LegacyDevId,
            _ if op & 0x8000_0000 != 0 => Req::SkipFalse(op, self.unpadded()?.to_vec()),
            _ if op & 0x4000_0000 != 0 => {
                Req::SkipNext(op, self.unpadded()?.to_vec(), self.boxed(depth - 1)?)
            }
            _ => return Err(Fault::UnknownOp { at, op }),
        })
    }
}

/// Numbers below 2^32 in base 128, each as short as can be, and one at least.
fn is_oid(bytes: &[u8]) -> bool {
    let mut number = 0u64;
    let mut inside = false;
    for byte in bytes {
        if !inside && *byte == 0x80 {
            return false;
        }
        number = number << 7 | u64::from(byte & 0x7f);
        if number > u64::from(u32::MAX) {
            return false;
        }
        inside = *byte & 0x80 != 0;
        if !inside {
            number = 0;
        }
    }
    !bytes.is_empty() && !inside
}

fn decode(bytes: &[u8]) -> Result<Req, Fault> {
    let Some((magic, behind)) = bytes.split_first_chunk::<4>() else {
        return Err(Fault::Short);
    };
    let Some(length) = behind.first_chunk::<4>() else {
        return Err(Fault::Short);
    };
    if u32::from_be_bytes(*magic) != MAGIC {
        return Err(Fault::BadMagic);
    }
    let length = u32::from_be_bytes(*length) as usize;
    if length < 8 || bytes.len() < length {
        return Err(Fault::BadLength);
    }
    if length > MOST_BYTES {
        return Err(Fault::TooLong);
    }
    let mut reader = Reader { whole: &bytes[..length], at: 8 };
    if reader.word()? != 1 {
        return Err(Fault::BadKind);
    }
    let req = reader.req(MOST_DEPTH)?;
    if reader.at < bytes.len() {
        return Err(Fault::Trailing { at: reader.place() });
    }
    Ok(req)
}

fn put_word(out: &mut Vec<u8>, word: u32) {
    out.extend_from_slice(&word.to_be_bytes());
}

fn put_op(out: &mut Vec<u8>, op: u32, number: i32) {
    put_word(out, op);
    put_word(out, number as u32);
}

fn put_unpadded(out: &mut Vec<u8>, bytes: &[u8]) {
    put_word(out, bytes.len() as u32);
    out.extend_from_slice(bytes);
}

fn put_datum(out: &mut Vec<u8>, bytes: &[u8]) {
    put_unpadded(out, bytes);
    out.extend_from_slice(&[0; 3][..bytes.len().wrapping_neg() % 4]);
}

fn put_test(out: &mut Vec<u8>, test: &Match) {
    let (suffix, value) = match test {
        Match::Exists => return put_word(out, 0),
        Match::Absent => return put_word(out, 14),
        Match::Equal(value) => (1, value),
        Match::Contains(value) => (2, value),
        Match::Begins(value) => (3, value),
        Match::Ends(value) => (4, value),
        Match::Less(value) => (5, value),
        Match::Greater(value) => (6, value),
        Match::LessEqual(value) => (7, value),
        Match::GreaterEqual(value) => (8, value),
    };
    put_word(out, suffix);
    put_datum(out, value);
}

fn put_named(out: &mut Vec<u8>, op: u32, name: &[u8]) {
    put_word(out, op);
    put_datum(out, name);
}

fn put_pair(out: &mut Vec<u8>, op: u32, left: &Req, right: &Req) {
    put_word(out, op);
    put_req(out, left);
    put_req(out, right);
}

fn put_req(out: &mut Vec<u8>, req: &Req) {
    match req {
        Req::Never => put_word(out, 0),
        Req::Always => put_word(out, 1),
        Req::Ident(value) => put_named(out, 2, value),
        Req::AppleAnchor => put_word(out, 3),
        Req::AnchorHash(slot, hash) => {
            put_op(out, 4, *slot);
            put_datum(out, hash);
        }
        Req::LegacyInfo(key, value) => {
            put_named(out, 5, key);
            put_datum(out, value);
        }
        Req::Both(left, right) => put_pair(out, 6, left, right),
        Req::Either(left, right) => put_pair(out, 7, left, right),
        Req::CdHash(hash) => put_named(out, 8, hash),
        Req::Negate(inner) => {
            put_word(out, 9);
            put_req(out, inner);
        }
        Req::InfoField(key, test) => {
            put_named(out, 10, key);
            put_test(out, test);
        }
        Req::CertField(slot, key, test) => {
            put_op(out, 11, *slot);
            put_datum(out, key);
            put_test(out, test);
        }
        Req::TrustedCert(slot) => put_op(out, 12, *slot),
        Req::TrustedAny => put_word(out, 13),
        Req::CertOid(slot, oid, test) => {
            put_op(out, 14, *slot);
            put_datum(out, oid);
            put_test(out, test);
        }
        Req::AppleGeneric => put_word(out, 15),
        Req::EntitlementField(key, test) => {
            put_named(out, 16, key);
            put_test(out, test);
        }
        Req::CertPolicy(slot, oid, test) => {
            put_op(out, 17, *slot);
            put_datum(out, oid);
            put_test(out, test);
        }
        Req::NamedAnchor(name) => put_named(out, 18, name),
        Req::NamedCode(name) => put_named(out, 19, name),
        Req::Platform(number) => put_op(out, 20, *number),
        Req::Notarized => put_word(out, 21),
        Req::LegacyDevId => put_word(out, 23),
        Req::SkipFalse(op, skipped) => {
            put_word(out, *op);
            put_unpadded(out, skipped);
        }
        Req::SkipNext(op, skipped, inner) => {
            put_word(out, *op);
            put_unpadded(out, skipped);
            put_req(out, inner);
        }
    }
}

/// Grows as it goes, and fills the length in at the end.
fn encode(req: &Req) -> Result<Vec<u8>, Fault> {
    let mut out = Vec::with_capacity(256);
    put_word(&mut out, MAGIC);
    put_word(&mut out, 0);
    put_word(&mut out, 1);
    put_req(&mut out, req);
    if out.len() > MOST_BYTES {
        return Err(Fault::TooLong);
    }
    let length = out.len() as u32;
    out[4..8].copy_from_slice(&length.to_be_bytes());
    Ok(out)
}

fn both(left: Req, right: Req) -> Req {
    Req::Both(Box::new(left), Box::new(right))
}

fn either(left: Req, right: Req) -> Req {
    Req::Either(Box::new(left), Box::new(right))
}

fn hash_of(number: u32) -> [u8; 20] {
    std::array::from_fn(|at| (number.wrapping_mul(0x9e37_79b1).wrapping_add(at as u32 * 0x85eb_ca6b) >> 13) as u8)
}

/// One alternative of a mixture: code of an identifier and a team, a store's or a fleet's own, a tool of the
/// system, or code with information and entitlements.
fn alternative(number: u32) -> Req {
    let identifier = Req::Ident(format!("com.example.app{number}").into_bytes());
    match number % 4 {
        0 => {
            let generic = both(identifier, Req::AppleGeneric);
            let authority = Req::CertOid(1, b"*\x86H\x86\xf7cd\x06\x02\x06".to_vec(), Match::Exists);
            let leaf = Req::CertOid(0, b"*\x86H\x86\xf7cd\x06\x01\x0d".to_vec(), Match::Exists);
            let team = format!("TEAM{number:06}").into_bytes();
            let team = Req::CertField(0, b"subject.OU".to_vec(), Match::Equal(team));
            both(both(both(generic, authority), leaf), team)
        }
        1 => {
            let version = format!("{}.{}", number / 10, number % 10).into_bytes();
            let version = Req::InfoField(b"CFBundleShortVersionString".to_vec(), Match::GreaterEqual(version));
            let agent = Req::InfoField(b"LSUIElement".to_vec(), Match::Equal(b"1".to_vec()));
            let sandbox = Req::EntitlementField(b"com.apple.security.app-sandbox".to_vec(), Match::Exists);
            let anchor = Req::AnchorHash(-1, hash_of(number));
            both(both(both(identifier, anchor), version), either(sandbox, Req::Negate(Box::new(agent))))
        }
        2 => {
            let system = both(both(identifier, Req::AppleAnchor), Req::Platform(2));
            let policy = Req::CertPolicy(0, b"*\x86H\x86\xf7cd\x05\x06\x01".to_vec(), Match::Exists);
            both(system, either(policy, Req::Notarized))
        }
        _ => {
            let group = format!("TEAM{number:06}.").into_bytes();
            let group = Req::EntitlementField(b"application-identifier".to_vec(), Match::Begins(group));
            let name = Req::CertField(-1, b"subject.CN".to_vec(), Match::Contains(b"Fleet".to_vec()));
            both(both(Req::TrustedCert(-1), name), either(Req::CdHash(hash_of(number)), group))
        }
    }
}

/// The first of numbered requirements, joined by `or`, as many as fit into a size. A chain has 200 at most,
/// and chains are joined in the same way.
fn joined(size: usize, make: fn(u32) -> Req) -> Req {
    let mut left = size - 12;
    let mut chains: Option<Req> = None;
    let mut chain: Option<Req> = None;
    for number in 0.. {
        let next = make(number);
        let mut bytes = Vec::new();
        put_req(&mut bytes, &next);
        if left < bytes.len() + 4 {
            break;
        }
        left -= bytes.len() + 4;
        chain = Some(match chain.take() {
            Some(before) => either(before, next),
            None => next,
        });
        if number % 200 == 199 {
            chains = merged(chains, chain.take());
        }
    }
    merged(chains, chain).unwrap_or(Req::Never)
}

fn merged(chains: Option<Req>, chain: Option<Req>) -> Option<Req> {
    match (chains, chain) {
        (Some(chains), Some(chain)) => Some(either(chains, chain)),
        (chains, chain) => chains.or(chain),
    }
}

fn write_inputs(folder: &Path) -> io::Result<()> {
    let short = both(both(Req::Ident(b"com.example.app".to_vec()), Req::AppleAnchor), Req::Notarized);
    let inputs = [
        ("mixture-50", short),
        ("mixture-500", joined(560, alternative)),
        ("mixture-4k", joined(4096, alternative)),
        ("mixture-64k", joined(65536, alternative)),
        ("text-64k", plain_texts::longest()),
        ("cdhashes-500", joined(512, |number| Req::CdHash(hash_of(number)))),
        ("cdhashes-4k", joined(4096, |number| Req::CdHash(hash_of(number)))),
        ("cdhashes-64k", joined(65536, |number| Req::CdHash(hash_of(number)))),
    ];
    for (name, req) in inputs {
        let bytes = encode(&req).expect("it is short");
        assert_eq!(decode(&bytes), Ok(req));
        fs::write(folder.join(name), bytes)?;
    }
    Ok(())
}

fn measure(bytes: &[u8], times: u64) -> (u128, u128) {
    let start = Instant::now();
    for _ in 0..times {
        drop(decode(std::hint::black_box(bytes)).expect("it was written by this program"));
    }
    let decoding = start.elapsed().as_nanos();
    let req = decode(bytes).expect("it was written by this program");
    let start = Instant::now();
    let mut same = 0;
    for _ in 0..times {
        let written = encode(std::hint::black_box(&req)).expect("it is short");
        same += u64::from(written.len() == bytes.len());
    }
    let encoding = start.elapsed().as_nanos();
    assert_eq!(same, times);
    (decoding, encoding)
}

/// `inputs FOLDER` writes the requirements there. `MEGABYTES FILE..` reads and writes each as often as makes
/// so many megabytes, and prints its name, its bytes, how often, and the nanoseconds of reading and of writing.
/// `texts MEGABYTES FILE..` prints each as text and reads that text, as often as makes so many megabytes of either, and
/// prints its name, then of printing and of reading the bytes, how often, and the nanoseconds.
fn main() -> io::Result<()> {
    let words: Vec<String> = env::args().skip(1).collect();
    let [first, rest @ ..] = words.as_slice() else {
        return Ok(());
    };
    if first == "inputs" {
        return write_inputs(Path::new(&rest[0]));
    }
    if first == "texts" {
        let megabytes: u64 = rest[0].parse().map_err(io::Error::other)?;
        for name in &rest[1..] {
            plain_texts::measure(name, &fs::read(name)?, megabytes);
        }
        return Ok(());
    }
    let megabytes: u64 = first.parse().map_err(io::Error::other)?;
    for name in rest {
        let bytes = fs::read(name)?;
        let times = megabytes * 1_000_000 / bytes.len() as u64;
        let (decoding, encoding) = measure(&bytes, times);
        println!("{name} {} {times} {decoding} {encoding}", bytes.len());
    }
    Ok(())
}
