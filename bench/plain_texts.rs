//! Requirements printed as text, and texts read as requirements, by a plain program of boxes and vectors, with the
//! checks of docs/FORMATS.md and their order. It is a part of `plain_opcodes.rs`.

use super::{Match, Req, alternative, both, decode, either, encode};
use std::time::Instant;

const MOST_TEXT_BYTES: usize = 65_536;
const MOST_OPEN: usize = 256;
const MOST_DEPTH: u32 = 256;

#[derive(Clone, Copy, Debug, PartialEq)]
pub enum Fault {
    TooLong,
    BadByte { at: usize },
    OpenString { at: usize },
    OpenComment { at: usize },
    BadHex { at: usize },
    IntTooLarge { at: usize },
    Syntax { token: usize },
    TooDeep,
    BadKey { token: usize },
}

// ---- printing

#[derive(Clone, Copy, PartialEq)]
enum Place {
    Alone,
    BesideAnd,
    BehindBang,
}

#[derive(Clone, Copy, Debug, PartialEq)]
enum Word {
    Always,
    True,
    Never,
    False,
    Identifier,
    Cdhash,
    Anchor,
    Apple,
    Generic,
    Trusted,
    Cert,
    Leaf,
    Root,
    Info,
    Entitlement,
    Platform,
    Notarized,
    Legacy,
    Exists,
    Absent,
    And,
    Or,
    Kind,
}

/// The reserved word that bytes are.
fn reserved(bytes: &[u8]) -> Option<Word> {
    Some(match bytes {
        b"always" => Word::Always,
        b"true" => Word::True,
        b"never" => Word::Never,
        b"false" => Word::False,
        b"identifier" => Word::Identifier,
        b"cdhash" => Word::Cdhash,
        b"anchor" => Word::Anchor,
        b"apple" => Word::Apple,
        b"generic" => Word::Generic,
        b"trusted" => Word::Trusted,
        b"certificate" | b"cert" => Word::Cert,
        b"leaf" => Word::Leaf,
        b"root" => Word::Root,
        b"info" => Word::Info,
        b"entitlement" => Word::Entitlement,
        b"platform" => Word::Platform,
        b"notarized" => Word::Notarized,
        b"legacy" => Word::Legacy,
        b"exists" => Word::Exists,
        b"absent" => Word::Absent,
        b"and" => Word::And,
        b"or" => Word::Or,
        b"host" | b"guest" | b"designated" | b"library" | b"plugin" => Word::Kind,
        _ => return None,
    })
}

fn is_bare(bytes: &[u8]) -> bool {
    matches!(bytes, [first, rest @ ..] if first.is_ascii_alphabetic() && rest.iter().all(u8::is_ascii_alphanumeric))
        && reserved(bytes).is_none()
}

fn is_word(bytes: &[u8]) -> bool {
    matches!(bytes, [first, ..] if first.is_ascii_alphabetic())
        && bytes.split(|byte| *byte == b'.').all(|run| !run.is_empty() && run.iter().all(u8::is_ascii_alphanumeric))
}

fn put_digits(out: &mut Vec<u8>, bytes: &[u8]) {
    const DIGITS: &[u8; 16] = b"0123456789abcdef";
    for byte in bytes {
        out.push(DIGITS[usize::from(byte >> 4)]);
        out.push(DIGITS[usize::from(byte & 15)]);
    }
}

fn put_string(out: &mut Vec<u8>, bytes: &[u8]) {
    if is_bare(bytes) {
        out.extend_from_slice(bytes);
    } else if bytes.iter().all(|byte| (0x20..=0x7e).contains(byte) && *byte != b'\\') {
        out.push(b'"');
        for byte in bytes {
            if *byte == b'"' {
                out.push(b'\\');
            }
            out.push(*byte);
        }
        out.push(b'"');
    } else {
        out.extend_from_slice(b"0x");
        put_digits(out, bytes);
    }
}

fn put_key(out: &mut Vec<u8>, key: &[u8]) {
    if is_word(key) && reserved(key).is_none() {
        out.extend_from_slice(key);
    } else {
        put_string(out, key);
    }
}

fn put_hash(out: &mut Vec<u8>, hash: &[u8; 20]) {
    out.extend_from_slice(b"H\"");
    put_digits(out, hash);
    out.push(b'"');
}

fn put_number(out: &mut Vec<u8>, number: impl std::fmt::Display) {
    use std::io::Write;
    write!(out, "{number}").expect("a vector takes all");
}

fn put_cert(out: &mut Vec<u8>, slot: i32) {
    out.extend_from_slice(b"certificate ");
    match slot {
        0 => out.extend_from_slice(b"leaf"),
        -1 => out.extend_from_slice(b"root"),
        _ => put_number(out, slot),
    }
}

fn put_named(out: &mut Vec<u8>, word: &[u8], value: &[u8]) {
    out.extend_from_slice(word);
    put_string(out, value);
}

fn put_test(out: &mut Vec<u8>, test: &Match) {
    match test {
        Match::Exists => out.extend_from_slice(b" /* exists */"),
        Match::Absent => out.extend_from_slice(b" absent"),
        Match::Equal(value) => put_named(out, b" = ", value),
        Match::Contains(value) => put_named(out, b" ~ ", value),
        Match::Begins(value) => {
            put_named(out, b" = ", value);
            out.push(b'*');
        }
        Match::Ends(value) => put_named(out, b" = *", value),
        Match::Less(value) => put_named(out, b" < ", value),
        Match::Greater(value) => put_named(out, b" > ", value),
        Match::LessEqual(value) => put_named(out, b" <= ", value),
        Match::GreaterEqual(value) => put_named(out, b" >= ", value),
    }
}

fn put_keyed(out: &mut Vec<u8>, key: &[u8], test: &Match) {
    out.push(b'[');
    put_key(out, key);
    out.push(b']');
    put_test(out, test);
}

fn put_oid(out: &mut Vec<u8>, slot: i32, word: &[u8], oid: &[u8], test: &Match) {
    put_cert(out, slot);
    out.push(b'[');
    out.extend_from_slice(word);
    let mut number = 0u64;
    let mut first = true;
    for byte in oid {
        number = number << 7 | u64::from(byte & 0x7f);
        if byte & 0x80 != 0 {
            continue;
        }
        if first {
            let front = (number / 40).min(2);
            put_number(out, front);
            out.push(b'.');
            put_number(out, number - 40 * front);
        } else {
            out.push(b'.');
            put_number(out, number);
        }
        first = false;
        number = 0;
    }
    out.push(b']');
    put_test(out, test);
}

fn put_opcode(out: &mut Vec<u8>, op: u32, skipped: &[u8]) {
    out.extend_from_slice(b"opcode 0x");
    put_digits(out, &op.to_be_bytes());
    out.extend_from_slice(b", ");
    put_number(out, skipped.len());
    out.extend_from_slice(b" bytes");
}

fn put_pair(out: &mut Vec<u8>, shown: bool, side: Place, word: &[u8], left: &Req, right: &Req) {
    if shown {
        out.push(b'(');
    }
    put_text(out, side, left);
    out.extend_from_slice(word);
    put_text(out, side, right);
    if shown {
        out.push(b')');
    }
}

fn put_text(out: &mut Vec<u8>, place: Place, req: &Req) {
    match req {
        Req::Never => out.extend_from_slice(b"never"),
        Req::Always => out.extend_from_slice(b"always"),
        Req::Ident(value) => put_named(out, b"identifier ", value),
        Req::AppleAnchor => out.extend_from_slice(b"anchor apple"),
        Req::AnchorHash(slot, hash) => {
            put_cert(out, *slot);
            out.extend_from_slice(b" = ");
            put_hash(out, hash);
        }
        Req::LegacyInfo(key, value) => {
            out.extend_from_slice(b"info[");
            put_key(out, key);
            put_named(out, b"] = ", value);
        }
        Req::Both(left, right) => put_pair(out, place == Place::BehindBang, Place::BesideAnd, b" and ", left, right),
        Req::Either(left, right) => put_pair(out, place != Place::Alone, Place::Alone, b" or ", left, right),
        Req::CdHash(hash) => {
            out.extend_from_slice(b"cdhash ");
            put_hash(out, hash);
        }
        Req::Negate(inner) => {
            out.extend_from_slice(b"! ");
            put_text(out, Place::BehindBang, inner);
        }
        Req::InfoField(key, test) => {
            out.extend_from_slice(b"info");
            put_keyed(out, key, test);
        }
        Req::CertField(slot, key, test) => {
            put_cert(out, *slot);
            put_keyed(out, key, test);
        }
        Req::TrustedCert(slot) => {
            put_cert(out, *slot);
            out.extend_from_slice(b" trusted");
        }
        Req::TrustedAny => out.extend_from_slice(b"anchor trusted"),
        Req::CertOid(slot, oid, test) => put_oid(out, *slot, b"field.", oid, test),
        Req::AppleGeneric => out.extend_from_slice(b"anchor apple generic"),
        Req::EntitlementField(key, test) => {
            out.extend_from_slice(b"entitlement");
            put_keyed(out, key, test);
        }
        Req::CertPolicy(slot, oid, test) => put_oid(out, *slot, b"policy.", oid, test),
        Req::NamedAnchor(name) => put_named(out, b"anchor apple ", name),
        Req::NamedCode(name) => {
            put_named(out, b"(", name);
            out.push(b')');
        }
        Req::Platform(number) => {
            out.extend_from_slice(b"platform = ");
            put_number(out, number);
        }
        Req::Notarized => out.extend_from_slice(b"notarized"),
        Req::LegacyDevId => out.extend_from_slice(b"legacy"),
        Req::SkipFalse(op, skipped) => {
            out.extend_from_slice(b"never /* ");
            put_opcode(out, *op, skipped);
            out.extend_from_slice(b" */");
        }
        Req::SkipNext(op, skipped, inner) => {
            out.extend_from_slice(b"/* skipped ");
            put_opcode(out, *op, skipped);
            out.extend_from_slice(b" */ ");
            put_text(out, place, inner);
        }
    }
}

pub fn dump(req: &Req) -> Vec<u8> {
    let mut out = Vec::with_capacity(512);
    put_text(&mut out, Place::Alone, req);
    out
}

// ---- tokens

#[derive(Clone, Copy, Debug, PartialEq)]
enum Token<'a> {
    Sign(Sign),
    Word(Word),
    Bare(&'a [u8]),
    Quoted(&'a [u8]),
    Hex(&'a [u8]),
    Hash([u8; 20]),
    Int(u32),
}

#[derive(Clone, Copy, Debug, PartialEq)]
enum Sign {
    LeftParen,
    RightParen,
    LeftBracket,
    RightBracket,
    Bang,
    Equal,
    Arrow,
    Less,
    LessEqual,
    Greater,
    GreaterEqual,
    Tilde,
    Star,
    Dash,
}

fn run(text: &[u8], at: usize, sort: impl Fn(&u8) -> bool) -> usize {
    text[at..].iter().position(|byte| !sort(byte)).unwrap_or(text.len() - at)
}

fn digit(byte: u8) -> u8 {
    match byte {
        b'0'..=b'9' => byte - b'0',
        b'a'..=b'f' => byte - b'a' + 10,
        _ => byte - b'A' + 10,
    }
}

fn hash_at(text: &[u8], at: usize) -> Result<(Token<'_>, usize), Fault> {
    let Some(length) = text[at + 2..].iter().position(|byte| *byte == b'"') else {
        return Err(Fault::OpenString { at });
    };
    let digits = &text[at + 2..at + 2 + length];
    if length != 40 || !digits.iter().all(u8::is_ascii_hexdigit) {
        return Err(Fault::BadHex { at });
    }
    let hash = std::array::from_fn(|i| digit(digits[2 * i]) << 4 | digit(digits[2 * i + 1]));
    Ok((Token::Hash(hash), 43))
}

fn digits_at(text: &[u8], at: usize) -> Result<(Token<'_>, usize), Fault> {
    if text[at..].starts_with(b"0x") {
        let length = run(text, at + 2, u8::is_ascii_alphanumeric);
        let digits = &text[at + 2..at + 2 + length];
        if length == 0 || length % 2 != 0 || !digits.iter().all(u8::is_ascii_hexdigit) {
            return Err(Fault::BadHex { at });
        }
        return Ok((Token::Hex(digits), 2 + length));
    }
    let length = run(text, at, u8::is_ascii_digit);
    let mut number = 0u64;
    for byte in &text[at..at + length] {
        number = (10 * number + u64::from(byte - b'0')).min(1 << 32);
    }
    if number > 1 << 31 {
        return Err(Fault::IntTooLarge { at });
    }
    Ok((Token::Int(number as u32), length))
}

fn quoted_at(text: &[u8], at: usize) -> Result<(Token<'_>, usize), Fault> {
    let mut place = at + 1;
    while place < text.len() {
        match text[place] {
            b'"' => return Ok((Token::Quoted(&text[at + 1..place]), place + 1 - at)),
            b'\\' if text.get(place + 1) == Some(&b'"') => place += 2,
            b'\\' => {
                let closed = quoted_end(text, place + 1);
                return Err(if closed { Fault::BadByte { at: place } } else { Fault::OpenString { at } });
            }
            _ => place += 1,
        }
    }
    Err(Fault::OpenString { at })
}

/// Whether a quote without a backslash before it stands at a place or behind it.
fn quoted_end(text: &[u8], from: usize) -> bool {
    let mut place = from;
    while place < text.len() {
        match text[place] {
            b'"' => return true,
            b'\\' if text.get(place + 1) == Some(&b'"') => place += 2,
            _ => place += 1,
        }
    }
    false
}

fn word_at(text: &[u8], at: usize) -> (Token<'_>, usize) {
    let mut length = run(text, at, u8::is_ascii_alphanumeric);
    while text.get(at + length) == Some(&b'.') {
        let more = run(text, at + length + 1, u8::is_ascii_alphanumeric);
        if more == 0 {
            break;
        }
        length += 1 + more;
    }
    let bytes = &text[at..at + length];
    (reserved(bytes).map_or(Token::Bare(bytes), Token::Word), length)
}

fn sign_at(text: &[u8], at: usize) -> Option<(Sign, usize)> {
    let behind = text.get(at + 1).copied();
    Some(match (text[at], behind) {
        (b'(', _) => (Sign::LeftParen, 1),
        (b')', _) => (Sign::RightParen, 1),
        (b'[', _) => (Sign::LeftBracket, 1),
        (b']', _) => (Sign::RightBracket, 1),
        (b'!', _) => (Sign::Bang, 1),
        (b'=', Some(b'>')) => (Sign::Arrow, 2),
        (b'=', _) => (Sign::Equal, 1),
        (b'<', Some(b'=')) => (Sign::LessEqual, 2),
        (b'<', _) => (Sign::Less, 1),
        (b'>', Some(b'=')) => (Sign::GreaterEqual, 2),
        (b'>', _) => (Sign::Greater, 1),
        (b'~', _) => (Sign::Tilde, 1),
        (b'*', _) => (Sign::Star, 1),
        (b'-', _) => (Sign::Dash, 1),
        _ => return None,
    })
}

fn token_at(text: &[u8], at: usize) -> Result<(Token<'_>, usize), Fault> {
    match text[at] {
        b'H' if text.get(at + 1) == Some(&b'"') => hash_at(text, at),
        b'0'..=b'9' => digits_at(text, at),
        b'"' => quoted_at(text, at),
        byte if byte.is_ascii_alphabetic() => Ok(word_at(text, at)),
        _ => match sign_at(text, at) {
            Some((sign, length)) => Ok((Token::Sign(sign), length)),
            None => Err(Fault::BadByte { at }),
        },
    }
}

/// How many bytes of separators and comments stand at a place; none where a token stands there.
fn gap_at(text: &[u8], at: usize) -> Result<usize, Fault> {
    match &text[at..] {
        [b' ' | b'\t' | b'\n' | b'\r', ..] => Ok(1),
        [b'/', b'*', rest @ ..] => match rest.windows(2).position(|pair| pair == b"*/") {
            Some(length) => Ok(length + 4),
            None => Err(Fault::OpenComment { at }),
        },
        [b'/', b'/', ..] | [b'#', ..] => Ok(run(text, at, |byte| *byte != b'\n')),
        _ => Ok(0),
    }
}

fn tokens(text: &[u8]) -> Result<Vec<Token<'_>>, Fault> {
    let mut list = Vec::new();
    let mut at = 0;
    while at < text.len() {
        let gap = gap_at(text, at)?;
        if gap > 0 {
            at += gap;
            continue;
        }
        let (token, length) = token_at(text, at)?;
        list.push(token);
        at += length;
    }
    Ok(list)
}

// ---- trees

/// What was read, and how deep it is; what is too deep is dropped, so that no deep tree is made.
struct Built {
    req: Req,
    depth: u32,
}

fn leaf(req: Req) -> Built {
    Built { req, depth: 1 }
}

fn joined(make: fn(Req, Req) -> Req, left: Built, right: Built) -> Built {
    let depth = left.depth.max(right.depth).saturating_add(1);
    if depth > MOST_DEPTH {
        return Built { req: Req::Never, depth };
    }
    Built { req: make(left.req, right.req), depth }
}

struct Parser<'t, 'a> {
    list: &'t [Token<'a>],
    at: usize,
    bad_key: Option<usize>,
}

impl<'a> Parser<'_, 'a> {
    fn peek(&self) -> Option<Token<'a>> {
        self.list.get(self.at).copied()
    }

    fn refused<T>(&self) -> Result<T, Fault> {
        Err(Fault::Syntax { token: self.at + 1 })
    }

    fn takes_sign(&mut self, sign: Sign) -> bool {
        let is = matches!(self.peek(), Some(Token::Sign(here)) if here == sign);
        self.at += usize::from(is);
        is
    }

    fn takes_word(&mut self, word: Word) -> bool {
        let is = matches!(self.peek(), Some(Token::Word(here)) if here == word);
        self.at += usize::from(is);
        is
    }

    fn sign(&mut self, sign: Sign) -> Result<(), Fault> {
        if self.takes_sign(sign) { Ok(()) } else { self.refused() }
    }

    fn string_or_none(&mut self) -> Option<Vec<u8>> {
        let value = match self.peek()? {
            Token::Bare(bytes) => bytes.to_vec(),
            Token::Quoted(bytes) => bytes.iter().filter(|byte| **byte != b'\\').copied().collect(),
            Token::Hex(digits) => digits.chunks(2).map(|pair| digit(pair[0]) << 4 | digit(pair[1])).collect(),
            _ => return None,
        };
        self.at += 1;
        Some(value)
    }

    fn string(&mut self) -> Result<Vec<u8>, Fault> {
        match self.string_or_none() {
            Some(value) => Ok(value),
            None => self.refused(),
        }
    }

    fn hash(&mut self) -> Result<[u8; 20], Fault> {
        let Some(Token::Hash(hash)) = self.peek() else {
            return self.refused();
        };
        self.at += 1;
        Ok(hash)
    }

    fn number(&mut self) -> Result<i32, Fault> {
        let is_negative = self.takes_sign(Sign::Dash);
        let Some(Token::Int(number)) = self.peek() else {
            return self.refused();
        };
        if !is_negative && number == 1 << 31 {
            return self.refused();
        }
        self.at += 1;
        Ok(if is_negative { (number as i32).wrapping_neg() } else { number as i32 })
    }

    fn slot(&mut self) -> Result<i32, Fault> {
        if self.takes_word(Word::Leaf) {
            return Ok(0);
        }
        if self.takes_word(Word::Root) {
            return Ok(-1);
        }
        self.number()
    }

    fn equal(&mut self) -> Result<Match, Fault> {
        if self.takes_sign(Sign::Star) {
            let value = self.string()?;
            return Ok(if self.takes_sign(Sign::Star) { Match::Contains(value) } else { Match::Ends(value) });
        }
        let value = self.string()?;
        Ok(if self.takes_sign(Sign::Star) { Match::Begins(value) } else { Match::Equal(value) })
    }

    fn test(&mut self) -> Result<Match, Fault> {
        let Some(first) = self.peek() else {
            return Ok(Match::Exists);
        };
        self.at += 1;
        Ok(match first {
            Token::Word(Word::Exists) => Match::Exists,
            Token::Word(Word::Absent) => Match::Absent,
            Token::Sign(Sign::Equal) => self.equal()?,
            Token::Sign(Sign::Tilde) => Match::Contains(self.string()?),
            Token::Sign(Sign::Less) => Match::Less(self.string()?),
            Token::Sign(Sign::Greater) => Match::Greater(self.string()?),
            Token::Sign(Sign::LessEqual) => Match::LessEqual(self.string()?),
            Token::Sign(Sign::GreaterEqual) => Match::GreaterEqual(self.string()?),
            _ => {
                self.at -= 1;
                Match::Exists
            }
        })
    }

    /// A key in brackets with its token, and a test.
    fn keyed(&mut self) -> Result<(usize, Vec<u8>, Match), Fault> {
        self.sign(Sign::LeftBracket)?;
        let token = self.at + 1;
        let key = self.string()?;
        self.sign(Sign::RightBracket)?;
        Ok((token, key, self.test()?))
    }

    fn cert_test(&mut self, slot: i32) -> Result<Req, Fault> {
        let (token, key, test) = self.keyed()?;
        let oid = |front: &[u8]| key.strip_prefix(front).map(oid_of);
        let read = match (oid(b"field."), oid(b"policy.")) {
            (Some(oid), _) => oid.map(|oid| (14, oid)),
            (_, Some(oid)) => oid.map(|oid| (17, oid)),
            _ if key.starts_with(b"timestamp.") => None,
            _ => return Ok(Req::CertField(slot, key, test)),
        };
        match read {
            Some((14, oid)) => Ok(Req::CertOid(slot, oid, test)),
            Some((_, oid)) => Ok(Req::CertPolicy(slot, oid, test)),
            None => {
                self.bad_key.get_or_insert(token);
                Ok(Req::Never)
            }
        }
    }

    fn anchor(&mut self) -> Result<Req, Fault> {
        if self.takes_word(Word::Apple) {
            if self.takes_word(Word::Generic) {
                return Ok(Req::AppleGeneric);
            }
            return Ok(self.string_or_none().map_or(Req::AppleAnchor, Req::NamedAnchor));
        }
        if self.takes_word(Word::Trusted) {
            return Ok(Req::TrustedAny);
        }
        if self.takes_sign(Sign::Equal) {
            return Ok(Req::AnchorHash(-1, self.hash()?));
        }
        self.cert_test(-1)
    }

    fn cert(&mut self) -> Result<Req, Fault> {
        let slot = self.slot()?;
        if self.takes_word(Word::Trusted) {
            return Ok(Req::TrustedCert(slot));
        }
        if self.takes_sign(Sign::Equal) {
            return Ok(Req::AnchorHash(slot, self.hash()?));
        }
        self.cert_test(slot)
    }

    fn primary(&mut self, word: Word) -> Result<Req, Fault> {
        self.at += 1;
        Ok(match word {
            Word::Always | Word::True => Req::Always,
            Word::Never | Word::False => Req::Never,
            Word::Identifier => {
                self.takes_sign(Sign::Equal);
                Req::Ident(self.string()?)
            }
            Word::Cdhash => Req::CdHash(self.hash()?),
            Word::Anchor => self.anchor()?,
            Word::Cert => self.cert()?,
            Word::Info => {
                let (_, key, test) = self.keyed()?;
                Req::InfoField(key, test)
            }
            Word::Entitlement => {
                let (_, key, test) = self.keyed()?;
                Req::EntitlementField(key, test)
            }
            Word::Platform => {
                self.sign(Sign::Equal)?;
                Req::Platform(self.number()?)
            }
            Word::Notarized => Req::Notarized,
            Word::Legacy => Req::LegacyDevId,
            _ => {
                self.at -= 1;
                return self.refused();
            }
        })
    }

    fn operand(&mut self) -> Result<Built, Fault> {
        match self.peek() {
            Some(Token::Word(word)) => Ok(leaf(self.primary(word)?)),
            Some(Token::Sign(Sign::LeftParen)) => {
                self.at += 1;
                let inside = match self.string_or_none() {
                    Some(name) => leaf(Req::NamedCode(name)),
                    None => self.expr()?,
                };
                self.sign(Sign::RightParen)?;
                Ok(inside)
            }
            _ => self.refused(),
        }
    }

    fn factor(&mut self) -> Result<Built, Fault> {
        let mut bangs = 0;
        while self.takes_sign(Sign::Bang) {
            bangs += 1;
        }
        let mut built = self.operand()?;
        for _ in 0..bangs {
            let depth = built.depth.saturating_add(1);
            let req = if depth > MOST_DEPTH { Req::Never } else { Req::Negate(Box::new(built.req)) };
            built = Built { req, depth };
        }
        Ok(built)
    }

    fn term(&mut self) -> Result<Built, Fault> {
        let mut built = self.factor()?;
        while self.takes_word(Word::And) {
            built = joined(both, built, self.factor()?);
        }
        Ok(built)
    }

    fn expr(&mut self) -> Result<Built, Fault> {
        let mut built = self.term()?;
        while self.takes_word(Word::Or) {
            built = joined(either, built, self.term()?);
        }
        Ok(built)
    }
}

/// The bytes of an object identifier in decimal.
fn oid_of(text: &[u8]) -> Option<Vec<u8>> {
    let mut arcs = Vec::new();
    for arc in text.split(|byte| *byte == b'.') {
        if arc.is_empty() || !arc.iter().all(u8::is_ascii_digit) || arc.len() > 1 && arc[0] == b'0' {
            return None;
        }
        arcs.push(std::str::from_utf8(arc).ok()?.parse::<u32>().ok()?);
    }
    let [a, b, rest @ ..] = arcs.as_slice() else {
        return None;
    };
    if *a > 2 || *a < 2 && *b > 39 {
        return None;
    }
    let mut out = Vec::new();
    put_base_128(&mut out, b.checked_add(40 * a)?);
    for arc in rest {
        put_base_128(&mut out, *arc);
    }
    Some(out)
}

fn put_base_128(out: &mut Vec<u8>, number: u32) {
    for shift in [28, 21, 14, 7] {
        if number >> shift != 0 {
            out.push((number >> shift) as u8 | 0x80);
        }
    }
    out.push(number as u8 & 0x7f);
}

fn has_few_open(list: &[Token<'_>]) -> bool {
    let (mut left, mut right) = (0, 0);
    for token in list {
        match token {
            Token::Sign(Sign::LeftParen) => left += 1,
            Token::Sign(Sign::RightParen) => right += 1,
            _ => {}
        }
        if left > MOST_OPEN + right {
            return false;
        }
    }
    true
}

pub fn parse(text: &[u8]) -> Result<Req, Fault> {
    if text.len() > MOST_TEXT_BYTES {
        return Err(Fault::TooLong);
    }
    let list = tokens(text)?;
    if !has_few_open(&list) {
        return Err(Fault::TooDeep);
    }
    let mut parser = Parser { list: &list, at: 0, bad_key: None };
    let built = parser.expr()?;
    if parser.at < list.len() {
        return parser.refused();
    }
    if let Some(token) = parser.bad_key {
        return Err(Fault::BadKey { token });
    }
    if built.depth > MOST_DEPTH {
        return Err(Fault::TooDeep);
    }
    Ok(built.req)
}

// ---- the measure

/// The most alternatives whose text has no more bytes than a text may have: chains of 200 with `or` between them, which
/// are joined by `and`.
pub fn longest() -> Req {
    let mut best = alternative(0);
    let mut chains: Option<Req> = None;
    let mut chain: Option<Req> = None;
    for number in 0.. {
        chain = Some(match chain.take() {
            Some(before) => either(before, alternative(number)),
            None => alternative(number),
        });
        let whole = match (&chains, &chain) {
            (Some(chains), Some(chain)) => both(copy(chains), copy(chain)),
            (None, Some(chain)) => copy(chain),
            _ => continue,
        };
        if dump(&whole).len() > MOST_TEXT_BYTES {
            break;
        }
        best = whole;
        if number % 200 == 199 {
            chains = Some(copy(&best));
            chain = None;
        }
    }
    best
}

fn copy(req: &Req) -> Req {
    decode(&encode(req).expect("it is short")).expect("it was written by this program")
}

/// The nanoseconds of printing a blob's requirement as often as makes so many megabytes of blob, and of reading its text
/// as often as makes so many of text.
pub fn measure(name: &str, bytes: &[u8], megabytes: u64) {
    let req = decode(bytes).expect("it was written by this program");
    let text = dump(&req);
    let times = megabytes * 1_000_000 / bytes.len() as u64;
    let start = Instant::now();
    let mut same = 0;
    for _ in 0..times {
        same += u64::from(dump(std::hint::black_box(&req)).len() == text.len());
    }
    let printing = start.elapsed().as_nanos();
    assert_eq!(same, times);
    let often = megabytes * 1_000_000 / text.len() as u64;
    let start = Instant::now();
    let mut read = 0;
    for _ in 0..often {
        read += u64::from(parse(std::hint::black_box(&text)).is_ok());
    }
    let parsing = start.elapsed().as_nanos();
    assert!(read == often || read == 0);
    println!("{name} {} {times} {printing} {} {read} {parsing}", bytes.len(), text.len());
}
