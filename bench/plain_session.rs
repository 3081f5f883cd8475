//! The session of `gatekeeper` as a plain Rust loop: lines from a buffered reader, an added requirement read into a
//! tree, edits kept by their key, one scan of the rules for an assessment that the cache doesn't answer, a hash map for
//! its cache, one write for each reply. It is what `bench/session.sh` measures the proved program against.

use std::collections::{BTreeMap, HashMap};
use std::fs::File;
use std::io::{self, BufRead, Write};
use std::os::fd::AsFd;

struct Rule {
    id: u32,
    kind: Vec<u8>,
    allow: bool,
    priority: i64,
    expires: Option<u64>,
    requirement: Requirement,
}

enum Requirement {
    Always,
    Never,
    CdHash([u8; 20]),
    Ident(Vec<u8>),
    Platform(u32),
    Not(Box<Requirement>),
    Both(Box<Requirement>, Box<Requirement>),
    Either(Box<Requirement>, Box<Requirement>),
}

impl Requirement {
    fn means_true(&self, hash: &[u8; 20], identifier: &[u8], platform: u32) -> bool {
        match self {
            Requirement::Always => true,
            Requirement::Never => false,
            Requirement::CdHash(wanted) => wanted == hash,
            Requirement::Ident(wanted) => wanted == identifier,
            Requirement::Platform(wanted) => *wanted == platform,
            Requirement::Not(inner) => !inner.means_true(hash, identifier, platform),
            Requirement::Both(one, other) => one.means_true(hash, identifier, platform) && other.means_true(hash, identifier, platform),
            Requirement::Either(one, other) => one.means_true(hash, identifier, platform) || other.means_true(hash, identifier, platform),
        }
    }
}

fn hash_of(word: &[u8]) -> Option<[u8; 20]> {
    if word.len() != 40 {
        return None;
    }
    let mut hash = [0; 20];
    for (byte, pair) in hash.iter_mut().zip(word.chunks(2)) {
        *byte = u8::from_str_radix(std::str::from_utf8(pair).ok()?, 16).ok()?;
    }
    Some(hash)
}

fn number(word: &[u8]) -> Option<u64> {
    std::str::from_utf8(word).ok()?.parse().ok()
}

enum Token<'a> {
    Symbol(&'a [u8]),
    Hash([u8; 20]),
    Integer(u32),
    Quoted(Vec<u8>),
    Word(&'a [u8]),
}

// Digests, integers, quoted strings, words and symbols, one after the other; comments aside.
fn tokens(text: &[u8]) -> Option<Vec<Token<'_>>> {
    let mut list = Vec::new();
    let mut at = 0;
    while at < text.len() {
        let left = &text[at..];
        at += match left[0] {
            b' ' | b'\t' | b'\r' | b'\n' => 1,
            b'H' if left.get(1) == Some(&b'"') => {
                let end = left[2..].iter().position(|b| *b == b'"')?;
                list.push(Token::Hash(hash_of(&left[2..2 + end])?));
                end + 3
            }
            b'0'..=b'9' => {
                let end = left.iter().position(|b| !b.is_ascii_digit()).unwrap_or(left.len());
                list.push(Token::Integer(number(&left[..end])? as u32));
                end
            }
            b'"' => {
                let mut bytes = Vec::new();
                let mut end = 1;
                while *left.get(end)? != b'"' {
                    if left[end] == b'\\' {
                        end += 1;
                    }
                    bytes.push(*left.get(end)?);
                    end += 1;
                }
                list.push(Token::Quoted(bytes));
                end + 1
            }
            b'a'..=b'z' | b'A'..=b'Z' => {
                let end = left.iter().position(|b| !b.is_ascii_alphanumeric() && *b != b'.').unwrap_or(left.len());
                list.push(Token::Word(&left[..end]));
                end
            }
            b'<' | b'>' | b'=' if left.get(1) == Some(&b'=') || left.starts_with(b"=>") => {
                list.push(Token::Symbol(&left[..2]));
                2
            }
            _ => {
                list.push(Token::Symbol(&left[..1]));
                1
            }
        };
    }
    Some(list)
}

struct Parser<'a> {
    tokens: &'a [Token<'a>],
    at: usize,
}

impl<'a> Parser<'a> {
    fn takes(&mut self, wanted: &[u8]) -> bool {
        let is = matches!(self.tokens.get(self.at), Some(Token::Symbol(t) | Token::Word(t)) if *t == wanted);
        self.at += usize::from(is);
        is
    }

    fn expr(&mut self, depth: usize) -> Option<Requirement> {
        let mut left = self.term(depth)?;
        while self.takes(b"or") {
            left = Requirement::Either(Box::new(left), Box::new(self.term(depth)?));
        }
        Some(left)
    }

    fn term(&mut self, depth: usize) -> Option<Requirement> {
        let mut left = self.factor(depth)?;
        while self.takes(b"and") {
            left = Requirement::Both(Box::new(left), Box::new(self.factor(depth)?));
        }
        Some(left)
    }

    fn factor(&mut self, depth: usize) -> Option<Requirement> {
        if depth == 0 {
            return None;
        }
        if self.takes(b"!") {
            return Some(Requirement::Not(Box::new(self.factor(depth - 1)?)));
        }
        if self.takes(b"(") {
            let inner = self.expr(depth - 1)?;
            return self.takes(b")").then_some(inner);
        }
        self.primary()
    }

    fn primary(&mut self) -> Option<Requirement> {
        let token = self.tokens.get(self.at)?;
        self.at += 1;
        let Token::Word(word) = token else {
            return None;
        };
        match *word {
            b"always" | b"true" => Some(Requirement::Always),
            b"never" | b"false" => Some(Requirement::Never),
            b"cdhash" => match self.tokens.get(self.at)? {
                Token::Hash(hash) => {
                    self.at += 1;
                    Some(Requirement::CdHash(*hash))
                }
                _ => None,
            },
            b"identifier" => {
                self.takes(b"=");
                let name = match self.tokens.get(self.at)? {
                    Token::Word(word) => word.to_vec(),
                    Token::Quoted(bytes) => bytes.clone(),
                    _ => return None,
                };
                self.at += 1;
                Some(Requirement::Ident(name))
            }
            b"platform" if self.takes(b"=") => match self.tokens.get(self.at)? {
                Token::Integer(number) => {
                    self.at += 1;
                    Some(Requirement::Platform(*number))
                }
                _ => None,
            },
            _ => None,
        }
    }
}

// The requirement language without certificates and lists of information, in two passes as usual.
fn requirement_of(text: &[u8]) -> Option<Requirement> {
    let tokens = tokens(text)?;
    let mut parser = Parser { tokens: &tokens, at: 0 };
    let requirement = parser.expr(256)?;
    (parser.at == tokens.len()).then_some(requirement)
}

type Subject = (Vec<u8>, [u8; 20], Vec<u8>, u32);

// The rank and the verdict of the rule that decided, if any did, and when this ends.
#[derive(Clone)]
struct Outcome {
    rule: Option<(i64, u32, bool)>,
    until: Option<u64>,
}

struct Begun {
    subject: Subject,
    outcome: Outcome,
    at: u64,
    cached: bool,
    keeps: bool,
    edits: usize,
}

// What was accepted under each key, by the text behind the key; for each kind the ranks that edits touched.
#[derive(Default)]
struct Desk {
    rules: Vec<Rule>,
    receipts: BTreeMap<Vec<u8>, (u32, Vec<u8>)>,
    now: u64,
    cache: HashMap<Subject, Outcome>,
    edits: HashMap<Vec<u8>, Vec<(i64, u32)>>,
    open: HashMap<u64, Begun>,
}

fn add(desk: &mut Desk, line: &[u8], out: &mut Vec<u8>) -> Option<()> {
    let words: Vec<&[u8]> = line.splitn(9, |b| *b == b' ').collect();
    let [_, key, kind, verdict, priority, expiry, _, _, text] = words[..] else {
        return None;
    };
    let content = &line[key.len() + 5..];
    let requirement = requirement_of(text)?;
    if let Some((number, kept)) = desk.receipts.get(key) {
        let word = if kept == content { "repeated" } else { "refused edit 12 KeyReused" };
        return write!(out, "{word} edit={number} rules=1").ok();
    }
    let id = desk.receipts.len() as u32 + 1;
    let priority: i64 = std::str::from_utf8(priority).ok()?.parse().ok()?;
    desk.receipts.insert(key.to_vec(), (id, content.to_vec()));
    desk.rules.push(Rule {
        id,
        kind: kind.to_vec(),
        allow: verdict == b"allow",
        priority,
        expires: number(expiry),
        requirement,
    });
    desk.edits.entry(kind.to_vec()).or_default().push((-priority, id));
    desk.cache.retain(|subject, kept| subject.0 != kind || kept.rule.is_some_and(|(rank, rule, _)| (-rank, rule) < (-priority, id)));
    write!(out, "ok edit={id} rules=1").ok()
}

fn judge(desk: &Desk, subject: &Subject) -> Outcome {
    let (kind, hash, identifier, platform) = subject;
    let mut best: Option<&Rule> = None;
    for rule in &desk.rules {
        let applies = rule.kind == *kind
            && rule.expires.is_none_or(|end| desk.now < end)
            && rule.requirement.means_true(hash, identifier, *platform);
        if applies && best.is_none_or(|found| (-rule.priority, rule.id) < (-found.priority, found.id)) {
            best = Some(rule);
        }
    }
    match best {
        Some(rule) => Outcome { rule: Some((rule.priority, rule.id, rule.allow)), until: rule.expires },
        None => Outcome { rule: None, until: Some(desk.now + 60) },
    }
}

// KIND, a subject, and nocache or nothing
fn begin<'a>(desk: &Desk, mut words: impl Iterator<Item = &'a [u8]>) -> Option<Begun> {
    let kind = words.next()?;
    let hash = hash_of(words.next()?)?;
    let identifier = words.next()?;
    let platform = number(words.next()?)? as u32;
    if identifier.is_empty() || identifier.len() > 256 || platform > 255 {
        return None;
    }
    let keeps = words.next().is_none();
    let subject = (kind.to_vec(), hash, identifier.to_vec(), platform);
    let kept = desk.cache.get(&subject).filter(|kept| kept.until.is_none_or(|end| desk.now < end));
    let cached = kept.is_some();
    let outcome = kept.cloned().unwrap_or_else(|| judge(desk, &subject));
    let edits = desk.edits.get(kind).map_or(0, Vec::len);
    Some(Begun { subject, outcome, at: desk.now, cached, keeps, edits })
}

// More than 64 edits of the kind came since, or one of them touched a rule that isn't behind the one that decided.
fn has_moved(desk: &Desk, begun: &Begun) -> bool {
    let late = desk.edits.get(&begun.subject.0).map_or(&[][..], |ranks| &ranks[begun.edits..]);
    match begun.outcome.rule {
        Some((priority, rule, _)) => late.len() > 64 || late.iter().any(|rank| *rank <= (-priority, rule)),
        None => !late.is_empty(),
    }
}

fn finish(desk: &mut Desk, begun: Begun, out: &mut Vec<u8>) -> Option<()> {
    let (at, now) = (begun.at, desk.now);
    let stands = desk.cache.get(&begun.subject).is_some_and(|kept| kept.until.is_none_or(|end| now < end));
    let words = if begun.cached {
        "source=cache cache=none"
    } else if !begun.keeps {
        "source=rules cache=inhibited"
    } else if has_moved(desk, &begun) {
        "source=rules cache=moved"
    } else if begun.outcome.until.is_some_and(|end| now >= end) {
        "source=rules cache=expired"
    } else if stands {
        "source=rules cache=twice"
    } else {
        desk.cache.insert(begun.subject, begun.outcome.clone());
        "source=rules cache=kept"
    };
    match begun.outcome.rule {
        Some((_, rule, allow)) => {
            let verdict = if allow { "accepted" } else { "rejected" };
            write!(out, "{verdict} at={at} rule={rule} latent=none label=- override=none {words}").ok()
        }
        None => write!(out, "rejected at={at} rule=none latent=none label=no%20matching%20rule override=none {words}").ok(),
    }
}

fn answer(desk: &mut Desk, line: &[u8], out: &mut Vec<u8>) -> Option<()> {
    if line.starts_with(b"add ") {
        return add(desk, line, out);
    }
    let mut words = line.split(|b| *b == b' ');
    match words.next()? {
        b"tick" => {
            desk.now = desk.now.max(number(words.next()?)?);
            write!(out, "now={}", desk.now).ok()
        }
        b"assess" => {
            let begun = begin(desk, words)?;
            finish(desk, begun, out)
        }
        b"begin" => {
            let slot = number(words.next()?)?;
            let begun = begin(desk, words)?;
            if desk.open.contains_key(&slot) {
                return write!(out, "refused session 21 SlotBusy").ok();
            }
            if desk.open.len() >= 50 {
                return write!(out, "refused session 23 SlotsFull").ok();
            }
            let at = begun.at;
            desk.open.insert(slot, begun);
            write!(out, "begun {slot} at={at}").ok()
        }
        b"finish" => match desk.open.remove(&number(words.next()?)?) {
            Some(begun) => finish(desk, begun, out),
            None => write!(out, "refused session 22 SlotEmpty").ok(),
        },
        _ => None,
    }
}

fn main() -> io::Result<()> {
    let mut input = io::BufReader::with_capacity(65536, io::stdin().lock());
    // past std's line buffer, so that each reply is one write
    let mut output = File::from(io::stdout().as_fd().try_clone_to_owned()?);
    let mut desk = Desk::default();
    let mut line = Vec::new();
    let mut reply = Vec::new();
    loop {
        line.clear();
        reply.clear();
        if input.read_until(b'\n', &mut line)? == 0 {
            return Ok(());
        }
        if line.last() == Some(&b'\n') {
            line.pop();
        }
        if answer(&mut desk, &line, &mut reply).is_none() {
            reply.extend_from_slice(b"refused line 1 BadLine column=1");
        }
        reply.push(b'\n');
        output.write_all(&reply)?;
    }
}
