//! A rehearsal as a plain Rust program: it makes up the lines, reads each of them, answers it by a desk whose rules, kept
//! outcomes and open assessments are lists, and counts over the replies. It is what `bench/rehearsal.sh` measures
//! `gatekeeper :memory: rehearse N` against.

use std::collections::BTreeMap;
use std::io::Write;

struct Draws {
    state: u64,
}

impl Draws {
    fn below(&mut self, k: u64) -> u64 {
        self.state = self.state.wrapping_mul(6364136223846793005).wrapping_add(1442695040888963407);
        (self.state >> 33) % k
    }
}

const KINDS: [&str; 3] = ["execute", "install", "open"];

fn put_kind(draws: &mut Draws, line: &mut Vec<u8>) -> Option<()> {
    write!(line, "{} ", KINDS[draws.below(3) as usize]).ok()
}

fn put_subject(draws: &mut Draws, line: &mut Vec<u8>) -> Option<()> {
    put_kind(draws, line)?;
    let d = draws.below(50);
    for _ in 0..20 {
        write!(line, "{d:02x}").ok()?;
    }
    write!(line, " a{d} {}", draws.below(4)).ok()
}

fn put_requirement(draws: &mut Draws, line: &mut Vec<u8>) -> Option<()> {
    match draws.below(5) {
        0 => write!(line, "always").ok(),
        1 => write!(line, "platform = {}", draws.below(4)).ok(),
        2 => write!(line, "identifier a{}", draws.below(50)).ok(),
        3 => write!(line, "notarized").ok(),
        _ => write!(line, "never").ok(),
    }
}

fn put_add(draws: &mut Draws, step: u64, now: u64, line: &mut Vec<u8>) -> Option<()> {
    write!(line, "add k{step} ").ok()?;
    put_kind(draws, line)?;
    let verdict = if draws.below(2) == 0 { "allow" } else { "deny" };
    write!(line, "{verdict} {} ", draws.below(100)).ok()?;
    if draws.below(4) == 0 {
        write!(line, "{} ", now + draws.below(1000)).ok()?;
    } else {
        write!(line, "never ").ok()?;
    }
    write!(line, "L{} - ", draws.below(8)).ok()?;
    put_requirement(draws, line)
}

// Makes the line of a step, and tells the moment behind it.
fn put_step(draws: &mut Draws, step: u64, now: u64, line: &mut Vec<u8>) -> Option<u64> {
    match draws.below(10) {
        0 => put_add(draws, step, now, line)?,
        1 => write!(line, "disable k{step} id {} any", draws.below(step) + 1).ok()?,
        2 => write!(line, "enable k{step} id {} any", draws.below(step) + 1).ok()?,
        3 => {
            let moment = now + draws.below(30);
            write!(line, "tick {moment}").ok()?;
            return Some(moment);
        }
        4 | 5 => {
            write!(line, "begin {} ", draws.below(50) + 1).ok()?;
            put_subject(draws, line)?;
        }
        6 | 7 => write!(line, "finish {}", draws.below(50) + 1).ok()?,
        _ => {
            write!(line, "assess ").ok()?;
            put_subject(draws, line)?;
        }
    }
    Some(now)
}

enum Requirement {
    Always,
    Never,
    Notarized,
    Ident(Vec<u8>),
    Platform(u32),
}

#[derive(Clone, PartialEq)]
struct Subject {
    kind: usize,
    hash: [u8; 20],
    identifier: Vec<u8>,
    platform: u32,
}

impl Requirement {
    fn means_true(&self, subject: &Subject, notarized: bool) -> bool {
        match self {
            Requirement::Always => true,
            Requirement::Never => false,
            Requirement::Notarized => notarized,
            Requirement::Ident(wanted) => *wanted == subject.identifier,
            Requirement::Platform(wanted) => *wanted == subject.platform,
        }
    }
}

struct Rule {
    id: u32,
    kind: usize,
    allow: bool,
    disabled: u32,
    priority: i64,
    expires: Option<u64>,
    label: Vec<u8>,
    requirement: Requirement,
}

impl Rule {
    fn rank(&self) -> (i64, u32) {
        (-self.priority, self.id)
    }
}

// The rank, the verdict and the label of the rule that decided, or the latent rule and its label; and when this ends.
#[derive(Clone)]
struct Outcome {
    rule: Option<((i64, u32), bool)>,
    latent: Option<u32>,
    label: Vec<u8>,
    until: Option<u64>,
}

struct Begun {
    subject: Subject,
    outcome: Outcome,
    at: u64,
    cached: bool,
    edits: usize,
}

// What was accepted under each key, by the text behind the key; the rest are lists, of edits the ranks that they touched.
#[derive(Default)]
struct Desk {
    rules: Vec<Rule>,
    receipts: BTreeMap<Vec<u8>, (u32, Vec<u8>)>,
    now: u64,
    notarized: Vec<[u8; 20]>,
    kept: Vec<(Subject, Outcome)>,
    edits: [Vec<(i64, u32)>; 3],
    open: Vec<(u64, Begun)>,
}

fn number(word: &[u8]) -> Option<u64> {
    std::str::from_utf8(word).ok()?.parse().ok()
}

fn kind_of(word: &[u8]) -> Option<usize> {
    KINDS.iter().position(|kind| kind.as_bytes() == word)
}

fn hash_of(word: &[u8]) -> Option<[u8; 20]> {
    if word.len() != 40 {
        return None;
    }
    let mut hash = [0; 20];
    for (byte, pair) in hash.iter_mut().zip(word.chunks(2)) {
        *byte = u8::from_str_radix(std::str::from_utf8(pair).ok()?, 16).ok()?;
    }
    Some(hash)
}

// The requirements of made-up lines alone.
fn requirement_of(text: &[u8]) -> Option<Requirement> {
    let words: Vec<&[u8]> = text.split(|b| *b == b' ').collect();
    match words[..] {
        [b"always"] => Some(Requirement::Always),
        [b"never"] => Some(Requirement::Never),
        [b"notarized"] => Some(Requirement::Notarized),
        [b"identifier", name] => Some(Requirement::Ident(name.to_vec())),
        [b"platform", b"=", value] => Some(Requirement::Platform(number(value)? as u32)),
        _ => None,
    }
}

// Drops what rests on a rule of this rank in the kind.
fn touch(desk: &mut Desk, kind: usize, rank: (i64, u32)) {
    desk.edits[kind].push(rank);
    desk.kept.retain(|(subject, outcome)| subject.kind != kind || outcome.rule.is_some_and(|(own, _)| own < rank));
}

// The number under which an edit is accepted, or the reply where its key was used.
fn accept(desk: &mut Desk, key: &[u8], content: &[u8], out: &mut Vec<u8>) -> Option<u32> {
    if let Some((id, kept)) = desk.receipts.get(key) {
        let word = if kept == content { "repeated" } else { "refused edit 12 KeyReused" };
        write!(out, "{word} edit={id} rules=1").ok()?;
        return None;
    }
    let id = desk.receipts.len() as u32 + 1;
    desk.receipts.insert(key.to_vec(), (id, content.to_vec()));
    write!(out, "ok edit={id} rules=1").ok()?;
    Some(id)
}

fn add(desk: &mut Desk, line: &[u8], out: &mut Vec<u8>) -> Option<()> {
    let words: Vec<&[u8]> = line.splitn(9, |b| *b == b' ').collect();
    let [_, key, kind, verdict, priority, expiry, label, _, text] = words[..] else {
        return None;
    };
    let kind = kind_of(kind)?;
    let requirement = requirement_of(text)?;
    let priority = number(priority)? as i64;
    if let Some(id) = accept(desk, key, &line[key.len() + 5..], out) {
        let (allow, expires, label) = (verdict == b"allow", number(expiry), label.to_vec());
        desk.rules.push(Rule { id, kind, allow, disabled: 0, priority, expires, label, requirement });
        touch(desk, kind, (-priority, id));
    }
    Some(())
}

fn turn<'a>(desk: &mut Desk, line: &[u8], mut words: impl Iterator<Item = &'a [u8]>, off: bool, out: &mut Vec<u8>) -> Option<()> {
    let key = words.next()?;
    words.next()?;
    let id = number(words.next()?)?;
    let Some(at) = desk.rules.iter().position(|rule| u64::from(rule.id) == id) else {
        return write!(out, "refused edit 14 NoRule").ok();
    };
    if accept(desk, key, &line[key.len() + 1..], out).is_some() {
        let rule = &mut desk.rules[at];
        rule.disabled = if off { rule.disabled + 1 } else { 0 };
        let (kind, rank) = (rule.kind, rule.rank());
        touch(desk, kind, rank);
    }
    Some(())
}

fn judge(desk: &Desk, subject: &Subject) -> Outcome {
    let notarized = desk.notarized.contains(&subject.hash);
    let mut governs: Option<&Rule> = None;
    let mut latent: Option<&Rule> = None;
    for rule in &desk.rules {
        let live = rule.kind == subject.kind && rule.expires.is_none_or(|end| desk.now < end);
        if live && rule.requirement.means_true(subject, notarized) {
            let first = if rule.disabled == 0 { &mut governs } else { &mut latent };
            if first.is_none_or(|found| rule.rank() < found.rank()) {
                *first = Some(rule);
            }
        }
    }
    match governs {
        Some(rule) => Outcome { rule: Some((rule.rank(), rule.allow)), latent: None, label: rule.label.clone(), until: rule.expires },
        None => {
            let end = latent.and_then(|rule| rule.expires).unwrap_or(u64::MAX);
            let label = latent.map_or(b"no%20matching%20rule".to_vec(), |rule| rule.label.clone());
            Outcome { rule: None, latent: latent.map(|rule| rule.id), label, until: Some(end.min(desk.now + 60)) }
        }
    }
}

fn kept<'a>(desk: &'a Desk, subject: &Subject) -> Option<&'a Outcome> {
    let found = desk.kept.iter().find(|(one, outcome)| outcome.until.is_none_or(|end| desk.now < end) && one == subject);
    found.map(|(_, outcome)| outcome)
}

fn begin<'a>(desk: &Desk, mut words: impl Iterator<Item = &'a [u8]>) -> Option<Begun> {
    let kind = kind_of(words.next()?)?;
    let hash = hash_of(words.next()?)?;
    let identifier = words.next()?.to_vec();
    let platform = number(words.next()?)? as u32;
    let subject = Subject { kind, hash, identifier, platform };
    let found = kept(desk, &subject).cloned();
    let cached = found.is_some();
    let outcome = found.unwrap_or_else(|| judge(desk, &subject));
    Some(Begun { subject, outcome, at: desk.now, cached, edits: desk.edits[kind].len() })
}

// More than 64 edits of the kind came since, or one of them touched a rule that isn't behind the one that decided.
fn has_moved(desk: &Desk, begun: &Begun) -> bool {
    let late = &desk.edits[begun.subject.kind][begun.edits..];
    match begun.outcome.rule {
        Some((own, _)) => late.len() > 64 || late.iter().any(|rank| *rank <= own),
        None => !late.is_empty(),
    }
}

fn finish(desk: &mut Desk, begun: Begun, out: &mut Vec<u8>) -> Option<()> {
    let now = desk.now;
    match begun.outcome.rule {
        Some(((_, id), allow)) => {
            let verdict = if allow { "accepted" } else { "rejected" };
            write!(out, "{verdict} at={} rule={id} latent=none label=", begun.at).ok()?;
        }
        None => {
            let latent = begun.outcome.latent.map_or("none".to_string(), |id| id.to_string());
            write!(out, "rejected at={} rule=none latent={latent} label=", begun.at).ok()?;
        }
    }
    out.extend_from_slice(&begun.outcome.label);
    let words = if begun.cached {
        "source=cache cache=none"
    } else if has_moved(desk, &begun) {
        "source=rules cache=moved"
    } else if begun.outcome.until.is_some_and(|end| now >= end) {
        "source=rules cache=expired"
    } else if kept(desk, &begun.subject).is_some() {
        "source=rules cache=twice"
    } else {
        desk.kept.retain(|(_, outcome)| outcome.until.is_none_or(|end| now < end));
        desk.kept.push((begun.subject, begun.outcome));
        "source=rules cache=kept"
    };
    write!(out, " override=none {words}").ok()
}

fn answer(desk: &mut Desk, line: &[u8], out: &mut Vec<u8>) -> Option<()> {
    let mut words = line.split(|b| *b == b' ');
    match words.next()? {
        b"add" => add(desk, line, out),
        b"disable" => turn(desk, line, words, true, out),
        b"enable" => turn(desk, line, words, false, out),
        b"tick" => {
            desk.now = desk.now.max(number(words.next()?)?);
            write!(out, "now={}", desk.now).ok()
        }
        b"assess" => {
            let begun = begin(desk, words)?;
            finish(desk, begun, out)
        }
        b"begin" => {
            let slot = number(words.next()?)?;
            let begun = begin(desk, words)?;
            if desk.open.iter().any(|(own, _)| *own == slot) {
                return write!(out, "refused session 21 SlotBusy").ok();
            }
            let at = begun.at;
            desk.open.push((slot, begun));
            write!(out, "begun {slot} at={at}").ok()
        }
        b"finish" => {
            let slot = number(words.next()?)?;
            match desk.open.iter().position(|(own, _)| *own == slot) {
                Some(at) => {
                    let (_, begun) = desk.open.remove(at);
                    finish(desk, begun, out)
                }
                None => write!(out, "refused session 22 SlotEmpty").ok(),
            }
        }
        _ => None,
    }
}

// How many replies begin so, or have this word.
const FRONTS: [(usize, &[u8]); 4] = [(0, b"accepted"), (1, b"rejected"), (5, b"ok edit"), (6, b"refused")];
const WORDS: [(usize, &[u8]); 3] = [(2, b"source=cache"), (3, b"cache=kept"), (4, b"cache=moved")];

fn rehearse(steps: u64) -> Option<[u32; 7]> {
    let notarized = (0..50).step_by(2).map(|d| [d; 20]).collect();
    let mut desk = Desk { notarized, ..Desk::default() };
    let mut draws = Draws { state: steps };
    let mut counts = [0; 7];
    let mut moment = 0;
    let mut line = Vec::new();
    let mut reply = Vec::new();
    for step in 1..=steps {
        line.clear();
        reply.clear();
        moment = put_step(&mut draws, step, moment, &mut line)?;
        answer(&mut desk, &line, &mut reply)?;
        for (at, front) in FRONTS {
            counts[at] += u32::from(reply.starts_with(front));
        }
        for (at, word) in WORDS {
            counts[at] += u32::from(reply.split(|b| *b == b' ').any(|own| own == word));
        }
    }
    Some(counts)
}

fn main() {
    let steps = std::env::args().nth(1).and_then(|word| word.parse().ok()).expect("a number of steps");
    let [accepted, rejected, cache, kept, moved, edits, refused] = rehearse(steps).expect("each line is answered");
    println!("steps={steps} accepted={accepted} rejected={rejected} cache={cache} kept={kept} moved={moved} edits={edits} refused={refused}");
}
