//! Reads a facts file as a plain Rust program would: a CSV reader over bytes, and a hash map from each cdhash to
//! what is known of it. It checks the same things as the desk does: the header, each row's form, repeats, the limit.
use std::collections::{HashMap, HashSet};
use std::time::Instant;

const MOST_ROWS: usize = 100_000;

#[derive(Default)]
struct Certificate {
    hash: [u8; 20],
    trusted: bool,
    values: HashMap<(u8, Vec<u8>), Value>,
}

#[derive(Default)]
struct Facts {
    flags: HashSet<Vec<u8>>,
    names: HashSet<(bool, Vec<u8>)>,
    chain: Vec<Certificate>,
    values: HashMap<(bool, Vec<u8>), Value>,
}

enum Value {
    Text(Vec<u8>),
    Flag(bool),
    Many(Vec<Vec<u8>>),
}

/// The next record's fields, or none at the end.
fn record(bytes: &[u8], at: &mut usize, fields: &mut Vec<Vec<u8>>) -> bool {
    let mut used = 0;
    while *at < bytes.len() && (bytes[*at] == b'\n' || bytes[*at] == b'\r') {
        *at += 1;
    }
    if *at >= bytes.len() {
        return false;
    }
    loop {
        if used == fields.len() {
            fields.push(Vec::new());
        }
        let field = &mut fields[used];
        field.clear();
        used += 1;
        if *at < bytes.len() && bytes[*at] == b'"' {
            *at += 1;
            while *at < bytes.len() {
                if bytes[*at] == b'"' {
                    if bytes.get(*at + 1) == Some(&b'"') {
                        field.push(b'"');
                        *at += 2;
                        continue;
                    }
                    *at += 1;
                    break;
                }
                field.push(bytes[*at]);
                *at += 1;
            }
        }
        while *at < bytes.len() && !matches!(bytes[*at], b',' | b'\n' | b'\r') {
            field.push(bytes[*at]);
            *at += 1;
        }
        if *at < bytes.len() && bytes[*at] == b',' {
            *at += 1;
            continue;
        }
        fields.truncate(used);
        return true;
    }
}

fn hash_of(word: &[u8]) -> Option<[u8; 20]> {
    if word.len() != 40 {
        return None;
    }
    let mut hash = [0; 20];
    for (byte, pair) in hash.iter_mut().zip(word.chunks(2)) {
        *byte = (char::from(pair[0]).to_digit(16)? * 16 + char::from(pair[1]).to_digit(16)?) as u8;
    }
    Some(hash)
}

fn slot_of(word: &[u8]) -> Option<usize> {
    if word.is_empty() || word.len() > 5 || (word.len() > 1 && word[0] == b'0') {
        return None;
    }
    std::str::from_utf8(word).ok()?.parse().ok()
}

fn is_oid(word: &[u8]) -> bool {
    let text = match std::str::from_utf8(word) {
        Ok(text) => text,
        Err(_) => return false,
    };
    let arcs: Vec<_> = text.split('.').collect();
    arcs.len() > 1 && arcs.iter().all(|arc| (*arc == "0" || !arc.starts_with('0')) && arc.parse::<u32>().is_ok())
}

/// Adds a value, or says that one stands there already.
fn add_value<K: std::hash::Hash + Eq>(values: &mut HashMap<K, Value>, key: K, kind: &[u8], value: &[u8]) -> Option<()> {
    let new = match kind {
        b"text" => Value::Text(value.to_vec()),
        b"true" if value.is_empty() => Value::Flag(true),
        b"false" if value.is_empty() => Value::Flag(false),
        b"item" => {
            if let Some(Value::Many(items)) = values.get_mut(&key) {
                items.push(value.to_vec());
                return Some(());
            }
            Value::Many(vec![value.to_vec()])
        }
        _ => return None,
    };
    match values.insert(key, new) {
        None => Some(()),
        Some(_) => None,
    }
}

fn add_row(table: &mut HashMap<[u8; 20], Facts>, row: &[Vec<u8>]) -> Option<()> {
    let [hash, scope, slot, key, kind, value] = row else { return None };
    let facts = table.entry(hash_of(hash)?).or_default();
    let plain = kind.is_empty() && value.is_empty();
    match scope.as_slice() {
        b"flag" if slot.is_empty() && plain => {
            let known: [&[u8]; 4] = [b"anchor-apple", b"anchor-apple-generic", b"notarized", b"legacy"];
            (known.contains(&key.as_slice()) && facts.flags.insert(key.clone())).then_some(())
        }
        b"anchor-name" | b"code-name" if slot.is_empty() && plain => {
            facts.names.insert((scope[0] == b'a', key.clone())).then_some(())
        }
        b"cert" if key.is_empty() && kind == b"hash" && slot_of(slot)? == facts.chain.len() => {
            facts.chain.push(Certificate { hash: hash_of(value)?, ..Certificate::default() });
            Some(())
        }
        b"cert-trusted" if key.is_empty() && plain => {
            let certificate = facts.chain.get_mut(slot_of(slot)?)?;
            (!std::mem::replace(&mut certificate.trusted, true)).then_some(())
        }
        b"cert-field" | b"cert-oid" | b"cert-policy" => {
            let certificate = facts.chain.get_mut(slot_of(slot)?)?;
            if scope.as_slice() != b"cert-field" && !is_oid(key) {
                return None;
            }
            add_value(&mut certificate.values, (scope[5], key.clone()), kind, value)
        }
        b"info" | b"entitlement" if slot.is_empty() => {
            add_value(&mut facts.values, (scope[0] == b'i', key.clone()), kind, value)
        }
        _ => None,
    }
}

fn read(bytes: &[u8]) -> Option<HashMap<[u8; 20], Facts>> {
    let header: [&[u8]; 6] = [b"cdhash", b"scope", b"slot", b"key", b"kind", b"value"];
    let (mut at, mut fields, mut rows) = (0, Vec::new(), 0);
    let mut table = HashMap::new();
    if !record(bytes, &mut at, &mut fields) || fields != header {
        return None;
    }
    while record(bytes, &mut at, &mut fields) {
        rows += 1;
        if rows > MOST_ROWS {
            return None;
        }
        add_row(&mut table, &fields)?;
    }
    Some(table)
}

fn main() {
    let words: Vec<String> = std::env::args().skip(1).collect();
    let times: u64 = words[1].parse().unwrap();
    let bytes = std::fs::read(&words[0]).unwrap();
    let start = Instant::now();
    let (mut count, mut seen) = (0, 0);
    for _ in 0..times {
        if let Some(table) = read(&bytes) {
            count += 1;
            seen += table.values().map(|facts| facts.chain.iter().map(|c| c.hash[0] as usize + c.values.len()).sum::<usize>() + facts.values.values().map(|v| match v {
                Value::Text(text) => text.len(),
                Value::Flag(flag) => usize::from(*flag),
                Value::Many(items) => items.len(),
            }).sum::<usize>()).sum::<usize>();
        }
    }
    println!("{} {} {} {}", words[0], bytes.len(), count, start.elapsed().as_nanos());
    eprintln!("{seen}");
}
