// A judge, written by hand as a baseline. Reads a recording from standard input, once, and prints `ok N calls`, or `not
// linearizable` and the key. Applies the rule of crates/lset_judge/specs/Rule.antt: a key changes as late as possible,
// when a call ends with a reply that requires the change. Of the pending calls that can make the change, the one with
// the earliest end takes effect. The judge checks the format of its input and that calls are sorted by start, but does
// not check that no two calls end at the same moment.
use std::collections::{BinaryHeap, HashMap, HashSet};
use std::cmp::Reverse;
use std::io::Read;

#[derive(Default)]
struct Key { there: bool, turned: u64, puts: Vec<u64>, takes: Vec<u64> }

impl Key {
    fn turn(&mut self, moment: u64) -> bool {
        let from = if self.there { &mut self.takes } else { &mut self.puts };
        let Some(place) = (0..from.len()).min_by_key(|&i| from[i]) else { return false };
        from.swap_remove(place);
        self.there = !self.there;
        self.turned = moment;
        true
    }
    fn look(&mut self, saw: bool, since: u64, moment: u64) -> bool {
        while self.there != saw && self.turned < since { if !self.turn(moment - 1) { return false } }
        true
    }
    fn ends(&mut self, to: bool, moment: u64) -> bool {
        loop {
            let of = if to { &self.puts } else { &self.takes };
            if of.iter().all(|&end| end > moment) { return true }
            if !self.turn(moment - 1) { return false }
        }
    }
}

#[derive(Clone, Copy, PartialEq, Eq, PartialOrd, Ord)]
enum What { Change(bool), Look(bool, u64), Nothing }

fn number(bytes: &[u8]) -> Option<u64> {
    if bytes.is_empty() || (bytes[0] == b'0' && bytes.len() > 1) { return None }
    let mut n = 0u64;
    for b in bytes { if !b.is_ascii_digit() { return None } n = n.checked_mul(10)?.checked_add((b - b'0') as u64)?; }
    Some(n)
}

fn main() {
    let mut keys: HashMap<u32, Key> = HashMap::new();
    let mut pending: BinaryHeap<Reverse<(u64, u32, What, u32)>> = BinaryHeap::new();
    let mut busy: HashSet<u32> = HashSet::new();
    let (mut last, mut calls, mut line_number) = (0u64, 0u64, 0u64);
    let mut refused: Option<(u32, u64)> = None;
    let mut left: HashSet<u32> = HashSet::new();
    let (mut is_cut, mut is_over) = (false, false);
    let mut rest: Vec<u8> = Vec::new();
    let mut buffer = vec![0u8; 1 << 16];
    let mut input = std::io::stdin().lock();
    let meet = |keys: &mut HashMap<u32, Key>, refused: &mut Option<(u32, u64)>, key: u32, what: What, at: u64| {
        if refused.is_some() { return }
        let state = keys.entry(key).or_default();
        let good = match what { What::Change(to) => state.ends(to, at), What::Look(saw, since) => state.look(saw, since, at), What::Nothing => true };
        if !good { *refused = Some((key, at)) }
    };
    let fault = |line: u64| -> ! { eprintln!("line {line}"); std::process::exit(1) };
    loop {
        let got = input.read(&mut buffer).unwrap();
        if got == 0 { break }
        rest.extend_from_slice(&buffer[..got]);
        let mut from = 0;
        while let Some(length) = rest[from..].iter().position(|&b| b == b'\n') {
            let line = &rest[from..from + length];
            from += length + 1;
            line_number += 1;
            if line_number == 1 { if line != b"listset-calls 1" { fault(1) } continue }
            if is_over { fault(line_number) }
            let mut pieces = line.split(|&b| b == b' ');
            match pieces.next() {
                Some(b"call") => {
                    let (Some(thread), Some(word), Some(key), Some(begun), Some(end), Some(reply), None) = (pieces.next(), pieces.next(), pieces.next(), pieces.next(), pieces.next(), pieces.next(), pieces.next()) else { fault(line_number) };
                    let (Some(thread), Some(key), Some(begun)) = (number(thread), number(key), number(begun)) else { fault(line_number) };
                    let (thread, key) = (thread as u32, key as u32);
                    if begun <= last { fault(line_number) }
                    let reply = match reply { b"true" => Some(true), b"false" => Some(false), b"-" => None, _ => fault(line_number) };
                    let end = match end { b"-" => (1 << 63) + begun, other => number(other).unwrap_or_else(|| fault(line_number)) };
                    if end <= begun { fault(line_number) }
                    while let Some(&Reverse((at, key, what, of))) = pending.peek() {
                        if at >= begun { break }
                        pending.pop();
                        busy.remove(&of);
                        meet(&mut keys, &mut refused, key, what, at);
                    }
                    if !busy.insert(thread) { fault(line_number) }
                    let what = match (word, reply) {
                        (b"add", Some(true)) | (b"add", None) => What::Change(true),
                        (b"remove", Some(true)) | (b"remove", None) => What::Change(false),
                        (b"contains", None) => What::Nothing,
                        (b"contains", Some(saw)) => What::Look(saw, begun),
                        (b"add", Some(false)) => What::Look(true, begun),
                        (b"remove", Some(false)) => What::Look(false, begun),
                        _ => fault(line_number),
                    };
                    if let What::Change(to) = what {
                        let state = keys.entry(key).or_default();
                        if to { state.puts.push(end) } else { state.takes.push(end) }
                    }
                    pending.push(Reverse((end, key, what, thread)));
                    last = begun;
                    calls += 1;
                }
                Some(b"opening") => { let key = number(pieces.next().unwrap()).unwrap() as u32; keys.entry(key).or_default().there = true; }
                Some(b"key") => { left.insert(number(pieces.next().unwrap()).unwrap() as u32); }
                Some(b"end") => is_over = true,
                Some(b"cut") => { is_over = true; is_cut = true }
                _ => fault(line_number),
            }
        }
        rest.drain(..from);
    }
    if !is_over { fault(line_number + 1) }
    while let Some(Reverse((at, key, what, _))) = pending.pop() {
        if at >= 1 << 63 { break }
        meet(&mut keys, &mut refused, key, what, at);
        last = at;
    }
    if !is_cut && refused.is_none() {
        for key in &left { keys.entry(*key).or_default(); }
        let mut all: Vec<u32> = keys.keys().copied().collect();
        all.sort();
        for key in all {
            let state = keys.get_mut(&key).unwrap();
            if state.there != left.contains(&key) && !state.turn(last) { refused = Some((key, 0)); break }
        }
    }
    match refused {
        None => println!("ok {calls} calls"),
        Some((key, 0)) => { println!("not linearizable\nkey {key} as left"); std::process::exit(1) }
        Some((key, at)) => { println!("not linearizable\nkey {key} at {at}"); std::process::exit(1) }
    }
}
