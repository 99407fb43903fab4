// A replayer of schedules (lists of calls and steps), written by hand for speed as the baseline for `listset replay`.
// Accepts sets that are opened with keys, but no calls of `ceiling`.
//   rustc -O peer_replay.rs;  peer_replay replay < schedule > report;  peer_replay check < report
use std::collections::{BTreeMap, BTreeSet, HashMap, HashSet};
use std::fmt::Write as _;
use std::io::{Read, Write};
const TAIL: u64 = 4294967297;
#[derive(Clone, Copy, Default)]
struct L {
    used: u64,
    op: u8,
    key: u64,
    pc: u8,
    rep: u8,
    pred: u64,
    curr: u64,
    succ: u64,
    node: u64,
    pkey: u64,
    ckey: u64,
} // the field `rep` is the reply: 0 none, 1 true, 2 false, 3 full
fn k(i: u64) -> usize {
    (3 + 3 * i) as usize
}
fn l(i: u64) -> usize {
    (4 + 3 * i) as usize
}
fn lk(i: u64) -> usize {
    (5 + 3 * i) as usize
}
struct W {
    w: Vec<u64>,
    q: u64,
    kind: u8,
}
fn dec(x: &mut L, q: u64, c: u64, key: u64, a: u8, d: u8, u: u8) {
    if c == key {
        match x.op {
            0 => {
                x.rep = 2;
                x.pc = u
            }
            1 => x.pc = d,
            _ => {
                x.rep = 1;
                x.pc = u
            }
        }
    } else {
        match x.op {
            0 => {
                if x.used == q {
                    x.rep = 3;
                    x.pc = u
                } else {
                    x.pc = a
                }
            }
            _ => {
                x.rep = 2;
                x.pc = u
            }
        }
    }
}
impl W {
    fn cas(&mut self, i: usize, a: u64, b: u64) -> bool {
        if self.w[i] == a {
            self.w[i] = b;
            true
        } else {
            false
        }
    }
    // Executes one step. Returns the reply and the change: 0 for none, 1 for an added key, 2 for a removed one.
    fn step(&mut self, t: u64, x: &mut L) -> (u8, u8) {
        let (key, me, own, q) = (x.key + 1, t + 1, 2 + t * self.q + x.used, self.q);
        macro_rules! ans {
            () => {{
                x.pc = 0;
                return (x.rep, 0);
            }};
        }
        match x.pc {
            20 => {
                x.curr = self.w[l(x.curr)] / 2;
                x.pc = 21;
                return (0, 0);
            }
            21 => {
                let s = self.w[k(x.curr)];
                if s < key {
                    x.pc = 20
                } else if s > key {
                    x.rep = 2;
                    ans!()
                } else {
                    x.pc = 22
                }
                return (0, 0);
            }
            22 => {
                x.rep = if self.w[l(x.curr)] % 2 == 0 { 1 } else { 2 };
                ans!()
            }
            _ => {}
        }
        match (self.kind, x.pc) {
            (0, 1) => {
                if self.cas(0, 0, me) {
                    x.pc = 2
                }
            }
            (0, 2) => {
                x.pred = 0;
                x.curr = self.w[l(0)] / 2;
                x.pc = 3
            }
            (0, 3) => {
                let s = self.w[k(x.curr)];
                x.ckey = s;
                if s < key {
                    x.pc = 4
                } else {
                    dec(x, q, s, key, 5, 8, 10)
                }
            }
            (0, 4) => {
                x.pred = x.curr;
                x.curr = self.w[l(x.curr)] / 2;
                x.pc = 3
            }
            (0, 5) => {
                self.w[k(own)] = key;
                x.pc = 6
            }
            (0, 6) => {
                self.w[l(own)] = 2 * x.curr;
                x.pc = 7
            }
            (0, 7) => {
                self.w[l(x.pred)] = 2 * own;
                x.rep = 1;
                x.pc = 10;
                x.used += 1;
                return (0, 1);
            }
            (0, 8) => {
                x.succ = self.w[l(x.curr)] / 2;
                x.pc = 9
            }
            (0, 9) => {
                self.w[l(x.pred)] = 2 * x.succ;
                x.rep = 1;
                x.pc = 10;
                return (0, 2);
            }
            (0, 10) => {
                self.w[0] = 0;
                ans!()
            }
            (1, 1) => {
                if self.cas(lk(0), 0, me) {
                    x.pred = 0;
                    x.pc = 2
                }
            }
            (1, 2) => {
                x.curr = self.w[l(0)] / 2;
                x.pc = 3
            }
            (1, 3) => {
                if self.cas(lk(x.curr), 0, me) {
                    x.pc = 4
                }
            }
            (1, 4) => {
                let s = self.w[k(x.curr)];
                x.ckey = s;
                if s < key {
                    x.pc = 5
                } else {
                    dec(x, q, s, key, 7, 10, 12)
                }
            }
            (1, 5) => {
                self.w[lk(x.pred)] = 0;
                x.pc = 6
            }
            (1, 6) => {
                x.pred = x.curr;
                x.curr = self.w[l(x.curr)] / 2;
                x.pc = 3
            }
            (1, 7) => {
                self.w[k(own)] = key;
                x.pc = 8
            }
            (1, 8) => {
                self.w[l(own)] = 2 * x.curr;
                x.pc = 9
            }
            (1, 9) => {
                self.w[l(x.pred)] = 2 * own;
                x.rep = 1;
                x.pc = 12;
                x.used += 1;
                return (0, 1);
            }
            (1, 10) => {
                x.succ = self.w[l(x.curr)] / 2;
                x.pc = 11
            }
            (1, 11) => {
                self.w[l(x.pred)] = 2 * x.succ;
                x.rep = 1;
                x.pc = 12;
                return (0, 2);
            }
            (1, 12) => {
                self.w[lk(x.curr)] = 0;
                x.pc = 13
            }
            (1, 13) => {
                self.w[lk(x.pred)] = 0;
                ans!()
            }
            (2, 1) => {
                x.curr = self.w[l(0)] / 2;
                x.pred = 0;
                x.pkey = 0;
                x.pc = 2
            }
            (2, 2) => {
                let s = self.w[k(x.curr)];
                x.ckey = s;
                x.pc = if s < key { 3 } else { 4 }
            }
            (2, 3) => {
                let s = self.w[l(x.curr)];
                x.pred = x.curr;
                x.pkey = x.ckey;
                x.curr = s / 2;
                x.pc = 2
            }
            (2, 4) => {
                if self.cas(lk(x.pred), 0, me) {
                    x.pc = 5
                }
            }
            (2, 5) => {
                if self.cas(lk(x.curr), 0, me) {
                    x.node = 0;
                    x.pc = if x.pred == 0 { 8 } else { 6 }
                }
            }
            (2, 6) => {
                x.node = self.w[l(x.node)] / 2;
                x.pc = 7
            }
            (2, 7) => {
                let s = self.w[k(x.node)];
                if s > x.pkey {
                    x.rep = 0;
                    x.pc = 14
                } else {
                    x.pc = if x.node == x.pred { 8 } else { 6 }
                }
            }
            (2, 8) => {
                if self.w[l(x.pred)] / 2 == x.curr {
                    let c = x.ckey;
                    dec(x, q, c, key, 9, 12, 14)
                } else {
                    x.rep = 0;
                    x.pc = 14
                }
            }
            (2, 9) => {
                self.w[k(own)] = key;
                x.pc = 10
            }
            (2, 10) => {
                self.w[l(own)] = 2 * x.curr;
                x.pc = 11
            }
            (2, 11) => {
                self.w[l(x.pred)] = 2 * own;
                x.rep = 1;
                x.pc = 14;
                x.used += 1;
                return (0, 1);
            }
            (2, 12) => {
                x.succ = self.w[l(x.curr)] / 2;
                x.pc = 13
            }
            (2, 13) => {
                self.w[l(x.pred)] = 2 * x.succ;
                x.rep = 1;
                x.pc = 14;
                return (0, 2);
            }
            (2, 14) => {
                self.w[lk(x.pred)] = 0;
                x.pc = 15
            }
            (2, 15) => {
                self.w[lk(x.curr)] = 0;
                if x.rep == 0 {
                    x.pc = 1
                } else {
                    ans!()
                }
            }
            (3, 1) => {
                x.curr = self.w[l(0)] / 2;
                x.pred = 0;
                x.pc = 2
            }
            (3, 2) => {
                let s = self.w[k(x.curr)];
                x.ckey = s;
                x.pc = if s < key { 3 } else { 4 }
            }
            (3, 3) => {
                x.pred = x.curr;
                x.curr = self.w[l(x.curr)] / 2;
                x.pc = 2
            }
            (3, 4) => {
                if self.cas(lk(x.pred), 0, me) {
                    x.pc = 5
                }
            }
            (3, 5) => {
                if self.cas(lk(x.curr), 0, me) {
                    x.pc = 6
                }
            }
            (3, 6) => {
                if self.w[l(x.pred)] == 2 * x.curr {
                    x.pc = 7
                } else {
                    x.rep = 0;
                    x.pc = 13
                }
            }
            (3, 7) => {
                let s = self.w[l(x.curr)];
                if s % 2 == 1 {
                    x.rep = 0;
                    x.pc = 13
                } else {
                    x.succ = s / 2;
                    let c = x.ckey;
                    dec(x, q, c, key, 8, 11, 13)
                }
            }
            (3, 8) => {
                self.w[k(own)] = key;
                x.pc = 9
            }
            (3, 9) => {
                self.w[l(own)] = 2 * x.curr;
                x.pc = 10
            }
            (3, 10) => {
                self.w[l(x.pred)] = 2 * own;
                x.rep = 1;
                x.pc = 13;
                x.used += 1;
                return (0, 1);
            }
            (3, 11) => {
                self.w[l(x.curr)] = 2 * x.succ + 1;
                x.pc = 12;
                return (0, 2);
            }
            (3, 12) => {
                self.w[l(x.pred)] = 2 * x.succ;
                x.rep = 1;
                x.pc = 13
            }
            (3, 13) => {
                self.w[lk(x.curr)] = 0;
                x.pc = 14
            }
            (3, 14) => {
                self.w[lk(x.pred)] = 0;
                if x.rep == 0 {
                    x.pc = 1
                } else {
                    ans!()
                }
            }
            (4, 1) => {
                x.curr = self.w[l(0)] / 2;
                x.pred = 0;
                x.pc = 2
            }
            (4, 2) => {
                let s = self.w[l(x.curr)];
                x.succ = s / 2;
                x.pc = if s % 2 == 1 { 3 } else { 4 }
            }
            (4, 3) => {
                if self.cas(l(x.pred), 2 * x.curr, 2 * x.succ) {
                    x.curr = x.succ;
                    x.pc = 2
                } else {
                    x.pc = 1
                }
            }
            (4, 4) => {
                let s = self.w[k(x.curr)];
                if s < key {
                    x.pred = x.curr;
                    x.curr = x.succ;
                    x.pc = 2
                } else {
                    dec(x, q, s, key, 5, 8, 0);
                    if x.pc == 0 {
                        ans!()
                    }
                }
            }
            (4, 5) => {
                self.w[k(own)] = key;
                x.pc = 6
            }
            (4, 6) => {
                self.w[l(own)] = 2 * x.curr;
                x.pc = 7
            }
            (4, 7) => {
                if self.cas(l(x.pred), 2 * x.curr, 2 * own) {
                    x.rep = 1;
                    x.pc = 0;
                    x.used += 1;
                    return (1, 1);
                } else {
                    x.pc = 1
                }
            }
            (4, 8) => {
                x.succ = self.w[l(x.curr)] / 2;
                x.pc = 9
            }
            (4, 9) => {
                if self.cas(l(x.curr), 2 * x.succ, 2 * x.succ + 1) {
                    x.pc = 10;
                    return (0, 2);
                } else {
                    x.pc = 1
                }
            }
            (4, 10) => {
                self.cas(l(x.pred), 2 * x.curr, 2 * x.succ);
                x.rep = 1;
                ans!()
            }
            _ => unreachable!(),
        }
        (0, 0)
    }
}
const KINDS: [&str; 5] = ["coarse", "fine", "optimistic", "lazy", "lock-free"];
const OPS: [&str; 3] = ["add", "remove", "contains"];
const REPS: [&str; 4] = ["", "true", "false", "full"];
struct Call {
    t: usize,
    op: u8,
    key: u64,
    b: u32,
    e: u32,
    rep: u8,
    change: u32,
    count: u64,
}
fn replay(s: &str) -> String {
    let ls: Vec<&str> = s.split_terminator('\n').collect();
    let kind = KINDS.iter().position(|x| *x == &ls[1][5..]).unwrap() as u8;
    let n: usize = ls[2][8..].parse().unwrap();
    let q: u64 = ls[3][6..].parse().unwrap();
    let opening: Vec<u64> = ls[4..]
        .iter()
        .map_while(|line| line.strip_prefix("opening "))
        .map(|key| key.parse().unwrap())
        .collect();
    let (m, first) = (opening.len(), 2 + n as u64 * q);
    let mut w = W {
        w: vec![0; 9 + 3 * n * q as usize + 3 * m],
        q,
        kind,
    };
    w.w[1] = n as u64;
    w.w[2] = q;
    w.w[4] = 2;
    w.w[6] = TAIL;
    w.w[7] = 2;
    for (i, key) in opening.iter().enumerate() {
        let node = first + i as u64;
        w.w[k(node)] = key + 1;
        w.w[l(node)] = if i + 1 < m { 2 * (node + 1) } else { 2 };
    }
    if m > 0 {
        w.w[l(0)] = 2 * first
    }
    let mut x = vec![L::default(); n];
    let mut open = vec![usize::MAX; n];
    let mut calls: Vec<Call> = vec![];
    let mut at = 0u32;
    let mut chg: HashMap<u64, Vec<(u32, bool)>> = HashMap::new();
    let mut content: BTreeSet<u64> = opening.iter().copied().collect();
    let there: BTreeSet<u64> = content.clone();
    for line in &ls[4 + m..] {
        let p: Vec<&str> = line.split(' ').collect();
        let t: usize = p[1].parse().unwrap();
        if p[0] == "begin" {
            let op = OPS.iter().position(|y| *y == p[2]).unwrap() as u8;
            let key: u64 = p[3].parse().unwrap();
            at += 1;
            open[t] = calls.len();
            calls.push(Call {
                t,
                op,
                key,
                b: at,
                e: 0,
                rep: 0,
                change: 0,
                count: x[t].used,
            });
            let used = x[t].used;
            x[t] = L {
                used,
                op,
                key,
                pc: if kind >= 3 && op == 2 { 20 } else { 1 },
                ..L::default()
            };
        } else {
            for _ in 0..p[2].parse::<u32>().unwrap() {
                at += 1;
                let (a, c) = w.step(t as u64, &mut x[t]);
                let id = open[t];
                if c != 0 {
                    calls[id].change = at;
                    let key = calls[id].key;
                    chg.entry(key).or_default().push((at, c == 1));
                    if c == 1 {
                        content.insert(key);
                    } else {
                        content.remove(&key);
                    }
                }
                if a != 0 {
                    calls[id].e = at;
                    calls[id].rep = a;
                    open[t] = usize::MAX;
                }
            }
        }
    }
    let mut pl: Vec<(u32, u8, usize)> = vec![];
    for (i, c) in calls.iter().enumerate() {
        if c.change != 0 {
            pl.push((c.change, 0, i));
            continue;
        }
        if c.e == 0 {
            continue;
        }
        let want = match (c.op, c.rep) {
            (0, 2) | (2, 1) => true,
            _ => false,
        };
        let v = chg.get(&c.key).map(|v| &v[..]).unwrap_or(&[]);
        let i0 = v.partition_point(|e| e.0 <= c.b);
        let now = if i0 > 0 { v[i0 - 1].1 } else { there.contains(&c.key) };
        let m = if now == want { c.b } else { v[i0].0 };
        pl.push((m, 1, i));
    }
    pl.sort_unstable();
    let mut o = format!("{}\n{}\n{}\n{}\n", ls[0].replace("schedule", "report"), ls[1], ls[2], ls[3]);
    for key in &opening {
        let _ = writeln!(o, "opening {key}");
    }
    for (i, c) in calls.iter().enumerate() {
        let _ = if c.e != 0 {
            writeln!(
                o,
                "call {i} {} {} {} {} {} {}",
                c.t, OPS[c.op as usize], c.key, c.b, c.e, REPS[c.rep as usize]
            )
        } else {
            writeln!(o, "call {i} {} {} {} {} open", c.t, OPS[c.op as usize], c.key, c.b)
        };
    }
    for (_, _, i) in pl {
        let _ = writeln!(
            o,
            "place {i} {}",
            if calls[i].change != 0 {
                "true"
            } else {
                REPS[calls[i].rep as usize]
            }
        );
    }
    for key in content {
        let _ = writeln!(o, "key {key}");
    }
    o + "end\n"
}
fn check(s: &str) -> &'static str {
    let (mut calls, mut order, mut keys): (Vec<Call>, Vec<(usize, u8)>, Vec<u64>) = (vec![], vec![], vec![]);
    let mut q = 0;
    for line in s.lines() {
        let p: Vec<&str> = line.split(' ').collect();
        match p[0] {
            "quota" => q = p[1].parse().unwrap(),
            "call" => {
                let open = p.len() == 7;
                calls.push(Call {
                    t: p[2].parse().unwrap(),
                    op: OPS.iter().position(|y| *y == p[3]).unwrap() as u8,
                    key: p[4].parse().unwrap(),
                    b: p[5].parse().unwrap(),
                    e: if open { 0 } else { p[6].parse().unwrap() },
                    rep: if open {
                        0
                    } else {
                        REPS.iter().position(|y| *y == p[7]).unwrap() as u8
                    },
                    change: 0,
                    count: 0,
                })
            }
            "place" => order.push((p[1].parse().unwrap(), REPS.iter().position(|y| *y == p[2]).unwrap() as u8)),
            "key" => keys.push(p[1].parse().unwrap()),
            _ => {}
        }
    }
    let mut seen = HashSet::new();
    for (i, _) in &order {
        if *i >= calls.len() || !seen.insert(*i) {
            return "refused";
        }
    }
    if calls.iter().enumerate().any(|(i, c)| c.e != 0 && !seen.contains(&i)) {
        return "refused";
    }
    let mut set = BTreeSet::new();
    let mut cnt: BTreeMap<usize, u64> = BTreeMap::new();
    for (i, r) in &order {
        let c = &calls[*i];
        if c.e != 0 && c.rep != *r {
            return "refused";
        }
        let n = cnt.entry(c.t).or_default();
        let w = match c.op {
            0 => {
                if set.contains(&c.key) {
                    2
                } else if *n == q {
                    3
                } else {
                    set.insert(c.key);
                    *n += 1;
                    1
                }
            }
            1 => {
                if set.remove(&c.key) {
                    1
                } else {
                    2
                }
            }
            _ => {
                if set.contains(&c.key) {
                    1
                } else {
                    2
                }
            }
        };
        if w != *r {
            return "refused";
        }
    }
    let mut least = u32::MAX;
    for (i, _) in order.iter().rev() {
        let c = &calls[*i];
        if least < c.b {
            return "refused";
        }
        if c.e != 0 {
            least = least.min(c.e)
        }
    }
    if set.into_iter().ne(keys) {
        return "refused";
    }
    "ok"
}
fn main() {
    let mut s = String::new();
    std::io::stdin().read_to_string(&mut s).unwrap();
    let o = if std::env::args().nth(1).as_deref() == Some("check") {
        check(&s).to_string() + "\n"
    } else {
        replay(&s)
    };
    std::io::stdout().write_all(o.as_bytes()).unwrap();
}
