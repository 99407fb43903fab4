//! Puts a set server on the loopback under load, and measures how fast the server answers.
//!   rustc -O load.rs;  load PROTOCOL PORT CLIENTS AT_ONCE REQUESTS KEYS
//! PROTOCOL is `listset`, or `redis` with a set named `s`. Each client has its own thread and connection and sends
//! REQUESTS requests on KEYS keys: one third adds, one third removes, and one third contains. All requests are prepared
//! before the first one is sent. A client sends AT_ONCE requests in one write, waits for the answers, and then sends
//! the next AT_ONCE requests. Prints three numbers: the requests per second, from the first write to the last answer of
//! all clients; and the median and the 99th percentile of the microseconds from a write to the last of its answers. A
//! read times out after ten seconds.

use std::io::{Read, Write};
use std::net::TcpStream;
use std::sync::Barrier;
use std::time::{Duration, Instant};

#[derive(Clone, Copy)]
enum Protocol {
    Listset,
    Redis,
}

impl Protocol {
    fn named(name: &str) -> Protocol {
        match name {
            "listset" => Protocol::Listset,
            "redis" => Protocol::Redis,
            _ => panic!("no protocol is called {name}"),
        }
    }

    fn request(self, op: usize, key: u64) -> String {
        match self {
            Protocol::Listset => format!("{} {key}\n", ["ADD", "REMOVE", "CONTAINS"][op]),
            Protocol::Redis => {
                let (word, key) = (["SADD", "SREM", "SISMEMBER"][op], key.to_string());
                format!("*3\r\n${}\r\n{word}\r\n$1\r\ns\r\n${}\r\n{key}\r\n", word.len(), key.len())
            }
        }
    }

    /// Returns `true` if an answer can begin with `byte`. listset answers TRUE or FALSE, redis a colon and a number.
    fn begins(self, byte: u8) -> bool {
        match self {
            Protocol::Listset => b"TF".contains(&byte),
            Protocol::Redis => byte == b':',
        }
    }
}

#[derive(Clone, Copy)]
struct Wanted {
    protocol: Protocol,
    port: u16,
    clients: u64,
    at_once: usize,
    requests: usize,
    keys: u64,
}

impl Wanted {
    fn read(words: &[String]) -> Wanted {
        let numbers: Vec<u64> = words[1..].iter().map(|it| it.parse().expect("a number")).collect();
        let [port, clients, at_once, requests, keys] = numbers[..] else { panic!("PROTOCOL PORT CLIENTS AT_ONCE REQUESTS KEYS") };
        let protocol = Protocol::named(&words[0]);
        Wanted { protocol, port: port as u16, clients, at_once: at_once as usize, requests: requests as usize, keys }
    }

    /// Returns the byte strings that a client writes, each with `at_once` requests.
    fn writes(&self, client: u64) -> Vec<Vec<u8>> {
        let mut drawn = 0x2545_f491_4f6c_dd1d ^ ((client + 1) << 32);
        let mut request = |_| {
            drawn ^= drawn << 13;
            drawn ^= drawn >> 7;
            drawn ^= drawn << 17;
            self.protocol.request((drawn >> 8) as usize % 3, (drawn >> 20) % self.keys)
        };
        (0..self.requests / self.at_once).map(|_| (0..self.at_once).map(&mut request).collect::<String>().into_bytes()).collect()
    }
}

/// Reads `many` answers.
fn read_answers(stream: &mut TcpStream, protocol: Protocol, many: usize) {
    let mut buffer = [0; 65_536];
    let (mut left, mut begins) = (many, true);
    while left > 0 {
        let count = stream.read(&mut buffer).expect("an answer in ten seconds");
        assert!(count > 0, "the server has ended the connection");
        for byte in &buffer[..count] {
            assert!(!begins || protocol.begins(*byte), "an answer begins with {}", char::from(*byte));
            begins = *byte == b'\n';
            left -= usize::from(begins);
        }
    }
}

/// The times of a client: when it began, when it ended, and how long each write waited for the last of its answers.
struct Seen {
    began: Instant,
    ended: Instant,
    waits: Vec<Duration>,
}

fn speak(wanted: Wanted, client: u64, all_are_ready: &Barrier) -> Seen {
    let writes = wanted.writes(client);
    let mut stream = TcpStream::connect(("127.0.0.1", wanted.port)).expect("a connection");
    stream.set_nodelay(true).expect("no delay");
    stream.set_read_timeout(Some(Duration::from_secs(10))).expect("a time");
    let mut waits = Vec::with_capacity(writes.len());
    all_are_ready.wait();
    let began = Instant::now();
    let mut before = began;
    for write in &writes {
        stream.write_all(write).expect("a write");
        read_answers(&mut stream, wanted.protocol, wanted.at_once);
        let now = Instant::now();
        waits.push(now - before);
        before = now;
    }
    Seen { began, ended: before, waits }
}

fn main() {
    let words: Vec<String> = std::env::args().skip(1).collect();
    let wanted = Wanted::read(&words);
    let all_are_ready = &Barrier::new(wanted.clients as usize);
    let seen: Vec<Seen> = std::thread::scope(|scope| {
        let started: Vec<_> = (0..wanted.clients).map(|client| scope.spawn(move || speak(wanted, client, all_are_ready))).collect();
        started.into_iter().map(|it| it.join().expect("a client")).collect()
    });
    let began = seen.iter().map(|it| it.began).min().expect("a client");
    let ended = seen.iter().map(|it| it.ended).max().expect("a client");
    let mut waits: Vec<f64> = seen.iter().flat_map(|it| &it.waits).map(|it| it.as_secs_f64() * 1e6).collect();
    waits.sort_unstable_by(f64::total_cmp);
    let requests = waits.len() * wanted.at_once;
    let at = |part: f64| waits[((waits.len() - 1) as f64 * part) as usize];
    println!("{:.0} {:.1} {:.1}", requests as f64 / (ended - began).as_secs_f64(), at(0.5), at(0.99));
}
