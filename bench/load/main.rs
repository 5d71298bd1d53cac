//! Loads a broker over TCP and tells what it did, in one line of JSON.
//!
//!     load PROTOCOL ADDRESS PID latency RATE SIZE SECONDS
//!     load PROTOCOL ADDRESS PID throughput PUBLISHERS SUBSCRIBERS SIZE SECONDS
//!     load PROTOCOL ADDRESS PID queries OPEN SECONDS
//!     load PROTOCOL ADDRESS PID idle LINKS
//!
//! PROTOCOL is zenoh, mqtt or nats; PID is the broker's process, whose processor time and memory are read. Where two brokers are linked both
//! are told, with a comma between: publishers and who asks are at the first, subscribers and who answers at the last. No crate is needed:
//! `rustc -O main.rs`.

mod links;
mod machine;
mod protocol;

use std::net::SocketAddr;
use std::sync::atomic::{AtomicBool, AtomicU64, Ordering};
use std::sync::{Arc, Condvar, Mutex};
use std::thread;
use std::time::{Duration, Instant};

use links::{Publisher, Questioner, Subscriber};
use machine::{Usage, MONOTONIC};
use protocol::Protocol;

/// How many messages all publishers together may be ahead of the slowest subscriber, and how many bytes of payloads.
const MOST_AHEAD: u64 = 128;
const MOST_AHEAD_BYTES: u64 = 1 << 22;
/// The most messages that a publisher writes at once.
const MOST_WRITTEN: u64 = 64;
/// The numbers of queries that are counted: from the first one on, so many before they come again.
const FIRST: u64 = 1 << 16;
const NUMBERS: u64 = 1 << 20;
const WARM_UP: Duration = Duration::from_millis(500);
/// After so long without a message nothing more comes at a steady rate.
const QUIET: Duration = Duration::from_secs(2);
/// After so long without a message a run has failed.
const MOST_WAIT: Duration = Duration::from_secs(10);
/// The number of a message that only shows that a subscription is seen.
pub const PROBE: u64 = u64::MAX;

/// How far each subscriber is, under a lock: a publisher sleeps until the slowest has come on.
struct Window {
    most: u64,
    state: Mutex<Ahead>,
    moved: Condvar,
}

struct Ahead {
    sent: u64,
    received: Vec<u64>,
    ended: bool,
}

impl Window {
    fn new(subscribers: usize, size: usize) -> Self {
        let state = Ahead {
            sent: 0,
            received: vec![0; subscribers],
            ended: false,
        };
        Self {
            most: MOST_AHEAD.min(MOST_AHEAD_BYTES / size as u64),
            state: Mutex::new(state),
            moved: Condvar::new(),
        }
    }

    /// Waits until something may be sent, and says how much; nothing behind the end.
    fn reserve(&self) -> u64 {
        let mut ahead = self.state.lock().unwrap();
        loop {
            let slowest = *ahead.received.iter().min().unwrap();
            let room = self.most - (ahead.sent - slowest);
            if ahead.ended {
                return 0;
            }
            if room > 0 {
                let count = room.min(MOST_WRITTEN);
                ahead.sent += count;
                return count;
            }
            let (next, timeout) = self.moved.wait_timeout(ahead, MOST_WAIT).unwrap();
            assert!(!timeout.timed_out(), "nothing came for {MOST_WAIT:?}: a message is lost");
            ahead = next;
        }
    }

    /// Notes that a subscriber has received so many more.
    fn advance(&self, subscriber: usize, count: u64) {
        let mut ahead = self.state.lock().unwrap();
        let slowest = *ahead.received.iter().min().unwrap();
        ahead.received[subscriber] += count;
        if *ahead.received.iter().min().unwrap() != slowest {
            self.moved.notify_all();
        }
    }

    fn end(&self) {
        self.state.lock().unwrap().ended = true;
        self.moved.notify_all();
    }
}

/// What all threads of a run share.
struct Run {
    start: Instant,
    ended: AtomicBool,
    delivered: AtomicU64,
    window: Window,
}

/// A broker, or two that are linked.
struct Brokers {
    protocol: Protocol,
    /// That of publishers and of who asks.
    first: SocketAddr,
    /// That of subscribers and of who answers.
    last: SocketAddr,
    pids: Vec<u32>,
}

/// The subscribers, each of which is known to the broker as such, and the publishers.
fn connect(brokers: &Brokers, publishers: usize, subscribers: usize) -> (Vec<Publisher>, Vec<Subscriber>) {
    let mut subs: Vec<_> = (0..subscribers).map(|_| Subscriber::open(brokers.protocol, brokers.last)).collect();
    let mut pubs: Vec<_> = (0..publishers).map(|i| Publisher::open(brokers.protocol, brokers.first, i as u64)).collect();
    for sub in &mut subs {
        while !sub.hears_probe() {
            pubs[0].send_probe();
        }
    }
    // what other probes are under way comes meanwhile, and is left out by each subscriber
    thread::sleep(Duration::from_millis(200));
    (pubs, subs)
}

/// One publisher at a steady rate, one subscriber: the times from just before a message is written until it has been read.
fn latency(brokers: &Brokers, rate: u64, size: usize, seconds: u64) -> String {
    let (mut pubs, mut subs) = connect(brokers, 1, 1);
    let (mut publisher, mut subscriber) = (pubs.remove(0), subs.remove(0));
    let count = rate * seconds;
    let before = Usage::of(&brokers.pids);
    let sent = Arc::new(AtomicBool::new(false));
    let is_sent = sent.clone();
    subscriber.wait_most(WARM_UP);
    let reading = thread::spawn(move || {
        let mut times = Vec::with_capacity(count as usize);
        let mut last = Instant::now();
        let mut next = 0;
        // a broker may leave messages out: then nothing more comes
        while next < count && !(is_sent.load(Ordering::Relaxed) && last.elapsed() > QUIET) {
            subscriber.read(|_, number, stamp| {
                times.push(MONOTONIC.now().saturating_sub(stamp));
                last = Instant::now();
                next = number + 1;
            });
        }
        times
    });
    machine::sleep_exactly();
    let start = Instant::now();
    for i in 0..count {
        let due = start + Duration::from_nanos(i * 1_000_000_000 / rate);
        while let Some(left) = due.checked_duration_since(Instant::now()).filter(|left| !left.is_zero()) {
            thread::sleep(left);
        }
        publisher.send(1, size);
    }
    sent.store(true, Ordering::Relaxed);
    let mut times = reading.join().expect("the subscriber");
    let used = Usage::of(&brokers.pids).since(&before);
    times.sort_unstable();
    let at = |share: f64| times[((times.len() - 1) as f64 * share) as usize] as f64 / 1_000.0;
    format!(
        r#"{{"lost": {}, "p50": {:.1}, "p90": {:.1}, "p99": {:.1}, "most": {:.1}, "cpu": {:.3}, {}}}"#,
        count - times.len() as u64,
        at(0.5),
        at(0.9),
        at(0.99),
        at(1.0),
        used.broker as f64 / 1_000.0 / count as f64,
        used.others()
    )
}

/// Each publisher writes as much as the window lets it, and each subscriber is sent all of it.
fn throughput(brokers: &Brokers, publishers: usize, subscribers: usize, size: usize, seconds: u64) -> String {
    let (pubs, subs) = connect(brokers, publishers, subscribers);
    let run = Arc::new(Run {
        start: Instant::now(),
        ended: AtomicBool::new(false),
        delivered: AtomicU64::new(0),
        window: Window::new(subscribers, size),
    });
    let mut threads = Vec::new();
    for (i, sub) in subs.into_iter().enumerate() {
        let run = run.clone();
        threads.push(thread::spawn(move || receive(&run, i, sub, publishers)));
    }
    for publisher in pubs {
        let run = run.clone();
        threads.push(thread::spawn(move || publish(&run, publisher, size)));
    }
    thread::sleep(WARM_UP);
    let (before, first, began) = (Usage::of(&brokers.pids), run.delivered.load(Ordering::Relaxed), run.start.elapsed());
    thread::sleep(Duration::from_secs(seconds));
    let (used, last, ended) = (Usage::of(&brokers.pids).since(&before), run.delivered.load(Ordering::Relaxed), run.start.elapsed());
    run.ended.store(true, Ordering::Relaxed);
    run.window.end();
    for thread in threads {
        thread.join().expect("a link's thread");
    }
    let delivered = last - first;
    format!(
        r#"{{"deliveries": {:.0}, "cpu": {:.3}, {}}}"#,
        delivered as f64 / (ended - began).as_secs_f64(),
        used.broker as f64 / 1_000.0 / delivered as f64,
        used.others()
    )
}

fn publish(run: &Run, mut publisher: Publisher, size: usize) {
    loop {
        match run.window.reserve() {
            0 => return,
            count => publisher.send(count, size),
        }
    }
}

/// Reads until the end, and sees that each publisher's messages come once each, in order.
fn receive(run: &Run, index: usize, mut subscriber: Subscriber, publishers: usize) {
    let mut next = vec![0; publishers];
    subscriber.wait_most(WARM_UP);
    while !run.ended.load(Ordering::Relaxed) {
        let mut count = 0;
        subscriber.read(|publisher, number, _| {
            assert_eq!(number, next[publisher as usize], "a message is lost, doubled or out of order");
            next[publisher as usize] += 1;
            count += 1;
        });
        run.window.advance(index, count);
        run.delivered.fetch_add(count, Ordering::Relaxed);
    }
}

/// One asks, with so many queries open at a time, and one answers each by one reply.
fn queries(brokers: &Brokers, open: u64, seconds: u64) -> String {
    let ended = Arc::new(AtomicBool::new(false));
    let is_ended = ended.clone();
    let mut replier = Questioner::replier(brokers.protocol, brokers.last);
    replier.wait_most(WARM_UP);
    let answering = thread::spawn(move || {
        while !is_ended.load(Ordering::Relaxed) {
            replier.answer();
        }
    });
    let mut asker = Questioner::asker(brokers.protocol, brokers.first);
    wait_for_replier(&mut asker);
    // the first number that isn't asked yet; each ends once
    let (mut next, mut done) = (open, 0);
    asker.ask(FIRST..FIRST + open);
    let mut run = |until: Instant| {
        while Instant::now() < until {
            let mut ends = 0;
            assert!(asker.read_ends(|_| ends += 1), "no query ends for {MOST_WAIT:?}");
            asker.ask((next..next + ends).map(|i| FIRST + i % NUMBERS));
            next += ends;
            done += ends;
        }
        done
    };
    let first = run(Instant::now() + WARM_UP);
    let (before, began) = (Usage::of(&brokers.pids), Instant::now());
    let last = run(began + Duration::from_secs(seconds));
    let (used, passed) = (Usage::of(&brokers.pids).since(&before), began.elapsed());
    ended.store(true, Ordering::Relaxed);
    answering.join().expect("who answers");
    format!(
        r#"{{"trips": {:.0}, "cpu": {:.3}, {}}}"#,
        (last - first) as f64 / passed.as_secs_f64(),
        used.broker as f64 / 1_000.0 / (last - first) as f64,
        used.others()
    )
}

/// Asks until a query takes as long as who answers it needs: where none can answer, some brokers end it at once, and some say nothing.
fn wait_for_replier(asker: &mut Questioner) {
    asker.wait_most(Duration::from_millis(50));
    thread::sleep(WARM_UP);
    for number in 0.. {
        asker.ask(number..number + 1);
        if asker.read_ends(|_| ()) {
            break;
        }
    }
    while asker.read_ends(|_| ()) {}
    asker.wait_most(MOST_WAIT);
}

/// So many links that do nothing.
fn idle(brokers: &Brokers, links: usize) -> String {
    let open: Vec<_> = (0..links).map(|i| Publisher::open(brokers.protocol, brokers.first, i as u64)).collect();
    thread::sleep(Duration::from_secs(2));
    let before = Usage::of(&brokers.pids);
    thread::sleep(Duration::from_secs(3));
    let used = Usage::of(&brokers.pids).since(&before);
    let memory: u64 = brokers.pids.iter().map(|&pid| machine::resident_kib(pid)).sum();
    drop(open);
    format!(r#"{{"kib": {memory}, "cores": {:.4}, {}}}"#, used.broker as f64 / 3e9, used.others())
}

fn main() {
    let words: Vec<String> = std::env::args().skip(1).collect();
    let number = |i: usize| words[i].parse::<u64>().expect("a number");
    let addresses: Vec<SocketAddr> = words[1].split(',').map(|word| word.parse().expect("an address")).collect();
    let brokers = Brokers {
        protocol: Protocol::named(&words[0]),
        first: addresses[0],
        last: addresses[addresses.len() - 1],
        pids: words[2].split(',').map(|word| word.parse().expect("a process")).collect(),
    };
    let line = match words[3].as_str() {
        "latency" => latency(&brokers, number(4), number(5) as usize, number(6)),
        "throughput" => throughput(&brokers, number(4) as usize, number(5) as usize, number(6) as usize, number(7)),
        "queries" => queries(&brokers, number(4), number(5)),
        "idle" => idle(&brokers, number(4) as usize),
        other => panic!("no case {other}"),
    };
    println!("{line}");
}
