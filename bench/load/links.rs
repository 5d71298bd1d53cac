//! A publisher's and a subscriber's link.

use std::io::{ErrorKind, Read, Write};
use std::net::{SocketAddr, TcpStream};
use std::sync::atomic::{AtomicU64, Ordering};
use std::time::Duration;

use crate::machine::MONOTONIC;
use crate::protocol::{Protocol, Told};
use crate::{MOST_WAIT, PROBE};

/// Each payload begins with the time of its writing, its publisher and its number.
const HEAD: usize = 16;
const PUBLISHER_BITS: u32 = 8;

static NAMES: AtomicU64 = AtomicU64::new(0);

fn connect(protocol: Protocol, address: SocketAddr) -> TcpStream {
    let mut link = TcpStream::connect(address).expect("the broker listens");
    link.set_nodelay(true).expect("no delay");
    link.set_read_timeout(Some(MOST_WAIT)).expect("a timeout");
    protocol.open(&mut link, NAMES.fetch_add(1, Ordering::Relaxed) << 20 | u64::from(std::process::id()));
    link
}

pub struct Publisher {
    protocol: Protocol,
    link: TcpStream,
    index: u64,
    sent: u64,
    frames: u64,
    out: Vec<u8>,
    payloads: Vec<Vec<u8>>,
}

impl Publisher {
    pub fn open(protocol: Protocol, address: SocketAddr, index: u64) -> Self {
        let link = connect(protocol, address);
        Self {
            protocol,
            link,
            index,
            sent: 0,
            frames: 0,
            out: Vec::new(),
            payloads: Vec::new(),
        }
    }

    /// Writes so many messages with payloads of this size, at once.
    pub fn send(&mut self, count: u64, size: usize) {
        self.payloads.resize_with(count as usize, Vec::new);
        let stamp = MONOTONIC.now();
        for payload in &mut self.payloads {
            payload.resize(size.max(HEAD), b'.');
            payload[..8].copy_from_slice(&stamp.to_le_bytes());
            payload[8..HEAD].copy_from_slice(&(self.sent << PUBLISHER_BITS | self.index).to_le_bytes());
            self.sent += 1;
        }
        self.write();
    }

    pub fn send_probe(&mut self) {
        self.payloads = vec![[0u64.to_le_bytes(), PROBE.to_le_bytes()].concat()];
        self.write();
    }

    fn write(&mut self) {
        self.out.clear();
        self.protocol.put(&mut self.out, &mut self.frames, &self.payloads);
        self.link.write_all(&self.out).expect("the broker takes what is written");
    }
}

pub struct Subscriber {
    protocol: Protocol,
    link: TcpStream,
    buffer: Vec<u8>,
    held: usize,
    answer: Vec<u8>,
    pieces: Vec<u8>,
}

impl Subscriber {
    pub fn open(protocol: Protocol, address: SocketAddr) -> Self {
        let mut link = connect(protocol, address);
        protocol.subscribe(&mut link);
        Self::over(protocol, link)
    }

    fn over(protocol: Protocol, link: TcpStream) -> Self {
        Self {
            protocol,
            link,
            buffer: vec![0; 1 << 18],
            held: 0,
            answer: Vec::new(),
            pieces: Vec::new(),
        }
    }

    /// How long a read waits.
    pub fn wait_most(&mut self, time: Duration) {
        self.link.set_read_timeout(Some(time)).expect("a timeout");
    }

    /// Reads once, and tells each whole message by its publisher, its number and the time of its writing. Whether anything came in time.
    pub fn read(&mut self, mut tell: impl FnMut(u64, u64, u64)) -> bool {
        self.fill(|told| {
            let Told::Sample(payload) = told else { panic!("no sample") };
            let word = |at: usize| u64::from_le_bytes(payload[at..at + 8].try_into().unwrap());
            if word(8) != PROBE {
                tell(word(8) & ((1 << PUBLISHER_BITS) - 1), word(8) >> PUBLISHER_BITS, word(0));
            }
        })
    }

    /// Whether anything comes within a moment.
    pub fn hears_probe(&mut self) -> bool {
        self.wait_most(Duration::from_millis(20));
        let mut heard = false;
        self.fill(|_| heard = true);
        self.wait_most(MOST_WAIT);
        heard
    }

    fn fill(&mut self, tell: impl FnMut(Told<'_>)) -> bool {
        match self.link.read(&mut self.buffer[self.held..]) {
            Ok(0) => panic!("the broker has closed the link"),
            Ok(count) => self.held += count,
            Err(e) if e.kind() == ErrorKind::WouldBlock => return false,
            Err(e) => panic!("the link: {e}"),
        }
        let done = self.protocol.read(&self.buffer[..self.held], &mut self.answer, &mut self.pieces, tell);
        self.buffer.copy_within(done..self.held, 0);
        self.held -= done;
        if !self.answer.is_empty() {
            self.link.write_all(&self.answer).expect("the broker takes what is written");
            self.answer.clear();
        }
        true
    }
}

/// Who asks queries, so many at a time, or who answers them.
pub struct Questioner {
    link: Subscriber,
    frames: u64,
    out: Vec<u8>,
}

impl Questioner {
    /// Who asks.
    pub fn asker(protocol: Protocol, address: SocketAddr) -> Self {
        let mut link = connect(protocol, address);
        protocol.await_replies(&mut link);
        Self::over(protocol, link, 0)
    }

    /// Who answers.
    pub fn replier(protocol: Protocol, address: SocketAddr) -> Self {
        let mut link = connect(protocol, address);
        protocol.answer_queries(&mut link);
        Self::over(protocol, link, 1)
    }

    fn over(protocol: Protocol, link: TcpStream, frames: u64) -> Self {
        Self {
            link: Subscriber::over(protocol, link),
            frames,
            out: Vec::new(),
        }
    }

    /// How long a read waits.
    pub fn wait_most(&mut self, time: Duration) {
        self.link.wait_most(time);
    }

    /// Asks under these numbers, in one write.
    pub fn ask(&mut self, numbers: impl Iterator<Item = u64>) {
        self.out.clear();
        self.link.protocol.ask(&mut self.out, &mut self.frames, numbers);
        self.write();
    }

    /// Reads once, and tells the number of each query that has ended. Whether anything came in time.
    pub fn read_ends(&mut self, mut tell: impl FnMut(u64)) -> bool {
        self.link.fill(|told| {
            let Told::End(number) = told else { panic!("no end of a query") };
            tell(number);
        })
    }

    /// Reads once, and answers each query that has come, in one write.
    pub fn answer(&mut self) {
        let mut asked = Vec::new();
        self.link.fill(|told| {
            let Told::Query(number) = told else { panic!("no query") };
            asked.push(number);
        });
        if !asked.is_empty() {
            self.out.clear();
            self.link.protocol.reply(&mut self.out, &mut self.frames, &asked);
            self.write();
        }
    }

    fn write(&mut self) {
        self.link.link.write_all(&self.out).expect("the broker takes what is written");
    }
}
