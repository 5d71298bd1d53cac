//! The bytes of three protocols, as far as a publisher and a subscriber at QoS 0 need them.

use std::io::{Read, Write};
use std::net::TcpStream;

#[derive(Clone, Copy, PartialEq, Eq)]
pub enum Protocol {
    Zenoh,
    Mqtt,
    Nats,
}

/// The one key of samples, in the spelling of MQTT and Zenoh, and in that of NATS. A Zenoh query has it too.
const KEY: &[u8] = b"load/k";
const SUBJECT: &str = "load.k";

/// Where queries and their replies are published by who has no queries of its own.
const QUERY_KEY: &[u8] = b"load/q";
const QUERY_SUBJECT: &str = "load.q";
const REPLY_KEY: &[u8] = b"load/r";
const REPLY_SUBJECT: &str = "load.r";

const LEASE_S: u64 = 3_600;
/// The most bytes of a Zenoh batch that this client fills.
const MOST_BATCH: usize = 60_000;
const FRAME: u8 = 0x25;
const FRAGMENT: u8 = 0x26;
const MORE: u8 = 0x40;
const MODULUS: u64 = 1 << 28;
const PUSH: u8 = 0x1D;
const REQUEST: u8 = 0x1C;
const RESPONSE: u8 = 0x1B;
const RESPONSE_FINAL: u8 = 0x1A;
const PUT: u8 = 0x01;
const QUERY: u8 = 0x03;
const REPLY: u8 = 0x04;
const NAMED: u8 = 0x20;
const EXTENDED: u8 = 0x80;
const KIND: u8 = 0x1F;

/// What a unit of bytes tells a client.
pub enum Told<'a> {
    Sample(&'a [u8]),
    /// A query, under the number by which it is answered.
    Query(u64),
    /// The end of a query, under the number by which it was asked.
    End(u64),
}

impl Protocol {
    pub fn named(name: &str) -> Self {
        match name {
            "zenoh" => Self::Zenoh,
            "mqtt" => Self::Mqtt,
            "nats" => Self::Nats,
            _ => panic!("no protocol {name}"),
        }
    }

    /// Opens a session; `name` is a number of its own.
    pub fn open(self, link: &mut TcpStream, name: u64) {
        match self {
            Self::Zenoh => open_zenoh(link, name),
            Self::Mqtt => open_mqtt(link, name),
            Self::Nats => {
                read_line(link);
                let words = r#"CONNECT {"verbose":false,"pedantic":false,"tls_required":false,"lang":"rust","version":"1","protocol":1}"#;
                write(link, format!("{words}\r\nPING\r\n").as_bytes());
                assert_eq!(read_line(link), b"PONG\r\n");
            }
        }
    }

    /// Subscribes to the key. The broker's answer, where there is one, is read with what follows.
    pub fn subscribe(self, link: &mut TcpStream) {
        self.declare(link, 0x02, KEY, SUBJECT);
    }

    /// Declares that queries are answered.
    pub fn answer_queries(self, link: &mut TcpStream) {
        self.declare(link, 0x04, QUERY_KEY, QUERY_SUBJECT);
    }

    /// Declares that replies are waited for, where that is needed. It is the session's first frame, or none.
    pub fn await_replies(self, link: &mut TcpStream) {
        if self != Self::Zenoh {
            self.declare(link, 0, REPLY_KEY, REPLY_SUBJECT);
        }
    }

    fn declare(self, link: &mut TcpStream, kind: u8, key: &[u8], subject: &str) {
        let mut out = Vec::new();
        match self {
            Self::Zenoh => {
                let mut message = vec![FRAME, 0, 0x1E, kind | NAMED, 1, 0];
                put_string(&mut message, KEY);
                put_batch(&mut out, &message);
            }
            Self::Mqtt => {
                out.extend([0x82, (2 + 2 + key.len() + 1) as u8, 0, 1, 0, key.len() as u8]);
                out.extend(key);
                out.push(0);
            }
            Self::Nats => out.extend(format!("SUB {subject} 1\r\n").bytes()),
        }
        write(link, &out);
    }

    /// Appends queries under these numbers, as a client does that has so many to ask.
    pub fn ask(self, out: &mut Vec<u8>, frames: &mut u64, numbers: impl Iterator<Item = u64>) {
        match self {
            Self::Zenoh => {
                let mut batch = frame(frames);
                for number in numbers {
                    batch.push(REQUEST | NAMED);
                    put_number(&mut batch, number);
                    batch.push(0);
                    put_string(&mut batch, KEY);
                    batch.push(QUERY);
                }
                put_batch(out, &batch);
            }
            Self::Mqtt => numbers.for_each(|number| publish_mqtt(out, QUERY_KEY, &number.to_le_bytes())),
            Self::Nats => numbers.for_each(|number| publish_nats(out, &format!("{QUERY_SUBJECT} {REPLY_SUBJECT}"), &number.to_le_bytes())),
        }
    }

    /// Appends a reply to each of these queries, and the end of each where there is such a thing.
    pub fn reply(self, out: &mut Vec<u8>, frames: &mut u64, numbers: &[u64]) {
        match self {
            Self::Zenoh => {
                let mut batch = frame(frames);
                for &number in numbers {
                    batch.push(RESPONSE | NAMED);
                    put_number(&mut batch, number);
                    batch.push(0);
                    put_string(&mut batch, KEY);
                    batch.extend([REPLY, PUT]);
                    put_string(&mut batch, &number.to_le_bytes());
                    batch.push(RESPONSE_FINAL);
                    put_number(&mut batch, number);
                }
                put_batch(out, &batch);
            }
            Self::Mqtt => numbers.iter().for_each(|number| publish_mqtt(out, REPLY_KEY, &number.to_le_bytes())),
            Self::Nats => numbers.iter().for_each(|number| publish_nats(out, REPLY_SUBJECT, &number.to_le_bytes())),
        }
    }

    /// Appends messages with these payloads, as a client does that has so many to send; `frames` counts the frames of a Zenoh session.
    pub fn put(self, out: &mut Vec<u8>, frames: &mut u64, payloads: &[Vec<u8>]) {
        match self {
            Self::Zenoh => {
                let mut batch = Vec::new();
                for payload in payloads {
                    if batch.len() + payload.len() + 64 > MOST_BATCH && !batch.is_empty() {
                        put_batch(out, &batch);
                        batch.clear();
                    }
                    if payload.len() + 64 > MOST_BATCH {
                        put_fragments(out, frames, payload);
                        continue;
                    }
                    if batch.is_empty() {
                        batch = frame(frames);
                    }
                    put_push(&mut batch, payload);
                }
                if !batch.is_empty() {
                    put_batch(out, &batch);
                }
            }
            Self::Mqtt => payloads.iter().for_each(|payload| publish_mqtt(out, KEY, payload)),
            Self::Nats => payloads.iter().for_each(|payload| publish_nats(out, SUBJECT, payload)),
        }
    }

    /// Reads whole units from the front, tells what each is, and says how many bytes they were; `answer` is what has to be written, and
    /// `pieces` keeps what came of a message in fragments.
    pub fn read(self, bytes: &[u8], answer: &mut Vec<u8>, pieces: &mut Vec<u8>, mut tell: impl FnMut(Told<'_>)) -> usize {
        let mut at = 0;
        loop {
            let rest = &bytes[at..];
            let length = match self {
                Self::Zenoh => read_batch(rest, pieces, &mut tell),
                Self::Mqtt => read_packet(rest, &mut tell),
                Self::Nats => read_operation(rest, answer, &mut tell),
            };
            match length {
                Some(length) => at += length,
                None => return at,
            }
        }
    }
}

fn write(link: &mut TcpStream, bytes: &[u8]) {
    link.write_all(bytes).expect("the broker takes what is written");
}

fn read_line(link: &mut TcpStream) -> Vec<u8> {
    let mut line = Vec::new();
    while line.last() != Some(&b'\n') {
        line.push(read_bytes::<1>(link)[0]);
    }
    line
}

fn read_bytes<const N: usize>(link: &mut TcpStream) -> [u8; N] {
    let mut bytes = [0; N];
    link.read_exact(&mut bytes).expect("the broker answers");
    bytes
}

/// Seven bits a byte, the lowest first: a number of Zenoh and of MQTT alike.
fn put_number(out: &mut Vec<u8>, mut value: u64) {
    while value > 0x7F {
        out.push(value as u8 & 0x7F | 0x80);
        value >>= 7;
    }
    out.push(value as u8);
}

fn take_number(bytes: &[u8], at: &mut usize) -> Option<u64> {
    let mut value = 0;
    for shift in (0..63).step_by(7) {
        let byte = *bytes.get(*at)?;
        *at += 1;
        value |= u64::from(byte & 0x7F) << shift;
        if byte < 0x80 {
            return Some(value);
        }
    }
    panic!("a number without an end");
}

fn put_string(out: &mut Vec<u8>, content: &[u8]) {
    put_number(out, content.len() as u64);
    out.extend(content);
}

// ---- Zenoh

fn put_batch(out: &mut Vec<u8>, content: &[u8]) {
    out.extend((content.len() as u16).to_le_bytes());
    out.extend(content);
}

fn wait_batch(link: &mut TcpStream) -> Vec<u8> {
    let length = u16::from_le_bytes(read_bytes(link));
    let mut content = vec![0; length.into()];
    link.read_exact(&mut content).expect("a batch");
    content
}

fn open_zenoh(link: &mut TcpStream, name: u64) {
    let mut init = vec![0x01, 0x09, 7 << 4 | 0b10];
    init.extend((name + 1).to_le_bytes());
    let mut out = Vec::new();
    put_batch(&mut out, &init);
    write(link, &out);
    let answer = wait_batch(link);
    assert_eq!(answer[0] & KIND, 0x01, "an answer to INIT");
    let mut at = 3 + usize::from(answer[2] >> 4) + 1;
    if answer[0] & 0x40 != 0 {
        at += 3;
    }
    let length = take_number(&answer, &mut at).expect("a cookie") as usize;
    let mut open = vec![0x02 | 0x40];
    put_number(&mut open, LEASE_S);
    open.push(0);
    put_string(&mut open, &answer[at..at + length]);
    out.clear();
    put_batch(&mut out, &open);
    write(link, &out);
    assert_eq!(wait_batch(link)[0] & KIND, 0x02, "an answer to OPEN");
}

/// A frame without messages.
fn frame(frames: &mut u64) -> Vec<u8> {
    let mut batch = vec![FRAME];
    put_number(&mut batch, *frames % MODULUS);
    *frames += 1;
    batch
}

fn put_push(out: &mut Vec<u8>, payload: &[u8]) {
    out.extend([PUSH | NAMED, 0]);
    put_string(out, KEY);
    out.push(PUT);
    put_string(out, payload);
}

fn put_fragments(out: &mut Vec<u8>, frames: &mut u64, payload: &[u8]) {
    let mut message = Vec::with_capacity(payload.len() + 64);
    put_push(&mut message, payload);
    let pieces: Vec<_> = message.chunks(MOST_BATCH).collect();
    for (i, piece) in pieces.iter().enumerate() {
        let mut batch = vec![FRAGMENT | if i + 1 < pieces.len() { MORE } else { 0 }];
        put_number(&mut batch, *frames % MODULUS);
        *frames += 1;
        batch.extend(*piece);
        put_batch(out, &batch);
    }
}

fn read_batch(bytes: &[u8], pieces: &mut Vec<u8>, tell: &mut impl FnMut(Told<'_>)) -> Option<usize> {
    let length = usize::from(u16::from_le_bytes(bytes.get(..2)?.try_into().ok()?)) + 2;
    let batch = bytes.get(2..length)?;
    let mut at = 1;
    match batch[0] & KIND {
        kind if kind == FRAME & KIND => {
            take_number(batch, &mut at)?;
            skip_extensions(batch, &mut at, batch[0]);
            while at < batch.len() {
                read_message(batch, &mut at, tell);
            }
        }
        kind if kind == FRAGMENT & KIND => {
            take_number(batch, &mut at)?;
            skip_extensions(batch, &mut at, batch[0]);
            pieces.extend(&batch[at..]);
            if batch[0] & MORE == 0 {
                read_message(pieces, &mut 0, tell);
                pieces.clear();
            }
        }
        kind => assert_eq!(kind, 0x04, "a KEEP_ALIVE"),
    }
    Some(length)
}

fn read_message(bytes: &[u8], at: &mut usize, tell: &mut impl FnMut(Told<'_>)) {
    let header = bytes[*at];
    *at += 1;
    let kind = header & KIND;
    let number = if kind == PUSH { 0 } else { take_number(bytes, at).expect("a number") };
    if kind != RESPONSE_FINAL {
        take_number(bytes, at);
        if header & NAMED != 0 {
            take_string(bytes, at);
        }
    }
    skip_extensions(bytes, at, header);
    match kind {
        PUSH => tell(Told::Sample(take_put(bytes, at))),
        REQUEST => {
            take_byte(bytes, at, QUERY);
            tell(Told::Query(number));
        }
        RESPONSE => {
            take_byte(bytes, at, REPLY);
            take_put(bytes, at);
        }
        RESPONSE_FINAL => tell(Told::End(number)),
        other => panic!("a message of kind {other:#x}"),
    }
}

fn take_byte(bytes: &[u8], at: &mut usize, wanted: u8) {
    assert_eq!(bytes[*at], wanted, "the header of a body");
    *at += 1;
}

fn take_put<'a>(bytes: &'a [u8], at: &mut usize) -> &'a [u8] {
    take_byte(bytes, at, PUT);
    take_string(bytes, at)
}

fn take_string<'a>(bytes: &'a [u8], at: &mut usize) -> &'a [u8] {
    let length = take_number(bytes, at).expect("a length") as usize;
    *at += length;
    &bytes[*at - length..*at]
}

fn skip_extensions(bytes: &[u8], at: &mut usize, mut header: u8) {
    while header & EXTENDED != 0 {
        header = bytes[*at];
        *at += 1;
        match header & 0x60 {
            0x20 => drop(take_number(bytes, at)),
            0x40 => drop(take_string(bytes, at)),
            _ => (),
        }
    }
}

// ---- MQTT 3.1.1

fn open_mqtt(link: &mut TcpStream, name: u64) {
    let client = format!("{name:016x}");
    let mut out = vec![0x10, (10 + 2 + client.len()) as u8, 0, 4];
    out.extend(b"MQTT");
    out.extend([4, 0x02, 0, 0, 0, client.len() as u8]);
    out.extend(client.bytes());
    write(link, &out);
    assert_eq!(read_bytes::<4>(link), [0x20, 2, 0, 0], "CONNACK");
}

fn publish_mqtt(out: &mut Vec<u8>, key: &[u8], payload: &[u8]) {
    out.push(0x30);
    put_number(out, (2 + key.len() + payload.len()) as u64);
    out.extend([0, key.len() as u8]);
    out.extend(key);
    out.extend(payload);
}

/// What was published on this key or subject: a sample, or the number of a query.
fn told<'a>(key: &[u8], payload: &'a [u8]) -> Told<'a> {
    let number = || u64::from_le_bytes(payload.try_into().expect("a number"));
    match key.last() {
        Some(b'q') => Told::Query(number()),
        Some(b'r') => Told::End(number()),
        _ => Told::Sample(payload),
    }
}

fn read_packet(bytes: &[u8], tell: &mut impl FnMut(Told<'_>)) -> Option<usize> {
    let mut at = 1;
    let length = take_number(bytes, &mut at)? as usize;
    let packet = bytes.get(at..at + length)?;
    if bytes[0] & 0xF0 == 0x30 {
        let name = usize::from(u16::from_be_bytes([packet[0], packet[1]]));
        tell(told(&packet[2..2 + name], &packet[2 + name..]));
    }
    Some(at + length)
}

// ---- NATS

fn publish_nats(out: &mut Vec<u8>, subjects: &str, payload: &[u8]) {
    write!(out, "PUB {subjects} {}\r\n", payload.len()).unwrap();
    out.extend(payload);
    out.extend(b"\r\n");
}

fn read_operation(bytes: &[u8], answer: &mut Vec<u8>, tell: &mut impl FnMut(Told<'_>)) -> Option<usize> {
    let end = bytes.iter().position(|&byte| byte == b'\n')? + 1;
    let line = &bytes[..end];
    if line.starts_with(b"PING") {
        answer.extend(b"PONG\r\n");
    }
    if !line.starts_with(b"MSG ") {
        return Some(end);
    }
    let digits = line[..end - 2].rsplit(|&byte| byte == b' ').next()?;
    let length = digits.iter().fold(0, |value, digit| value * 10 + usize::from(digit - b'0'));
    let payload = bytes.get(end..end + length + 2)?.strip_suffix(b"\r\n").expect("a payload's end");
    tell(told(line.split(|&byte| byte == b' ').nth(1)?, payload));
    Some(end + length + 2)
}
