// A plain reader and writer of DATA frames of HTTP/2: a map of streams, their windows and the connection's, and credit
// behind each frame. Its words are those of the proved program.
use std::collections::HashMap;

const BATCHES: u32 = 1_000;
const BATCH: u32 = 1_000;
const WINDOW: i64 = 1_048_576;
const MESSAGE: [u8; 65] = [7; 65];
const FROM_CLIENT: &[u8] = b"PRI * HTTP/2.0\r\n\r\nSM\r\n\r\n\x00\x00\x06\x04\x00\x00\x00\x00\x00\x00\x04\x7f\xff\xff\xff\x00\x00\x04\x08\x00\x00\x00\x00\x00\x7f\xff\x00\x00";
const FIRST: &[u8] = b"\x00\x00\x12\x04\x00\x00\x00\x00\x00\x00\x03\x00\x00\x00\x64\x00\x04\x00\x10\x00\x00\x00\x06\x00\x01\x00\x00\x00\x00\x04\x08\x00\x00\x00\x00\x00\x00\x0f\x00\x01";

struct Stream {
    is_closed_local: bool,
    is_closed_remote: bool,
    send: i64,
    receive: i64,
}

struct Connection {
    held: Vec<u8>,
    at: usize,
    preface_due: bool,
    streams: HashMap<u32, Stream>,
    highest: u32,
    initial: i64,
    send: i64,
    receive: i64,
    out: Vec<u8>,
}

enum Event {
    NeedMore,
    Quiet,
    Piece(usize, usize),
    Broken,
}

fn word(bytes: &[u8]) -> u32 {
    u32::from_be_bytes([bytes[0], bytes[1], bytes[2], bytes[3]])
}

fn put(number: u8, flags: u8, stream: u32, payload: &[u8], out: &mut Vec<u8>) {
    out.extend_from_slice(&(payload.len() as u32).to_be_bytes()[1..]);
    out.extend_from_slice(&[number, flags]);
    out.extend_from_slice(&stream.to_be_bytes());
    out.extend_from_slice(payload);
}

impl Connection {
    fn new() -> Connection {
        Connection {
            held: Vec::new(),
            at: 0,
            preface_due: true,
            streams: HashMap::new(),
            highest: 0,
            initial: 65_535,
            send: 65_535,
            receive: WINDOW,
            out: FIRST.to_vec(),
        }
    }

    fn feed(&mut self, piece: &[u8]) {
        self.held.drain(..self.at);
        self.at = 0;
        self.held.extend_from_slice(piece);
    }

    fn next(&mut self) -> Event {
        if self.preface_due {
            if self.held.len() < 24 {
                return Event::NeedMore;
            }
            if &self.held[..24] != &FROM_CLIENT[..24] {
                return Event::Broken;
            }
            self.preface_due = false;
            self.at = 24;
        }
        let left = &self.held[self.at..];
        if left.len() < 9 {
            return Event::NeedMore;
        }
        let size = (word(left) >> 8) as usize;
        if size > 16_384 {
            return Event::Broken;
        }
        if left.len() < 9 + size {
            return Event::NeedMore;
        }
        let (number, flags, stream) = (left[3], left[4], word(&left[5..]) & 0x7fff_ffff);
        let start = self.at + 9;
        self.at = start + size;
        match number {
            0 => self.data(flags, stream, start, size),
            1 => self.head(flags, stream),
            4 => self.settings(flags, start, size),
            8 => self.update(stream, start),
            _ => Event::Quiet,
        }
    }

    fn data(&mut self, flags: u8, id: u32, start: usize, size: usize) -> Event {
        let Some(stream) = self.streams.get_mut(&id) else {
            return Event::Broken;
        };
        let n = size as i64;
        if stream.is_closed_remote || n > stream.receive || n > self.receive {
            return Event::Broken;
        }
        let mut from = start;
        let mut to = start + size;
        if flags & 8 != 0 {
            let padding = self.held[start] as usize;
            from += 1;
            if padding > to - from {
                return Event::Broken;
            }
            to -= padding;
        }
        if flags & 1 != 0 {
            stream.is_closed_remote = true;
        }
        if n > 0 {
            let increment = (size as u32).to_be_bytes();
            put(8, 0, 0, &increment, &mut self.out);
            put(8, 0, id, &increment, &mut self.out);
        }
        Event::Piece(from, to)
    }

    fn head(&mut self, flags: u8, id: u32) -> Event {
        if id % 2 == 0 || id <= self.highest {
            return Event::Broken;
        }
        self.highest = id;
        self.streams.insert(
            id,
            Stream { is_closed_local: false, is_closed_remote: flags & 1 != 0, send: self.initial, receive: WINDOW },
        );
        Event::Quiet
    }

    fn settings(&mut self, flags: u8, start: usize, size: usize) -> Event {
        if flags & 1 != 0 {
            return Event::Quiet;
        }
        let mut at = start;
        while at + 6 <= start + size {
            let number = u16::from_be_bytes([self.held[at], self.held[at + 1]]);
            let value = i64::from(word(&self.held[at + 2..]));
            if number == 4 {
                for stream in self.streams.values_mut() {
                    stream.send += value - self.initial;
                }
                self.initial = value;
            }
            at += 6;
        }
        put(4, 1, 0, &[], &mut self.out);
        Event::Quiet
    }

    fn update(&mut self, id: u32, start: usize) -> Event {
        let n = i64::from(word(&self.held[start..]) & 0x7fff_ffff);
        if id == 0 {
            self.send += n;
        } else if let Some(stream) = self.streams.get_mut(&id) {
            stream.send += n;
        }
        Event::Quiet
    }

    fn send_piece(&mut self, id: u32, piece: &[u8], last: bool) -> Option<usize> {
        let stream = self.streams.get_mut(&id)?;
        if stream.is_closed_local {
            return None;
        }
        let room = stream.send.min(self.send).max(0) as usize;
        let n = piece.len().min(room).min(16_384);
        let ends = last && n == piece.len();
        if n > 0 || ends {
            put(0, u8::from(ends), id, &piece[..n], &mut self.out);
            stream.send -= n as i64;
            self.send -= n as i64;
            stream.is_closed_local = ends;
        }
        Some(n)
    }
}

fn stream_of(i: u32, streams: u32) -> u32 {
    i % streams * 2 + 1
}

fn opening(streams: u32) -> Vec<u8> {
    let mut out = FROM_CLIENT.to_vec();
    for i in 0..streams {
        put(1, 4, stream_of(i, streams), b"\x83\x86\x84", &mut out);
    }
    out
}

fn take(connection: &mut Connection, piece: &[u8], count: &mut u64, total: &mut u64) {
    connection.feed(piece);
    loop {
        match connection.next() {
            Event::Piece(from, to) => {
                *count += 1;
                *total += (to - from) as u64;
            }
            Event::Quiet => {}
            Event::NeedMore => return,
            Event::Broken => panic!("broken"),
        }
    }
}

fn read_all(streams: u32) -> (u64, u64, u64) {
    let (mut count, mut total, mut sent) = (0, 0, 0);
    let mut connection = Connection::new();
    take(&mut connection, &opening(streams), &mut count, &mut total);
    let mut frames = Vec::new();
    for i in 0..BATCH {
        put(0, 0, stream_of(i, streams), &MESSAGE, &mut frames);
    }
    for _ in 0..BATCHES {
        take(&mut connection, &frames, &mut count, &mut total);
        sent += connection.out.len() as u64;
        connection.out.clear();
    }
    (count, total, sent)
}

fn write_all(streams: u32) -> (u64, u64, u64) {
    let (mut count, mut total, mut sent) = (0, 0, 0);
    let mut connection = Connection::new();
    take(&mut connection, &opening(streams), &mut count, &mut total);
    connection.out.clear();
    for _ in 0..BATCHES {
        for i in 0..BATCH {
            if let Some(n) = connection.send_piece(stream_of(i, streams), &MESSAGE, false) {
                count += 1;
                total += n as u64;
            }
        }
        sent += connection.out.len() as u64;
        connection.out.clear();
    }
    (count, total, sent)
}

fn main() {
    for word in std::env::args().skip(1) {
        let (count, total, sent) = match word.as_str() {
            "read-1" => read_all(1),
            "read-100" => read_all(100),
            "write-1" => write_all(1),
            _ => write_all(100),
        };
        println!("messages {count} bytes {total} sent {sent}");
    }
}
