//! What `gribi apply` does on a plain input, written as a plain Rust program: the yardstick of the first path.
use std::io::{Read, Write};

struct Fields<'a>(&'a [u8]);

enum Value<'a> {
    Number(u64),
    Piece(&'a [u8]),
    Other,
}

fn varint(bytes: &mut &[u8]) -> Option<u64> {
    let mut value = 0u64;
    for i in 0..10 {
        let (&b, rest) = bytes.split_first()?;
        *bytes = rest;
        if i == 9 && b > 1 {
            return None;
        }
        value |= u64::from(b & 127) << (7 * i);
        if b < 128 {
            return Some(value);
        }
    }
    None
}

impl<'a> Fields<'a> {
    fn next(&mut self) -> Option<Option<(u32, Value<'a>)>> {
        if self.0.is_empty() {
            return Some(None);
        }
        let tag = varint(&mut self.0)?;
        if tag < 8 || tag > u64::from(u32::MAX) {
            return None;
        }
        let take = |bytes: &mut &'a [u8], n: usize| {
            if bytes.len() < n {
                return None;
            }
            let (front, rest) = bytes.split_at(n);
            *bytes = rest;
            Some(front)
        };
        let value = match tag % 8 {
            0 => Value::Number(varint(&mut self.0)?),
            1 => take(&mut self.0, 8).map(|_| Value::Other)?,
            2 => {
                let n = varint(&mut self.0)?;
                Value::Piece(take(&mut self.0, usize::try_from(n).ok()?)?)
            }
            5 => take(&mut self.0, 4).map(|_| Value::Other)?,
            _ => return None,
        };
        Some(Some(((tag / 8) as u32, value)))
    }
}

#[derive(Default)]
struct Operation {
    id: u64,
    default: bool,
    op: u64,
    hop: u64,
    election: u128,
}

fn id_of(bytes: &[u8]) -> Option<u128> {
    let (mut high, mut low) = (0u64, 0u64);
    let mut fields = Fields(bytes);
    while let Some((number, value)) = fields.next()? {
        match (number, value) {
            (1, Value::Number(n)) => high = n,
            (2, Value::Number(n)) => low = n,
            _ => {}
        }
    }
    Some(u128::from(high) << 64 | u128::from(low))
}

fn hop_of(bytes: &[u8]) -> Option<u64> {
    let mut index = 0;
    let mut fields = Fields(bytes);
    while let Some((number, value)) = fields.next()? {
        match (number, value) {
            (1, Value::Number(n)) => index = n,
            (2, Value::Piece(payload)) if !payload.is_empty() => return None,
            _ => {}
        }
    }
    Some(index)
}

fn operation_of(bytes: &[u8]) -> Option<Operation> {
    let mut o = Operation::default();
    let mut fields = Fields(bytes);
    while let Some((number, value)) = fields.next()? {
        match (number, value) {
            (1, Value::Number(n)) => o.id = n,
            (2, Value::Piece(name)) => o.default = std::str::from_utf8(name).ok()? == "DEFAULT",
            (3, Value::Number(n)) => o.op = n,
            (8, Value::Piece(hop)) => o.hop = hop_of(hop)?,
            (11, Value::Piece(id)) => o.election = id_of(id)?,
            _ => {}
        }
    }
    Some(o)
}

fn put_varint(out: &mut Vec<u8>, mut n: u64) {
    while n >= 128 {
        out.push((n % 128 + 128) as u8);
        n /= 128;
    }
    out.push(n as u8);
}

fn put_item(out: &mut Vec<u8>, message: &[u8]) {
    out.push(0);
    out.extend_from_slice(&(message.len() as u32).to_be_bytes());
    out.extend_from_slice(message);
}

struct Server {
    messages: u64,
    election: u128,
    hops: Vec<u64>,
}

impl Server {
    fn answer(&mut self, message: &[u8], out: &mut Vec<u8>) -> Option<()> {
        self.messages += 1;
        let mut fields = Fields(message);
        let mut operations = Vec::new();
        while let Some((number, value)) = fields.next()? {
            match (number, value) {
                (1, Value::Piece(bytes)) => operations.push(operation_of(bytes)?),
                (2, Value::Piece(_)) if self.messages == 1 => put_item(out, &[0x12, 2, 8, 1]),
                (3, Value::Piece(bytes)) if self.messages == 2 => {
                    self.election = id_of(bytes)?;
                    let mut id = vec![0x10];
                    put_varint(&mut id, self.election as u64);
                    let mut answer = vec![0x1a, id.len() as u8];
                    answer.extend_from_slice(&id);
                    put_item(out, &answer);
                }
                _ => {}
            }
        }
        for o in operations {
            if !o.default || o.op != 1 || o.election != self.election || o.hop == 0 {
                return None;
            }
            match self.hops.iter().position(|h| *h >= o.hop) {
                Some(at) if self.hops[at] == o.hop => {}
                Some(at) => self.hops.insert(at, o.hop),
                None => self.hops.push(o.hop),
            }
            let mut result = vec![8];
            put_varint(&mut result, o.id);
            result.extend_from_slice(&[0x10, 3, 0x18]);
            put_varint(&mut result, self.messages);
            let mut answer = vec![0x0a, result.len() as u8];
            answer.extend_from_slice(&result);
            put_item(out, &answer);
        }
        Some(())
    }
}

fn main() {
    let mut server = Server { messages: 0, election: 0, hops: Vec::new() };
    let (mut input, mut output) = (std::io::stdin().lock(), std::io::stdout().lock());
    let (mut held, mut out, mut piece) = (Vec::new(), Vec::new(), vec![0u8; 65_536]);
    loop {
        let n = input.read(&mut piece).expect("read");
        if n == 0 {
            break;
        }
        held.extend_from_slice(&piece[..n]);
        let mut at = 0;
        while held.len() - at >= 5 {
            let length = u32::from_be_bytes([held[at + 1], held[at + 2], held[at + 3], held[at + 4]]) as usize;
            if held.len() - at < 5 + length {
                break;
            }
            if server.answer(&held[at + 5..at + 5 + length], &mut out).is_none() {
                std::process::exit(3);
            }
            at += 5 + length;
        }
        held.drain(..at);
        output.write_all(&out).expect("write");
        out.clear();
    }
}
