// A plain decoder of a ModifyRequest: fields by their default numbers, texts as strings, entries of IPv4 alone.
// Decodes the message on standard input ROUNDS times over, and prints how many operations it gave and a sum.
use std::io::Read;

enum Value<'a> {
    Number(u64),
    Piece(&'a [u8]),
    Other,
}

fn varint(bytes: &mut &[u8]) -> Option<u64> {
    let mut value = 0u64;
    for i in 0..10 {
        let (&b, rest) = bytes.split_first()?;
        *bytes = rest;
        if i == 9 && b > 1 {
            return None;
        }
        value |= u64::from(b & 127) << (7 * i);
        if b < 128 {
            return Some(value);
        }
    }
    None
}

fn take<'a>(bytes: &mut &'a [u8], n: usize) -> Option<&'a [u8]> {
    if bytes.len() < n {
        return None;
    }
    let (front, rest) = bytes.split_at(n);
    *bytes = rest;
    Some(front)
}

struct Fields<'a>(&'a [u8]);

impl<'a> Fields<'a> {
    fn next(&mut self) -> Option<Option<(u32, Value<'a>)>> {
        if self.0.is_empty() {
            return Some(None);
        }
        let tag = varint(&mut self.0)?;
        if tag < 8 || tag > u64::from(u32::MAX) {
            return None;
        }
        let value = match tag % 8 {
            0 => Value::Number(varint(&mut self.0)?),
            1 => take(&mut self.0, 8).map(|_| Value::Other)?,
            2 => {
                let n = varint(&mut self.0)?;
                Value::Piece(take(&mut self.0, usize::try_from(n).ok()?)?)
            }
            5 => take(&mut self.0, 4).map(|_| Value::Other)?,
            _ => return None,
        };
        Some(Some(((tag / 8) as u32, value)))
    }
}

fn text(bytes: &[u8]) -> Option<String> {
    Some(std::str::from_utf8(bytes).ok()?.to_string())
}

#[derive(Default)]
struct Route {
    prefix: String,
    group: Option<u64>,
    instance: Option<String>,
}

#[derive(Default)]
struct Operation {
    id: u64,
    instance: String,
    op: u64,
    entry: Option<Route>,
    election: Option<u128>,
}

fn uint_value(bytes: &[u8], value: &mut u64) -> Option<()> {
    let mut fields = Fields(bytes);
    while let Some((number, found)) = fields.next()? {
        if let (1, Value::Number(n)) = (number, found) {
            *value = n;
        }
    }
    Some(())
}

fn string_value(bytes: &[u8], value: &mut String) -> Option<()> {
    let mut fields = Fields(bytes);
    while let Some((number, found)) = fields.next()? {
        if let (1, Value::Piece(t)) = (number, found) {
            *value = text(t)?;
        }
    }
    Some(())
}

fn leaves(bytes: &[u8], route: &mut Route) -> Option<()> {
    let mut fields = Fields(bytes);
    while let Some((number, value)) = fields.next()? {
        match (number, value) {
            (1, Value::Piece(b)) => uint_value(b, route.group.get_or_insert(0))?,
            (2, Value::Piece(b)) => string_value(b, route.instance.get_or_insert_with(String::new))?,
            _ => {}
        }
    }
    Some(())
}

fn route(bytes: &[u8], route: &mut Route) -> Option<()> {
    let mut fields = Fields(bytes);
    while let Some((number, value)) = fields.next()? {
        match (number, value) {
            (1, Value::Piece(b)) => route.prefix = text(b)?,
            (2, Value::Piece(b)) => leaves(b, route)?,
            _ => {}
        }
    }
    Some(())
}

fn id(bytes: &[u8]) -> Option<u128> {
    let (mut high, mut low) = (0u64, 0u64);
    let mut fields = Fields(bytes);
    while let Some((number, value)) = fields.next()? {
        match (number, value) {
            (1, Value::Number(n)) => high = n,
            (2, Value::Number(n)) => low = n,
            _ => {}
        }
    }
    Some(u128::from(high) << 64 | u128::from(low))
}

fn operation(bytes: &[u8]) -> Option<Operation> {
    let mut o = Operation::default();
    let mut fields = Fields(bytes);
    while let Some((number, value)) = fields.next()? {
        match (number, value) {
            (1, Value::Number(n)) => o.id = n,
            (2, Value::Piece(b)) => o.instance = text(b)?,
            (3, Value::Number(n)) => o.op = n,
            (4, Value::Piece(b)) => route(b, o.entry.get_or_insert_with(Route::default))?,
            (11, Value::Piece(b)) => o.election = Some(id(b)?),
            _ => {}
        }
    }
    Some(o)
}

fn request(bytes: &[u8]) -> Option<Vec<Operation>> {
    let mut all = Vec::new();
    let mut fields = Fields(bytes);
    while let Some((number, value)) = fields.next()? {
        if let (1, Value::Piece(b)) = (number, value) {
            all.push(operation(b)?);
        }
    }
    Some(all)
}

fn main() {
    let rounds: usize = std::env::args().nth(1).unwrap().parse().unwrap();
    let mut input = Vec::new();
    std::io::stdin().read_to_end(&mut input).unwrap();
    let (mut count, mut total) = (0u64, 0u64);
    for _ in 0..rounds {
        for o in std::hint::black_box(request(&input).unwrap()) {
            count += 1;
            total += o.id + o.instance.len() as u64 + o.entry.as_ref().map_or(0, |e| e.prefix.len() as u64);
        }
    }
    println!("operations {count} sum {total}");
}
