// A plain decoder of header blocks: names and values as byte vectors, and Huffman strings by nested
// tables of 256 entries. Reads blocks, each behind its length in two bytes, ROUNDS times over with one
// decoder, and prints how many fields and bytes they gave. With a second word `strings` it reads Huffman
// strings instead, and prints how many there were and their bytes.
use std::collections::VecDeque;
use std::io::Read;

const LENGTHS: [u8; 256] = include!("lengths.inc");
const STATIC: [(&[u8], &[u8]); 61] = include!("entries.inc");

type Field = (Vec<u8>, Vec<u8>);

enum Node {
    Empty,
    Leaf(u8, u8),
    Inner(Box<Vec<Node>>),
}

fn inner() -> Box<Vec<Node>> {
    Box::new((0..256).map(|_| Node::Empty).collect())
}

fn tree() -> Box<Vec<Node>> {
    let mut order: Vec<usize> = (0..256).collect();
    order.sort_by_key(|s| (LENGTHS[*s], *s));
    let mut root = inner();
    let mut code = 0u64;
    let mut last = 0;
    for symbol in order {
        let len = LENGTHS[symbol];
        code <<= len - last;
        last = len;
        let mut node = &mut root;
        let mut left = len;
        while left > 8 {
            left -= 8;
            let at = ((code >> left) & 255) as usize;
            if let Node::Empty = node[at] {
                node[at] = Node::Inner(inner());
            }
            node = match &mut node[at] {
                Node::Inner(next) => next,
                _ => unreachable!(),
            };
        }
        let shift = 8 - left;
        let first = ((code << shift) & 255) as usize;
        for at in first..first + (1 << shift) {
            node[at] = Node::Leaf(symbol as u8, left);
        }
        code += 1;
    }
    root
}

fn decode(tree: &[Node], code: &[u8]) -> Option<Vec<u8>> {
    let mut text = Vec::with_capacity(code.len() * 8 / 5);
    let mut bits = 0u64;
    let mut count = 0u32;
    let mut node = tree;
    let mut since = 0u32;
    for byte in code {
        bits = (bits << 8) | u64::from(*byte);
        count += 8;
        since += 8;
        while count >= 8 {
            match &node[(bits >> (count - 8)) as usize & 255] {
                Node::Empty => return None,
                Node::Inner(next) => {
                    node = next;
                    count -= 8;
                }
                Node::Leaf(symbol, len) => {
                    text.push(*symbol);
                    count -= u32::from(*len);
                    node = tree;
                    since = count;
                }
            }
        }
    }
    while count > 0 {
        match &node[(bits << (8 - count)) as usize & 255] {
            Node::Leaf(symbol, len) if u32::from(*len) <= count => {
                text.push(*symbol);
                count -= u32::from(*len);
                node = tree;
                since = count;
            }
            _ => break,
        }
    }
    let mask = (1u64 << count) - 1;
    if since > 7 || bits & mask != mask {
        return None;
    }
    Some(text)
}

struct Decoder {
    tree: Box<Vec<Node>>,
    entries: VecDeque<Field>,
    size: usize,
    max: usize,
}

fn integer(prefix: u32, bytes: &[u8], at: &mut usize) -> Option<usize> {
    let ones = (1usize << prefix) - 1;
    let first = usize::from(*bytes.get(*at)?) & ones;
    *at += 1;
    if first < ones {
        return Some(first);
    }
    let mut value = ones;
    for group in 0..5 {
        let byte = usize::from(*bytes.get(*at)?);
        *at += 1;
        value += (byte & 127) << (7 * group);
        if byte < 128 {
            return Some(value);
        }
    }
    None
}

impl Decoder {
    fn string(&self, bytes: &[u8], at: &mut usize) -> Option<Vec<u8>> {
        let coded = *bytes.get(*at)? >= 128;
        let len = integer(7, bytes, at)?;
        let text = bytes.get(*at..*at + len)?;
        *at += len;
        if coded { decode(&self.tree, text) } else { Some(text.to_vec()) }
    }

    fn entry(&self, index: usize) -> Option<Field> {
        if index == 0 {
            return None;
        }
        if index < 62 {
            let (name, value) = STATIC[index - 1];
            return Some((name.to_vec(), value.to_vec()));
        }
        self.entries.get(index - 62).cloned()
    }

    fn evict(&mut self, room: usize) {
        while self.size > room {
            let (name, value) = self.entries.pop_back().unwrap();
            self.size -= name.len() + value.len() + 32;
        }
    }

    fn block(&mut self, bytes: &[u8]) -> Option<Vec<Field>> {
        let mut fields = Vec::new();
        let mut at = 0;
        let mut list = 0;
        while at < bytes.len() {
            let first = bytes[at];
            let field = if first >= 128 {
                let index = integer(7, bytes, &mut at)?;
                self.entry(index)?
            } else if (32..64).contains(&first) {
                let size = integer(5, bytes, &mut at)?;
                if !fields.is_empty() || size > 4096 {
                    return None;
                }
                self.max = size;
                self.evict(size);
                continue;
            } else {
                let taken = first >= 64;
                let index = integer(if taken { 6 } else { 4 }, bytes, &mut at)?;
                let name = if index == 0 { self.string(bytes, &mut at)? } else { self.entry(index)?.0 };
                let value = self.string(bytes, &mut at)?;
                if taken {
                    let size = name.len() + value.len() + 32;
                    if size > self.max {
                        self.evict(0);
                    } else {
                        self.evict(self.max - size);
                        self.entries.push_front((name.clone(), value.clone()));
                        self.size += size;
                    }
                }
                (name, value)
            };
            list += field.0.len() + field.1.len() + 32;
            if list > 65_536 {
                return None;
            }
            fields.push(field);
        }
        Some(fields)
    }
}

fn strings(input: &[u8], rounds: usize) {
    let tree = tree();
    let (mut count, mut total) = (0u64, 0u64);
    for _ in 0..rounds {
        let mut at = 0;
        while at < input.len() {
            let len = usize::from(input[at]) * 256 + usize::from(input[at + 1]);
            let text = decode(&tree, &input[at + 2..at + 2 + len]).unwrap();
            at += 2 + len;
            count += 1;
            total += text.len() as u64;
        }
    }
    println!("strings {count} bytes {total}");
}

fn main() {
    let rounds: usize = std::env::args().nth(1).unwrap().parse().unwrap();
    let mut input = Vec::new();
    std::io::stdin().read_to_end(&mut input).unwrap();
    if std::env::args().nth(2).as_deref() == Some("strings") {
        return strings(&input, rounds);
    }
    let mut decoder = Decoder { tree: tree(), entries: VecDeque::new(), size: 0, max: 4096 };
    let (mut count, mut total) = (0u64, 0u64);
    for _ in 0..rounds {
        let mut at = 0;
        while at < input.len() {
            let len = usize::from(input[at]) * 256 + usize::from(input[at + 1]);
            let fields = decoder.block(&input[at + 2..at + 2 + len]).unwrap();
            at += 2 + len;
            for (name, value) in &fields {
                count += 1;
                total += (name.len() + value.len()) as u64;
            }
        }
    }
    println!("fields {count} bytes {total}");
}
