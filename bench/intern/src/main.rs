//! The work of `crates/bench_intern` in plain Rust, over std's `HashMap`. Run it with
//! `cargo build --release` and `target/release/intern 1000000`.
use std::collections::HashMap;
use std::time::{Duration, Instant};

const HEIGHT_LIMIT: u32 = 2000;
const LEAVES: usize = 1024;

#[derive(Clone, Copy, PartialEq, Eq, Hash)]
struct Id(usize);

#[derive(Clone, Copy, PartialEq, Eq, Hash)]
enum OpName {
    And,
    Or,
}

#[derive(Clone, Copy, PartialEq, Eq, Hash)]
enum OpCode {
    Builtin(OpName),
    #[allow(dead_code)]
    Prog(usize),
}

#[derive(Clone, Copy, PartialEq, Eq, Hash)]
#[allow(dead_code)]
enum Node {
    Con(usize),
    Num(i128),
    Bits { width: u8, value: u128 },
    Str(usize),
    Par(u8),
    Var { name: usize, ty: Id },
    App { fun: Id, arg: Id },
    Arr { from: Id, to: Id },
    Qar { par: u8, ty: Id, to: Id },
    Op { code: OpCode, count: u8 },
}

#[derive(Clone, PartialEq, Eq, Hash)]
struct Key {
    node: Node,
    args: Vec<Id>,
}

#[derive(Clone, Copy)]
struct Info {
    height: u32,
    value: bool,
    closed: bool,
}

#[derive(Debug)]
struct Tall;

struct Table {
    ids: HashMap<Key, Id>,
    terms: Vec<(Key, Info)>,
}

impl Table {
    fn new() -> Self {
        let mut table = Table {
            ids: HashMap::new(),
            terms: Vec::new(),
        };
        for constant in 0..4 {
            table.intern(Node::Con(constant)).unwrap();
        }
        table
    }

    fn info_of_pair(&self, a: Id, b: Id) -> Info {
        let (a, b) = (self.terms[a.0].1, self.terms[b.0].1);
        Info {
            height: 1 + a.height.max(b.height),
            value: a.value && b.value,
            closed: a.closed && b.closed,
        }
    }

    fn intern(&mut self, node: Node) -> Result<Id, Tall> {
        let info = match node {
            Node::Con(_) | Node::Num(_) | Node::Bits { .. } | Node::Str(_) => Info {
                height: 1,
                value: true,
                closed: true,
            },
            Node::Par(_) => Info {
                height: 1,
                value: false,
                closed: false,
            },
            Node::Var { ty, .. } => {
                let info = self.terms[ty.0].1;
                Info {
                    height: 1 + info.height,
                    ..info
                }
            }
            Node::App { fun, arg } => self.info_of_pair(fun, arg),
            Node::Arr { from, to } => self.info_of_pair(from, to),
            Node::Qar { ty, to, .. } => Info {
                value: false,
                ..self.info_of_pair(ty, to)
            },
            Node::Op { .. } => unreachable!(),
        };
        if info.height > HEIGHT_LIMIT {
            return Err(Tall);
        }
        Ok(self.add(
            Key {
                node,
                args: Vec::new(),
            },
            info,
        ))
    }

    fn intern_op(&mut self, code: OpCode, args: &[Id]) -> Result<Id, Tall> {
        let (mut tallest, mut closed) = (0, true);
        for id in args {
            let info = self.terms[id.0].1;
            tallest = info.height.max(tallest);
            closed &= info.closed;
        }
        let info = Info {
            height: 1 + tallest,
            value: false,
            closed,
        };
        if info.height > HEIGHT_LIMIT {
            return Err(Tall);
        }
        let node = Node::Op {
            code,
            count: args.len() as u8,
        };
        Ok(self.add(
            Key {
                node,
                args: args.to_vec(),
            },
            info,
        ))
    }

    fn add(&mut self, key: Key, info: Info) -> Id {
        if let Some(id) = self.ids.get(&key) {
            return *id;
        }
        let id = Id(self.terms.len());
        self.ids.insert(key.clone(), id);
        self.terms.push((key, info));
        id
    }
}

fn make(table: &mut Table, kind: usize, x: Id, y: Id) -> Result<Id, Tall> {
    match kind {
        0..=3 => table.intern(Node::App { fun: x, arg: y }),
        4 => table.intern(Node::Arr { from: x, to: y }),
        5 => table.intern_op(OpCode::Builtin(OpName::And), &[x, y]),
        _ => table.intern_op(OpCode::Builtin(OpName::Or), &[x, y]),
    }
}

/// Makes `count` terms over the leaves, no two of them the same, and answers how many are new.
fn pass(table: &mut Table, leaves: &[Id], count: usize) -> (usize, Duration) {
    let before = table.terms.len();
    let start = Instant::now();
    for i in 0..count {
        make(
            table,
            i % 8,
            leaves[i / LEAVES % LEAVES],
            leaves[i % LEAVES],
        )
        .unwrap();
    }
    (table.terms.len() - before, start.elapsed())
}

fn main() {
    let count: usize = std::env::args()
        .nth(1)
        .map_or(2_000, |word| word.parse().unwrap());
    let mut table = Table::new();
    let leaves: Vec<Id> = (0..LEAVES)
        .map(|k| table.intern(Node::Num(k as i128)).unwrap())
        .collect();
    let first = pass(&mut table, &leaves, count);
    let again = pass(&mut table, &leaves, count);
    println!("{} new, then {} new", first.0, again.0);
    println!(
        "{} us, then {} us",
        first.1.as_micros(),
        again.1.as_micros()
    );
}
