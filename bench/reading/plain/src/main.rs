//! The commands of `bench/reading/run` checked in plain Rust, with std's `HashMap`: an s-expression is
//! a tree whose symbols are borrowed from the file, each term is in a table once, and facts are in a
//! map by name. It knows `assert`, `assume` and applications, and no other command or
//! literal. Build it with `cargo build --release`, and run it with `plain REFERENCE PROOF`.
use std::collections::{HashMap, HashSet};

enum Sexp<'a> {
    Symbol(&'a str),
    List(Vec<Sexp<'a>>),
}

struct Reader<'a> {
    bytes: &'a [u8],
    at: usize,
    line: usize,
}

impl<'a> Reader<'a> {
    fn skip(&mut self) {
        while let Some(&b) = self.bytes.get(self.at) {
            match b {
                b'\n' => {
                    self.line += 1;
                    self.at += 1;
                }
                b' ' | b'\t' | b'\r' => self.at += 1,
                b';' => {
                    while self.bytes.get(self.at).is_some_and(|&b| b != b'\n') {
                        self.at += 1;
                    }
                }
                _ => return,
            }
        }
    }

    fn next(&mut self) -> Result<Option<Sexp<'a>>, String> {
        self.skip();
        let Some(&first) = self.bytes.get(self.at) else {
            return Ok(None);
        };
        match first {
            b'(' => {
                self.at += 1;
                let mut parts = Vec::new();
                loop {
                    self.skip();
                    match self.bytes.get(self.at) {
                        None => return Err("unclosed".into()),
                        Some(b')') => {
                            self.at += 1;
                            return Ok(Some(Sexp::List(parts)));
                        }
                        Some(_) => parts.extend(self.next()?),
                    }
                }
            }
            b')' => Err("extra )".into()),
            b'|' => {
                let from = self.at + 1;
                let length = self.bytes[from..]
                    .iter()
                    .position(|&b| b == b'|')
                    .ok_or("unclosed")?;
                self.at = from + length + 1;
                self.symbol(from, from + length)
            }
            _ => {
                let from = self.at;
                while self
                    .bytes
                    .get(self.at)
                    .is_some_and(|b| !b" \t\r\n();|\"".contains(b))
                {
                    self.at += 1;
                }
                self.symbol(from, self.at)
            }
        }
    }

    fn symbol(&self, from: usize, to: usize) -> Result<Option<Sexp<'a>>, String> {
        let text = std::str::from_utf8(&self.bytes[from..to]).map_err(|e| e.to_string())?;
        Ok(Some(Sexp::Symbol(text)))
    }
}

#[derive(Clone, PartialEq, Eq, Hash)]
enum Term {
    Constant(usize),
    Apply(usize, usize),
}

#[derive(Default)]
struct Checker {
    constants: HashMap<String, usize>,
    terms: HashMap<Term, usize>,
    asserted: HashSet<usize>,
    facts: HashMap<String, usize>,
}

impl Checker {
    fn intern(&mut self, term: Term) -> usize {
        let next = self.terms.len();
        *self.terms.entry(term).or_insert(next)
    }

    fn term(&mut self, s: &Sexp<'_>) -> Result<usize, String> {
        match s {
            Sexp::Symbol(name) => match self.constants.get(*name) {
                Some(&k) => Ok(self.intern(Term::Constant(k))),
                None => Err(format!("unknown symbol {name}")),
            },
            Sexp::List(parts) => {
                let mut parts = parts.iter();
                let mut term = self.term(parts.next().ok_or("empty")?)?;
                for part in parts {
                    let argument = self.term(part)?;
                    term = self.intern(Term::Apply(term, argument));
                }
                Ok(term)
            }
        }
    }

    fn command(&mut self, s: &Sexp<'_>) -> Result<(), String> {
        let Sexp::List(parts) = s else {
            return Err("no command".into());
        };
        match parts.as_slice() {
            [Sexp::Symbol(word), formula] if *word == "assert" => {
                let formula = self.term(formula)?;
                self.asserted.insert(formula);
                Ok(())
            }
            [Sexp::Symbol(word), Sexp::Symbol(name), formula] if *word == "assume" => {
                if self.facts.contains_key(*name) {
                    return Err(format!("{name} is taken"));
                }
                let formula = self.term(formula)?;
                if !self.asserted.contains(&formula) {
                    return Err("not asserted".into());
                }
                self.facts.insert(name.to_string(), formula);
                Ok(())
            }
            _ => Err("unknown command".into()),
        }
    }

    fn file(&mut self, path: &str) -> Result<(), String> {
        let bytes = std::fs::read(path).map_err(|e| e.to_string())?;
        let mut reader = Reader {
            bytes: &bytes,
            at: 0,
            line: 1,
        };
        while let Some(s) = reader.next()? {
            self.command(&s)
                .map_err(|e| format!("{path}:{}: {e}", reader.line))?;
        }
        Ok(())
    }
}

fn main() {
    let words: Vec<String> = std::env::args().collect();
    let mut checker = Checker::default();
    for (k, name) in ["Type", "Bool", "true", "false"].iter().enumerate() {
        checker.constants.insert(name.to_string(), k);
    }
    for path in &words[1..] {
        if let Err(e) = checker.file(path) {
            println!("refused: {e}");
            return;
        }
    }
    println!("{} facts", checker.facts.len());
}
