//! The lines of a script, as `docs/SCRIPT.md` has them: what a line says, if it says anything.

use burlapslate::Mode;
use std::str::Split;

/// Which forms a script may have, and how many transactions may live at once.
#[derive(Clone, Copy, PartialEq, Eq, Debug)]
pub enum Version {
    One,
    Two,
}

/// A node as a line names it: by its own name, or as an interval of the index that is named.
#[derive(Clone, Copy)]
pub struct Named<'a> {
    /// As the line spells it.
    pub text: &'a str,
    /// The node's name, or that of the index.
    pub name: &'a str,
    pub interval: Option<u64>,
}

/// What a line asks for.
pub enum Command<'a> {
    Inner {
        name: &'a str,
        parents: Vec<Named<'a>>,
    },
    File {
        name: &'a str,
        parents: Vec<Named<'a>>,
    },
    Index {
        name: &'a str,
        parents: Vec<Named<'a>>,
        file: Named<'a>,
        bounds: Vec<u64>,
    },
    Begin {
        txn: &'a str,
    },
    Lock {
        txn: &'a str,
        mode: Mode,
        node: Named<'a>,
    },
    Try {
        txn: &'a str,
        mode: Mode,
        node: Named<'a>,
    },
    Unlock {
        txn: &'a str,
        node: Named<'a>,
    },
    Cancel {
        txn: &'a str,
    },
    Commit {
        txn: &'a str,
    },
    Abort {
        txn: &'a str,
    },
    Settle {
        txn: &'a str,
    },
    Insert {
        txn: &'a str,
        name: &'a str,
        file: Named<'a>,
        keys: Vec<u64>,
    },
    Delete {
        txn: &'a str,
        record: Named<'a>,
    },
    Rekey {
        txn: &'a str,
        record: Named<'a>,
        index: Named<'a>,
        key: u64,
    },
    Escalate {
        txn: &'a str,
        node: Named<'a>,
    },
    Move {
        txn: &'a str,
        node: Named<'a>,
        parents: Vec<Named<'a>>,
    },
    Group {
        node: Named<'a>,
    },
    Held {
        txn: &'a str,
        node: Named<'a>,
    },
    Effective {
        txn: &'a str,
        node: Named<'a>,
    },
}

/// The command that a line says; `None` where it is bad.
pub fn parse(version: Version, line: &str) -> Option<Command<'_>> {
    let mut fields = Fields {
        left: line.split(' '),
    };
    let command = command(version, &mut fields)?;
    fields.left.next().is_none().then_some(command)
}

fn command<'a>(version: Version, fields: &mut Fields<'a>) -> Option<Command<'a>> {
    match fields.next()? {
        "move" if version == Version::One => None,
        verb @ ("inner" | "file" | "index") => making(verb, fields),
        verb @ ("insert" | "delete" | "rekey" | "move") => changing(verb, fields),
        verb @ ("begin" | "cancel" | "commit" | "abort" | "settle") => ending(verb, fields),
        verb @ ("lock" | "try" | "unlock" | "escalate") => locking(verb, fields),
        verb => asking(verb, fields),
    }
}

/// A new node.
fn making<'a>(verb: &str, fields: &mut Fields<'a>) -> Option<Command<'a>> {
    let name = fields.name()?;
    if verb == "index" {
        return Some(Command::Index {
            name,
            parents: fields.parents_on()?,
            file: fields.plain()?,
            bounds: fields.bounds()?,
        });
    }
    let parents = fields.parents()?;
    match verb {
        "inner" => Some(Command::Inner { name, parents }),
        _ if parents.is_empty() => None,
        _ => Some(Command::File { name, parents }),
    }
}

/// A record that comes, goes or has another key, and a node that moves.
fn changing<'a>(verb: &str, fields: &mut Fields<'a>) -> Option<Command<'a>> {
    let txn = fields.name()?;
    Some(match verb {
        "insert" => Command::Insert {
            txn,
            name: fields.name()?,
            file: fields.plain()?,
            keys: fields.numbers()?,
        },
        "delete" => Command::Delete {
            txn,
            record: fields.plain()?,
        },
        "rekey" => Command::Rekey {
            txn,
            record: fields.plain()?,
            index: fields.plain()?,
            key: number(fields.next()?)?,
        },
        _ => Command::Move {
            txn,
            node: fields.node()?,
            parents: fields.parents()?,
        },
    })
}

/// What a transaction does as a whole.
fn ending<'a>(verb: &str, fields: &mut Fields<'a>) -> Option<Command<'a>> {
    let txn = fields.name()?;
    Some(match verb {
        "begin" => Command::Begin { txn },
        "cancel" => Command::Cancel { txn },
        "commit" => Command::Commit { txn },
        "abort" => Command::Abort { txn },
        _ => Command::Settle { txn },
    })
}

/// What a transaction does to a lock.
fn locking<'a>(verb: &str, fields: &mut Fields<'a>) -> Option<Command<'a>> {
    let txn = fields.name()?;
    let mode = match verb {
        "lock" | "try" => fields.mode()?,
        _ => Mode::NL,
    };
    let node = fields.node()?;
    Some(match verb {
        "lock" => Command::Lock { txn, mode, node },
        "try" => Command::Try { txn, mode, node },
        "unlock" => Command::Unlock { txn, node },
        _ => Command::Escalate { txn, node },
    })
}

/// A query.
fn asking<'a>(verb: &str, fields: &mut Fields<'a>) -> Option<Command<'a>> {
    if verb == "group" {
        let node = fields.node()?;
        return Some(Command::Group { node });
    }
    let (txn, node) = (fields.name()?, fields.node()?);
    match verb {
        "held" => Some(Command::Held { txn, node }),
        "effective" => Some(Command::Effective { txn, node }),
        _ => None,
    }
}

/// A list that is not empty.
fn some(list: Vec<Named<'_>>) -> Option<Vec<Named<'_>>> {
    (!list.is_empty()).then_some(list)
}

/// The fields of a line that are still to be read. Exactly one space stands between two of them.
struct Fields<'a> {
    left: Split<'a, char>,
}

impl<'a> Fields<'a> {
    fn next(&mut self) -> Option<&'a str> {
        self.left.next()
    }

    fn name(&mut self) -> Option<&'a str> {
        name(self.next()?)
    }

    fn mode(&mut self) -> Option<Mode> {
        mode(self.next()?)
    }

    fn node(&mut self) -> Option<Named<'a>> {
        node(self.next()?)
    }

    /// A node by its own name.
    fn plain(&mut self) -> Option<Named<'a>> {
        self.name().map(|name| Named {
            text: name,
            name,
            interval: None,
        })
    }

    /// Parents behind a colon; none where the line ends.
    fn parents(&mut self) -> Option<Vec<Named<'a>>> {
        match self.next() {
            None => Some(Vec::new()),
            Some(":") => some(self.left.by_ref().map(node).collect::<Option<_>>()?),
            Some(_) => None,
        }
    }

    /// One parent or more behind a colon, and the word `on`.
    fn parents_on(&mut self) -> Option<Vec<Named<'a>>> {
        if self.next()? != ":" {
            return None;
        }
        let mut parents = Vec::new();
        loop {
            match self.next()? {
                "on" => return some(parents),
                text => parents.push(node(text)?),
            }
        }
    }

    /// The word `at`, and numbers.
    fn bounds(&mut self) -> Option<Vec<u64>> {
        if self.next()? != "at" {
            return None;
        }
        self.numbers()
    }

    /// All fields that are left, each of them a number.
    fn numbers(&mut self) -> Option<Vec<u64>> {
        self.left.by_ref().map(number).collect()
    }
}

/// 1 to 16 bytes, a letter first; `on` and `at` are no names.
fn name(text: &str) -> Option<&str> {
    let is_letter = |byte: u8| byte.is_ascii_lowercase();
    let is_more = |byte: u8| is_letter(byte) || byte.is_ascii_digit() || byte == b'_';
    let is_name = text.bytes().next().is_some_and(is_letter) && text.bytes().all(is_more);
    (is_name && text.len() <= 16 && text != "on" && text != "at").then_some(text)
}

/// Decimal, without sign and without leading zeros.
fn number(text: &str) -> Option<u64> {
    let is_plain = text.bytes().all(|byte| byte.is_ascii_digit())
        && (text.len() == 1 || !text.starts_with('0'));
    if is_plain {
        text.parse().ok()
    } else {
        None
    }
}

/// A name, or a name, a dot and a number.
fn node(text: &str) -> Option<Named<'_>> {
    let (front, interval) = match text.split_once('.') {
        Some((front, place)) => (front, Some(number(place)?)),
        None => (text, None),
    };
    Some(Named {
        text,
        name: name(front)?,
        interval,
    })
}

fn mode(text: &str) -> Option<Mode> {
    let modes = [Mode::NL, Mode::IS, Mode::IX, Mode::S, Mode::SIX, Mode::X];
    modes.into_iter().find(|mode| mode.to_string() == text)
}
