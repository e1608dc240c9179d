//! A script between two lines: the names that it has declared, and the manager of its locks.

use crate::grammar::{parse, Command, Named, Version};
use burlapslate::{
    Asked, Detect, Escalated, Kind, Manager, Mode, Node, Notice, Notices, Refusal, Txn,
};
use std::collections::HashMap;
use std::hash::Hash;

/// What is declared under which name, looked up both ways.
struct Register<Id> {
    ids: HashMap<String, Id>,
    names: HashMap<Id, String>,
}

impl<Id: Copy + Eq + Hash> Register<Id> {
    fn new() -> Self {
        Register {
            ids: HashMap::new(),
            names: HashMap::new(),
        }
    }

    fn id(&self, name: &str) -> Option<Id> {
        self.ids.get(name).copied()
    }

    fn name(&self, id: Id) -> &str {
        &self.names[&id]
    }

    fn declare(&mut self, name: &str, id: Id) {
        self.ids.insert(name.to_owned(), id);
        self.names.insert(id, name.to_owned());
    }

    fn free(&mut self, name: &str) {
        if let Some(id) = self.ids.remove(name) {
            self.names.remove(&id);
        }
    }
}

/// What a line comes to.
enum Answer {
    Done,
    Granted(Mode),
    Waiting,
    Victim,
    Escalated(Escalated),
    Effect(Mode),
    /// A name that is to be declared is in use.
    Taken,
    Refused(Refusal),
}

pub struct Desk {
    version: Version,
    manager: Manager,
    nodes: Register<Node>,
    txns: Register<Txn>,
}

impl Desk {
    pub fn new(detect: Detect, version: Version) -> Desk {
        let most = match version {
            Version::One => 64,
            Version::Two => 128,
        };
        let manager = Manager::new(detect, most).unwrap();
        Desk {
            version,
            manager,
            nodes: Register::new(),
            txns: Register::new(),
        }
    }

    /// What is printed for a line.
    pub fn report(&mut self, line: &[u8]) -> String {
        const BAD: &str = "no 20 BadLine\n";
        if line.len() > 256 {
            return BAD.to_owned();
        }
        if line.is_empty() || line[0] == b'#' {
            return String::new();
        }
        let text = std::str::from_utf8(line).ok();
        match text.and_then(|text| parse(self.version, text)) {
            Some(command) => self.serve(&command),
            None => BAD.to_owned(),
        }
    }

    /// Carries a command out; what is printed for it.
    fn serve(&mut self, command: &Command) -> String {
        let mut told = Vec::new();
        let answer = if self.is_taken(command) {
            Answer::Taken
        } else {
            self.carry_out(command, &mut told)
                .unwrap_or_else(Answer::Refused)
        };
        if let Answer::Done = answer {
            self.free(command);
        }
        let mut report = self.line(command, answer);
        for notice in told {
            report += &self.told_line(notice);
        }
        report
    }

    fn is_taken(&self, command: &Command) -> bool {
        match *command {
            Command::Inner { name, .. }
            | Command::File { name, .. }
            | Command::Index { name, .. }
            | Command::Insert { name, .. } => self.nodes.id(name).is_some(),
            Command::Begin { txn } => self.txns.id(txn).is_some(),
            _ => false,
        }
    }

    /// The name of what has ended or is gone is free again.
    fn free(&mut self, command: &Command) {
        match *command {
            Command::Commit { txn } | Command::Abort { txn } => self.txns.free(txn),
            Command::Delete { record, .. } => self.nodes.free(record.name),
            _ => {}
        }
    }

    /// The node that a line names, if one is.
    fn find(&self, named: Named) -> Option<Node> {
        let node = self.nodes.id(named.name)?;
        match named.interval {
            Some(place) => self.manager.interval(node, usize::try_from(place).ok()?),
            None => Some(node),
        }
    }

    /// The node that a line names, or a name that names nothing, which the manager refuses.
    fn node(&self, named: Named) -> Node {
        self.find(named).unwrap_or(Node::NONE)
    }

    fn list(&self, named: &[Named]) -> Vec<Node> {
        named.iter().map(|&one| self.node(one)).collect()
    }

    fn txn(&self, name: &str) -> Txn {
        self.txns.id(name).unwrap_or(Txn::NONE)
    }

    /// Carries a command out. Whom it tells what is added to the list.
    fn carry_out(&mut self, command: &Command, told: &mut Vec<Notice>) -> Result<Answer, Refusal> {
        match *command {
            Command::Inner { .. }
            | Command::File { .. }
            | Command::Index { .. }
            | Command::Insert { .. } => self.make(command),
            Command::Begin { txn } => {
                let begun = self.manager.begin()?;
                self.txns.declare(txn, begun);
                Ok(Answer::Done)
            }
            Command::Lock { .. } | Command::Try { .. } | Command::Escalate { .. } => {
                self.raise(command, told)
            }
            Command::Group { .. } | Command::Held { .. } | Command::Effective { .. } => {
                self.look(command)
            }
            _ => {
                told.extend(self.tell(command)?);
                Ok(Answer::Done)
            }
        }
    }

    /// Carries out a command that is answered by a mode.
    fn raise(&mut self, command: &Command, told: &mut Vec<Notice>) -> Result<Answer, Refusal> {
        match *command {
            Command::Lock { txn, mode, node } => {
                let (txn, node) = (self.txn(txn), self.node(node));
                let (asked, notices) = self.manager.lock(txn, node, mode)?;
                told.extend(notices);
                Ok(match asked {
                    Asked::Granted(mode) => Answer::Granted(mode),
                    Asked::Waiting => Answer::Waiting,
                    Asked::Victim => Answer::Victim,
                })
            }
            Command::Try { txn, mode, node } => {
                let (txn, node) = (self.txn(txn), self.node(node));
                self.manager.try_lock(txn, node, mode).map(Answer::Granted)
            }
            Command::Escalate { txn, node } => {
                let (txn, node) = (self.txn(txn), self.node(node));
                let (escalated, notices) = self.manager.escalate(txn, node)?;
                told.extend(notices);
                Ok(Answer::Escalated(escalated))
            }
            _ => unreachable!("it raises no lock"),
        }
    }

    /// Makes a node, which has the name that the line declares.
    fn make(&mut self, command: &Command) -> Result<Answer, Refusal> {
        let (name, node) = match *command {
            Command::Inner { name, ref parents } => {
                (name, self.manager.add_inner(&self.list(parents))?)
            }
            Command::File { name, ref parents } => {
                (name, self.manager.add_file(&self.list(parents))?)
            }
            Command::Index {
                name,
                ref parents,
                file,
                ref bounds,
            } => {
                let (parents, file) = (self.list(parents), self.node(file));
                (name, self.manager.add_index(&parents, file, bounds)?)
            }
            Command::Insert {
                txn,
                name,
                file,
                ref keys,
            } => {
                let (txn, file) = (self.txn(txn), self.node(file));
                (name, self.manager.insert(txn, file, keys)?)
            }
            _ => unreachable!("it makes none"),
        };
        self.nodes.declare(name, node);
        Ok(Answer::Done)
    }

    /// Carries out a command that is answered by notices alone.
    fn tell(&mut self, command: &Command) -> Result<Notices<'_>, Refusal> {
        match *command {
            Command::Unlock { txn, node } => {
                let (txn, node) = (self.txn(txn), self.node(node));
                self.manager.unlock(txn, node)
            }
            Command::Cancel { txn } => self.manager.cancel(self.txn(txn)),
            Command::Commit { txn } => self.manager.commit(self.txn(txn)),
            Command::Abort { txn } => self.manager.abort(self.txn(txn)),
            Command::Settle { txn } => self.manager.settle(self.txn(txn)),
            Command::Delete { txn, record } => {
                let (txn, record) = (self.txn(txn), self.node(record));
                self.manager.delete(txn, record)
            }
            Command::Rekey {
                txn,
                record,
                index,
                key,
            } => {
                let (txn, record, index) = (self.txn(txn), self.node(record), self.node(index));
                self.manager.rekey(txn, record, index, key)
            }
            Command::Move {
                txn,
                node,
                ref parents,
            } => {
                let (txn, node, parents) = (self.txn(txn), self.node(node), self.list(parents));
                self.manager.move_node(txn, node, &parents)
            }
            _ => unreachable!("it is answered otherwise"),
        }
    }

    fn look(&self, command: &Command) -> Result<Answer, Refusal> {
        match *command {
            Command::Group { node } => self.manager.group(self.node(node)).map(Answer::Granted),
            Command::Held { txn, node } => self
                .manager
                .held(self.txn(txn), self.node(node))
                .map(Answer::Granted),
            Command::Effective { txn, node } => self
                .manager
                .effective(self.txn(txn), self.node(node))
                .map(Answer::Effect),
            _ => unreachable!("it is no query"),
        }
    }

    /// The line of an answer.
    fn line(&self, command: &Command, answer: Answer) -> String {
        match answer {
            Answer::Done => "ok\n".to_owned(),
            Answer::Granted(mode) => format!("ok {mode}\n"),
            Answer::Waiting => "wait\n".to_owned(),
            Answer::Victim => "victim\n".to_owned(),
            Answer::Escalated(e) => {
                format!("ok {} released {} kept {}\n", e.mode, e.released, e.kept)
            }
            Answer::Effect(Mode::NL) => "ok none\n".to_owned(),
            Answer::Effect(mode) => format!("ok {mode}\n"),
            Answer::Taken => format!("no 16 NameTaken {}\n", declared(command)),
            Answer::Refused(refusal) => {
                format!(
                    "no {} {refusal}{}\n",
                    number(refusal),
                    self.meant(command, refusal)
                )
            }
        }
    }

    /// A space, and whom a refusal names, if anybody.
    fn meant(&self, command: &Command, refusal: Refusal) -> String {
        let name = match refusal {
            Refusal::NoSuchTxn => used_txn(command).to_owned(),
            Refusal::NoSuchNode => {
                let unused = used_nodes(command)
                    .into_iter()
                    .find(|&named| self.find(named).is_none());
                unused.map_or(String::new(), |named| named.text.to_owned())
            }
            Refusal::NeedParents(node) | Refusal::HeldChild(node) | Refusal::Cycle(node) => {
                self.called(node)
            }
            _ => return String::new(),
        };
        format!(" {name}")
    }

    /// The name of a node, or for an interval that of its index, a dot and its place.
    fn called(&self, node: Node) -> String {
        if self.manager.kind(node) != Ok(Kind::Interval) {
            return self.nodes.name(node).to_owned();
        }
        let index = self.manager.parent(node, 0).unwrap();
        let place = self.manager.place(node).unwrap();
        format!("{}.{place}", self.nodes.name(index))
    }

    fn told_line(&self, notice: Notice) -> String {
        let txn = self.txns.name(notice.txn());
        match notice {
            Notice::Granted { node, mode, .. } => {
                format!("told {txn} granted {mode} {}\n", self.called(node))
            }
            Notice::Victim { .. } => format!("told {txn} victim\n"),
            Notice::Moved { .. } => format!("told {txn} moved\n"),
            Notice::Gone { .. } => format!("told {txn} gone\n"),
            other => panic!("a notice that is new here: {other:?}"),
        }
    }
}

/// The name that a line declares.
fn declared<'a>(command: &Command<'a>) -> &'a str {
    match *command {
        Command::Inner { name, .. }
        | Command::File { name, .. }
        | Command::Index { name, .. }
        | Command::Insert { name, .. } => name,
        Command::Begin { txn } => txn,
        _ => unreachable!("it declares nothing"),
    }
}

/// The transaction that a line uses.
fn used_txn<'a>(command: &Command<'a>) -> &'a str {
    match *command {
        Command::Lock { txn, .. }
        | Command::Try { txn, .. }
        | Command::Unlock { txn, .. }
        | Command::Cancel { txn }
        | Command::Commit { txn }
        | Command::Abort { txn }
        | Command::Settle { txn }
        | Command::Insert { txn, .. }
        | Command::Delete { txn, .. }
        | Command::Rekey { txn, .. }
        | Command::Escalate { txn, .. }
        | Command::Move { txn, .. }
        | Command::Held { txn, .. }
        | Command::Effective { txn, .. } => txn,
        _ => unreachable!("it uses none"),
    }
}

/// The nodes that a line uses, in order, the one that it declares left aside.
fn used_nodes<'a>(command: &Command<'a>) -> Vec<Named<'a>> {
    match *command {
        Command::Inner { ref parents, .. } | Command::File { ref parents, .. } => parents.clone(),
        Command::Index {
            ref parents, file, ..
        } => [parents.as_slice(), &[file]].concat(),
        Command::Lock { node, .. }
        | Command::Try { node, .. }
        | Command::Unlock { node, .. }
        | Command::Escalate { node, .. }
        | Command::Group { node }
        | Command::Held { node, .. }
        | Command::Effective { node, .. } => vec![node],
        Command::Insert { file, .. } => vec![file],
        Command::Delete { record, .. } => vec![record],
        Command::Rekey { record, index, .. } => vec![record, index],
        Command::Move {
            node, ref parents, ..
        } => [&[node], parents.as_slice()].concat(),
        _ => Vec::new(),
    }
}

/// The number of a refusal.
fn number(refusal: Refusal) -> u32 {
    match refusal {
        Refusal::NoMemory => 1,
        Refusal::NoSuchNode => 2,
        Refusal::NoSuchTxn => 3,
        Refusal::TxnWaiting => 4,
        Refusal::TxnCondemned => 5,
        Refusal::BadMode => 6,
        Refusal::NeedParents(_) => 7,
        Refusal::NotHeld => 8,
        Refusal::HeldChild(_) => 9,
        Refusal::WouldBlock => 10,
        Refusal::TooManyTxns => 11,
        Refusal::TooManyNodes => 12,
        Refusal::BadParents => 13,
        Refusal::NeedExclusive => 14,
        Refusal::NotWaiting => 15,
        Refusal::FileInUse => 17,
        Refusal::BadKeys => 18,
        Refusal::WornOut => 19,
        Refusal::Cycle(_) => 21,
        Refusal::BadNumber => panic!("a script with more than eight parents is not played here"),
        Refusal::TooManyWatchers => panic!("a script has no watcher"),
        Refusal::HasChildren => panic!("a script drops no node"),
        Refusal::NeedRelease => panic!("a script renews no transaction"),
        Refusal::RecordInUse => panic!("a script forgets no row"),
        Refusal::RowsByNumber | Refusal::NotRows => panic!("a script has no file of rows"),
        other => panic!("a refusal that is new here: {other:?}"),
    }
}
