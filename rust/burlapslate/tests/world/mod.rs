//! A group with files, records and rows in each part, which several test programs have.

#![allow(dead_code)] // Each test program uses some of it.

use burlapslate::{
    Detect, Doing, Group, GroupSession, Node, Options, Refusal, Row, Tried, Txn, SLOTS,
};
use std::sync::Arc;
use std::thread;
use std::time::Duration;

pub const PARTS: usize = 3;

/// The names of an inner node and of a file that no group of these stories has, by those of a larger one.
pub fn foreign() -> (Node, Node) {
    let larger = Group::new(PARTS + 1).unwrap();
    let nodes = [(); 9].map(|()| larger.add_inner(&[]).unwrap());
    let beyond = larger.add_file_in(PARTS + 1, &nodes[..1]).unwrap();
    (nodes[8], beyond)
}

/// A database of two areas. Each part has a file and a file of rows under the first area, each with an index of two
/// intervals, parted at 100, and two records of the file.
pub struct World {
    pub group: Arc<Group>,
    pub base: Node,
    pub area: Node,
    pub files: [Node; PARTS],
    pub indexes: [Node; PARTS],
    pub records: [[Node; 2]; PARTS],
    pub row_files: [Node; PARTS],
    pub row_indexes: [Node; PARTS],
}

impl World {
    pub fn new() -> World {
        World::with(SLOTS)
    }

    pub fn with(slots: usize) -> World {
        let options = Options::new(Detect::AtBlock).transactions(slots);
        let group = Arc::new(Group::with_options(options, PARTS).unwrap());
        let base = group.add_inner(&[]).unwrap();
        let area = group.add_inner(&[base]).unwrap();
        let parts: [usize; PARTS] = std::array::from_fn(|place| place + 1);
        let files = parts.map(|part| group.add_file_in(part, &[area]).unwrap());
        let row_files = parts.map(|part| group.add_row_file_in(part, &[area]).unwrap());
        let index = |file| group.add_index(&[area], file, &[100]).unwrap();
        let (indexes, row_indexes) = (files.map(index), row_files.map(index));
        let mut session = group.begin().unwrap();
        let records = files.map(|file| [50, 200].map(|key| inserted(&mut session, file, key)));
        session.commit().unwrap();
        World {
            group,
            base,
            area,
            files,
            indexes,
            records,
            row_files,
            row_indexes,
        }
    }

    pub fn begin(&self) -> GroupSession<'_> {
        self.group.begin().unwrap()
    }

    /// A session that is one of the group's owners.
    pub fn begin_shared(&self) -> GroupSession<'static> {
        self.group.begin_shared().unwrap()
    }

    /// Two sessions, the older one first: both count by the age of the first.
    pub fn begin_two(&self) -> [GroupSession<'static>; 2] {
        let older = self.begin_shared();
        let younger = self.group.begin_shared_again(older.txn().age() + 1);
        [older, younger.unwrap()]
    }

    pub fn row(&self, part: usize) -> Row {
        Row {
            file: self.row_files[part - 1],
            number: 7,
        }
    }

    /// An interval of an index, by its place.
    pub fn interval(&self, part: usize, index: Node, place: usize) -> Node {
        let group = &self.group;
        let name = group.name_in(index, part).unwrap();
        let asked = group.with_table(part, |m| m.interval(name, place).unwrap());
        group.name_of(asked.unwrap(), part).unwrap()
    }

    /// The node of a part's row.
    pub fn row_node(&self, part: usize) -> Node {
        let (group, Row { file, number }) = (&self.group, self.row(part));
        let file = group.name_in(file, part).unwrap();
        let asked = group.with_table(part, |m| m.row_node(Row { file, number }));
        group.name_of(asked.unwrap().unwrap(), part).unwrap()
    }

    /// Sleeps until a transaction waits in this table.
    pub fn await_wait(&self, table: usize, txn: Txn) {
        while !self.waits(table, txn) {
            thread::sleep(Duration::from_micros(50));
        }
    }

    pub fn waits(&self, table: usize, txn: Txn) -> bool {
        let asked = self.group.with_table(table, |m| {
            let mut rows = m.transactions().filter(|row| row.txn.slot() == txn.slot());
            rows.any(|row| matches!(row.doing, Doing::Waiting(_)))
        });
        asked.unwrap()
    }

    /// How many transactions live in a table.
    pub fn living(&self, table: usize) -> usize {
        let asked = self.group.with_table(table, |m| m.transactions().count());
        asked.unwrap()
    }
}

impl Drop for World {
    /// Nobody has left anything in any table.
    fn drop(&mut self) {
        if !thread::panicking() {
            assert!((0..=PARTS).all(|table| self.living(table) == 0));
        }
    }
}

pub fn inserted(session: &mut GroupSession<'_>, file: Node, key: u64) -> Node {
    made(session.insert(file, &[key]))
}

/// The node that a call has made.
pub fn made(tried: Result<Tried<Node>, Refusal>) -> Node {
    match tried.unwrap() {
        Tried::Locked(node) => node,
        Tried::WouldBlock(node) => panic!("{node} would block"),
    }
}
