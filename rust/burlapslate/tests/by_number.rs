//! An engine that locks its rows by their numbers, beside one whose rows all have nodes from the start.
//! The same random work through both has the same answers, notices and waits, names of nodes aside.

use burlapslate::{
    Asked, Counters, Detect, Escalated, Manager, Mode, Node, Notice, Notices, Refusal,
};
use burlapslate::{Options, Reached, Row, RowAsked, Txn, Victims};
use std::fmt::Debug;

const ROWS: usize = 10;
const TXNS: usize = 6;
const STEPS: usize = 1000;
const BOUNDS: [u64; 3] = [60, 120, 180];

/// A file with an index, made the same way for both engines, but that it is one of rows or of records.
struct Store {
    manager: Manager,
    file: Node,
    index: Node,
    /// What is no record: the root, the file, the index and its intervals.
    frame: Vec<Node>,
    keys: [u64; ROWS],
}

impl Store {
    fn new(
        options: Options,
        add_file: fn(&mut Manager, &[Node]) -> Result<Node, Refusal>,
    ) -> Store {
        let mut manager = Manager::with_options(options).unwrap();
        let root = manager.add_inner(&[]).unwrap();
        let file = add_file(&mut manager, &[root]).unwrap();
        let index = manager.add_index(&[root], file, &BOUNDS).unwrap();
        let intervals = (0..=BOUNDS.len()).map(|i| manager.interval(index, i).unwrap());
        let frame = [root, file, index].into_iter().chain(intervals).collect();
        let keys = std::array::from_fn(|row| row as u64 * 23);
        Store {
            manager,
            file,
            index,
            frame,
            keys,
        }
    }

    fn interval(&self, key: u64) -> Node {
        self.manager.interval_of(self.index, key).unwrap()
    }
}

/// What a call about rows came to, with the notices in a list of their own.
type Came<T> = Result<(T, Vec<Notice>), Refusal>;

fn with<T>(answer: T, told: Notices<'_>) -> Came<T> {
    Ok((answer, told.collect()))
}

trait Engine {
    fn store(&mut self) -> &mut Store;
    fn node(&mut self, row: usize) -> Option<Node>;
    fn lock(&mut self, txn: Txn, row: usize, mode: Mode) -> Came<Asked>;
    fn unlock(&mut self, txn: Txn, row: usize) -> Came<()>;
    fn rekey(&mut self, txn: Txn, row: usize, key: u64) -> Came<()>;
    fn escalate(&mut self, txn: Txn, node: Node) -> Came<Escalated>;
    fn cancel(&mut self, txn: Txn) -> Came<()>;
    fn commit(&mut self, txn: Txn) -> Came<()>;
    fn abort(&mut self, txn: Txn) -> Came<()>;
}

/// Its rows have numbers, and nodes while they are locked.
struct Numbers(Store);

impl Numbers {
    fn row(&self, row: usize) -> Row {
        Row {
            file: self.0.file,
            number: u64::MAX - row as u64,
        }
    }
}

impl Engine for Numbers {
    fn store(&mut self) -> &mut Store {
        &mut self.0
    }

    fn node(&mut self, row: usize) -> Option<Node> {
        let row = self.row(row);
        self.0.manager.row_node(row)
    }

    fn lock(&mut self, txn: Txn, row: usize, mode: Mode) -> Came<Asked> {
        let (name, keys) = (self.row(row), [self.0.keys[row]]);
        let (asked, _, told) = self.0.manager.lock_row(txn, name, &keys, mode)?;
        let asked = match asked {
            RowAsked::Granted(mode) => Asked::Granted(mode),
            RowAsked::Waiting => Asked::Waiting,
            RowAsked::Victim => Asked::Victim,
            RowAsked::OtherKeys(_) => panic!("the keys are the row's own"),
        };
        with(asked, told)
    }

    fn unlock(&mut self, txn: Txn, row: usize) -> Came<()> {
        let row = self.row(row);
        with((), self.0.manager.unlock_row(txn, row)?)
    }

    fn rekey(&mut self, txn: Txn, row: usize, key: u64) -> Came<()> {
        let (row, index) = (self.row(row), self.0.index);
        with((), self.0.manager.rekey_row(txn, row, index, key)?)
    }

    fn escalate(&mut self, txn: Txn, node: Node) -> Came<Escalated> {
        let (escalated, told) = self.0.manager.escalate(txn, node)?;
        with(escalated, told)
    }

    fn cancel(&mut self, txn: Txn) -> Came<()> {
        with((), self.0.manager.cancel(txn)?)
    }

    fn commit(&mut self, txn: Txn) -> Came<()> {
        with((), self.0.manager.commit(txn)?)
    }

    fn abort(&mut self, txn: Txn) -> Came<()> {
        with((), self.0.manager.abort(txn)?)
    }
}

/// A transaction that may write all rows.
fn frame_in_ix(store: &mut Store) -> Txn {
    let m = &mut store.manager;
    let txn = m.begin().unwrap();
    for &node in &store.frame {
        let (asked, _) = m.lock(txn, node, Mode::IX).unwrap();
        assert_eq!(asked, Asked::Granted(Mode::IX));
    }
    txn
}

/// Its rows are nodes.
struct Nodes(Store, [Node; ROWS]);

impl Nodes {
    fn new(mut store: Store) -> Nodes {
        let txn = frame_in_ix(&mut store);
        let m = &mut store.manager;
        let nodes = store
            .keys
            .map(|key| m.insert(txn, store.file, &[key]).unwrap());
        let _ = m.commit(txn).unwrap();
        Nodes(store, nodes)
    }
}

impl Engine for Nodes {
    fn store(&mut self) -> &mut Store {
        &mut self.0
    }

    fn node(&mut self, row: usize) -> Option<Node> {
        Some(self.1[row])
    }

    fn lock(&mut self, txn: Txn, row: usize, mode: Mode) -> Came<Asked> {
        let (asked, told) = self.0.manager.lock(txn, self.1[row], mode)?;
        with(asked, told)
    }

    fn unlock(&mut self, txn: Txn, row: usize) -> Came<()> {
        with((), self.0.manager.unlock(txn, self.1[row])?)
    }

    fn rekey(&mut self, txn: Txn, row: usize, key: u64) -> Came<()> {
        let index = self.0.index;
        with((), self.0.manager.rekey(txn, self.1[row], index, key)?)
    }

    fn escalate(&mut self, txn: Txn, node: Node) -> Came<Escalated> {
        let (escalated, told) = self.0.manager.escalate(txn, node)?;
        with(escalated, told)
    }

    fn cancel(&mut self, txn: Txn) -> Came<()> {
        with((), self.0.manager.cancel(txn)?)
    }

    fn commit(&mut self, txn: Txn) -> Came<()> {
        with((), self.0.manager.commit(txn)?)
    }

    fn abort(&mut self, txn: Txn) -> Came<()> {
        with((), self.0.manager.abort(txn)?)
    }
}

/// One step of a transaction.
#[derive(Clone, Copy, Debug)]
enum Step {
    /// A row, with the intentions above it.
    Row(usize, Mode),
    /// A row alone.
    Bare(usize, Mode),
    Path(usize, Mode),
    Unlock(usize),
    Leave(usize),
    Rekey(usize, u64),
    Escalate(usize),
    Cancel,
    Settle,
    Commit,
    Abort,
}

/// A node without its name: a row by its number, all else by its place.
fn spelled<E: Engine>(engine: &mut E, node: Node) -> String {
    if let Some(place) = engine.store().frame.iter().position(|it| *it == node) {
        return format!("frame {place}");
    }
    let row = (0..ROWS).find(|row| engine.node(*row) == Some(node));
    format!("row {row:?}")
}

fn spelled_notice<E: Engine>(engine: &mut E, notice: Notice) -> String {
    match notice {
        Notice::Granted { txn, node, mode } => {
            format!("{txn:?} has {} in {mode:?}", spelled(engine, node))
        }
        other => format!("{other:?}"),
    }
}

fn spelled_refusal<E: Engine>(engine: &mut E, refusal: Refusal) -> String {
    match refusal {
        Refusal::NeedParents(node) => format!("needs {}", spelled(engine, node)),
        Refusal::HeldChild(_) => "holds a child".to_owned(), // One of them, whichever that is.
        // A row without a node is held by nobody, so not by the requester.
        Refusal::NoSuchNode | Refusal::NotHeld | Refusal::NeedExclusive => "not held".to_owned(),
        other => format!("{other:?}"),
    }
}

fn spelled_answer<E: Engine>(engine: &mut E, came: Came<String>) -> String {
    match came {
        Ok((answer, told)) => {
            let told = told
                .into_iter()
                .map(|notice| spelled_notice(engine, notice));
            format!("{answer} {:?}", told.collect::<Vec<String>>())
        }
        Err(refusal) => spelled_refusal(engine, refusal),
    }
}

fn text<T: Debug>((answer, told): (T, Vec<Notice>)) -> (String, Vec<Notice>) {
    (format!("{answer:?}"), told)
}

fn path<E: Engine>(engine: &mut E, txn: Txn, node: Node, mode: Mode) -> Came<String> {
    let (reached, told) = engine.store().manager.lock_path(txn, node, mode)?;
    let told = told.collect();
    let reached = match reached {
        Reached::Waiting(at) => format!("waits for {}", spelled(engine, at)),
        Reached::Above(at) => format!("came to {}", spelled(engine, at)),
        other => format!("{other:?}"),
    };
    Ok((reached, told))
}

/// The intentions for a row, and then the row, up to the first that is not granted.
fn lock_with_path<E: Engine>(engine: &mut E, txn: Txn, row: usize, mode: Mode) -> String {
    let store = engine.store();
    let above = [store.file, store.interval(store.keys[row])];
    for node in above {
        let came = path(engine, txn, node, Mode::IX);
        let is_granted = engine
            .store()
            .manager
            .held(txn, node)
            .is_ok_and(|mode| matches!(mode, Mode::IX | Mode::SIX | Mode::X));
        if !is_granted {
            return spelled_answer(engine, came);
        }
    }
    let came = engine.lock(txn, row, mode).map(text);
    spelled_answer(engine, came)
}

fn make<E: Engine>(engine: &mut E, txn: Txn, step: Step) -> String {
    let node = match step {
        Step::Path(place, _) | Step::Leave(place) | Step::Escalate(place) => {
            engine.store().frame[place]
        }
        _ => Node::NONE,
    };
    let came = match step {
        Step::Row(row, mode) => return lock_with_path(engine, txn, row, mode),
        Step::Bare(row, mode) => engine.lock(txn, row, mode).map(text),
        Step::Path(_, mode) => path(engine, txn, node, mode),
        Step::Unlock(row) => engine.unlock(txn, row).map(text),
        Step::Leave(_) => {
            let told = engine.store().manager.unlock(txn, node);
            told.and_then(|told| with((), told)).map(text)
        }
        Step::Rekey(row, key) => {
            let came = engine.rekey(txn, row, key);
            if came.is_ok() {
                engine.store().keys[row] = key;
            }
            came.map(text)
        }
        Step::Escalate(_) => engine.escalate(txn, node).map(text),
        Step::Cancel => engine.cancel(txn).map(text),
        Step::Settle => {
            let told = engine.store().manager.settle(txn);
            told.and_then(|told| with((), told)).map(text)
        }
        Step::Commit => engine.commit(txn).map(text),
        Step::Abort => engine.abort(txn).map(text),
    };
    spelled_answer(engine, came)
}

/// What each transaction holds on each row and may do to it, and who waits for whom.
fn state<E: Engine>(engine: &mut E, txns: &[Txn]) -> String {
    let mut all = String::new();
    for row in 0..ROWS {
        let node = engine.node(row).unwrap_or(Node::NONE);
        for &txn in txns {
            let m = &engine.store().manager;
            let held = m.held(txn, node).unwrap_or(Mode::NL);
            let waits: Vec<usize> = m
                .waits_for(txn)
                .map_or(Vec::new(), |it| it.into_iter().collect());
            all += &format!("{held:?} {waits:?} ");
        }
    }
    all
}

/// Small random numbers (Marsaglia's xorshift).
struct Dice(u64);

impl Dice {
    fn pick(&mut self, sides: usize) -> usize {
        self.0 ^= self.0 << 13;
        self.0 ^= self.0 >> 7;
        self.0 ^= self.0 << 17;
        (self.0 >> 16) as usize % sides
    }

    fn step(&mut self, places: usize) -> Step {
        let (row, place) = (self.pick(ROWS), self.pick(places));
        let mode = [Mode::S, Mode::X][self.pick(2)];
        match self.pick(24) {
            0 => Step::Path(
                place,
                [Mode::IS, Mode::IX, Mode::S, Mode::SIX, Mode::X][self.pick(5)],
            ),
            1 => Step::Bare(row, [mode, Mode::IX][self.pick(2)]),
            2..=4 => Step::Unlock(row),
            5 => Step::Leave(place),
            6..=7 => Step::Rekey(row, self.pick(240) as u64),
            8 => Step::Escalate(place),
            9 => Step::Cancel,
            10 => Step::Settle,
            11..=13 => Step::Commit,
            14 => Step::Abort,
            _ => Step::Row(row, mode),
        }
    }
}

/// Plays with these dice, and answers what the engines counted.
fn run_scenario(options: Options, seed: u64) -> Counters {
    let mut numbers = Numbers(Store::new(options, Manager::add_row_file));
    let mut nodes = Nodes::new(Store::new(options, Manager::add_file));
    let first = frame_in_ix(&mut numbers.0); // As the other has it, so that both count the same.
    let _ = numbers.0.manager.commit(first).unwrap();
    let mut dice = Dice(seed);
    let mut txns = [Txn::NONE; TXNS];
    for _ in 0..STEPS {
        let (who, step) = (dice.pick(TXNS), dice.step(3 + BOUNDS.len() + 1));
        if numbers.0.manager.doing(txns[who]).is_err() {
            txns[who] = numbers.0.manager.begin().unwrap();
            assert_eq!(nodes.0.manager.begin(), Ok(txns[who]));
        }
        let one = make(&mut numbers, txns[who], step);
        let other = make(&mut nodes, txns[who], step);
        assert_eq!(one, other, "{:?}: {step:?}", txns[who]);
        assert_eq!(
            state(&mut numbers, &txns),
            state(&mut nodes, &txns),
            "{step:?}"
        );
    }
    let (ours, theirs) = (numbers.0.manager.counters(), nodes.0.manager.counters());
    assert!(ours.waited > 20 && ours.granted_later > 10 && ours.condemned > 0);
    let accepted = theirs.accepted; // Each node that comes or goes is one more of ours.
    assert_eq!(Counters { accepted, ..ours }, theirs);
    for txn in txns {
        let _ = numbers.abort(txn);
    }
    let left: Vec<usize> = (0..ROWS)
        .filter(|row| numbers.node(*row).is_some())
        .collect();
    assert_eq!(left, []);
    ours
}

#[test]
fn rows_by_number_are_locked_as_nodes() {
    let (mut moved, mut released) = (0, 0);
    for seed in [1, 300, 50_000] {
        for options in [
            Options::new(Detect::AtBlock),
            Options::new(Detect::AtBlock).victims(Victims::Fewest),
            Options::new(Detect::ByWatcher),
        ] {
            let counted = run_scenario(options, seed);
            moved += counted.moved;
            released += counted.released_children;
        }
    }
    assert!(moved > 0 && released > 0);
}
