//! A crowd over one shared table: threads make random commands of every kind, by both ways of
//! detection and both choices of victims. Those who hold X on an account add to it in two steps, and
//! no addition may be lost; in the end nobody holds or waits, no row has a node, and boards never went
//! back.

use burlapslate::{
    Board, Detect, Keep, Mode, Node, Refusal, Row, RowLocked, Session, Stop, Table, Try, Txn,
    Victims, SLOTS,
};
use std::sync::atomic::{AtomicBool, AtomicU64, Ordering};
use std::sync::Mutex;
use std::thread;
use std::time::Duration;

const SESSIONS: usize = SLOTS;
const ROUNDS: usize = 4;
const ACCOUNTS: usize = 8;
const RECORDS: usize = 24;
const ROWS: usize = 10;

struct Crowd {
    table: Table,
    root: Node,
    areas: [Node; 2],
    files: [Node; 2],
    indexes: [Node; 2],
    /// Files of rows, with an index each.
    row_files: [Node; 2],
    row_indexes: [Node; 2],
    accounts: [Node; ACCOUNTS],
    /// What was added, by those who held the account in X.
    added: [AtomicU64; ACCOUNTS],
    records: Mutex<[Node; RECORDS]>,
    /// Those whose transaction anybody may end.
    game: Mutex<[Txn; SESSIONS]>,
}

impl Crowd {
    fn new(detect: Detect, victims: Victims, slots: usize) -> Result<Crowd, Stop> {
        let table = Table::choosing(detect, victims, slots)?;
        let root = table.add_inner(&[])?;
        let areas = [table.add_inner(&[root])?, table.add_inner(&[root])?];
        let files = [table.add_file(&[areas[0]])?, table.add_file(&[areas[1]])?];
        let mut row_files = [root; 2];
        let (mut indexes, mut row_indexes) = ([root; 2], [root; 2]);
        for i in 0..2 {
            indexes[i] = table.add_index(&[areas[i]], files[i], &[100, 200])?;
            row_files[i] = table.add_row_file(&[areas[i]])?;
            row_indexes[i] = table.add_index(&[areas[i]], row_files[i], &[100, 200])?;
        }
        let mut accounts = [root; ACCOUNTS];
        for account in &mut accounts {
            *account = table.add_inner(&[root])?;
        }
        let mut records = [root; RECORDS];
        let mut session = table.begin()?;
        for (i, record) in records.iter_mut().enumerate() {
            let key = i as u64 * 12;
            let interval = table.with(|m| m.interval_of(indexes[i % 2], key))?;
            session.lock_path(interval, Mode::IX)?;
            session.lock_path(files[i % 2], Mode::IX)?;
            *record = session.insert(files[i % 2], &[key])?;
        }
        session.commit()?;
        Ok(Crowd {
            table,
            root,
            areas,
            files,
            indexes,
            row_files,
            row_indexes,
            accounts,
            added: [const { AtomicU64::new(0) }; ACCOUNTS],
            records: Mutex::new(records),
            game: Mutex::new([Txn::NONE; SESSIONS]),
        })
    }
}

/// A session, with small random numbers of its own (Marsaglia's xorshift).
struct Member<'c> {
    crowd: &'c Crowd,
    number: usize,
    dice: u64,
    /// Whether anybody may end its transaction.
    is_game: bool,
    adds: [u64; ACCOUNTS],
    times_victim: usize,
}

impl Member<'_> {
    fn pick(&mut self, sides: usize) -> usize {
        self.dice ^= self.dice << 13;
        self.dice ^= self.dice >> 7;
        self.dice ^= self.dice << 17;
        (self.dice >> 16) as usize % sides
    }

    fn record(&mut self) -> Node {
        let place = self.pick(RECORDS);
        self.crowd.records.lock().unwrap()[place]
    }

    fn node(&mut self) -> Node {
        let (i, account) = (self.pick(2), self.pick(ACCOUNTS));
        match self.pick(7) {
            0 => self.crowd.root,
            1 => self.crowd.areas[i],
            2 => self.crowd.files[i],
            3 => self.crowd.indexes[i],
            4 => self.crowd.accounts[account],
            5 => self.crowd.row_files[i],
            _ => self.record(),
        }
    }

    fn mode(&mut self) -> Mode {
        [Mode::IS, Mode::IX, Mode::IX, Mode::S, Mode::SIX, Mode::X][self.pick(6)]
    }

    /// Locks a path, sometimes within a time.
    fn path(&mut self, session: &mut Session<'_>, node: Node, mode: Mode) -> Result<Mode, Stop> {
        if self.pick(4) != 0 {
            return session.lock_path(node, mode);
        }
        let time = Duration::from_micros(200 + self.pick(2000) as u64);
        session.lock_path_timeout(node, mode, time)
    }

    fn add(&mut self, session: &mut Session<'_>) -> Result<(), Stop> {
        let i = self.pick(ACCOUNTS);
        self.path(session, self.crowd.accounts[i], Mode::X)?;
        self.add_to(i);
        Ok(())
    }

    /// Adds to an account that is held in X.
    fn add_to(&mut self, i: usize) {
        if !self.is_game {
            let before = self.crowd.added[i].load(Ordering::Relaxed);
            thread::yield_now();
            self.crowd.added[i].store(before + 1, Ordering::Relaxed);
            self.adds[i] += 1;
        }
    }

    fn insert(&mut self, session: &mut Session<'_>) -> Result<(), Stop> {
        let (i, place, key) = (self.pick(2), self.pick(RECORDS), self.pick(300) as u64);
        let interval = self
            .crowd
            .table
            .with(|m| m.interval_of(self.crowd.indexes[i], key))?;
        self.path(session, interval, Mode::IX)?;
        self.path(session, self.crowd.files[i], Mode::IX)?;
        let record = session.insert(self.crowd.files[i], &[key])?;
        self.crowd.records.lock().unwrap()[place] = record;
        Ok(())
    }

    /// What is held above a row with this key, and above the row's node where that has another.
    fn above_row(&mut self, session: &mut Session<'_>, i: usize, key: u64) -> Result<(), Stop> {
        let index = self.crowd.row_indexes[i];
        let interval = self.crowd.table.with(|m| m.interval_of(index, key))?;
        self.path(session, interval, Mode::IX)?;
        self.path(session, self.crowd.row_files[i], Mode::IX)?;
        Ok(())
    }

    /// A row by its number, with one of two keys. Where its node has the other one the row is rekeyed, or
    /// given back where it is held to be read.
    fn row(&mut self, session: &mut Session<'_>, mode: Mode) -> Result<(), Stop> {
        let (i, number) = (self.pick(2), self.pick(ROWS) as u64);
        let key = number * 29 + [0, 0, 100][self.pick(3)];
        let row = Row {
            file: self.crowd.row_files[i],
            number,
        };
        self.above_row(session, i, key)?;
        let locked = if self.pick(4) != 0 {
            session.lock_row(row, &[key], mode)
        } else {
            let time = Duration::from_micros(200 + self.pick(2000) as u64);
            session.lock_row_timeout(row, &[key], mode, time)
        };
        match locked? {
            RowLocked::Own(_) => Ok(()),
            RowLocked::OtherKeys(Mode::X) => {
                Ok(session.rekey_row(row, self.crowd.row_indexes[i], key)?)
            }
            RowLocked::OtherKeys(_) => Ok(session.unlock_row(row)?),
        }
    }

    /// The first of two accounts that is free, with something added to it.
    fn skip(&mut self, session: &mut Session<'_>) -> Result<(), Stop> {
        let accounts = [self.pick(ACCOUNTS), self.pick(ACCOUNTS)];
        let tries = accounts.map(|account| Try::Path {
            node: self.crowd.accounts[account],
            mode: Mode::X,
            keep: Keep::Nothing,
        });
        if let Some(taken) = session.try_first(&tries)? {
            self.add_to(accounts[taken.place]);
        }
        Ok(())
    }

    /// The first of two rows that is free.
    fn skip_rows(&mut self, session: &mut Session<'_>) -> Result<(), Stop> {
        let (i, key) = (self.pick(2), self.pick(100) as u64);
        let file = self.crowd.row_files[i];
        self.above_row(session, i, key)?;
        let keys = [key];
        let tries = [0, 1].map(|_| Try::Row {
            row: Row {
                file,
                number: self.pick(ROWS) as u64,
            },
            keys: &keys,
            mode: Mode::X,
        });
        session.try_first(&tries)?;
        Ok(())
    }

    fn rekey(&mut self, session: &mut Session<'_>) -> Result<(), Stop> {
        let (record, i, key) = (self.record(), self.pick(2), self.pick(300) as u64);
        self.path(session, record, Mode::X)?;
        let interval = self
            .crowd
            .table
            .with(|m| m.interval_of(self.crowd.indexes[i], key))?;
        self.path(session, interval, Mode::IX)?;
        Ok(session.rekey(record, self.crowd.indexes[i], key)?)
    }

    fn move_file(&mut self, session: &mut Session<'_>) -> Result<(), Stop> {
        let (file, area) = (
            self.crowd.files[self.pick(2)],
            self.crowd.areas[self.pick(2)],
        );
        self.path(session, file, Mode::X)?;
        self.path(session, area, Mode::IX)?;
        Ok(session.move_node(file, &[area])?)
    }

    fn meddle(&mut self) -> Result<(), Stop> {
        let place = self.pick(SESSIONS);
        let whom = self.crowd.game.lock().unwrap()[place];
        match self.pick(3) {
            0 => self.crowd.table.abort(whom)?,
            1 => self.crowd.table.settle(whom).map(drop)?,
            _ => self.crowd.table.cancel(whom)?,
        }
        Ok(())
    }

    fn command(&mut self, session: &mut Session<'_>) -> Result<(), Stop> {
        let (node, mode) = (self.node(), self.mode());
        match self.pick(20) {
            0 => session.lock(node, mode).map(drop)?,
            1 => session.try_lock(node, mode).map(drop)?,
            2 => session.unlock(node)?,
            3 => session.escalate(node).map(drop)?,
            4 => self.insert(session)?,
            5 => {
                let record = self.record();
                self.path(session, record, Mode::X)?;
                session.delete(record)?;
            }
            6 => self.rekey(session)?,
            7 => self.move_file(session)?,
            8 => self.meddle()?,
            16 | 17 => self.row(session, mode)?,
            18 => {
                let (i, number) = (self.pick(2), self.pick(ROWS) as u64);
                let file = self.crowd.row_files[i];
                session.unlock_row(Row { file, number })?;
            }
            11 => self.skip(session)?,
            12 => self.skip_rows(session)?,
            13 => session.try_lock_path(node, mode, Keep::Way).map(drop)?,
            9 | 10 => {
                let record = self.record();
                self.path(session, record, Mode::S).map(drop)?;
            }
            _ => self.add(session)?,
        }
        Ok(())
    }

    fn transaction(&mut self) {
        let mut session = self.crowd.table.begin_in_turn().unwrap();
        self.is_game = self.pick(6) == 0;
        let name = if self.is_game {
            session.txn()
        } else {
            Txn::NONE
        };
        self.crowd.game.lock().unwrap()[self.number] = name;
        let mut end = Ok(());
        for _ in 0..=self.pick(6) {
            end = self.command(&mut session);
            if matches!(
                end,
                Err(Stop::Victim | Stop::Refused(Refusal::TxnCondemned))
            ) {
                break;
            }
        }
        self.times_victim += usize::from(end == Err(Stop::Victim));
        self.crowd.game.lock().unwrap()[self.number] = Txn::NONE;
        if end == Err(Stop::Victim) || self.pick(8) == 0 {
            return; // It is dropped, and so aborted.
        }
        let end = session.commit();
        assert!(
            end.is_ok() || self.is_game || end == Err(Refusal::TxnCondemned),
            "{end:?}"
        );
    }
}

/// Looks on until all is over: epochs never fall, and at block there is no suspect.
fn look_on(crowd: &Crowd, detect: Detect, is_over: &AtomicBool) {
    let mut watcher = crowd.table.watch().unwrap();
    let mut board = Board::new();
    let mut epoch = 0;
    while !is_over.load(Ordering::Relaxed) {
        watcher.look(&mut board);
        assert!(board.epoch() >= epoch);
        epoch = board.epoch();
        assert!(detect == Detect::ByWatcher || board.suspects().is_empty());
    }
}

fn run_crowd(detect: Detect, victims: Victims, slots: usize) {
    let crowd = Crowd::new(detect, victims, slots).unwrap();
    let is_over = AtomicBool::new(false);
    let members = thread::scope(|scope| {
        scope.spawn(|| look_on(&crowd, detect, &is_over));
        if detect == Detect::ByWatcher {
            scope.spawn(|| crowd.table.watch_over(Duration::ZERO).unwrap());
        }
        let sessions: Vec<_> = (0..SESSIONS)
            .map(|number| {
                let crowd = &crowd;
                scope.spawn(move || {
                    let mut member = Member {
                        crowd,
                        number,
                        dice: 0x9e37_79b9_7f4a_7c15u64.wrapping_mul(number as u64 + 1),
                        is_game: false,
                        adds: [0; ACCOUNTS],
                        times_victim: 0,
                    };
                    for _ in 0..ROUNDS {
                        member.transaction();
                    }
                    (member.adds, member.times_victim)
                })
            })
            .collect();
        let members: Vec<_> = sessions.into_iter().map(|it| it.join().unwrap()).collect();
        is_over.store(true, Ordering::Relaxed);
        crowd.table.end_watch();
        members
    });
    for i in 0..ACCOUNTS {
        let sum: u64 = members.iter().map(|(adds, _)| adds[i]).sum();
        assert_eq!(
            crowd.added[i].load(Ordering::Relaxed),
            sum,
            "an addition is lost"
        );
    }
    crowd.table.with(|m| {
        assert_eq!(m.transactions().count(), 0);
        assert_eq!(m.group(crowd.root), Ok(Mode::NL));
        for (file, number) in crowd
            .row_files
            .iter()
            .flat_map(|file| (0..ROWS).map(move |i| (*file, i)))
        {
            let number = number as u64;
            assert_eq!(m.row_node(Row { file, number }), None);
        }
        let times_victim: usize = members.iter().map(|(_, times_victim)| times_victim).sum();
        assert!(m.counters().condemned >= times_victim as u64);
    });
}

#[test]
fn a_crowd_at_block() {
    run_crowd(Detect::AtBlock, Victims::Youngest, SLOTS);
    run_crowd(Detect::AtBlock, Victims::Fewest, SLOTS);
}

#[test]
fn a_crowd_by_watcher() {
    run_crowd(Detect::ByWatcher, Victims::Youngest, SLOTS);
    run_crowd(Detect::ByWatcher, Victims::Fewest, SLOTS);
}

#[test]
fn a_crowd_over_fewer_slots() {
    run_crowd(Detect::AtBlock, Victims::Youngest, 16);
    run_crowd(Detect::ByWatcher, Victims::Youngest, 16);
}
