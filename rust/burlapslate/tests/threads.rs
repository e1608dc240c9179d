//! Sessions in threads that share one manager in a mutex, each asleep while its lock is waited for.

use burlapslate::{
    Asked, Board, Detect, Manager, Mode, Node, Notice, Notices, Refusal, Txn, SLOTS,
};
use std::sync::atomic::{AtomicI64, Ordering};
use std::sync::{Barrier, Condvar, Mutex, MutexGuard};
use std::thread;

const SESSIONS: usize = 8;
const TRANSFERS: usize = 100;
const ACCOUNTS: usize = 4;

/// What the mutex guards.
struct Table {
    manager: Manager,
    /// By slot, how a wait ended.
    ended: [Option<Notice>; SLOTS],
    /// How many waits began, and how many sessions are at work: what a watcher sleeps for.
    waits: usize,
    sessions: usize,
}

/// A manager with a bank of accounts, and where threads sleep.
struct Bank {
    table: Mutex<Table>,
    /// By slot, for the end of a wait.
    woken: [Condvar; SLOTS],
    /// For a watcher.
    changed: Condvar,
    root: Node,
    accounts: [Node; ACCOUNTS],
    /// What lies on each account; to read and to write it are two steps, parted by locks alone.
    balances: [AtomicI64; ACCOUNTS],
}

/// The transaction was a victim, and has to be aborted.
struct Condemned;

impl Bank {
    fn new(detect: Detect, sessions: usize) -> Result<Bank, Refusal> {
        let mut manager = Manager::new(detect, SLOTS)?;
        let root = manager.add_inner(&[])?;
        let mut accounts = [root; ACCOUNTS];
        for account in &mut accounts {
            *account = manager.add_inner(&[root])?;
        }
        let table = Table {
            manager,
            ended: [None; SLOTS],
            waits: 0,
            sessions,
        };
        Ok(Bank {
            table: Mutex::new(table),
            woken: [const { Condvar::new() }; SLOTS],
            changed: Condvar::new(),
            root,
            accounts,
            balances: [const { AtomicI64::new(0) }; ACCOUNTS],
        })
    }

    fn table(&self) -> MutexGuard<'_, Table> {
        self.table.lock().unwrap()
    }

    /// Hands notices on to those who sleep.
    fn hand_on(&self, told: Notices, ended: &mut [Option<Notice>; SLOTS]) {
        for notice in told {
            let slot = notice.txn().slot();
            assert!(ended[slot].is_none(), "a wait ends once");
            ended[slot] = Some(notice);
            self.woken[slot].notify_one();
        }
    }

    fn begin(&self) -> Txn {
        self.table().manager.begin().unwrap()
    }

    fn lock(&self, txn: Txn, node: Node, mode: Mode) -> Result<(), Condemned> {
        let mut guard = self.table();
        let Table {
            manager,
            ended,
            waits,
            ..
        } = &mut *guard;
        let (asked, told) = manager.lock(txn, node, mode).unwrap();
        self.hand_on(told, ended);
        match asked {
            Asked::Granted(_) => Ok(()),
            Asked::Victim => Err(Condemned),
            Asked::Waiting => {
                *waits += 1;
                self.changed.notify_one();
                self.sleep(guard, txn, node)
            }
        }
    }

    /// Sleeps to the end of a wait.
    fn sleep(&self, guard: MutexGuard<Table>, txn: Txn, node: Node) -> Result<(), Condemned> {
        let slot = txn.slot();
        let mut guard = self.woken[slot]
            .wait_while(guard, |table| table.ended[slot].is_none())
            .unwrap();
        match guard.ended[slot].take() {
            Some(Notice::Granted {
                txn: of,
                node: on,
                mode,
            }) => {
                assert!(of == txn && on == node);
                assert_eq!(guard.manager.held(txn, node), Ok(mode));
                Ok(())
            }
            Some(Notice::Victim { txn: of }) => {
                assert_eq!(of, txn);
                Err(Condemned)
            }
            end => panic!("nothing moves or goes here: {end:?}"),
        }
    }

    fn end(&self, txn: Txn, call: impl FnOnce(&mut Manager, Txn) -> Result<Notices<'_>, Refusal>) {
        let mut guard = self.table();
        let Table { manager, ended, .. } = &mut *guard;
        self.hand_on(call(manager, txn).unwrap(), ended);
    }

    /// Moves one from an account to another.
    fn transfer(&self, txn: Txn, from: usize, to: usize) -> Result<(), Condemned> {
        self.lock(txn, self.root, Mode::IX)?;
        self.lock(txn, self.accounts[from], Mode::X)?;
        let rest = self.balances[from].load(Ordering::Relaxed) - 1;
        thread::yield_now();
        self.lock(txn, self.accounts[to], Mode::X)?;
        let more = self.balances[to].load(Ordering::Relaxed) + 1;
        thread::yield_now();
        self.balances[from].store(rest, Ordering::Relaxed);
        self.balances[to].store(more, Ordering::Relaxed);
        Ok(())
    }

    /// Moves one between accounts again and again, each anew where its transaction was a victim.
    fn session(&self, number: usize) {
        for round in 0..TRANSFERS {
            let (from, to) = accounts(number, round);
            loop {
                let txn = self.begin();
                if self.transfer(txn, from, to).is_ok() {
                    self.end(txn, |m, txn| m.commit(txn));
                    break;
                }
                self.end(txn, |m, txn| m.abort(txn));
            }
        }
        self.leave();
    }

    /// A session has ended.
    fn leave(&self) {
        self.table().sessions -= 1;
        self.changed.notify_one();
    }

    /// Looks for cycles of waits whenever a wait began, until all sessions have ended.
    fn watch(&self) {
        let mut board = Board::new();
        let mut seen = 0;
        loop {
            let guard = self.table();
            let is_idle = |table: &mut Table| table.waits == seen && table.sessions > 0;
            let guard = self.changed.wait_while(guard, is_idle).unwrap();
            if guard.sessions == 0 {
                return;
            }
            seen = guard.waits;
            guard.manager.read_board(&mut board);
            drop(guard);
            for suspect in board.suspects().iter().filter_map(|slot| board.txn(slot)) {
                self.settle(suspect);
            }
        }
    }

    /// Settles the suspect of a board, which may have ended since.
    fn settle(&self, suspect: Txn) {
        let mut guard = self.table();
        let Table { manager, ended, .. } = &mut *guard;
        match manager.settle(suspect) {
            Ok(told) => self.hand_on(told, ended),
            Err(refusal) => assert_eq!(refusal, Refusal::NoSuchTxn),
        }
    }

    /// All transfers were made, and nobody lives.
    fn check(&self) {
        let mut wanted = [0; ACCOUNTS];
        for (number, round) in
            (0..SESSIONS).flat_map(|number| (0..TRANSFERS).map(move |round| (number, round)))
        {
            let (from, to) = accounts(number, round);
            wanted[from] -= 1;
            wanted[to] += 1;
        }
        let balances = self
            .balances
            .each_ref()
            .map(|balance| balance.load(Ordering::Relaxed));
        assert_eq!(balances, wanted);
        let table = self.table();
        assert_eq!(table.manager.group(self.root), Ok(Mode::NL));
        assert_eq!(table.manager.board().ages(), &[0; SLOTS]);
        assert_eq!(table.ended, [None; SLOTS]);
    }
}

/// From which account to which other one, so that each order of two comes up.
fn accounts(number: usize, round: usize) -> (usize, usize) {
    let from = (number + round) % ACCOUNTS;
    (
        from,
        (from + 1 + round / ACCOUNTS % (ACCOUNTS - 1)) % ACCOUNTS,
    )
}

/// Sessions transfer, and a watcher looks on.
fn sessions_transfer(detect: Detect) {
    let bank = &Bank::new(detect, SESSIONS).unwrap();
    thread::scope(|scope| {
        scope.spawn(|| bank.watch());
        for number in 0..SESSIONS {
            scope.spawn(move || bank.session(number));
        }
    });
    bank.check();
}

#[test]
fn sessions_with_detection_at_block() {
    sessions_transfer(Detect::AtBlock);
}

#[test]
fn sessions_with_a_watcher() {
    sessions_transfer(Detect::ByWatcher);
}

/// Two that hold S on one node both ask for X there: the younger falls, and the older is granted.
fn two_meet(detect: Detect) {
    let bank = &Bank::new(detect, 2).unwrap();
    let (older, younger) = (bank.begin(), bank.begin());
    let both_hold = Barrier::new(2);
    let convert = |txn| {
        assert!(bank.lock(txn, bank.root, Mode::S).is_ok());
        both_hold.wait();
        let is_victim = bank.lock(txn, bank.root, Mode::X).is_err();
        bank.end(txn, |m, txn| {
            if is_victim {
                m.abort(txn)
            } else {
                m.commit(txn)
            }
        });
        bank.leave();
        is_victim
    };
    let is_victim = thread::scope(|scope| {
        scope.spawn(|| bank.watch());
        let first = scope.spawn(|| convert(older));
        let second = scope.spawn(|| convert(younger));
        [first.join().unwrap(), second.join().unwrap()]
    });
    assert_eq!(is_victim, [false, true]);
}

#[test]
fn two_meet_with_detection_at_block() {
    two_meet(Detect::AtBlock);
}

#[test]
fn two_meet_with_a_watcher() {
    two_meet(Detect::ByWatcher);
}

/// What may go to another thread, and what several may have.
#[test]
fn what_threads_may_do() {
    fn goes<T: Send>() {}
    fn is_shared<T: Sync>() {}
    goes::<Manager>();
    is_shared::<Mutex<Manager>>();
    goes::<Board>();
    is_shared::<Board>();
    goes::<(Node, Txn, Notice, Refusal)>();
    is_shared::<(Node, Txn, Notice, Refusal)>();
}
