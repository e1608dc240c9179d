//! Stories of a group of tables: each call, each refusal, threads in different parts, deadlocks over several parts, and
//! sessions that are dropped.

#![cfg(target_pointer_width = "64")]

mod world;

use burlapslate::{
    Counters, Detect, Escalated, Group, GroupMark, GroupSession, Keep, Kind, Mode, Node, Options,
    Refusal, Row, RowLocked, Stop, Table, Tried, MOST_PARTS, SLOTS,
};
use std::panic::{catch_unwind, AssertUnwindSafe, RefUnwindSafe, UnwindSafe};
use std::sync::atomic::{AtomicI64, AtomicUsize, Ordering};
use std::sync::Arc;
use std::thread;
use std::time::{Duration, Instant};
use world::{foreign, inserted, made, World, PARTS};

/// What may go to another thread, and what several may have.
#[test]
fn what_threads_may_do() {
    fn goes<T: Send>() {}
    fn is_shared<T: Sync>() {}
    goes::<(Group, GroupSession<'_>, GroupSession<'static>, GroupMark)>();
    is_shared::<(Group, GroupMark)>();
    fn is_unwound<T: UnwindSafe + RefUnwindSafe>() {}
    is_unwound::<(Group, GroupSession<'_>, GroupSession<'static>, GroupMark)>();
}

#[test]
fn groups_are_made_by_options() {
    let no_group = |options, parts| Group::with_options(options, parts).err();
    let options = Options::new(Detect::AtBlock);
    for parts in [0, MOST_PARTS + 1, usize::MAX] {
        assert_eq!(no_group(options, parts), Some(Refusal::BadNumber));
    }
    for wrong in [
        options.transactions(0),
        options.transactions(SLOTS + 1),
        options.nodes(0),
    ] {
        assert_eq!(no_group(wrong, 1), Some(Refusal::BadNumber));
    }
    assert_eq!(no_group(Options::new(Detect::ByWatcher), 1), None);
    for parts in [1, MOST_PARTS] {
        let group = Group::with_options(options.transactions(1).nodes(2), parts).unwrap();
        assert_eq!(group.parts(), parts);
        assert_eq!(
            format!("{group:?}"),
            format!("Group {{ parts: {parts}, .. }}")
        );
        let base = group.add_inner(&[]).unwrap();
        let file = group.add_file_in(parts, &[base]).unwrap();
        assert_eq!(Group::table_of(file), parts);
        assert_eq!(group.add_inner(&[]), Err(Refusal::TooManyNodes));
        let only = group.begin().unwrap();
        assert_eq!(group.begin().err(), Some(Refusal::TooManyTxns));
        only.commit().unwrap();
    }
}

#[test]
fn files_are_in_parts() {
    let w = World::new();
    let turns = [(); PARTS].map(|()| Group::table_of(w.group.add_file(&[w.area]).unwrap()));
    let mut parts = turns;
    parts.sort_unstable();
    assert_eq!(parts, [1, 2, 3]);
    let rows = w.group.add_row_file(&[w.base]).unwrap();
    assert_eq!(Group::table_of(rows), turns[0]);
    assert_eq!(Group::table_of(w.area), 0);
    for part in 1..=PARTS {
        for node in [
            w.files[part - 1],
            w.row_files[part - 1],
            w.indexes[part - 1],
        ] {
            assert_eq!(Group::table_of(node), part);
        }
    }
}

/// A row of a spread file is locked, tried, unlocked and escalated in its part.
#[test]
fn rows_of_spread_files_are_in_all_parts() {
    let w = World::new();
    let file = w.group.add_spread_file(&[w.area]).unwrap();
    assert_eq!(Group::table_of(file), 0);
    let row = |number| Row { file, number };
    let within = |number| w.group.file_of_row(row(number)).unwrap();
    for part in 1..=PARTS {
        let share = (0..30).filter(|number| Group::table_of(within(*number)) == part);
        assert!((8..=12).contains(&share.count()));
    }
    let (mut first, mut second) = (w.begin(), w.begin());
    for number in 0..30 {
        let locked = first.lock_row_path(row(number), &[], Mode::X);
        assert_eq!(locked, Ok(RowLocked::Own(Mode::X)));
        assert_eq!(first.held(within(number)), Ok(Mode::IX));
        let tried = second.try_lock_row_path(row(number), &[], Mode::S, Keep::Nothing);
        let Ok(Tried::WouldBlock(node)) = tried else {
            panic!("{tried:?}");
        };
        assert_eq!(first.held(node), Ok(Mode::X));
        assert_eq!(Group::table_of(node), Group::table_of(within(number)));
        let late = second.lock_row_path_timeout(row(number), &[], Mode::S, Duration::ZERO);
        assert_eq!(late, Err(Stop::TimedOut));
    }
    first.unlock_row(row(7)).unwrap();
    assert_eq!(first.unlock_row(row(7)), Err(Refusal::NoSuchNode));
    let locked = second.lock_row_path(row(7), &[], Mode::X);
    assert_eq!(locked, Ok(RowLocked::Own(Mode::X)));
    second.commit().unwrap();
    assert_eq!(first.held(file), Ok(Mode::IX));
    let escalated = first.escalate(within(7)).unwrap();
    assert_eq!((escalated.mode, escalated.kept), (Mode::X, 0));
    assert_eq!(first.held(within(7)), Ok(Mode::X));
    first.commit().unwrap();
}

#[test]
fn spread_files_are_locked_as_a_whole() {
    let w = World::new();
    let file = w.group.add_spread_file(&[w.area]).unwrap();
    for number in 0..6 {
        let row = Row { file, number };
        let (mut writer, mut reader) = (w.begin(), w.begin());
        let own = |mode| Ok(RowLocked::Own(mode));
        assert_eq!(writer.lock_row_path(row, &[], Mode::X), own(Mode::X));
        let reads = reader.txn();
        thread::scope(|scope| {
            let reading = scope.spawn(|| reader.lock_path(file, Mode::S));
            w.await_wait(0, reads);
            writer.commit().unwrap();
            assert_eq!(reading.join().unwrap(), Ok(Mode::S));
        });
        let mut late = w.begin();
        let tried = late.try_lock_row_path(row, &[], Mode::X, Keep::Nothing);
        assert_eq!(tried, Ok(Tried::WouldBlock(file)));
        assert_eq!(late.lock_row_path(row, &[], Mode::S), own(Mode::S));
        reader.commit().unwrap();
        assert_eq!(late.lock_row_path(row, &[], Mode::X), own(Mode::X));
        late.commit().unwrap();
    }
}

#[test]
fn wrong_uses_of_spread_files_are_refused() {
    let w = World::new();
    let group = &w.group;
    let file = group.add_spread_file(&[w.area]).unwrap();
    let wrong = Err(Refusal::BadParents);
    for parents in [&[][..], &[file], &[w.base, file], &[w.base, w.base]] {
        assert_eq!(group.add_spread_file(parents), wrong);
    }
    assert_eq!(group.add_spread_file(&[w.base; 9]), Err(Refusal::BadNumber));
    assert_eq!(group.add_inner(&[file]), wrong);
    assert_eq!(group.add_file(&[file]), wrong);
    assert_eq!(group.add_row_file_in(1, &[file]), wrong);
    let mut session = w.begin();
    for number in 0..6 {
        let within = group.file_of_row(Row { file, number }).unwrap();
        assert_eq!(group.add_index(&[w.base], within, &[]), wrong);
        let part = Group::table_of(within);
        assert_eq!(group.add_file_in(part, &[within]), wrong);
        let direct = Row {
            file: within,
            number,
        };
        assert_eq!(group.file_of_row(direct), Err(Refusal::NotRows));
        let end = session.lock_row_path(direct, &[], Mode::S);
        assert_eq!(end, Err(Stop::Refused(Refusal::NotRows)));
        assert_eq!(session.unlock_row(direct), Err(Refusal::NotRows));
        session.lock_path(within, Mode::X).unwrap();
        assert_eq!(session.drop_node(within), Err(Refusal::BadParents));
        let made = session.index_by(&[w.base], within, &[]);
        assert_eq!(made, Err(Refusal::BadParents));
    }
    for node in [file, group.file_of_row(Row { file, number: 1 }).unwrap()] {
        assert_eq!(session.insert(node, &[]), Err(Refusal::RowsByNumber));
        assert_eq!(group.adopt(node, &[]), Err(Refusal::RowsByNumber));
    }
    assert_eq!(session.escalate(file), Err(Refusal::BadParents));
    assert_eq!(session.unlock(file), Err(Refusal::BadParents));
    assert_eq!(session.drop_node(file), Err(Refusal::BadParents));
    let row = Row { file, number: 1 };
    let end = session.lock_row_path(row, &[5], Mode::S);
    assert_eq!(end, Err(Stop::Refused(Refusal::BadKeys)));
    let keyed = session.rekey_row(row, w.row_indexes[0], 1);
    assert_eq!(keyed, Err(Refusal::NoSuchNode));
    let base = Row {
        file: w.base,
        number: 1,
    };
    assert_eq!(group.file_of_row(base), Err(Refusal::NotRows));
    session.commit().unwrap();
}

#[test]
fn wrong_graphs_are_refused() {
    let w = World::new();
    let (group, nine) = (&w.group, [w.base; 9]);
    let (none, beyond) = foreign();
    for part in [0, PARTS + 1, usize::MAX] {
        let wrong = Err(Refusal::BadNumber);
        assert_eq!(group.add_file_in(part, &[w.base]), wrong);
        assert_eq!(group.add_row_file_in(part, &[w.base]), wrong);
    }
    assert_eq!(group.add_inner(&nine), Err(Refusal::BadNumber));
    assert_eq!(group.add_file(&nine), Err(Refusal::BadNumber));
    assert_eq!(
        group.add_index(&nine, w.files[0], &[]),
        Err(Refusal::BadNumber)
    );
    for node in [none, beyond, w.files[0], Node::NONE] {
        assert_eq!(group.add_inner(&[node]), Err(Refusal::NoSuchNode));
    }
    assert_eq!(group.add_inner(&nine[..2]), Err(Refusal::BadParents));
    assert_eq!(
        group.add_file_in(1, &w.files[1..2]),
        Err(Refusal::NoSuchNode)
    );
    assert_eq!(
        group.add_file_in(1, &w.files[..1]),
        Err(Refusal::BadParents)
    );
    assert_eq!(group.add_file(&[]), Err(Refusal::BadParents));
    let by = |file, bounds| group.add_index(&[w.base], file, bounds);
    assert_eq!(by(w.base, &[]), Err(Refusal::BadParents));
    assert_eq!(by(beyond, &[]), Err(Refusal::NoSuchNode));
    assert_eq!(by(w.files[0], &[5]), Err(Refusal::FileInUse));
    let fresh = group.add_file(&[w.base]).unwrap();
    assert_eq!(by(fresh, &[5, 4]), Err(Refusal::BadKeys));
    assert_eq!(group.adopt(w.base, &[1]), Err(Refusal::BadParents));
    assert_eq!(group.adopt(beyond, &[1]), Err(Refusal::NoSuchNode));
    assert_eq!(group.adopt(w.files[0], &[]), Err(Refusal::BadKeys));
    assert_eq!(group.forget(w.base), Err(Refusal::BadParents));
    assert_eq!(group.forget(w.files[0]), Err(Refusal::BadParents));
}

#[test]
fn wrong_requests_are_refused() {
    let w = World::new();
    let (none, beyond) = foreign();
    let mut session = w.begin();
    let s = &mut session;
    let locks = |s: &mut GroupSession<'_>, node, mode| s.lock_path(node, mode).unwrap_err();
    for (node, mode) in [
        (w.base, Mode::NL),
        (w.files[0], Mode::NL),
        (w.records[0][0], Mode::IX),
    ] {
        assert_eq!(locks(s, node, mode), Stop::Refused(Refusal::BadMode));
    }
    for node in [none, beyond, Node::NONE] {
        let end = locks(s, node, Mode::S);
        assert_eq!(end, Stop::Refused(Refusal::NoSuchNode));
        assert_eq!(s.held(node), Err(Refusal::NoSuchNode));
    }
    for file in [w.base, beyond, w.files[0]] {
        let row = Row { file, number: 1 };
        let end = s.lock_row_path(row, &[5], Mode::S);
        assert_eq!(end, Err(Stop::Refused(Refusal::NotRows)));
        assert_eq!(s.unlock_row(row), Err(Refusal::NotRows));
        assert_eq!(s.rekey_row(row, w.indexes[0], 1), Err(Refusal::NotRows));
    }
    let end = s.lock_row_path(w.row(1), &[], Mode::S);
    assert_eq!(end, Err(Stop::Refused(Refusal::BadKeys)));
    assert_eq!(s.unlock_row(w.row(1)), Err(Refusal::NoSuchNode));
    assert_eq!(
        s.rekey_row(w.row(1), w.row_indexes[0], 1),
        Err(Refusal::NoSuchNode)
    );
    assert_eq!(s.insert(w.base, &[]), Err(Refusal::BadParents));
    assert_eq!(s.insert(w.records[0][0], &[]), Err(Refusal::BadParents));
    assert_eq!(s.insert(beyond, &[]), Err(Refusal::NoSuchNode));
    assert_eq!(s.insert(w.row_files[0], &[5]), Err(Refusal::RowsByNumber));
    assert_eq!(s.delete(w.area), Err(Refusal::BadParents));
    assert_eq!(s.delete(w.records[0][0]), Err(Refusal::NeedExclusive));
    assert_eq!(s.rekey(w.base, w.indexes[0], 1), Err(Refusal::BadParents));
    assert_eq!(s.escalate(w.base), Err(Refusal::BadParents));
    assert_eq!(s.escalate(w.files[0]), Err(Refusal::NotHeld));
    s.lock_path(w.records[0][0], Mode::X).unwrap();
    assert_eq!(
        s.rekey(w.records[0][0], w.indexes[1], 1),
        Err(Refusal::NoSuchNode) // The index is in another part.
    );
    assert_eq!(w.group.forget(w.records[0][0]), Err(Refusal::RecordInUse));
    session.commit().unwrap();
}

#[test]
fn records_come_and_go() {
    let w = World::new();
    for part in 1..=PARTS {
        let (file, index) = (w.files[part - 1], w.indexes[part - 1]);
        let mut session = w.begin();
        let record = inserted(&mut session, file, 10);
        assert_eq!(session.held(record), Ok(Mode::X));
        for node in [w.base, w.area, file, index] {
            assert_eq!(session.held(node), Ok(Mode::IX));
        }
        let above = w.interval(part, index, 1);
        let lacks = Err(Refusal::NeedParents(above));
        assert_eq!(session.rekey(record, index, 150), lacks);
        session.lock_path(above, Mode::IX).unwrap();
        session.rekey(record, index, 150).unwrap();
        let key = w.group.with_table(part, |m| {
            let name = w.group.name_in(record, part).unwrap();
            m.key(name, 0)
        });
        assert_eq!(key, Ok(Some(150)));
        session.delete(record).unwrap();
        assert_eq!(session.held(record), Err(Refusal::NoSuchNode));
        session.commit().unwrap();
        let known = w.group.adopt(file, &[60]).unwrap();
        assert_eq!(w.begin().lock_path(known, Mode::S), Ok(Mode::S));
        w.group.forget(known).unwrap();
        assert_eq!(w.group.forget(known), Err(Refusal::NoSuchNode));
    }
}

#[test]
fn inserts_are_tried() {
    let w = World::new();
    let (mut reader, mut writer) = (w.begin(), w.begin());
    reader.lock_path(w.files[1], Mode::S).unwrap();
    let tried = writer.insert(w.files[1], &[1]);
    assert_eq!(tried, Ok(Tried::WouldBlock(w.files[1])));
    assert_eq!(writer.held(w.base), Ok(Mode::NL));
    reader.commit().unwrap();
    let mut backup = w.begin();
    backup.lock_path(w.area, Mode::S).unwrap();
    let tried = writer.insert(w.files[1], &[1]);
    assert_eq!(tried, Ok(Tried::WouldBlock(w.area)));
    backup.abort();
    inserted(&mut writer, w.files[1], 1);
    writer.abort();
}

/// A path that would block names the node, and keeps its way or gives it back.
#[test]
fn paths_are_tried() {
    let w = World::new();
    let (mut holder, mut session) = (w.begin(), w.begin());
    let (record, way) = (w.records[1][0], [w.base, w.area, w.files[1]]);
    let has = |s: &GroupSession<'_>, mode| way.iter().all(|node| s.held(*node) == Ok(mode));
    let tried = holder.try_lock_path(record, Mode::X, Keep::Nothing);
    assert_eq!(tried, Ok(Tried::Locked(Mode::X)));
    assert!(has(&holder, Mode::IX));
    let blocked = Ok(Tried::WouldBlock(record));
    let tried = session.try_lock_path(record, Mode::S, Keep::Nothing);
    assert_eq!(tried, blocked);
    assert!(has(&session, Mode::NL));
    assert_eq!(session.try_lock_path(record, Mode::S, Keep::Way), blocked);
    assert!(has(&session, Mode::IS));
    // These are converted, and stay: no mode is ever lowered.
    let tried = session.try_lock_path(record, Mode::X, Keep::Nothing);
    assert_eq!(tried, blocked);
    assert!(has(&session, Mode::IX));
    assert_eq!(session.held(w.indexes[1]), Ok(Mode::NL));
    holder.commit().unwrap();
    let mut reader = w.begin();
    let below = w.interval(2, w.indexes[1], 0);
    let tried = reader.try_lock_path(below, Mode::S, Keep::Nothing);
    assert_eq!(tried, Ok(Tried::Locked(Mode::S)));
    let tried = session.try_lock_path(record, Mode::X, Keep::Nothing);
    assert_eq!(tried, Ok(Tried::WouldBlock(below))); // It is above the record.
    reader.commit().unwrap();
    let tried = session.try_lock_path(record, Mode::X, Keep::Nothing);
    assert_eq!(tried, Ok(Tried::Locked(Mode::X)));
    session.commit().unwrap();
}

/// An inner node is tried against what is held below it in all parts, and a path below it against its readers.
#[test]
fn inner_nodes_are_tried() {
    let w = World::new();
    let (mut writer, mut reader) = (w.begin(), w.begin());
    writer.lock_path(w.records[2][0], Mode::X).unwrap();
    for (keep, above) in [(Keep::Nothing, Mode::NL), (Keep::Way, Mode::IS)] {
        let tried = reader.try_lock_path(w.area, Mode::S, keep);
        assert_eq!(tried, Ok(Tried::WouldBlock(w.area)));
        assert_eq!(reader.held(w.area), Ok(Mode::NL));
        assert_eq!(reader.held(w.base), Ok(above));
    }
    let tried = reader.try_lock_path(w.area, Mode::IX, Keep::Nothing);
    assert_eq!(tried, Ok(Tried::Locked(Mode::IX)));
    writer.commit().unwrap();
    let tried = reader.try_lock_path(w.area, Mode::S, Keep::Nothing);
    assert_eq!(tried, Ok(Tried::Locked(Mode::SIX)));
    let record = w.records[0][0];
    let tried = reader.try_lock_path(record, Mode::X, Keep::Nothing);
    assert_eq!(tried, Ok(Tried::Locked(Mode::X)));
    // What a try acquires in the main table stays, whether it stops there or in the part.
    let mut other = w.begin();
    for (mode, stops, above) in [
        (Mode::X, w.area, [Mode::IX, Mode::NL]),
        (Mode::S, record, [Mode::IX, Mode::IS]),
    ] {
        let tried = other.try_lock_path(record, mode, Keep::Nothing);
        assert_eq!(tried, Ok(Tried::WouldBlock(stops)));
        assert_eq!(
            [w.base, w.area].map(|node| other.held(node).unwrap()),
            above
        );
        assert_eq!(other.held(w.files[0]), Ok(Mode::NL));
    }
    let tried = other.try_lock_path(w.records[1][0], Mode::S, Keep::Nothing);
    assert_eq!(tried, Ok(Tried::Locked(Mode::S)));
    reader.commit().unwrap();
    other.commit().unwrap();
}

#[test]
fn row_paths_are_tried() {
    let w = World::new();
    for part in 1..=PARTS {
        let (row, way) = (w.row(part), [w.base, w.area, w.row_files[part - 1]]);
        let has = |s: &GroupSession<'_>, mode| way.iter().all(|node| s.held(*node) == Ok(mode));
        let (mut holder, mut session) = (w.begin(), w.begin());
        let own = holder.try_lock_row_path(row, &[50], Mode::X, Keep::Nothing);
        assert_eq!(own, Ok(Tried::Locked(RowLocked::Own(Mode::X))));
        let blocked = Ok(Tried::WouldBlock(w.row_node(part)));
        let tried = session.try_lock_row_path(row, &[50], Mode::S, Keep::Nothing);
        assert_eq!(tried, blocked);
        assert!(has(&session, Mode::NL));
        let tried = session.try_lock_row_path(row, &[50], Mode::S, Keep::Way);
        assert_eq!(tried, blocked);
        assert!(has(&session, Mode::IS));
        let other = holder.try_lock_row_path(row, &[150], Mode::X, Keep::Nothing);
        assert_eq!(other, Ok(Tried::Locked(RowLocked::OtherKeys(Mode::X))));
        holder.commit().unwrap();
        let mut backup = w.begin();
        backup.lock_path(w.area, Mode::S).unwrap();
        let tried = session.try_lock_row_path(row, &[50], Mode::X, Keep::Nothing);
        assert_eq!(tried, Ok(Tried::WouldBlock(w.area)));
        backup.commit().unwrap();
        let own = session.try_lock_row_path(row, &[50], Mode::X, Keep::Nothing);
        assert_eq!(own, Ok(Tried::Locked(RowLocked::Own(Mode::X))));
        session.commit().unwrap();
    }
}

/// A try is refused as the lock is, and then nothing is locked.
#[test]
fn wrong_tries_are_refused() {
    let w = World::new();
    let (none, beyond) = foreign();
    let (mut session, record, row) = (w.begin(), w.records[0][0], w.row(1));
    let s = &mut session;
    for keep in [Keep::Nothing, Keep::Way] {
        for (node, mode) in [
            (w.base, Mode::NL),
            (w.files[0], Mode::NL),
            (record, Mode::IX),
        ] {
            assert_eq!(s.try_lock_path(node, mode, keep), Err(Refusal::BadMode));
        }
        for node in [none, beyond, Node::NONE] {
            let tried = s.try_lock_path(node, Mode::S, keep);
            assert_eq!(tried, Err(Refusal::NoSuchNode));
        }
        for file in [w.base, beyond, w.files[0]] {
            let tried = s.try_lock_row_path(Row { file, number: 1 }, &[5], Mode::S, keep);
            assert_eq!(tried, Err(Refusal::NotRows));
        }
        let tried = s.try_lock_row_path(row, &[], Mode::S, keep);
        assert_eq!(tried, Err(Refusal::BadKeys));
        let tried = s.try_lock_row_path(row, &[5], Mode::IS, keep);
        assert_eq!(tried, Err(Refusal::BadMode));
        let tried = w.group.with_table(1, |_| {
            let path = s.try_lock_path(record, Mode::S, keep).err();
            (path, s.try_lock_row_path(row, &[5], Mode::S, keep).err())
        });
        assert_eq!(tried, Ok((Some(Refusal::InUse), Some(Refusal::InUse))));
        for node in [w.base, w.area, w.files[0], w.row_files[0]] {
            assert_eq!(s.held(node), Ok(Mode::NL));
        }
    }
    session.commit().unwrap();
}

/// One that would have closed a cycle of waits over two parts condemns nobody.
#[test]
fn a_try_condemns_nobody() {
    let w = World::new();
    let (mut older, mut younger) = (w.group.begin_again(0).unwrap(), w.begin());
    older.lock_path(w.records[0][0], Mode::X).unwrap();
    younger.lock_path(w.records[1][0], Mode::X).unwrap();
    thread::scope(|scope| {
        let name = younger.txn();
        let waits = scope.spawn(move || younger.lock_path(w.records[0][0], Mode::S));
        w.await_wait(1, name);
        for keep in [Keep::Nothing, Keep::Way] {
            let tried = older.try_lock_path(w.records[1][0], Mode::X, keep);
            assert_eq!(tried, Ok(Tried::WouldBlock(w.records[1][0])));
        }
        assert!(w.waits(1, name));
        older.commit().unwrap();
        assert_eq!(waits.join().unwrap(), Ok(Mode::S));
    });
}

#[test]
fn rows_have_numbers() {
    let w = World::new();
    for part in 1..=PARTS {
        let (row, index) = (w.row(part), w.row_indexes[part - 1]);
        let mut session = w.begin();
        let own = session.lock_row_path(row, &[50], Mode::X);
        assert_eq!(own, Ok(RowLocked::Own(Mode::X)));
        let other = session.lock_row_path(row, &[150], Mode::X);
        assert_eq!(other, Ok(RowLocked::OtherKeys(Mode::X)));
        let above = w.interval(part, index, 1);
        let lacks = Err(Refusal::NeedParents(above));
        assert_eq!(session.rekey_row(row, index, 150), lacks);
        session.lock_path(above, Mode::IX).unwrap();
        session.rekey_row(row, index, 150).unwrap();
        let own = session.lock_row_path(row, &[150], Mode::X);
        assert_eq!(own, Ok(RowLocked::Own(Mode::X)));
        session.unlock_row(row).unwrap();
        let far = Instant::now() + Duration::from_secs(60);
        let own = session.lock_row_path_until(row, &[7], Mode::S, far);
        assert_eq!(own, Ok(RowLocked::Own(Mode::S)));
        session.commit().unwrap();
    }
}

#[test]
fn locks_are_escalated() {
    let w = World::new();
    let mut session = w.begin();
    for record in w.records[2] {
        session.lock_path(record, Mode::S).unwrap();
    }
    let wanted = Escalated {
        mode: Mode::S,
        released: 2,
        kept: 0,
    };
    assert_eq!(session.escalate(w.files[2]), Ok(wanted));
    assert_eq!(session.held(w.files[2]), Ok(Mode::S));
    let mut other = w.begin();
    other.lock_path(w.files[1], Mode::IX).unwrap();
    session.lock_path(w.records[1][0], Mode::S).unwrap();
    other.lock_path(w.records[1][1], Mode::X).unwrap();
    assert_eq!(session.escalate(w.files[1]), Err(Refusal::WouldBlock));
    session.commit().unwrap();
    other.abort();
}

#[test]
fn nodes_are_unlocked() {
    let w = World::new();
    let (mut session, mut other) = (w.begin(), w.begin());
    let (record, file) = (w.records[1][0], w.files[1]);
    session.lock_path(record, Mode::X).unwrap();
    assert_eq!(session.unlock(file), Err(Refusal::HeldChild(record)));
    session.unlock(record).unwrap();
    assert_eq!(session.unlock(record), Err(Refusal::NotHeld));
    assert_eq!(other.lock_path(record, Mode::X), Ok(Mode::X));
    session.unlock(file).unwrap();
    assert_eq!(session.held(file), Ok(Mode::NL));
    assert_eq!(session.held(w.area), Ok(Mode::IX));
    session.commit().unwrap();
    other.commit().unwrap();
}

/// A rollback releases what was acquired since in each part, and keeps the rest, in the mode to which it was raised.
#[test]
fn savepoints_are_rolled_back_to() {
    let w = World::new();
    let mut session = w.begin();
    let first = session.mark().unwrap();
    assert_eq!(session.release_since(first), Ok(0));
    session.lock_path(w.records[0][0], Mode::S).unwrap();
    let second = session.mark().unwrap();
    assert_eq!(second, session.mark().unwrap());
    assert_ne!(first, second);
    session.lock_path(w.records[0][1], Mode::X).unwrap();
    let own = session.lock_row_path(w.row(2), &[50], Mode::X);
    assert_eq!(own, Ok(RowLocked::Own(Mode::X)));
    let rows = |part| {
        let file = w.group.name_in(w.row(part).file, part).unwrap();
        let row = Row { file, number: 7 };
        w.group.with_table(part, |m| m.row_node(row).is_some())
    };
    assert_eq!(rows(2), Ok(true));
    let other_way = w.interval(1, w.indexes[0], 1);
    assert_eq!(session.held(other_way), Ok(Mode::IX));
    // In part 1 the record with its interval and index; in part 2 these of the row, and the file, the area, the base.
    assert_eq!(session.release_since(second), Ok(3 + 6));
    assert_eq!(rows(2), Ok(false));
    assert_eq!(w.living(2), 1);
    assert_eq!(session.held(w.row_files[1]), Ok(Mode::NL));
    assert_eq!(session.held(w.records[0][1]), Ok(Mode::NL));
    assert_eq!(session.held(w.records[0][0]), Ok(Mode::S));
    for node in [w.base, w.area, w.files[0]] {
        assert_eq!(session.held(node), Ok(Mode::IX)); // It was raised.
    }
    assert_eq!(session.release_since(second), Ok(0));
    // What the main table has stays.
    session.lock_path(w.area, Mode::S).unwrap();
    session.release_since(first).unwrap();
    assert_eq!(session.held(w.files[0]), Ok(Mode::NL));
    assert!(matches!(session.held(w.area), Ok(Mode::S | Mode::SIX)));
    session.commit().unwrap();
}

/// No other transaction can use a savepoint, neither one beside its own nor one after it.
#[test]
fn a_savepoint_is_of_its_transaction() {
    let w = World::with(2);
    let (first, mut second) = (w.begin(), w.begin());
    let mark = first.mark().unwrap();
    let shown = format!("GroupMark({:?})", first.txn());
    assert_eq!(format!("{mark:?}"), shown);
    second.lock_path(w.records[0][0], Mode::X).unwrap();
    assert_eq!(second.release_since(mark), Err(Refusal::NoSuchTxn));
    assert_eq!(second.held(w.records[0][0]), Ok(Mode::X));
    let slot = first.txn().slot();
    first.commit().unwrap();
    let mut third = w.begin();
    assert_eq!(third.txn().slot(), slot);
    assert_eq!(third.release_since(mark), Err(Refusal::NoSuchTxn));
    third.commit().unwrap();
    second.commit().unwrap();
}

/// A rollback wakes those who wait for what it releases, in parts that the transaction joined before and after.
#[test]
fn a_rollback_wakes() {
    let w = World::new();
    let mut session = w.begin();
    session.lock_path(w.records[0][0], Mode::X).unwrap();
    let mark = session.mark().unwrap();
    let waits_for = [w.records[0][1], w.records[2][0]];
    for node in waits_for {
        session.lock_path(node, Mode::X).unwrap();
    }
    thread::scope(|scope| {
        let sleepers = waits_for.map(|node| {
            let mut waiter = w.begin();
            let name = waiter.txn();
            let sleeper = scope.spawn(move || waiter.lock_path(node, Mode::S));
            w.await_wait(Group::table_of(node), name);
            sleeper
        });
        assert!(session.release_since(mark).unwrap() > 0);
        for sleeper in sleepers {
            assert_eq!(sleeper.join().unwrap(), Ok(Mode::S));
        }
    });
    assert_eq!(session.held(w.records[0][0]), Ok(Mode::X));
    session.commit().unwrap();
}

/// A transaction puts another index in the place of that of a file, and drops a file.
#[test]
fn schemas_change() {
    let w = World::new();
    let (mut session, mut other) = (w.begin(), w.begin());
    let (file, index) = (w.row_files[2], w.row_indexes[2]);
    for node in [file, index] {
        session.lock_path(node, Mode::X).unwrap();
    }
    session.drop_node(index).unwrap();
    assert_eq!(session.held(index), Err(Refusal::NoSuchNode));
    let finer = made(session.index_by(&[w.area], file, &[10, 20]));
    assert_eq!(Group::table_of(finer), 3);
    assert_eq!(session.held(finer), Ok(Mode::X));
    let tried = other.try_lock_path(finer, Mode::IS, Keep::Nothing);
    assert_eq!(tried, Ok(Tried::WouldBlock(finer)));
    let empty = w.group.add_file_in(3, &[w.base]).unwrap();
    session.lock_path(empty, Mode::X).unwrap();
    session.drop_node(empty).unwrap();
    let end = other.lock_path(empty, Mode::S);
    assert_eq!(end, Err(Stop::Refused(Refusal::NoSuchNode)));
    session.commit().unwrap();
    let own = other.lock_row_path(w.row(3), &[15], Mode::X);
    assert_eq!(own, Ok(RowLocked::Own(Mode::X)));
    assert_eq!(other.held(w.interval(3, finer, 1)), Ok(Mode::IX));
    other.commit().unwrap();
}

/// Records of the file's part alone are named, by their names in the group.
#[test]
fn an_index_is_made_beside_records() {
    let w = World::new();
    let (mut session, mut reader) = (w.begin(), w.begin());
    let ([low, high], file) = (w.records[1], w.files[1]);
    for node in [file, w.indexes[1]] {
        session.lock_path(node, Mode::X).unwrap();
    }
    let mut made_over = |records: &[Node], keys: &[u64]| {
        session.index_records(&[w.base], file, &[10], records, keys)
    };
    let strange = w.records[0][1];
    for (records, keys) in [([low, high], &[7][..]), ([low, strange], &[7, 10])] {
        assert_eq!(made_over(&records, keys), Err(Refusal::BadKeys));
    }
    let index = made(made_over(&[low, high], &[7, 10]));
    assert_eq!(Group::table_of(index), 2);
    assert_eq!(session.held(index), Ok(Mode::X));
    session.commit().unwrap();
    let upper = w.interval(2, index, 1);
    reader.lock_path(upper, Mode::S).unwrap();
    let mut writer = w.begin();
    assert_eq!(writer.lock_path(low, Mode::X), Ok(Mode::X));
    let tried = writer.try_lock_path(high, Mode::X, Keep::Nothing);
    assert_eq!(tried, Ok(Tried::WouldBlock(upper)));
    writer.commit().unwrap();
    reader.commit().unwrap();
}

/// An index tries what the transaction lacks on the parents, and what it got of that stays.
#[test]
fn indexes_are_tried() {
    let w = World::new();
    let (mut session, mut backup) = (w.begin(), w.begin());
    let (file, root) = (w.row_files[1], w.group.add_inner(&[]).unwrap());
    let leaf = w.group.add_inner(&[root]).unwrap();
    session.lock_path(file, Mode::X).unwrap();
    backup.lock_path(leaf, Mode::S).unwrap();
    let tried = session.index_by(&[w.area, leaf], file, &[]);
    assert_eq!(tried, Ok(Tried::WouldBlock(leaf)));
    assert_eq!(session.held(root), Ok(Mode::IX));
    assert_eq!(session.held(leaf), Ok(Mode::NL));
    backup.commit().unwrap();
    let index = made(session.index_by(&[w.area, leaf], file, &[]));
    assert_eq!(session.held(leaf), Ok(Mode::IX));
    assert_eq!(session.held(index), Ok(Mode::X));
    session.commit().unwrap();
}

/// A row that waits has no key for an index that is made meanwhile.
#[test]
fn an_index_ends_a_sleep_for_a_row() {
    for is_by_transaction in [false, true] {
        let w = World::new();
        let (mut holder, mut waiter) = (w.begin(), w.begin());
        let (name, file) = (waiter.txn(), w.row_files[1]);
        let mode = if is_by_transaction { Mode::X } else { Mode::S };
        holder.lock_path(file, mode).unwrap();
        let index = thread::scope(|scope| {
            let sleeper = scope.spawn(|| waiter.lock_row_path(w.row(2), &[50], Mode::X));
            w.await_wait(2, name);
            let index = match is_by_transaction {
                true => made(holder.index_by(&[w.area], file, &[10])),
                false => w.group.add_index(&[w.area], file, &[10]).unwrap(),
            };
            let end = sleeper.join().unwrap(); // The holder still has the file.
            assert_eq!(end, Err(Stop::Refused(Refusal::BadKeys)));
            index
        });
        holder.commit().unwrap();
        let own = waiter.lock_row_path(w.row(2), &[50, 5], Mode::X);
        assert_eq!(own, Ok(RowLocked::Own(Mode::X)));
        assert_eq!(waiter.held(w.interval(2, index, 0)), Ok(Mode::IX));
        waiter.commit().unwrap();
    }
}

#[test]
fn intervals_are_split_and_merged() {
    let w = World::new();
    let (mut session, mut waiter) = (w.begin(), w.begin());
    let (name, index) = (waiter.txn(), w.indexes[1]);
    let low = w.interval(2, index, 0);
    session.lock_path(low, Mode::X).unwrap();
    let high = session.split(low, 40).unwrap();
    assert_eq!(high, w.interval(2, index, 1));
    assert_eq!(session.held(high), Ok(Mode::X));
    thread::scope(|scope| {
        let sleeper = scope.spawn(|| waiter.lock_path(high, Mode::S));
        w.await_wait(2, name);
        session.merge(low).unwrap();
        assert_eq!(sleeper.join().unwrap(), Err(Stop::Gone));
    });
    assert_eq!(session.held(high), Err(Refusal::NoSuchNode));
    // The path of a row continues by the interval that has its key.
    let low = w.interval(2, w.row_indexes[1], 0);
    session.lock_path(low, Mode::X).unwrap();
    let high = thread::scope(|scope| {
        let sleeper = scope.spawn(|| waiter.lock_row_path(w.row(2), &[70], Mode::X));
        w.await_wait(2, name);
        let high = session.split(low, 40).unwrap();
        session.unlock(high).unwrap();
        assert_eq!(sleeper.join().unwrap(), Ok(RowLocked::Own(Mode::X)));
        high
    });
    assert_eq!(waiter.held(high), Ok(Mode::IX));
    session.commit().unwrap();
    waiter.commit().unwrap();
}

/// Of a change: a node of the wrong kind or place, or one that is not held as it must be. None changes anything.
#[test]
fn wrong_changes_are_refused() {
    let w = World::new();
    let (none, beyond) = foreign();
    let (mut session, file, rows) = (w.begin(), w.files[0], w.row_files[0]);
    let s = &mut session;
    for (node, refusal) in [
        (w.base, Refusal::BadParents),
        (none, Refusal::NoSuchNode),
        (beyond, Refusal::NoSuchNode),
        (Node::NONE, Refusal::NoSuchNode),
    ] {
        assert_eq!(s.unlock(node), Err(refusal));
        assert_eq!(s.drop_node(node), Err(refusal));
        assert_eq!(s.split(node, 1), Err(refusal));
        assert_eq!(s.merge(node), Err(refusal));
        assert_eq!(s.index_by(&[w.base], node, &[]), Err(refusal));
    }
    assert_eq!(s.unlock(file), Err(Refusal::NotHeld));
    assert_eq!(s.drop_node(w.records[0][0]), Err(Refusal::BadParents));
    assert_eq!(s.drop_node(file), Err(Refusal::NeedExclusive));
    assert_eq!(s.split(file, 1), Err(Refusal::BadParents));
    assert_eq!(s.merge(file), Err(Refusal::BadParents));
    let [low, high] = [0, 1].map(|place| w.interval(1, w.indexes[0], place));
    assert_eq!(s.split(low, 50), Err(Refusal::NeedExclusive));
    assert_eq!(s.merge(low), Err(Refusal::NeedExclusive));
    let by = |s: &mut GroupSession<'_>, parents: &[Node], file, bounds: &[u64]| {
        s.index_by(parents, file, bounds).unwrap_err()
    };
    assert_eq!(by(s, &[w.base; 9], rows, &[]), Refusal::BadNumber);
    assert_eq!(by(s, &[w.base], rows, &[]), Refusal::NeedExclusive);
    s.lock_path(rows, Mode::X).unwrap();
    assert_eq!(by(s, &[w.base], rows, &[5, 4]), Refusal::BadKeys);
    assert_eq!(by(s, &[w.base; 2], rows, &[]), Refusal::BadParents);
    assert_eq!(by(s, &w.files[1..2], rows, &[]), Refusal::NoSuchNode);
    assert_eq!(s.drop_node(rows), Err(Refusal::FileInUse)); // It has an index.
    s.lock_path(low, Mode::X).unwrap();
    s.lock_path(high, Mode::X).unwrap();
    assert_eq!(s.split(low, 100), Err(Refusal::BadKeys));
    assert_eq!(s.merge(high), Err(Refusal::BadParents)); // It is the last.
    s.lock_path(file, Mode::X).unwrap();
    s.lock_path(w.indexes[0], Mode::X).unwrap();
    assert_eq!(by(s, &[w.base], file, &[]), Refusal::FileInUse);
    for node in [file, w.indexes[0]] {
        assert_eq!(s.drop_node(node), Err(Refusal::FileInUse));
    }
    session.commit().unwrap();
}

/// They are the sums of all tables, but of two the greatest.
#[test]
fn counters_are_summed() {
    let w = World::new();
    let before = w.group.counters().unwrap();
    let (mut session, mut backup) = (w.begin(), w.begin());
    for records in w.records {
        session.lock_path(records[0], Mode::X).unwrap();
    }
    let soon = Duration::from_millis(2);
    let end = backup.lock_path_timeout(w.area, Mode::S, soon);
    assert_eq!(end, Err(Stop::TimedOut));
    session.commit().unwrap();
    backup.commit().unwrap();
    let after = w.group.counters().unwrap();
    assert!(after.granted >= before.granted + 5 * PARTS as u64);
    assert_eq!(after.waited, before.waited + 1);
    assert_eq!((after.most_waiting, after.longest_queue), (1, 1));
    let mut sums = Counters::default();
    for table in 0..=PARTS {
        let one = w.group.with_table(table, |m| m.counters()).unwrap();
        for (sum, count) in [
            (&mut sums.accepted, one.accepted),
            (&mut sums.granted, one.granted),
            (&mut sums.waited, one.waited),
            (&mut sums.conversions, one.conversions),
            (&mut sums.granted_later, one.granted_later),
            (&mut sums.condemned, one.condemned),
            (&mut sums.moved, one.moved),
            (&mut sums.gone, one.gone),
            (&mut sums.escalations, one.escalations),
            (&mut sums.released_children, one.released_children),
            (&mut sums.passed, one.passed),
        ] {
            *sum += count;
        }
        sums.most_waiting = sums.most_waiting.max(one.most_waiting);
        sums.longest_queue = sums.longest_queue.max(one.longest_queue);
    }
    assert_eq!(after, sums);
}

#[test]
fn strong_locks_are_held_in_all_tables() {
    let w = World::new();
    let mut session = w.begin();
    session.lock_path(w.records[0][0], Mode::X).unwrap();
    assert_eq!(session.held(w.area), Ok(Mode::IX));
    let locked = session.lock_path(w.area, Mode::S).unwrap();
    assert!(matches!(locked, Mode::S | Mode::SIX));
    assert_eq!(session.held(w.area), Ok(Mode::SIX));
    let mut other = w.begin();
    let soon = Duration::from_millis(2);
    let end = other.lock_path_timeout(w.records[2][0], Mode::X, soon);
    assert_eq!(end, Err(Stop::TimedOut));
    assert_eq!(other.lock_path(w.records[2][0], Mode::S), Ok(Mode::S));
    session.commit().unwrap();
    assert_eq!(other.lock_path(w.records[2][0], Mode::X), Ok(Mode::X));
    other.commit().unwrap();
}

#[test]
fn waits_time_out() {
    let w = World::new();
    let (mut first, mut second) = (w.begin(), w.begin());
    let (record, row, soon) = (w.records[1][0], w.row(2), Duration::from_millis(2));
    let wanted = Stop::TimedOut;
    first.lock_path(record, Mode::X).unwrap();
    let own = first.lock_row_path(row, &[50], Mode::X);
    assert_eq!(own, Ok(RowLocked::Own(Mode::X)));
    let until = Instant::now() + soon;
    assert_eq!(second.lock_path_until(record, Mode::S, until), Err(wanted));
    assert!(Instant::now() >= until);
    let end = second.lock_path_until(record, Mode::S, until);
    assert_eq!(end, Err(wanted)); // It is over.
    assert_eq!(second.lock_path_timeout(record, Mode::S, soon), Err(wanted));
    let end = second.lock_row_path_timeout(row, &[50], Mode::S, soon);
    assert_eq!(end, Err(wanted));
    let end = second.lock_row_path_until(row, &[50], Mode::S, until);
    assert_eq!(end, Err(wanted));
    assert_eq!(second.lock_path_timeout(w.base, Mode::X, soon), Err(wanted));
    first.commit().unwrap();
    let far = Duration::MAX;
    assert_eq!(second.lock_path_timeout(record, Mode::S, far), Ok(Mode::S));
    let own = second.lock_row_path_timeout(row, &[50], Mode::S, far);
    assert_eq!(own, Ok(RowLocked::Own(Mode::S)));
    second.commit().unwrap();
}

#[test]
fn a_session_that_is_dropped_is_aborted() {
    let w = World::new();
    let (mut first, mut second) = (w.begin(), w.begin());
    let name = second.txn();
    first.lock_path(w.records[0][0], Mode::X).unwrap();
    first.lock_path(w.records[1][0], Mode::X).unwrap();
    thread::scope(|scope| {
        let waits = scope.spawn(move || second.lock_path(w.records[1][0], Mode::S));
        w.await_wait(2, name);
        drop(first);
        assert_eq!(waits.join().unwrap(), Ok(Mode::S));
    });
}

#[test]
fn a_thread_that_panics_gives_its_locks_back() {
    let w = World::new();
    let died = thread::scope(|scope| {
        let panics = scope.spawn(|| {
            let mut session = w.begin();
            session.lock_path(w.base, Mode::X).unwrap();
            panic!("as it is wanted");
        });
        panics.join()
    });
    assert!(died.is_err());
    assert_eq!(w.begin().lock_path(w.base, Mode::X), Ok(Mode::X));
}

/// A session that is leaked holds its locks, and its group can be dropped.
#[test]
fn a_session_that_is_leaked() {
    let group = Group::new(PARTS).unwrap();
    let base = group.add_inner(&[]).unwrap();
    let file = group.add_file(&[base]).unwrap();
    let mut lost = group.begin().unwrap();
    lost.lock_path(file, Mode::X).unwrap();
    std::mem::forget(lost);
    let soon = Duration::from_millis(2);
    let end = group
        .begin()
        .unwrap()
        .lock_path_timeout(base, Mode::S, soon);
    assert_eq!(end, Err(Stop::TimedOut));
}

#[test]
fn sessions_go_from_thread_to_thread() {
    let w = World::new();
    let mut session = w.begin();
    for part in 0..PARTS {
        session = thread::scope(|scope| {
            let goes = scope.spawn(|| {
                session.lock_path(w.records[part][0], Mode::X).unwrap();
                session
            });
            goes.join().unwrap()
        });
    }
    for part in 0..PARTS {
        assert_eq!(session.held(w.records[part][0]), Ok(Mode::X));
    }
    session.commit().unwrap();
}

/// A session that owns its group with others outlives all of them, and its drop aborts it.
#[test]
fn a_session_that_owns_its_group() {
    let group = Arc::new(Group::new(2).unwrap());
    let base = group.add_inner(&[]).unwrap();
    let mut first = group.begin_shared().unwrap();
    assert_eq!(first.lock_path(base, Mode::X), Ok(Mode::X));
    let since = first.txn().age();
    drop(first);
    let second = thread::spawn({
        let group = Arc::clone(&group);
        move || group.begin_shared_again(since).unwrap()
    });
    let mut second = second.join().unwrap();
    let last = Arc::downgrade(&group);
    drop(group);
    assert_eq!(second.lock_path(base, Mode::S), Ok(Mode::S));
    second.commit().unwrap();
    assert!(last.upgrade().is_none());
}

#[test]
fn begins_have_ages() {
    let w = World::with(2);
    let (first, second) = (w.begin(), w.begin());
    assert_ne!(first.txn().slot(), second.txn().slot());
    assert_eq!(w.group.begin().err(), Some(Refusal::TooManyTxns));
    assert_eq!(w.group.begin_again(1).err(), Some(Refusal::TooManyTxns));
    let (slot, age) = (first.txn().slot(), first.txn().age());
    assert_eq!(
        format!("{first:?}"),
        format!("GroupSession({:?})", first.txn())
    );
    first.abort();
    let third = w.group.begin_again(age).unwrap();
    assert_eq!(third.txn().slot(), slot);
    assert!(third.txn().age() > age);
    third.commit().unwrap();
    second.commit().unwrap();
}

#[test]
fn names_are_translated() {
    let w = World::new();
    let (none, beyond) = foreign();
    let group = &w.group;
    for table in 0..=PARTS {
        let name = group.name_in(w.area, table).unwrap();
        let kind = group.with_table(table, |m| m.kind(name)).unwrap();
        assert_eq!(kind, Ok(Kind::Inner));
        assert_eq!(group.name_of(name, table), Ok(w.area));
        assert_eq!(group.name_in(none, table), Err(Refusal::NoSuchNode));
        assert_eq!(group.name_in(beyond, table), Err(Refusal::NoSuchNode));
        let names_file = group.name_in(w.files[1], table);
        assert_eq!(names_file.is_ok(), table == 2);
    }
    let name = group.name_in(w.files[1], 2).unwrap();
    let is_file = group.with_table(2, |m| {
        assert_eq!(group.name_in(w.files[1], 2), Ok(name)); // This thread holds it.
        assert_eq!(group.name_of(name, 2), Ok(w.files[1]));
        m.kind(name) == Ok(Kind::File)
    });
    assert_eq!(is_file, Ok(true));
    assert_eq!(group.name_of(Node::NONE, 1), Err(Refusal::NoSuchNode));
    assert_eq!(group.name_of(name, 0), Err(Refusal::NoSuchNode));
    for table in [PARTS + 1, usize::MAX] {
        assert_eq!(group.name_in(w.area, table), Err(Refusal::BadNumber));
        assert_eq!(group.name_of(w.area, table), Err(Refusal::BadNumber));
        assert_eq!(group.with_table(table, |_| ()), Err(Refusal::BadNumber));
    }
}

/// Each call is refused with `InUse`.
fn refuses_all(w: &World, session: &mut GroupSession<'_>, mark: GroupMark) {
    let (group, in_use) = (&w.group, Refusal::InUse);
    let asleep = Stop::Refused(in_use);
    let (record, file, index) = (w.records[1][0], w.files[1], w.indexes[1]);
    for table in 0..=PARTS {
        assert_eq!(group.with_table(table, |_| ()), Err(in_use));
    }
    assert_eq!(group.add_inner(&[]), Err(in_use));
    assert_eq!(group.add_file(&[w.base]), Err(in_use));
    assert_eq!(group.add_file_in(1, &[w.base]), Err(in_use));
    assert_eq!(group.add_row_file(&[w.base]), Err(in_use));
    assert_eq!(group.add_row_file_in(1, &[w.base]), Err(in_use));
    assert_eq!(group.add_index(&[w.base], file, &[]), Err(in_use));
    assert_eq!(group.adopt(file, &[1]), Err(in_use));
    assert_eq!(group.forget(record), Err(in_use));
    assert_eq!(group.keep(16), Err(in_use));
    assert_eq!(group.begin().err(), Some(in_use));
    assert_eq!(group.begin_again(1).err(), Some(in_use));
    let far = Duration::from_secs(60);
    assert_eq!(session.lock_path(record, Mode::S), Err(asleep));
    assert_eq!(session.lock_path(w.base, Mode::S), Err(asleep));
    assert_eq!(session.lock_path_timeout(record, Mode::S, far), Err(asleep));
    let end = session.lock_row_path(w.row(2), &[50], Mode::S);
    assert_eq!(end, Err(asleep));
    assert_eq!(session.unlock(record), Err(in_use));
    assert_eq!(session.unlock_row(w.row(2)), Err(in_use));
    assert_eq!(session.escalate(file), Err(in_use));
    assert_eq!(session.insert(file, &[50]), Err(in_use));
    assert_eq!(session.delete(record), Err(in_use));
    assert_eq!(session.rekey(record, index, 50), Err(in_use));
    assert_eq!(session.rekey_row(w.row(2), index, 50), Err(in_use));
    assert_eq!(session.mark(), Err(in_use));
    assert_eq!(session.release_since(mark), Err(in_use));
    assert_eq!(session.drop_node(file), Err(in_use));
    assert_eq!(session.split(record, 5), Err(in_use));
    assert_eq!(session.merge(record), Err(in_use));
    assert_eq!(session.index_by(&[w.base], file, &[]), Err(in_use));
    assert_eq!(session.held(record), Err(in_use));
    assert_eq!(group.counters(), Err(in_use));
}

#[test]
fn who_holds_a_table_is_refused() {
    let w = World::new();
    let mut session = w.begin();
    let mark = session.mark().unwrap();
    for table in 0..=PARTS {
        let asked = w.group.with_table(table, |_| {
            refuses_all(&w, &mut session, mark);
            assert!(w.group.name_in(w.base, table).is_ok());
            let other = (table + 1) % (PARTS + 1);
            assert_eq!(w.group.name_in(w.base, other), Err(Refusal::InUse));
            assert_eq!(w.group.name_of(w.base, other), Err(Refusal::InUse));
        });
        assert_eq!(asked, Ok(()));
    }
    let table = Table::new(Detect::AtBlock, 1).unwrap();
    table.with(|_| {
        refuses_all(&w, &mut session, mark);
        assert_eq!(w.group.name_in(w.base, 1), Err(Refusal::InUse));
    });
    let db = table.add_inner(&[]).unwrap();
    let mut other = table.begin().unwrap();
    let end = w.group.with_table(1, |_| other.lock(db, Mode::S));
    assert_eq!(end, Ok(Err(Stop::Refused(Refusal::InUse))));
    session.commit().unwrap();
}

/// A question that panics lets the table go.
#[test]
fn a_question_that_panics() {
    let w = World::new();
    let asks = || w.group.with_table(1, |_| panic!("as it is wanted"));
    let asked: Result<Result<(), Refusal>, _> = catch_unwind(AssertUnwindSafe(asks));
    assert!(asked.is_err());
    assert_eq!(w.begin().lock_path(w.files[0], Mode::X), Ok(Mode::X));
}

#[test]
fn a_session_cannot_be_dropped_by_who_holds_a_table() {
    fn commits(session: GroupSession<'_>) {
        assert_eq!(session.commit(), Err(Refusal::InUse));
    }
    let group = Group::new(1).unwrap();
    for ends in [drop, commits] {
        let session = group.begin().unwrap();
        let asks = || group.with_table(1, |_| ends(session));
        let died = catch_unwind(AssertUnwindSafe(asks)).unwrap_err();
        let said = died.downcast_ref::<&str>().unwrap();
        assert_eq!(*said, "a session was dropped while its thread held a table");
        assert_eq!(group.with_table(1, |m| m.len()), Ok(0)); // It is let go.
    }
}

/// Another thread ends a group that is dropped where no call may sleep.
#[test]
fn a_group_is_dropped_by_who_holds_a_table() {
    let (table, group) = (
        Table::new(Detect::AtBlock, 1).unwrap(),
        Group::new(1).unwrap(),
    );
    table.with(|_| drop(group));
}

/// A waiter for a record that is deleted is told so, and a path follows one that moves.
#[test]
fn records_go_and_move_under_waiters() {
    let w = World::new();
    let [low, high] = w.records[1];
    for moves in [true, false] {
        let (mut first, mut second) = (w.begin(), w.begin());
        let name = second.txn();
        first.lock_path(low, Mode::X).unwrap();
        let above = w.interval(2, w.indexes[1], 1);
        first.lock_path(above, Mode::IX).unwrap();
        let end = thread::scope(|scope| {
            let waits = scope.spawn(move || second.lock_path(low, Mode::S));
            w.await_wait(2, name);
            if moves {
                first.rekey(low, w.indexes[1], 150).unwrap();
            } else {
                first.delete(low).unwrap();
            }
            first.commit().unwrap();
            waits.join().unwrap()
        });
        assert_eq!(end, if moves { Ok(Mode::S) } else { Err(Stop::Gone) });
    }
    assert_eq!(w.begin().held(low), Err(Refusal::NoSuchNode));
    assert_eq!(w.begin().held(high), Ok(Mode::NL));
}

/// A commit keeps intentions for the next transaction of its slot, which is this thread's.
#[test]
fn intentions_are_kept() {
    let w = World::new();
    let [one, two, three] = w.records.map(|[record, _]| record);
    let writes = |record| {
        let mut session = w.begin();
        session.lock_path(record, Mode::X).unwrap();
        session
    };
    let rests = || [1, 2, 3].map(|part| w.living(part));
    w.group.keep(16).unwrap();
    writes(one).abort();
    assert_eq!(rests(), [0, 0, 0]);
    let mut session = writes(one);
    session.lock_path(two, Mode::S).unwrap();
    session.commit().unwrap();
    assert_eq!(rests(), [1, 1, 0]);
    let mut session = w.begin();
    session.lock_path(w.records[0][1], Mode::S).unwrap();
    assert_eq!(session.held(w.files[0]), Ok(Mode::IX)); // It has taken that up.
    assert_eq!(session.held(w.files[1]), Ok(Mode::NL));
    session.abort();
    assert_eq!(rests(), [0, 1, 0]);
    writes(one).commit().unwrap();
    let mut session = w.group.begin_again(1).unwrap();
    session.lock_path(one, Mode::S).unwrap();
    assert_eq!(session.held(w.files[0]), Ok(Mode::IS)); // It takes nothing up.
    session.commit().unwrap();
    assert_eq!(rests(), [1, 1, 0]);
    let mut backup = w.begin();
    backup.lock_path(w.base, Mode::S).unwrap();
    assert_eq!(rests(), [0, 0, 0]);
    backup.commit().unwrap();
    writes(three).commit().unwrap();
    assert_eq!(rests(), [0, 0, 1]);
    w.group.keep(0).unwrap();
    assert_eq!(rests(), [0, 0, 0]);
    writes(three).commit().unwrap();
    assert_eq!(rests(), [0, 0, 0]);
    w.group.keep(usize::MAX).unwrap();
    writes(three).commit().unwrap();
    assert_eq!(rests(), [0, 0, 1]);
    let mut other = writes(one);
    assert_eq!(other.lock_path(w.files[2], Mode::X), Ok(Mode::X)); // What rests blocks nobody.
    other.abort();
    w.group.keep(0).unwrap();
}

/// Threads in different parts count without waiting for each other, by one lock of each part.
#[test]
fn threads_work_in_different_parts() {
    const ROUNDS: i64 = 300;
    let w = World::new();
    let counts = [const { AtomicI64::new(0) }; PARTS];
    thread::scope(|scope| {
        for thread in 0..2 * PARTS {
            let (w, count) = (&w, &counts[thread % PARTS]);
            scope.spawn(move || {
                for _ in 0..ROUNDS {
                    let mut session = w.begin();
                    let record = w.records[thread % PARTS][0];
                    session.lock_path(record, Mode::X).unwrap();
                    let seen = count.load(Ordering::Relaxed);
                    thread::yield_now();
                    count.store(seen + 1, Ordering::Relaxed);
                    session.commit().unwrap();
                }
            });
        }
    });
    for count in counts {
        assert_eq!(count.into_inner(), 2 * ROUNDS);
    }
}

/// Of two that wait for each other in two parts the youngest falls, also by its `since`.
#[test]
fn a_deadlock_over_two_parts_ends() {
    let w = World::new();
    for is_older_by_since in [false, true] {
        let first = w.begin();
        let since = if is_older_by_since { 0 } else { u64::MAX };
        let second = w.group.begin_again(since).unwrap();
        let is_first_older = first.txn().age() < second.txn().age();
        let (mut older, mut younger) = match is_older_by_since {
            true => (second, first),
            false if is_first_older => (first, second),
            false => (second, first),
        };
        older.lock_path(w.records[0][0], Mode::X).unwrap();
        younger.lock_path(w.records[1][0], Mode::X).unwrap();
        let mark = younger.mark().unwrap();
        thread::scope(|scope| {
            let name = older.txn();
            let waits = scope.spawn(|| older.lock_path(w.records[1][0], Mode::X));
            w.await_wait(2, name);
            let end = younger.lock_path(w.records[0][0], Mode::S);
            assert_eq!(end, Err(Stop::Victim));
            assert!(w.waits(2, name));
            let end = younger.lock_path(w.records[2][0], Mode::S);
            assert_eq!(end, Err(Stop::Refused(Refusal::TxnCondemned)));
            let condemned = Err(Refusal::TxnCondemned);
            assert_eq!(younger.insert(w.files[2], &[1]), Err(Refusal::TxnCondemned));
            let tried = younger.try_lock_path(w.records[2][0], Mode::S, Keep::Way);
            assert_eq!(tried, Err(Refusal::TxnCondemned));
            let tried = younger.try_lock_row_path(w.row(3), &[1], Mode::S, Keep::Way);
            assert_eq!(tried, Err(Refusal::TxnCondemned));
            assert_eq!(younger.delete(w.records[1][0]), condemned);
            assert_eq!(younger.unlock(w.records[1][0]), condemned);
            assert_eq!(younger.mark().map(drop), condemned);
            assert_eq!(younger.release_since(mark).map(drop), condemned);
            assert_eq!(younger.drop_node(w.files[1]), condemned);
            assert_eq!(younger.split(w.indexes[1], 5).map(drop), condemned);
            assert_eq!(younger.merge(w.indexes[1]), condemned);
            let tried = younger.index_by(&[w.area], w.files[1], &[]);
            assert_eq!(tried, Err(Refusal::TxnCondemned));
            assert_eq!(younger.held(w.records[1][0]), Ok(Mode::X));
            assert_eq!(younger.commit(), condemned); // It is dropped, and so aborted.
            assert_eq!(waits.join().unwrap(), Ok(Mode::X));
        });
        older.commit().unwrap();
    }
}

/// A cycle within one part ends as it arises.
#[test]
fn a_deadlock_within_a_part_ends() {
    let w = World::new();
    let (mut older, mut younger) = (w.group.begin_again(0).unwrap(), w.begin());
    let [low, high] = w.records[1];
    older.lock_path(low, Mode::X).unwrap();
    younger.lock_path(high, Mode::X).unwrap();
    thread::scope(|scope| {
        let name = older.txn();
        let waits = scope.spawn(|| older.lock_path(high, Mode::X));
        w.await_wait(2, name);
        assert_eq!(younger.lock_path(low, Mode::X), Err(Stop::Victim));
        younger.abort();
        assert_eq!(waits.join().unwrap(), Ok(Mode::X));
    });
    older.commit().unwrap();
}

/// A reader of an area waits for the writers below it in all parts, and later writers wait for the reader.
#[test]
fn an_area_is_read_against_writers_below() {
    let w = World::new();
    let writers = [0, 2].map(|part| {
        let mut session = w.begin();
        session.lock_path(w.records[part][0], Mode::X).unwrap();
        session
    });
    let (mut reader, mut late) = (w.begin(), w.begin());
    let (reads, writes) = (reader.txn(), late.txn());
    thread::scope(|scope| {
        let reading = scope.spawn(|| {
            let end = reader.lock_path(w.area, Mode::S);
            (end, reader)
        });
        w.await_wait(0, reads);
        let [first, second] = writers;
        first.commit().unwrap();
        assert!(w.waits(0, reads)); // A writer is left, in another part.
        second.commit().unwrap();
        let (end, reader) = reading.join().unwrap();
        assert_eq!(end, Ok(Mode::S));
        let mut other = w.begin();
        assert_eq!(other.lock_path(w.records[1][1], Mode::S), Ok(Mode::S));
        other.commit().unwrap();
        let writing = scope.spawn(|| {
            let end = late.lock_path(w.records[1][0], Mode::X);
            late.commit().unwrap();
            end
        });
        w.await_wait(0, writes);
        assert_eq!(reader.held(w.area), Ok(Mode::S));
        reader.commit().unwrap();
        assert_eq!(writing.join().unwrap(), Ok(Mode::X));
    });
}

/// How many accounts there are.
const ACCOUNTS: usize = 2 * PARTS;

/// Accounts that are rows of these files by turns, with these keys, and a node above all of them.
struct Accounts {
    above: Node,
    files: Vec<Node>,
    keys: &'static [u64],
}

impl Accounts {
    fn row(&self, place: usize) -> Row {
        Row {
            file: self.files[place % self.files.len()],
            number: place as u64,
        }
    }
}

/// Moves one from an account to another, by rows in parts that may differ.
fn transfer(w: &World, accounts: &Accounts, sums: &[AtomicI64], from: usize, to: usize) {
    let mut since = u64::MAX;
    loop {
        let mut session = match w.group.begin_again(since) {
            Ok(session) => session,
            Err(refusal) => {
                assert_eq!(refusal, Refusal::TooManyTxns);
                thread::yield_now();
                continue;
            }
        };
        since = since.min(session.txn().age());
        let mut moves = |place: usize, by: i64| {
            let locked = session.lock_row_path(accounts.row(place), accounts.keys, Mode::X)?;
            assert_eq!(locked, RowLocked::Own(Mode::X));
            let seen = sums[place].load(Ordering::Relaxed);
            thread::yield_now();
            sums[place].store(seen + by, Ordering::Relaxed);
            Ok(())
        };
        let end = moves(from, -1).and_then(|()| {
            let end = moves(to, 1);
            if end.is_err() {
                sums[from].fetch_add(1, Ordering::Relaxed); // Undone before the abort.
            }
            end
        });
        match end {
            Ok(()) => return session.commit().unwrap(),
            Err(Stop::Victim) => session.abort(),
            Err(stop) => panic!("{stop}"),
        }
    }
}

/// A crowd moves money between accounts of all parts, with deadlocks, and who reads the base sees a whole sum. The same
/// with accounts of a spread file, which is read as a whole.
#[test]
fn a_crowd_keeps_the_sum() {
    for (keeps, is_spread) in [(0, false), (16, false), (0, true), (16, true)] {
        let w = World::with(6);
        w.group.keep(keeps).unwrap();
        let spread = w.group.add_spread_file(&[w.area]).unwrap();
        let accounts = match is_spread {
            true => Accounts {
                above: spread,
                files: vec![spread],
                keys: &[],
            },
            false => Accounts {
                above: w.base,
                files: w.row_files.to_vec(),
                keys: &[5],
            },
        };
        crowd(&w, &accounts);
        w.group.keep(0).unwrap();
    }
}

fn crowd(w: &World, accounts: &Accounts) {
    let sums = [const { AtomicI64::new(100) }; ACCOUNTS];
    let left = AtomicUsize::new(4);
    thread::scope(|scope| {
        for thread in 0..4 {
            let (sums, left) = (&sums, &left);
            scope.spawn(move || {
                for round in 0..100 {
                    let from = (7 * thread + 3 * round) % ACCOUNTS;
                    let to = (from + 1 + (thread + round) % (ACCOUNTS - 1)) % ACCOUNTS;
                    transfer(w, accounts, sums, from, to);
                }
                left.fetch_sub(1, Ordering::Relaxed);
            });
        }
        scope.spawn(|| {
            let mut reads = 0;
            while left.load(Ordering::Relaxed) > 0 || reads == 0 {
                let mut session = w.begin();
                match session.lock_path(accounts.above, Mode::S) {
                    Ok(_) => {
                        let sum = |sum: &AtomicI64| sum.load(Ordering::Relaxed);
                        assert_eq!(sums.iter().map(sum).sum::<i64>(), 100 * ACCOUNTS as i64);
                        reads += 1;
                        session.commit().unwrap();
                    }
                    Err(stop) => assert_eq!(stop, Stop::Victim),
                }
                thread::sleep(Duration::from_millis(1));
            }
        });
    });
}
