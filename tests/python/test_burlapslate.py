"""Tests of the module for Python: each call once, waits in two threads, and deadlocks."""
import signal
import sys
import tempfile
import threading
import time
import unittest

import burlapslate as bs


class Sleeper(threading.Thread):
    """A call in a thread of its own: what it answered, or what it raised."""

    def __init__(self, call, *words):
        super().__init__(daemon=True)
        self.call, self.words, self.answer, self.fault = call, words, None, None
        self.start()

    def run(self):
        try:
            self.answer = self.call(*self.words)
        except bs.Refused as fault:
            self.fault = fault

    def ended(self):
        self.join(10)
        assert not self.is_alive(), "the call sleeps on"
        return self


class Tables(unittest.TestCase):
    def setUp(self):
        self.table = bs.Table()
        self.db = self.table.add_inner()
        self.orders = self.table.add_file([self.db])
        self.addCleanup(self.table.close)

    def sleeps(self, call, *words):
        """A call that waits by the time that this returns."""
        sleeper = Sleeper(call, *words)
        sleeper.join(0.1)
        self.assertTrue(sleeper.is_alive())
        return sleeper

    def refused(self, name, call, *words):
        with self.assertRaises(bs.Refused) as fault:
            call(*words)
        self.assertEqual(str(fault.exception).split(":")[0], name)
        return fault.exception

    def test_paths_records_and_savepoints(self):
        with self.table.begin() as txn:
            self.assertEqual(txn.lock_path(self.orders, bs.IX), bs.IX)
            self.assertEqual(txn.held(self.db), bs.IX)
            mark = txn.mark()
            record = txn.insert(self.orders)
            self.assertEqual(txn.held(record), bs.X)
            txn.delete(record)
            other = txn.insert(self.orders)
            self.assertNotEqual(record, other)
            self.assertEqual(txn.release_since(mark), 1)
            self.assertEqual(txn.held(other), bs.NL)
            self.assertEqual(txn.lock_path(other, bs.S), bs.S)
            txn.unlock(other)
            self.refused("NotHeld", txn.unlock, other)
        self.refused("NoSuchTxn", txn.commit)
        self.assertEqual(self.table.group(self.db), bs.NL)

    def test_index_keys_and_drop(self):
        days = self.table.add_index([self.db], self.orders, [100, 200])
        with self.table.begin() as txn:
            txn.lock_path(self.orders, bs.X)
            txn.lock_path(days, bs.X)
            fault = self.refused("NeedParents", txn.insert, self.orders, [150])
            self.assertEqual(fault.node, self.table.interval_of(days, 150))
            self.assertEqual(str(fault), f"NeedParents: {fault.node}")
        with self.table.begin() as txn:
            txn.lock_path(self.db, bs.X)
            self.refused("NeedExclusive", txn.drop, days)
        self.refused("BadKeys", self.table.add_index, [self.db], self.orders, [2, 1])

    def test_intervals_have_names(self):
        days = self.table.add_index([self.db], self.orders, [100, 200])
        places = [self.table.interval(days, place) for place in range(3)]
        for key, place in (99, 0), (100, 1), (199, 1), (200, 2):
            self.assertEqual(self.table.interval_of(days, key), places[place])
        self.refused("NoPlace", self.table.interval, days, 3)
        self.refused("NoSuchNode", self.table.interval_of, self.orders, 150)
        with self.table.begin() as txn:
            txn.lock_path(self.orders, bs.IX)
            txn.lock_path(places[1], bs.IX)
            record = txn.insert(self.orders, [150])
            txn.lock_path(places[2], bs.IX)
            txn.rekey(record, days, 250)

    def test_rows_with_keys(self):
        rows = self.table.add_row_file([self.db])
        days = self.table.add_index([self.db], rows, [100])
        with self.table.begin() as txn:
            txn.lock_path(rows, bs.IX)
            fault = self.refused("NeedParents", txn.lock_row, rows, 7, [150])
            self.assertEqual(fault.node, self.table.interval_of(days, 150))
            txn.lock_path(fault.node, bs.IX)
            self.assertTrue(txn.lock_row(rows, 7, [150]))

    def test_rows_by_number(self):
        rows = self.table.add_row_file([self.db])
        with self.table.begin() as one, self.table.begin() as two:
            one.lock_path(rows, bs.IX)
            two.lock_path(rows, bs.IX)
            self.assertTrue(one.lock_row(rows, 7))
            self.assertTrue(two.try_row(rows, 8))
            self.refused("WouldBlock", two.try_row, rows, 7)
            one.unlock_row(rows, 7)
            self.assertTrue(two.lock_row(rows, 7))

    def test_rows_with_what_is_above_them(self):
        rows = self.table.add_row_file([self.db])
        days = self.table.add_index([self.db], rows, [100])
        early, late = self.table.interval(days, 0), self.table.interval(days, 1)
        with self.table.begin() as writer, self.table.begin() as reader:
            self.assertTrue(writer.lock_row_path(rows, 7, [50]))
            held = [writer.held(node) for node in (self.db, rows, early, late)]
            self.assertEqual(held, [bs.IX, bs.IX, bs.IX, bs.NL])
            self.refused("WouldBlock", reader.try_row_path, rows, 7, [50], bs.S)
            self.assertEqual(reader.held(rows), bs.NL)
            self.refused("WouldBlock", reader.try_row_path, rows, 7, [50], bs.S, True)
            self.assertEqual(reader.held(rows), bs.IS)
            self.assertTrue(reader.try_row_path(rows, 8, [50], bs.S))
            with self.assertRaises(bs.TimedOut):
                reader.lock_row_path(rows, 7, [50], bs.S, timeout=0.02)
            waiter = self.sleeps(reader.lock_row_path, rows, 7, [50], bs.S)
            writer.commit()
            self.assertTrue(waiter.ended().answer)
            self.assertEqual((reader.held(early), reader.held(late)), (bs.NL, bs.NL))

    def test_a_block_that_raises_aborts(self):
        with self.assertRaises(KeyError):
            with self.table.begin() as txn:
                txn.lock(self.db, bs.X)
                raise KeyError
        self.assertEqual(self.table.group(self.db), bs.NL)

    def test_a_transaction_ends_within_its_block(self):
        with self.table.begin() as txn:
            txn.lock(self.db, bs.X)
            txn.commit()
        with self.table.begin() as txn:
            txn.abort()
        with self.assertRaises(KeyError), self.table.begin() as txn:
            txn.commit()
            raise KeyError
        with self.assertRaises(bs.Refused) as fault, self.table.begin() as txn:
            Sleeper(txn.abort).ended()
        self.assertEqual(str(fault.exception), "NoSuchTxn")

    def test_what_is_printed(self):
        self.assertEqual([str(mode) for mode in bs.Mode], ["NL", "IS", "IX", "S", "SIX", "X"])
        self.assertEqual(f"{bs.IX}{bs.S:>2}", "IX S")
        with self.table.begin() as one, self.table.begin() as two:
            one.lock(self.db, bs.X)
            self.assertEqual(str(self.refused("WouldBlock", two.try_path, self.db, bs.S)), f"WouldBlock: {self.db}")
            self.assertEqual(str(self.refused("NotHeld", two.unlock, self.db)), "NotHeld")
        fault = bs.Refused(bs._Reply(bs.WOULD_BLOCK, bs.SIX, self.db))
        self.assertEqual((str(fault), fault.mode), (f"WouldBlock: {self.db} in SIX", bs.SIX))

    def test_a_wait_is_granted_by_another_thread(self):
        one, two = self.table.begin(), self.table.begin()
        one.lock(self.db, bs.X)
        waiter = self.sleeps(two.lock, self.db, bs.S)
        one.commit()
        self.assertEqual(waiter.ended().answer, bs.S)
        two.commit()

    def test_a_try_does_not_wait(self):
        one, two = self.table.begin(), self.table.begin()
        one.lock(self.db, bs.X)
        with self.assertRaises(bs.WouldBlock) as fault:
            two.try_path(self.orders, bs.S)
        self.assertEqual(fault.exception.node, self.db)
        with self.assertRaises(bs.WouldBlock):
            two.try_lock(self.db, bs.IS)
        one.commit(), two.abort()

    def test_a_wait_has_an_end(self):
        one, two = self.table.begin(), self.table.begin()
        one.lock(self.db, bs.X)
        with self.assertRaises(bs.TimedOut):
            two.lock(self.db, bs.S, timeout=0.02)
        waiter = self.sleeps(two.lock, self.db, bs.S)
        self.assertTrue(two.cancel())
        self.assertEqual(str(waiter.ended().fault), "NotWaiting")
        self.assertFalse(two.cancel())
        waiter = self.sleeps(two.lock, self.db, bs.S)
        two.abort()
        self.assertEqual(str(waiter.ended().fault), "NoSuchTxn")
        one.commit()

    def alarm(self, handler):
        """Has a signal's handler called soon."""
        before = signal.signal(signal.SIGALRM, handler)
        self.addCleanup(signal.signal, signal.SIGALRM, before)
        signal.setitimer(signal.ITIMER_REAL, 0.03)

    def test_a_signal_ends_a_wait(self):
        rows = self.table.add_row_file([self.db])
        one, two = self.table.begin(), self.table.begin()
        one.lock_path(self.orders, bs.X), one.lock_path(rows, bs.IX), two.lock_path(rows, bs.IX)
        one.lock_row(rows, 7)
        waits = (two.lock, self.orders, bs.S), (two.lock_path, self.orders, bs.S)
        for wait in *waits, (two.lock_row, rows, 7), (two.lock_row_path, rows, 7):
            self.alarm(signal.default_int_handler)
            with self.assertRaises(KeyboardInterrupt):
                wait[0](*wait[1:])
            self.assertFalse(two.cancel())
            self.refused("WouldBlock", two.try_path, self.orders, bs.S)
        one.commit()
        self.assertEqual(two.lock(self.orders, bs.S), bs.S)
        two.commit()

    def test_a_handler_that_returns_leaves_a_wait_in_its_place(self):
        one, two, three = self.table.begin(), self.table.begin(), self.table.begin()
        one.lock(self.db, bs.X)
        later, handled = [], []

        def handler(*_):
            later.append(Sleeper(three.lock, self.db, bs.X))
            time.sleep(0.03)
            one.commit()
            handled.append(True)

        self.alarm(handler)
        self.assertEqual(two.lock(self.db, bs.X, timeout=10), bs.X)
        self.assertEqual((handled, later[0].is_alive()), ([True], True))
        two.commit()
        self.assertEqual(later[0].ended().answer, bs.X)
        three.commit()

    def test_a_deadlock_has_a_victim(self):
        one, two = self.table.begin(), self.table.begin()
        one.lock(self.db, bs.S), two.lock(self.db, bs.S)
        waiter = self.sleeps(one.lock, self.db, bs.X)
        with self.assertRaises(bs.Victim):
            two.lock(self.db, bs.X)
        two.abort()
        self.assertEqual(waiter.ended().answer, bs.X)
        one.commit()

    def test_a_trace_is_a_script(self):
        with bs.Table() as table, tempfile.TemporaryFile("w+") as file:
            db = table.add_inner()
            table.trace(file)
            with table.begin() as txn:
                txn.lock(db, bs.X)
            self.assertEqual(table.end_trace(), 0)
            self.assertRaises(bs.Refused, table.end_trace)
            file.seek(0)
            lines = [line for line in file.read().splitlines() if not line.startswith("#")]
        self.assertEqual(lines, ["granular 2", "inner n1", "begin t0", "try t0 X n1", "commit t0"])

    def test_a_watching_thread_ends_deadlocks(self):
        with bs.Table(detect=bs.BY_WATCHER) as table:
            table.watch(0.0001)
            db = table.add_inner()
            one, two = table.begin(), table.begin()
            one.lock(db, bs.S), two.lock(db, bs.S)
            ends = [Sleeper(one.lock, db, bs.X), Sleeper(two.lock, db, bs.X)]
            ends[1].ended()
            self.assertIsInstance(ends[1].fault, bs.Victim)
            two.abort()
            self.assertEqual(ends[0].ended().answer, bs.X)
            one.commit()

    def test_work_that_begins_again_keeps_its_turn(self):
        first = self.table.begin()
        first.abort()
        again, other = self.table.begin(since=first.age), self.table.begin()
        self.assertGreater(other.age, again.age)
        again.commit(), other.commit()

    def test_a_begin_waits_for_a_slot(self):
        with bs.Table(transactions=1) as table:
            one = table.begin()
            with self.assertRaises(bs.TimedOut):
                table.begin(timeout=0.02)
            waiter = self.sleeps(table.begin)
            one.commit()
            waiter.ended().answer.commit()

    def test_escalation(self):
        with self.table.begin() as txn:
            txn.lock_path(self.orders, bs.IX)
            for _ in range(3):
                txn.insert(self.orders)
            self.assertEqual(txn.escalate(self.orders), 3)
            self.assertEqual(txn.held(self.orders), bs.X)

    def test_a_closed_table_refuses(self):
        table = bs.Table()
        table.close()
        self.refused("NullPointer", table.begin)
        self.refused("BadNumber", bs.Table, 2)


if __name__ == "__main__":
    print("version", ".".join(map(str, bs.version())), file=sys.stderr)
    unittest.main()
