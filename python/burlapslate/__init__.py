"""A table of granular locks that threads share, for tests and for teaching: the calls of libburlapslate by ctypes.

A call whose lock must wait sleeps without Python's global lock, so other threads run meanwhile. While the main thread
waits for a lock it handles signals; if a handler raises, as that of Control-C does, the wait is cancelled. The shared
library is the file that BURLAPSLATE_LIBRARY names, or else the one that the system's loader finds.

    import burlapslate as bs

    with bs.Table() as table:
        db = table.add_inner()
        orders = table.add_file([db])
        with table.begin() as txn:  # commits at its end, and aborts if the block raises
            txn.lock_path(orders, bs.IX)
            record = txn.insert(orders)
"""
import _thread
import ctypes as c
import ctypes.util
import enum
import os
import threading
import time


class Mode(enum.IntEnum):
    """A lock mode, from none to exclusive. It prints as its name."""

    NL, IS, IX, S, SIX, X = range(6)

    def __str__(self):
        return self.name

    def __format__(self, form):
        return format(self.name, form)


NL, IS, IX, S, SIX, X = Mode
AT_BLOCK, BY_WATCHER = range(2)
YOUNGEST, FEWEST = range(2)

DONE, WAITING, VICTIM, MOVED, GONE, TIMED_OUT, OTHER_KEYS = 0, 32, 33, 34, 35, 36, 38
WOULD_BLOCK, NO_SUCH_TXN, NOT_WAITING = 10, 3, 15


class Node(c.Structure):
    """The name of a node; it never names another one of its table."""

    _fields_ = [("key", c.c_size_t), ("birth", c.c_uint64)]

    def __eq__(self, other):
        return isinstance(other, Node) and (self.key, self.birth) == (other.key, other.birth)

    def __hash__(self):
        return hash((self.key, self.birth))

    def __repr__(self):
        return f"Node({self.key}, {self.birth})"


class _Txn(c.Structure):
    _fields_ = [("slot", c.c_uint32), ("age", c.c_uint64)]


class _Reply(c.Structure):
    _fields_ = [
        ("status", c.c_uint32),
        ("mode", c.c_uint32),
        ("node", Node),
        ("txn", _Txn),
        ("released", c.c_uint32),
        ("kept", c.c_uint32),
        ("count", c.c_uint64),
        ("wanted", c.c_uint32),
    ]


class _Options(c.Structure):
    _fields_ = [(name, c.c_uint32) for name in ("detect", "victims", "transactions", "nodes", "bounds", "parts")]


class _Time(c.Structure):
    _fields_ = [("seconds", c.c_long), ("nanoseconds", c.c_long)]


def _load():
    path = os.environ.get("BURLAPSLATE_LIBRARY") or ctypes.util.find_library("burlapslate")
    if path is None:
        raise ImportError("libburlapslate is not found: install it, or name the file by BURLAPSLATE_LIBRARY")
    return c.CDLL(path)


_library = _load()
_library.bs_text.restype = c.c_char_p
_library.bs_version.restype = c.c_uint32
_NUMBERS = c.POINTER(c.c_uint64)
_NODES = c.POINTER(Node)
_UNTIL = c.POINTER(_Time)


def _call(name, *kinds):
    """A function of the library that answers a reply."""
    function = getattr(_library, name)
    function.restype, function.argtypes = _Reply, kinds
    return function


_T = c.c_void_p
_make = _call("bs_table_make", c.POINTER(_T), c.POINTER(_Options))
_end, _free = _call("bs_table_end", _T), _call("bs_table_free", c.POINTER(_T))
_add_inner, _add_file, _add_row_file = (
    _call(f"bs_table_add_{kind}", _T, _NODES, c.c_size_t) for kind in ("inner", "file", "row_file")
)
_add_index = _call("bs_table_add_index", _T, _NODES, c.c_size_t, Node, _NUMBERS, c.c_size_t)
_begin_in_turn = _call("bs_table_begin_again_in_turn", _T, c.c_uint64, _UNTIL)
_lock, _lock_path = (_call(f"bs_table_{name}", _T, _Txn, Node, c.c_uint32, _UNTIL) for name in ("lock", "lock_path"))
_try = _call("bs_table_try", _T, _Txn, Node, c.c_uint32)
_try_path = _call("bs_table_try_path", _T, _Txn, Node, c.c_uint32, c.c_uint32)
_unlock, _escalate, _delete, _drop = (
    _call(f"bs_table_{name}", _T, _Txn, Node, c.c_void_p) for name in ("unlock", "escalate", "delete", "drop")
)
_commit, _abort, _cancel = (_call(f"bs_table_{name}", _T, _Txn, c.c_void_p) for name in ("commit", "abort", "cancel"))
_mark = _call("bs_table_mark", _T, _Txn)
_release_since = _call("bs_table_release_since", _T, _Txn, c.c_uint64, c.c_void_p)
_insert = _call("bs_table_insert", _T, _Txn, Node, _NUMBERS, c.c_size_t)
_rekey = _call("bs_table_rekey", _T, _Txn, Node, Node, c.c_uint64, c.c_void_p)
_ROW = _T, _Txn, Node, c.c_uint64, _NUMBERS, c.c_size_t, c.c_uint32
_lock_row, _lock_row_path = (_call(f"bs_table_{name}", *_ROW, _UNTIL) for name in ("lock_row", "lock_row_path"))
_try_row, _try_row_path = _call("bs_table_try_row", *_ROW), _call("bs_table_try_row_path", *_ROW, c.c_uint32)
_unlock_row = _call("bs_table_unlock_row", _T, _Txn, Node, c.c_uint64, c.c_void_p)
_watch_thread = _call("bs_table_watch_thread", _T, c.c_uint64)
_trace, _trace_end = _call("bs_table_trace", _T, c.c_int), _call("bs_table_trace_end", _T)
_let_go = _call("bs_table_let_go", _T)
_library.bs_table_hold.restype, _library.bs_table_hold.argtypes = _T, [_T]
_held, _group = _call("bs_held", _T, _Txn, Node), _call("bs_group", _T, Node)
_interval, _interval_of = _call("bs_interval", _T, Node, c.c_size_t), _call("bs_interval_of", _T, Node, c.c_uint64)


class Refused(Exception):
    """A call that was not done: `status` is its number, `node` and `mode` are those that it is about; all zero and NL
    if there is none. Its text has the name of the status, and node and mode if there are some."""

    def __init__(self, reply):
        self.status, self.node, self.mode = reply.status, reply.node, Mode(reply.mode)
        text = _library.bs_text(reply.status).decode()
        text += f": {self.node}" if self.node != Node() else ""
        super().__init__(text + (f" in {self.mode}" if self.mode else ""))


class Victim(Refused):
    """The transaction was chosen to end a deadlock, and can only abort."""


class TimedOut(Refused):
    """The time of a wait came first, and the wait was cancelled."""


class WouldBlock(Refused):
    """A try that cannot be granted at once."""


_FAULTS = {VICTIM: Victim, TIMED_OUT: TimedOut, WOULD_BLOCK: WouldBlock}


def _done(reply, *others):
    """The reply, if it is done or has one of these statuses."""
    if reply.status == DONE or reply.status in others:
        return reply
    raise _FAULTS.get(reply.status, Refused)(reply)


def _aside(cancel, call, *words):
    """The reply of a call that another thread makes, so that this one handles signals meanwhile. If a handler raises,
    the wait is cancelled, and ends first. A handler may raise at any step: what both threads use changes in one."""
    replies, ended, first = [], threading.Lock(), {}

    def make():
        try:
            if first.setdefault("is", make) is make:
                replies.append(call(*words))
        finally:
            ended.release()

    ended.acquire()
    try:
        _thread.start_new_thread(make, ())
        ended.acquire()
    except BaseException:
        # A call that was not made yet is not made any more.
        while first.setdefault("is", None) is make and not replies:
            cancel()
            time.sleep(0.001)
        raise
    return replies[0]


def _until(seconds):
    """So many seconds from now, by the clock of the library; None for no limit."""
    if seconds is None:
        return None
    now = time.clock_gettime_ns(time.CLOCK_MONOTONIC) + int(seconds * 1_000_000_000)
    return c.byref(_Time(now // 1_000_000_000, now % 1_000_000_000))


def _nodes(nodes):
    return (Node * len(nodes))(*nodes), len(nodes)


def _numbers(numbers):
    return (c.c_uint64 * len(numbers))(*numbers), len(numbers)


class Table:
    """A table of locks. As a context manager it is ended and freed at the end of the block."""

    def __init__(self, detect=AT_BLOCK, victims=YOUNGEST, transactions=0, nodes=0, bounds=0):
        """With 0 each limit has the library's default. Raises Refused for numbers out of range and without memory."""
        self._at = _T()
        _done(_make(c.byref(self._at), c.byref(_Options(detect, victims, transactions, nodes, bounds, 1))))

    def close(self):
        """Ends the table: each call that sleeps is refused. No other thread may use it any more."""
        if self._at:
            _end(self._at)
            _done(_free(c.byref(self._at)))

    def __enter__(self):
        return self

    def __exit__(self, *fault):
        self.close()

    def add_inner(self, parents=()):
        """A new inner node under these; a root if there are none."""
        return _done(_add_inner(self._at, *_nodes(parents))).node

    def add_file(self, parents):
        """A new file of records under these inner nodes."""
        return _done(_add_file(self._at, *_nodes(parents))).node

    def add_row_file(self, parents):
        """A new file of rows, which the engine names by numbers of its own."""
        return _done(_add_row_file(self._at, *_nodes(parents))).node

    def add_index(self, parents, file, bounds=()):
        """A new index of a file without records, with an interval more than bounds."""
        return _done(_add_index(self._at, *_nodes(parents), file, *_numbers(bounds))).node

    def begin(self, since=None, timeout=None):
        """A new transaction, after those that wait for a slot already. `since` is the age of an earlier one whose work
        it does again: so the work keeps its turn. No signal ends a wait for a slot: give it a `timeout`."""
        since = 2**64 - 1 if since is None else since
        return Transaction(self, _done(_begin_in_turn(self._at, since, _until(timeout))).txn)

    def watch(self, pace=0.001):
        """Starts the thread that ends deadlocks of a table made with BY_WATCHER; it rests so many seconds each time."""
        _done(_watch_thread(self._at, int(pace * 1_000_000_000)))

    def trace(self, file):
        """Writes each command from now on as a line of a script, with its answer and the notices in comments, into a
        file with a descriptor, which may then be closed. `gltool` plays it. Only before the first transaction."""
        _done(_trace(self._at, file.fileno()))

    def end_trace(self):
        """Ends the trace, after all its lines are written. Answers how many were dropped."""
        return _done(_trace_end(self._at)).count

    def group(self, node):
        """The supremum of the modes that are granted on a node."""
        return Mode(self._ask(_group, node).mode)

    def interval(self, index, place):
        """An interval of an index, by its place from 0 on: interval i has the keys from bound i - 1 on."""
        return self._ask(_interval, index, place).node

    def interval_of(self, index, key):
        """The interval of an index to which a key belongs: an insert or a row with the key needs it locked."""
        return self._ask(_interval_of, index, key).node

    def _ask(self, question, *words):
        """What the manager answers, with the latch held."""
        manager = _library.bs_table_hold(self._at)
        reply = question(manager, *words)
        if manager is not None:
            _let_go(self._at)
        return _done(reply)


class Transaction:
    """A transaction. As a context manager it commits at the end of the block, and aborts if the block raises. If the
    block's thread has ended it already, the end of the block does nothing."""

    def __init__(self, table, txn):
        self.table, self._txn, self._ended_by = table, txn, None

    @property
    def age(self):
        """Its number in the order of begins."""
        return self._txn.age

    def __enter__(self):
        return self

    def __exit__(self, kind, fault, trace):
        if self._ended_by == threading.get_ident():
            return
        if kind is None:
            self.commit()
        else:
            _done(_abort(self.table._at, self._txn, None), NO_SUCH_TXN)

    def _does(self, call, *words, told=False):
        return _done(call(self.table._at, self._txn, *words, *((None,) if told else ())))

    def _sleeps(self, attempt, tried, call, words):
        """The reply of a call that may sleep. The main thread, which handles signals, tries it first."""
        me = self.table._at, self._txn
        if threading.current_thread() is not threading.main_thread():
            return _done(call(*me, *words), OTHER_KEYS)
        reply = attempt(*me, *tried)
        if reply.status == WOULD_BLOCK:
            reply = _aside(lambda: _cancel(*me, None), call, *me, *words)
        return _done(reply, OTHER_KEYS)

    def lock(self, node, mode, timeout=None):
        """Requests a mode on a node, and sleeps while the lock waits, for `timeout` seconds at most. Answers the mode
        that it holds then. Raises Victim, TimedOut, and Refused with its status, also if the node moved or is gone."""
        return Mode(self._sleeps(_try, (node, mode), _lock, (node, mode, _until(timeout))).mode)

    def lock_path(self, node, mode, timeout=None):
        """As `lock`, with intentions on what must be held above the node."""
        return Mode(self._sleeps(_try_path, (node, mode, 1), _lock_path, (node, mode, _until(timeout))).mode)

    def try_lock(self, node, mode):
        """As `lock`, but raises WouldBlock if the lock would have to wait."""
        return Mode(self._does(_try, node, mode).mode)

    def try_path(self, node, mode, keep=False):
        """As `lock_path`, but raises WouldBlock if a lock would have to wait; it keeps those above only with `keep`."""
        return Mode(self._does(_try_path, node, mode, int(keep)).mode)

    def unlock(self, node):
        """Releases a node of which it holds no child."""
        self._does(_unlock, node, told=True)

    def escalate(self, node):
        """Raises the lock of a node, and releases the children that it covers: how many."""
        return self._does(_escalate, node, told=True).released

    def lock_row(self, file, number, keys=(), mode=X, timeout=None):
        """Locks a row of which the intentions above are held, on its file and on `interval_of` each key. Answers
        whether its keys are these: if not, read them again."""
        row = file, number, *_numbers(keys), mode
        return self._sleeps(_try_row, row, _lock_row, (*row, _until(timeout))).status == DONE

    def lock_row_path(self, file, number, keys=(), mode=X, timeout=None):
        """As `lock_row`, with intentions on what must be held above the row; it sleeps for each lock that must wait. If
        the row's keys change meanwhile, it continues with the new ones. If it raises, the locks above the row stay."""
        row = file, number, *_numbers(keys), mode
        return self._sleeps(_try_row_path, (*row, 1), _lock_row_path, (*row, _until(timeout))).status == DONE

    def try_row(self, file, number, keys=(), mode=X):
        """As `lock_row`, but raises WouldBlock if the lock would have to wait."""
        return self._tries_row(_try_row, file, number, *_numbers(keys), mode)

    def try_row_path(self, file, number, keys=(), mode=X, keep=False):
        """As `lock_row_path`, but raises WouldBlock if a lock would have to wait; it keeps those above only with
        `keep`."""
        return self._tries_row(_try_row_path, file, number, *_numbers(keys), mode, int(keep))

    def _tries_row(self, attempt, *words):
        return _done(attempt(self.table._at, self._txn, *words), OTHER_KEYS).status == DONE

    def unlock_row(self, file, number):
        """Releases a row."""
        self._does(_unlock_row, file, number, told=True)

    def insert(self, file, keys=()):
        """A new record of a file, with a key for each of its indexes, held in X. It needs IX or more on the file
        and on `interval_of` each key."""
        return self._does(_insert, file, *_numbers(keys)).node

    def delete(self, record):
        """Removes a record that it holds in X."""
        self._does(_delete, record, told=True)

    def rekey(self, record, index, key):
        """Gives a record another key for an index."""
        self._does(_rekey, record, index, key, told=True)

    def drop(self, node):
        """Removes an inner node, a file or an index that it holds in X."""
        self._does(_drop, node, told=True)

    def held(self, node):
        """The mode in which it holds a node."""
        return Mode(self.table._ask(_held, self._txn, node).mode)

    def mark(self):
        """A savepoint, for `release_since`."""
        return self._does(_mark).count

    def release_since(self, savepoint):
        """Releases what it has locked since the savepoint: how many nodes."""
        return self._does(_release_since, savepoint, told=True).count

    def cancel(self):
        """Cancels its wait, by another thread: whether it waited."""
        return _done(_cancel(self.table._at, self._txn, None), NOT_WAITING).status == DONE

    def commit(self):
        """Ends it, and releases everything."""
        self._does(_commit, told=True)
        self._ended_by = threading.get_ident()

    def abort(self):
        """Ends it whatever it does, and releases everything."""
        self._does(_abort, told=True)
        self._ended_by = threading.get_ident()


def version():
    """The version of the library as three numbers."""
    number = _library.bs_version()
    return number // 1_000_000, number // 1000 % 1000, number % 1000
