/*
 * burlapslate.h: a lock manager of granular locks, for C and C++.
 *
 * Transactions lock the nodes of a graph: inner nodes (a database, an area), files, indexes of files, intervals of
 * indexes, and records. A transaction that locks a node holds intentions above it, so a lock on a node counts as locks
 * on everything below it.
 *
 * WHO MAY CALL WHEN. One thread at a time may use a manager, now one thread and now another: hold a mutex of your own
 * during each call with it. No call blocks. A lock that is not granted at once is answered with BS_WAITING, and a later
 * call of another transaction reports the end of the wait by a notice. Two managers share nothing, and a board is a
 * value of its own, which any thread may read. One thread at a time may use a bs_watcher as well, but bs_look and
 * bs_watch_end need no mutex: they work while other threads use the manager. No call may be made from a signal handler,
 * or from the forked child of a process with threads. A const manager, such as one that a shared table lends, can only
 * be asked questions, and two threads may not ask at once.
 *
 * WHAT YOU KEEP. In addition to what a call says:
 *   - a bs_manager is BS_NO_MANAGER_HERE, which is all zero, before the first call with it; from then until bs_end you
 *     neither copy, move, read nor write it;
 *   - the same holds of a bs_watcher, with BS_NO_WATCHER_HERE and bs_watch_end;
 *   - a pointer is null, or points to an object of its type that was given some value before; a list points to as many
 *     objects as its count says;
 *   - what a call writes (its manager, watcher, notices or board) overlaps nothing else that the call is given, and
 *     nobody else uses it during the call;
 *   - malloc, realloc and free belong to one allocator, and align as the C standard requires.
 * Null pointers are refused with BS_NULL_POINTER and never read; a list of count 0 may be null. Names may have any
 * values: the name of a node that is gone, the name of a transaction that has ended, or an invented one names nothing
 * and is refused.
 *
 * WHAT A CALL ANSWERS. A call returns a bs_reply. Its status is BS_DONE, BS_WAITING, BS_VICTIM or another that the
 * call's comment describes; otherwise it says why the call was refused. A refused call changed nothing. bs_lock_path
 * makes several locks, and says which of them may stay. All fields that a call's comment does not mention are zero. If
 * several refusals hold, the call answers the first of these:
 *   - BS_NULL_POINTER;
 *   - BS_OTHER_VERSION, and then BS_OTHER_SLOTS, of the calls that name them;
 *   - BS_BAD_NUMBER, if the call says that it comes first of all;
 *   - BS_NO_MANAGER;
 *   - BS_ROWS_BY_NUMBER, BS_NOT_ROWS;
 *   - BS_WORN_OUT, of every call except the questions;
 *   - those in the call's list, in their order;
 *   - BS_NO_MEMORY, of a call that takes memory, unless it says otherwise.
 *
 * NOTICES. A call with `told` overwrites it with the call's notices: at most one for each transaction, by rising slot.
 * It is empty if the call was refused. The transaction that a lock, a cancel or an abort names gets no notice: the
 * caller has the answer.
 *
 * MEMORY. Calls that end or release something take no memory and cannot fail for lack of it: unlock, cancel, commit,
 * abort, settle, delete, rekey, escalate, of nodes and of rows; and drop. Others say so.
 *
 * ZERO. An option that is 0 has its default. A name that is all zero names nothing.
 *
 * STACK. Making a manager needs some 220 kilobytes of stack, any other call at most 20. With 1,024 slots it needs three
 * megabytes, and a call that reads a board or detects a deadlock 0.7: give the thread that much.
 */
#ifndef BURLAPSLATE_H
#define BURLAPSLATE_H

#include <stdbool.h>
#include <stddef.h>
#include <stdint.h>
#include <string.h>

#ifdef __cplusplus
extern "C" {
#endif

/* The version of these declarations. The first number rises if programs must be changed, or the second while the first
 * is 0. The second rises if something is added, the third if neither. */
#define BS_VERSION_MAJOR 0
#define BS_VERSION_MINOR 36
#define BS_VERSION_PATCH 0

/* How many transactions can live at once, and so how many notices a call can have. A library can be built for another
 * number; it is then installed with headers that have that number here. */
#define BS_SLOTS 128

/* How many parents a node can have, and how many watchers a manager can have at once. */
enum { BS_MOST_PARENTS = 8, BS_MOST_WATCHERS = 8 };

/* The outcome of a call. Refusals are 1 to 24, of the manager, and 64 to 78, of this library. */
typedef uint32_t bs_status;
enum bs_statuses {
  BS_DONE = 0,
  BS_NO_MEMORY = 1,       /* the allocator refused */
  BS_NO_SUCH_NODE = 2,    /* a name names no node */
  BS_NO_SUCH_TXN = 3,     /* the name names no living transaction */
  BS_TXN_WAITING = 4,     /* the transaction waits for a lock */
  BS_TXN_CONDEMNED = 5,   /* the transaction was condemned as a victim, and can only abort */
  BS_BAD_MODE = 6,        /* the requested mode is BS_NL, or on a record neither S nor X */
  BS_NEED_PARENTS = 7,    /* the rule of the graph fails at the parent `node` */
  BS_NOT_HELD = 8,        /* the transaction does not hold the node, or this thread not the table (bs_table_let_go) */
  BS_HELD_CHILD = 9,      /* the transaction holds the child `node` */
  BS_WOULD_BLOCK = 10,    /* the lock cannot be granted at once */
  BS_TOO_MANY_TXNS = 11,  /* the limit of living transactions is reached */
  BS_TOO_MANY_NODES = 12, /* the limit of living nodes is reached, by default 65,536 */
  BS_BAD_PARENTS = 13,    /* a node of the wrong kind for its place, the same parent twice, or too few */
  BS_NEED_EXCLUSIVE = 14, /* exclusive locks are missing that the call needs: a delete, a move, a drop, bs_index_by */
  BS_NOT_WAITING = 15,    /* the transaction waits for nothing */
  BS_NAME_TAKEN = 16,     /* not answered here: names are the manager's own */
  BS_FILE_IN_USE = 17,    /* the file has records; of bs_add_index: or a row had a node; of bs_drop: or indexes */
  BS_BAD_KEYS = 18,       /* bounds that do not rise from above 0, too many; not a key for each index, or record */
  BS_WORN_OUT = 19,       /* a counter has reached its end */
  BS_BAD_LINE = 20,       /* not answered here */
  BS_CYCLE = 21,          /* the new parent `node` is the node itself or is below it */
  BS_RECORD_IN_USE = 22,  /* of bs_forget: a transaction holds the record or waits for it */
  BS_HAS_CHILDREN = 23,   /* of bs_drop: the inner node has children */
  BS_NEED_RELEASE = 24,   /* of bs_renew: more than intentions is held, or a node for which somebody waits */
  BS_WAITING = 32,        /* the transaction waits for the lock */
  BS_VICTIM = 33,         /* the requester was condemned to end a deadlock, and can only abort */
  BS_MOVED = 34,          /* the node moved, and the wait is over */
  BS_GONE = 35,           /* the node is gone, and the wait is over */
  BS_TIMED_OUT = 36,      /* not answered here: the lock was not granted in time, and the wait was cancelled */
  BS_ON_THE_WAY = 37,     /* the path is locked as far as `node`, and others were notified: call again */
  BS_OTHER_KEYS = 38,     /* the row is held, but its keys are not those that the caller named: read them again */
  BS_NOT_MADE = 39,       /* not answered here: this command of a list was not made */
  BS_NULL_POINTER = 64,   /* a pointer is null */
  BS_NO_MANAGER = 65,     /* no manager was made at this place, or it was ended */
  BS_BAD_NUMBER = 66,     /* a number names nothing of its kind, or a count is out of range */
  BS_IN_USE = 67,         /* this place has a manager, a table or a watcher; or this thread holds the table */
  BS_NO_PLACE = 68,       /* there are fewer than that */
  BS_NO_WATCHER = 69,     /* no watcher was made at this place, or it was ended */
  BS_TOO_MANY_WATCHERS = 70, /* the manager has as many watchers as it may */
  BS_ROWS_BY_NUMBER = 71, /* a file of rows: its records are inserted, deleted and changed by calls about rows alone */
  BS_NOT_ROWS = 72,       /* the file is not a file of rows */
  BS_OTHER_SLOTS = 73,    /* the library was built for a number of slots other than BS_SLOTS */
  BS_OTHER_VERSION = 74,  /* the library's version differs from that of the program's headers */
  BS_NOT_WRITTEN = 75,    /* not answered here: what was to be written could not be */
  BS_TOO_LATE = 76,       /* not answered here: the table has had a transaction or a record, and cannot be traced */
  BS_NO_TRACE = 77,       /* not answered here: the table has no trace */
  BS_IN_PARTS = 78        /* not answered here: a table with parts has no such call */
};

/* Lock modes, from none to exclusive. Between different transactions on one node, BS_IS is compatible with all but
 * BS_X, BS_IX with BS_IS and BS_IX, BS_S with BS_IS and BS_S, BS_SIX with BS_IS alone, BS_X with none. */
typedef uint32_t bs_mode;
enum bs_modes { BS_NL = 0, BS_IS = 1, BS_IX = 2, BS_S = 3, BS_SIX = 4, BS_X = 5 };

/* How deadlocks are detected: when a transaction begins to wait, or by a watcher that reads boards. */
enum bs_detects { BS_AT_BLOCK = 0, BS_BY_WATCHER = 1 };

/* How victims are chosen. BS_YOUNGEST: the youngest transaction on a cycle of waits with the one that closed it, again
 * and again until that one is on no cycle. BS_FEWEST: the youngest of those that alone take that one off all its
 * cycles, so one victim is always enough. */
enum bs_choices { BS_YOUNGEST = 0, BS_FEWEST = 1 };

/* What a node is. */
enum bs_kinds { BS_INNER = 1, BS_FILE = 2, BS_INDEX = 3, BS_INTERVAL = 4, BS_RECORD = 5 };

/* What a transaction is doing: it may request locks; it waits for one; it was condemned, and can only abort. */
enum bs_doings { BS_ACTIVE = 1, BS_WAITS = 2, BS_CONDEMNED = 3 };

/* What a notice tells a transaction. */
enum bs_notice_kinds {
  BS_TOLD_GRANTED = 1, /* its wait is over: it holds `node` in `mode` */
  BS_TOLD_VICTIM = 2,  /* it was condemned to end a deadlock, and can only abort */
  BS_TOLD_MOVED = 3,   /* the node moved, and its wait no longer meets the rule of the graph: the wait is over */
  BS_TOLD_GONE = 4     /* the node is gone, and its wait is over */
};

/* The name of a node. It stays the same while the node lives, and never names another node of its manager. In another
 * manager, or one made later at the same place, it may name anything. */
typedef struct bs_node {
  size_t key;
  uint64_t birth;
} bs_node;

/* The name of a transaction. It stays the same while the transaction lives, and never names another of its manager. */
typedef struct bs_txn {
  uint32_t slot; /* below BS_SLOTS; any other value names no transaction */
  uint64_t age;  /* its number in the order of begins: the youngest has the greatest */
} bs_txn;

/* The place of a manager. Its fields are the library's own. */
typedef struct bs_manager {
  bool is_open;
  void *at;
} bs_manager;

#define BS_NO_MANAGER_HERE { false, NULL }

/* The place of a watcher. Its fields are the library's own. */
typedef struct bs_watcher {
  bool is_open;
  void *at;
  struct bs_watched *parts; /* null unless it is a watcher of a table with parts */
} bs_watcher;

#define BS_NO_WATCHER_HERE { false, NULL, NULL }

/* The answer of a call. */
typedef struct bs_reply {
  bs_status status;
  bs_mode mode;      /* the mode that was granted or asked about */
  bs_node node;      /* the node that was made, requested or asked about, or that the refusal names */
  bs_txn txn;        /* the transaction that began or was asked about */
  uint32_t released; /* of an escalation: how many children were released */
  uint32_t kept;     /* of an escalation: how many held children were kept */
  uint64_t count;    /* the number that was asked about */
  bs_mode wanted;    /* of bs_lock_at: the mode in which the transaction waits for the node */
} bs_reply;

/* One notice. */
typedef struct bs_notice {
  bs_txn txn;
  bs_node node;  /* what was granted; zero in notices of other kinds */
  uint32_t kind; /* of enum bs_notice_kinds */
  bs_mode mode;  /* what was granted; zero in notices of other kinds */
} bs_notice;

/* The notices of one call: the first `count` places. */
typedef struct bs_notices {
  size_t count;
  bs_notice at[BS_SLOTS];
} bs_notices;

/* A set of slots: bit s % 64 of word s / 64 stands for slot s. */
typedef struct bs_slots {
  uint64_t words[BS_SLOTS / 64];
} bs_slots;

/* A snapshot: who waits for whom at one moment. */
typedef struct bs_board {
  uint64_t epoch;          /* how many commands had been accepted by that moment */
  uint64_t ages[BS_SLOTS]; /* by slot, the age of its transaction; 0 if the slot is free */
  bs_slots rows[BS_SLOTS]; /* by slot, the slots for which it waits */
} bs_board;

/* The slots that a question asks for; none if it was refused. */
typedef struct bs_found {
  bs_status status;
  bs_slots slots;
} bs_found;

/* A transaction that waits on a cycle. */
typedef struct bs_stuck {
  bs_txn txn;
  bs_node node;       /* the node that it waits for */
  bs_mode mode;       /* the mode in which it wants that node */
  bs_slots waits_for; /* the slots of the transactions on the cycle for which it waits */
} bs_stuck;

/* A deadlock, as it was when its victim was condemned. */
typedef struct bs_deadlock {
  bs_txn victim;         /* the transaction that was condemned to end it */
  size_t count;          /* how many were on a cycle with the settled transaction, the victim among them */
  bs_stuck at[BS_SLOTS]; /* these, by rising slot: the first `count` places */
} bs_deadlock;

/* What a manager is made with. A number that is 0 has its default. */
typedef struct bs_options {
  uint32_t detect;       /* of enum bs_detects; by default BS_AT_BLOCK */
  uint32_t victims;      /* of enum bs_choices; by default BS_YOUNGEST */
  uint32_t transactions; /* how many may live at once, 1 to BS_SLOTS; by default BS_SLOTS */
  uint32_t nodes;        /* how many may live at once, 1 to 2^31, records and intervals among them; by default 65,536 */
  uint32_t bounds;       /* how many an index may have at most, 1 to 2^31; by default 256 */
  uint32_t parts;        /* of a table: its parts, 1 to 63 (burlapslate_group.h); by default 1, as of a manager */
} bs_options;

/* What a manager has done since it was made, in commands that it accepted. Each count stops at the greatest
 * uint64_t. */
typedef struct bs_counts {
  uint64_t accepted;          /* all commands that were neither refused nor questions */
  uint64_t granted;           /* requests, by lock or by try, that were answered with a mode */
  uint64_t waited;            /* locks that were answered with a wait */
  uint64_t conversions;       /* requests for a node that the transaction already held, unless refused */
  uint64_t granted_later;     /* waits that ended with a grant */
  uint64_t condemned;         /* transactions that were condemned to end a deadlock */
  uint64_t moved;             /* waits that ended because the node moved */
  uint64_t gone;              /* waits that ended because the node is gone */
  uint64_t escalations;       /* escalations that were done */
  uint64_t released_children; /* children that escalations released */
  uint64_t most_waiting;      /* the most transactions that waited at once, counted after a lock that waits */
  uint64_t longest_queue;     /* the most that waited for one node at once, counted after a lock that waits for it */
  uint64_t passed;            /* modes that were raised at once on a node for which another transaction still waits */
} bs_counts;

/* The version of the library as one number: 1,000,000 times the first, plus 1,000 times the second, plus the third. */
uint32_t bs_version(void);

/* The calls of the library, and what the functions below share. Programs do not use them. */
#include "burlapslate_calls.h"

/* ------------------------------------------------------------------------------------------------
 * Managers.
 */

/* Makes a manager at a place that has none, by `options`; if that is null, all options have their defaults. Takes
 * memory, more for more transactions; memory for nodes is taken as they are made. Refused with BS_NULL_POINTER; with
 * BS_OTHER_VERSION and BS_OTHER_SLOTS, if the program was compiled with the headers of another library; with BS_IN_USE,
 * BS_BAD_NUMBER, BS_NO_MEMORY. A version is another if its first or its second number differs. */
static inline bs_reply bs_make(bs_manager *manager, const bs_options *options) {
  bs_options chosen = bs_call_chosen(options, sizeof *options);
  bs_status misfit = bs_call_misfit();
  if (manager == NULL) return bs_call_null();
  if (misfit != BS_DONE) return bs_call_only(misfit);
  if (chosen.parts > 1) return bs_call_only(BS_BAD_NUMBER);
  return bs_call_make_with(manager, chosen.detect, chosen.victims, chosen.transactions, chosen.nodes, chosen.bounds);
}

/* Ends a manager, whatever its transactions do, and frees all memory that it took. The place then has no manager, and
 * may be used for another. Costs a walk over all that the manager has. */
static inline bs_reply bs_end(bs_manager *manager) {
  return manager == NULL ? bs_call_null() : bs_call_end(manager);
}

/* ------------------------------------------------------------------------------------------------
 * The graph. It never has a cycle, whatever is made, moved or removed. These calls take memory; each answers the new
 * node in `node`. They notify nobody. Nodes are removed by bs_drop, and no name is ever given twice.
 */

/* Makes an inner node under 0 to 8 different inner nodes; without parents it is a root. Refused with BS_NO_SUCH_NODE,
 * BS_BAD_PARENTS, BS_TOO_MANY_NODES; with BS_BAD_NUMBER, first of all, if there are more than 8 parents. Costs a
 * look-up for each parent. */
static inline bs_reply bs_add_inner(bs_manager *manager, const bs_node *parents, size_t count) {
  if (manager == NULL || (parents == NULL && count != 0)) return bs_call_null();
  return bs_call_add_inner(manager, bs_call_nodes(parents), count);
}

/* Makes a file of records under 1 to 8 different inner nodes. Its records are named by their nodes. Refused as
 * bs_add_inner. */
static inline bs_reply bs_add_file(bs_manager *manager, const bs_node *parents, size_t count) {
  if (manager == NULL || (parents == NULL && count != 0)) return bs_call_null();
  return bs_call_add_file(manager, bs_call_nodes(parents), count);
}

/* Makes a file of rows under 1 to 8 different inner nodes. Each of its records is a row, which the engine names by a
 * number of its own. Calls about rows alone make a row, remove it and change its keys. A file is of records or of rows
 * for good. Refused as bs_add_inner; BS_NO_MEMORY may come before all refusals but BS_BAD_NUMBER and BS_NO_MANAGER. */
static inline bs_reply bs_add_row_file(bs_manager *manager, const bs_node *parents, size_t count) {
  if (manager == NULL || (parents == NULL && count != 0)) return bs_call_null();
  return bs_call_row_file(manager, bs_call_nodes(parents), count);
}

/* Makes an index of a file that has no records, and whose rows never had a node by bs_adopt or bs_lock_row; otherwise
 * bs_index_by makes one. Its parents are 1 to 8 different inner nodes. It has up to 256 bounds, or up to the number
 * that was chosen when the manager was made. Bounds rise from above 0: interval 0 has the keys below the first bound,
 * interval i those from bound i - 1 on. Each interval is a node. Refused with BS_NO_SUCH_NODE, BS_BAD_PARENTS (also if
 * the file has 7 indexes), BS_FILE_IN_USE, BS_BAD_KEYS, BS_TOO_MANY_NODES (its intervals count); with BS_BAD_NUMBER,
 * first of all, if there are more than 8 parents. Costs a step for each bound. */
static inline bs_reply bs_add_index(bs_manager *manager, const bs_node *parents, size_t count, bs_node file,
                                    const uint64_t *bounds, size_t bound_count) {
  if (manager == NULL || (parents == NULL && count != 0) || (bounds == NULL && bound_count != 0)) return bs_call_null();
  return bs_call_add_index(manager, bs_call_nodes(parents), count, file, bs_call_numbers(bounds), bound_count);
}

/* ------------------------------------------------------------------------------------------------
 * Transactions and locks.
 */

/* Begins a transaction, in `txn`. Refused with BS_TOO_MANY_TXNS. Takes memory. */
static inline bs_reply bs_begin(bs_manager *manager) {
  return manager == NULL ? bs_call_null() : bs_call_begin(manager);
}

/* Begins a transaction, as bs_begin does, for work that earlier transactions did not finish, as victims or because they
 * gave up. `since` is the age of the first of them. A deadlock's victim is the member with the latest `since`, or the
 * youngest of several such; a transaction of bs_begin has its own age as `since`. So work that begins again with its
 * first `since` is condemned only for older work, and less of that is left with each that ends. With BS_YOUNGEST no
 * deadlock condemns its oldest member. With BS_FEWEST one does if no other member ends it. A `since` above the
 * transaction's own age counts as that age. With 0 it is older than all that bs_begin began. Refused as bs_begin. */
static inline bs_reply bs_begin_again(bs_manager *manager, uint64_t since) {
  return manager == NULL ? bs_call_null() : bs_call_begin_again(manager, since);
}

/* Ends a transaction as bs_commit does, and begins another in its slot, in `txn`, that holds what it held: the next
 * transaction of a thread needs the same intentions. The old name is nobody's. `since` is as in bs_begin_again; for new
 * work it is UINT64_MAX. All locks must be intentions (BS_IS, BS_IX), on nodes for which nobody waits: release the others
 * before, as bs_release_since does for all since a savepoint. Later requests wait for such an intention as for any
 * other, until the transaction releases it or ends. Refused with BS_NO_SUCH_TXN, BS_TXN_WAITING, BS_TXN_CONDEMNED,
 * BS_NEED_RELEASE. Costs a step for each lock. */
static inline bs_reply bs_renew(bs_manager *manager, bs_txn txn, uint64_t since) {
  return manager == NULL ? bs_call_null() : bs_call_renew(manager, txn, since);
}

/* Requests a mode on a node. To read (BS_IS, BS_S) the transaction must hold intentions to read, or more, on one
 * parent; to write (BS_IX, BS_SIX, BS_X) intentions to write, or more, on all parents. The wanted mode is the least
 * that covers the held and the requested mode. It is granted at once if two things hold: it is compatible with what
 * others hold; and the transaction already holds the node, or nobody waits for it. So a newcomer passes no queue, and a
 * transaction that holds the node waits ahead of all newcomers.
 * BS_DONE: `mode` is the mode now held. BS_WAITING: the transaction waits, and still holds what it held. It does
 * nothing else until a notice tells it the end of the wait, or it cancels or aborts. BS_VICTIM: its wait closed a cycle
 * of waits, and it was chosen as a victim. Its wait is over, its locks stay, and it can only abort.
 * If the wait closed a cycle, others may be condemned too, also beside BS_VICTIM, and are told BS_TOLD_VICTIM. Those
 * queued behind a victim may be told BS_TOLD_GRANTED.
 * Refused with BS_NO_SUCH_TXN, BS_TXN_WAITING, BS_TXN_CONDEMNED, BS_NO_SUCH_NODE, BS_BAD_MODE, BS_NEED_PARENTS, and
 * with BS_BAD_NUMBER, first of all, if the mode is not a value of enum bs_modes. Takes memory, unless the transaction
 * already holds the node and is granted at once. Costs one look-up of the node and one for each parent; a wait with
 * detection at block costs a search along the waits too. */
static inline bs_reply bs_lock(bs_manager *manager, bs_txn txn, bs_node node, bs_mode mode, bs_notices *told) {
  return bs_call_lacks(manager, told) ? bs_call_null() : bs_call_lock(manager, txn, node, mode, told);
}

/* Locks a node after what must be held above it. That is intentions, root first: to write on all parents, to read on
 * the first, if none is held already. Then it locks the node in its mode. Each is a lock as by bs_lock, and a command.
 * What is held already is not requested. The call ends at the first lock that waits or makes the transaction a victim;
 * what was locked before stays locked.
 * BS_DONE: `mode` is the mode in which the node is held. BS_WAITING and BS_VICTIM: `node` is the one for which the
 * transaction waits or was condemned: the node itself or one above it. After that lock is granted, make the call again.
 * BS_ON_THE_WAY: `node`, one above, was granted because others were condemned. Make the call again after all in `told`
 * were notified.
 * Refused as bs_lock, but never with BS_NEED_PARENTS. Nothing was locked then, unless BS_NO_MEMORY or BS_WORN_OUT comes
 * after some of the locks: these stay. Costs its locks, and for each of them a look at each node above. */
static inline bs_reply bs_lock_path(bs_manager *manager, bs_txn txn, bs_node node, bs_mode mode, bs_notices *told) {
  return bs_call_lacks(manager, told) ? bs_call_null() : bs_call_lock_path(manager, txn, node, mode, told);
}

/* As bs_lock, but a lock that cannot be granted at once is refused with BS_WOULD_BLOCK, after the other refusals. It
 * never waits and notifies nobody. */
static inline bs_reply bs_try(bs_manager *manager, bs_txn txn, bs_node node, bs_mode mode) {
  return manager == NULL ? bs_call_null() : bs_call_try(manager, txn, node, mode);
}

/* Releases a node if the transaction holds no child of it, not even one that it may read by another parent. Refused
 * with BS_NO_SUCH_TXN, BS_TXN_WAITING, BS_TXN_CONDEMNED, BS_NO_SUCH_NODE, BS_NOT_HELD, BS_HELD_CHILD. Costs a look-up,
 * and a step for each waiter that is granted. */
static inline bs_reply bs_unlock(bs_manager *manager, bs_txn txn, bs_node node, bs_notices *told) {
  return bs_call_lacks(manager, told) ? bs_call_null() : bs_call_unlock(manager, txn, node, told);
}

/* Answers a savepoint of a transaction, in `count`, for bs_release_since: how many nodes it holds or waits for. Nothing
 * is stored for it. It is valid until the transaction releases a lock that it had by then: by bs_unlock, bs_unlock_row,
 * bs_escalate, bs_delete, bs_drop or bs_merge, or because another transaction removes the node. A savepoint made during
 * a wait counts that wait. If the wait ends without a grant, as by bs_cancel, that is such a release: a later lock takes
 * its place, and bs_release_since keeps that one. Refused with BS_NO_SUCH_TXN. */
static inline bs_reply bs_mark(const bs_manager *manager, bs_txn txn) {
  return bs_call_can_ask(manager) ? bs_call_lock_count(manager, txn) : bs_call_unasked(manager);
}

/* Rolls back to a savepoint: releases what the transaction has locked since, children before their parents; `count` is
 * how many nodes those were. The transaction still holds what it had by then, in that mode or in the greater one to
 * which it was raised since: no command lowers a mode, and the earlier mode is no longer known. For the same reason a
 * node stays if the transaction still holds a child of it: the child was held before by another parent, or was raised
 * since, which took intentions on all its parents. Rows that nobody holds any more are let go. With a savepoint that is
 * no longer valid it releases fewer nodes, and never one from before it.
 * Each node is one command. Refused, before anything is released, with BS_NO_SUCH_TXN, BS_TXN_WAITING,
 * BS_TXN_CONDEMNED, and with BS_WORN_OUT if not each lock since can be counted. Takes no memory. Costs a step for each
 * lock since, for each waiter that is granted, and for each row that the transaction has requested. */
static inline bs_reply bs_release_since(bs_manager *manager, bs_txn txn, uint64_t savepoint, bs_notices *told) {
  if (bs_call_lacks(manager, told)) return bs_call_null();
  return bs_call_release_since(manager, txn, (size_t)savepoint, told);
}

/* Cancels the wait of a transaction. A row that it waited for is let go. The transaction itself gets no notice: if
 * another thread sleeps for it, notify that thread. Refused with BS_NO_SUCH_TXN, BS_TXN_CONDEMNED, BS_NOT_WAITING. */
static inline bs_reply bs_cancel(bs_manager *manager, bs_txn txn, bs_notices *told) {
  return bs_call_lacks(manager, told) ? bs_call_null() : bs_call_cancel(manager, txn, told);
}

/* Ends a transaction and releases everything, its rows included. Refused with BS_NO_SUCH_TXN, BS_TXN_WAITING,
 * BS_TXN_CONDEMNED. Costs a step for each lock and each waiter that is granted. */
static inline bs_reply bs_commit(bs_manager *manager, bs_txn txn, bs_notices *told) {
  return bs_call_lacks(manager, told) ? bs_call_null() : bs_call_commit(manager, txn, told);
}

/* Ends a transaction whatever it is doing, and releases everything, its rows included. It undoes nothing: an inserted
 * record stays, and a deleted or moved one stays so. The transaction itself gets no notice: if another thread sleeps
 * for it, notify that thread. Refused with BS_NO_SUCH_TXN. */
static inline bs_reply bs_abort(bs_manager *manager, bs_txn txn, bs_notices *told) {
  return bs_call_lacks(manager, told) ? bs_call_null() : bs_call_abort(manager, txn, told);
}

/* Condemns victims, by the choice of victims, until the transaction is on no cycle of waits. Each victim is told
 * BS_TOLD_VICTIM: its wait is over, and its locks stay until it aborts. Those queued behind it may be told
 * BS_TOLD_GRANTED. A watcher ends deadlocks by this call. Refused with BS_NO_SUCH_TXN. */
static inline bs_reply bs_settle(bs_manager *manager, bs_txn txn, bs_notices *told) {
  return bs_call_lacks(manager, told) ? bs_call_null() : bs_call_settle(manager, txn, told);
}

/* Raises the lock of a node. If the transaction holds a child to write (BS_IX, BS_SIX, BS_X), the lock is joined with
 * BS_X, otherwise with BS_S, so that BS_IX becomes BS_SIX. Then it releases each child whose lock that implies, unless
 * the transaction holds children of it; released rows are let go. `mode` is the mode now held, `released` and `kept`
 * are how many held children were released and kept. A transaction with locks further down escalates there first. The
 * call never waits, and passes all waiters. Refused with BS_NO_SUCH_TXN, BS_TXN_WAITING, BS_TXN_CONDEMNED,
 * BS_NO_SUCH_NODE, BS_BAD_PARENTS (a record), BS_NOT_HELD, BS_WOULD_BLOCK. Costs a step for each lock of the
 * transaction. */
static inline bs_reply bs_escalate(bs_manager *manager, bs_txn txn, bs_node node, bs_notices *told) {
  return bs_call_lacks(manager, told) ? bs_call_null() : bs_call_escalate(manager, txn, node, told);
}

/* ------------------------------------------------------------------------------------------------
 * Records, and nodes that move. A move notifies the waiters whose wait is over. An insert, delete, adopt, forget or
 * rekey of a record of a file of rows is refused with BS_ROWS_BY_NUMBER.
 */

/* Inserts a record into a file, in `node`, with a key for each of the file's indexes, in the order in which they were
 * made. Its parents are the file and, for each index, the interval of its key; it is held in X. Refused with
 * BS_NO_SUCH_TXN, BS_TXN_WAITING, BS_TXN_CONDEMNED, BS_NO_SUCH_NODE, BS_BAD_PARENTS (not a file), BS_BAD_KEYS,
 * BS_NEED_PARENTS (a parent not itself held in IX or more), BS_TOO_MANY_NODES. Takes memory. */
static inline bs_reply bs_insert(bs_manager *manager, bs_txn txn, bs_node file, const uint64_t *keys, size_t count) {
  if (manager == NULL || (keys == NULL && count != 0)) return bs_call_null();
  return bs_call_insert(manager, txn, file, bs_call_numbers(keys), count);
}

/* Deletes a record that the transaction holds in X by a lock on the record itself, as an insert leaves one; X above it
 * is not enough. Its waiters are told BS_TOLD_GONE. Refused with BS_NO_SUCH_TXN, BS_TXN_WAITING, BS_TXN_CONDEMNED,
 * BS_NO_SUCH_NODE, BS_BAD_PARENTS (not a record), BS_NEED_EXCLUSIVE. */
static inline bs_reply bs_delete(bs_manager *manager, bs_txn txn, bs_node record, bs_notices *told) {
  return bs_call_lacks(manager, told) ? bs_call_null() : bs_call_delete(manager, txn, record, told);
}

/* Makes a record of a file, in `node`, as bs_insert does, but for no transaction: nobody holds it, and no locks are
 * needed. It is for an engine that itself gives its rows nodes while they are locked. After it, only bs_index_by makes
 * an index of the file. Refused with BS_NO_SUCH_NODE, BS_BAD_PARENTS (not a file), BS_BAD_KEYS, BS_TOO_MANY_NODES.
 * Takes memory. */
static inline bs_reply bs_adopt(bs_manager *manager, bs_node file, const uint64_t *keys, size_t count) {
  if (manager == NULL || (keys == NULL && count != 0)) return bs_call_null();
  return bs_call_adopt(manager, file, bs_call_numbers(keys), count);
}

/* Removes a record that nobody holds and nobody waits for. Refused with BS_NO_SUCH_NODE, BS_BAD_PARENTS (not a record),
 * BS_RECORD_IN_USE. */
static inline bs_reply bs_forget(bs_manager *manager, bs_node record) {
  return manager == NULL ? bs_call_null() : bs_call_forget(manager, record);
}

/* Gives a record another key for one index, and so another interval. Its parents are the file and an interval of each
 * of the file's indexes. The transaction needs X on the record and IX or more on the new parents, or X on all old and
 * new parents; each by a lock on that node itself. Refused with BS_NO_SUCH_TXN, BS_TXN_WAITING, BS_TXN_CONDEMNED,
 * BS_NO_SUCH_NODE, BS_BAD_PARENTS (not a record, or not an index of its file), BS_NEED_EXCLUSIVE, BS_NEED_PARENTS. */
static inline bs_reply bs_rekey(bs_manager *manager, bs_txn txn, bs_node record, bs_node index, uint64_t key,
                                bs_notices *told) {
  return bs_call_lacks(manager, told) ? bs_call_null() : bs_call_rekey(manager, txn, record, index, key, told);
}

/* Gives an inner node, a file or an index other parents. The transaction needs X on the node and IX or more on the new
 * parents, or, if there are both, X on all old and new parents; each by a lock on that node itself. Refused with
 * BS_NO_SUCH_TXN, BS_TXN_WAITING, BS_TXN_CONDEMNED, BS_NO_SUCH_NODE, BS_BAD_PARENTS, BS_NEED_EXCLUSIVE,
 * BS_NEED_PARENTS, BS_CYCLE; with BS_BAD_NUMBER, first of all, if there are more than 8 parents. Takes memory, and
 * BS_NO_MEMORY may come in place of BS_CYCLE. Costs a search up from the parents. */
static inline bs_reply bs_move(bs_manager *manager, bs_txn txn, bs_node node, const bs_node *parents, size_t count,
                               bs_notices *told) {
  if (bs_call_lacks(manager, told) || (parents == NULL && count != 0)) return bs_call_null();
  return bs_call_move(manager, txn, node, bs_call_nodes(parents), count, told);
}

/* ------------------------------------------------------------------------------------------------
 * Schema changes. Both are for files of either kind. An abort undoes neither. The name of a removed node is never
 * another's: a call with it is refused with BS_NO_SUCH_NODE.
 */

/* Drops an inner node that has no children, a file that has no records and no indexes, or an index, with its intervals,
 * whose file has no record now. The transaction must hold BS_X on the node, and for an index on its file too; each by a
 * lock on that node itself. All locks on the node and on its intervals end, the transaction's own among them. Its
 * waiters are told BS_TOLD_GONE. After an index is dropped, the later indexes of its file have their places and their
 * keys one lower. Refused with BS_NO_SUCH_TXN, BS_TXN_WAITING, BS_TXN_CONDEMNED, BS_NO_SUCH_NODE, BS_BAD_PARENTS (an
 * interval or a record), BS_NEED_EXCLUSIVE, and then with BS_HAS_CHILDREN (an inner node) or BS_FILE_IN_USE (a file or
 * an index). Costs a look-up or two for the node and for each of its intervals. */
static inline bs_reply bs_drop(bs_manager *manager, bs_txn txn, bs_node node, bs_notices *told) {
  return bs_call_lacks(manager, told) ? bs_call_null() : bs_call_drop(manager, txn, node, told);
}

/* Makes an index, in `node`, of a file that has no record now, with parents and bounds as bs_add_index takes them. If
 * the file has records, bs_index_records makes one (burlapslate_splits.h). It is the last of the file's indexes. The
 * transaction must hold BS_X on the file and BS_IX or more on each parent, each by a lock on that node itself. It holds
 * the index in BS_X from then on, so nobody locks by the new index until it ends. Notifies nobody. Refused with
 * BS_NO_SUCH_TXN, BS_TXN_WAITING, BS_TXN_CONDEMNED, BS_NO_SUCH_NODE, BS_BAD_PARENTS (also if the file has 7 indexes),
 * BS_NEED_EXCLUSIVE, BS_NEED_PARENTS, BS_FILE_IN_USE, BS_BAD_KEYS, BS_TOO_MANY_NODES (its intervals count); with
 * BS_BAD_NUMBER, first of all, if there are more than 8 parents. Takes memory. Costs a step for each bound. */
static inline bs_reply bs_index_by(bs_manager *manager, bs_txn txn, const bs_node *parents, size_t count, bs_node file,
                                   const uint64_t *bounds, size_t bound_count) {
  if (manager == NULL || (parents == NULL && count != 0) || (bounds == NULL && bound_count != 0)) return bs_call_null();
  return bs_call_index_by(manager, txn, bs_call_nodes(parents), count, file, bs_call_numbers(bounds), bound_count,
                          bs_call_nodes(NULL), 0, bs_call_numbers(NULL), 0);
}

/* ------------------------------------------------------------------------------------------------
 * Rows by the engine's own numbers. A row is a file of bs_add_row_file and a number, any number at all. For a file of
 * records, or a name that names no file, calls about a row are refused with BS_NOT_ROWS.
 *
 * A row has a node while some transaction holds it or waits for it. bs_lock_row makes the node. bs_unlock_row lets its
 * row go; bs_commit, bs_abort, bs_cancel, bs_escalate and bs_release_since let all rows go that the transaction has
 * requested by bs_lock_row. That means: they remove the node of a row that nobody holds or waits for any more. No row
 * has two nodes, and no two rows share one. A row can be locked by its node, and asked about by it, like any record. If
 * all that requested a row have ended, each of these calls and bs_unlock lets it go too, whoever makes it.
 *
 * The keys are the row's own, one for each index of its file in the order of making. Only the engine knows them. It
 * reads them before it locks the row, and reads them again after each grant. If they have changed by then, it releases
 * the row by bs_unlock_row and begins anew, with the present keys and with what must be held above them.
 *
 * To insert a row, lock it in BS_X by its number, with the keys that it will have. To delete a row, lock it in BS_X
 * too. It keeps its lock, its node and its number until its transaction ends: nobody else gets the row, or its number,
 * before the commit.
 *
 * bs_unlock, of a row's node, lets go no other row: the node stays, and is removed when the row is next let go. Each
 * call is one command, and each node that it makes or removes is one more. A commit, an abort, an escalation and a
 * cancel look at all rows that the transaction requested: a look-up for each, and a step for each node that is removed.
 */

/* Locks a row by its node, as bs_lock locks a node. A row without a node gets one with these keys; so does a row whose
 * node has other keys, if nobody holds that node or waits for it. Any other row is locked by the node that it has,
 * whatever keys are named. The caller must lock what has to be held above that node: BS_NEED_PARENTS names a missing
 * parent in `node`.
 * If the lock is not refused, `node` is the row's node. BS_DONE: the row is held in `mode`, and the named keys are the
 * node's own. BS_OTHER_KEYS: the row is held in `mode` as well, but the node's keys are others. BS_WAITING: the
 * transaction waits, as of bs_lock. After the grant make the same call again: it does not wait then, and says whether
 * the keys are the node's own. BS_VICTIM: as of bs_lock.
 * A row that keeps its node is refused as the lock of that node. One that gets a node is refused with BS_WORN_OUT,
 * BS_NO_SUCH_TXN, BS_TXN_WAITING, BS_TXN_CONDEMNED, BS_BAD_KEYS, BS_TOO_MANY_NODES, BS_BAD_MODE, BS_NEED_PARENTS.
 * BS_WORN_OUT: fewer than two commands can still be counted, or fewer than three if another node is removed for it.
 * BS_TOO_MANY_NODES: also if another node would be removed for it. Refused with BS_BAD_NUMBER, first of all, if the
 * mode is not a value of enum bs_modes. BS_NO_MEMORY may come before all refusals but BS_BAD_NUMBER and BS_NO_MANAGER.
 * Takes memory. */
static inline bs_reply bs_lock_row(bs_manager *manager, bs_txn txn, bs_node file, uint64_t number, const uint64_t *keys,
                                   size_t count, bs_mode mode, bs_notices *told) {
  if (bs_call_lacks(manager, told) || (keys == NULL && count != 0)) return bs_call_null();
  return bs_call_lock_row(manager, txn, file, number, bs_call_numbers(keys), count, mode, told);
}

/* Releases a row, as bs_unlock releases its node. The node is removed if nobody else holds it or waits for it; else the
 * transaction counts as one that requested the row, until it ends. A row without a node is refused as a node that is
 * gone, here and in the call below. */
static inline bs_reply bs_unlock_row(bs_manager *manager, bs_txn txn, bs_node file, uint64_t number, bs_notices *told) {
  if (bs_call_lacks(manager, told)) return bs_call_null();
  return bs_call_unlock_row(manager, txn, file, number, told);
}

/* Gives a row another key for one index, as bs_rekey does for its node. */
static inline bs_reply bs_rekey_row(bs_manager *manager, bs_txn txn, bs_node file, uint64_t number, bs_node index,
                                    uint64_t key, bs_notices *told) {
  if (bs_call_lacks(manager, told)) return bs_call_null();
  return bs_call_rekey_row(manager, txn, file, number, index, key, told);
}

/* The node of a row, in `node`, for questions and for bs_verdict. Refused with BS_NO_SUCH_NODE if the row has none,
 * also if its file is not a file of rows. Changes nothing and takes no memory. */
static inline bs_reply bs_row_node(const bs_manager *manager, bs_node file, uint64_t number) {
  return bs_call_can_ask(manager) ? bs_call_row_node(manager, file, number) : bs_call_unasked(manager);
}

/* ------------------------------------------------------------------------------------------------
 * Waits: questions for a caller that lets threads sleep. Each slot has a box with its last notice; a lock that was not
 * refused empties the box of its own slot.
 */

/* What became of a lock that was left waiting for this node. BS_WAITING: the wait continues. BS_DONE: the lock was
 * granted; `mode` is the mode now held, which covers the requested one. BS_VICTIM, BS_MOVED, BS_GONE: it was not
 * granted, and the wait is over. Refused with BS_NO_SUCH_TXN, and with BS_NOT_WAITING if the transaction does not wait
 * for the node and no notice tells why, as after a cancel. Refused with BS_BAD_NUMBER, first of all, if the mode is not
 * a value of enum bs_modes. */
static inline bs_reply bs_verdict(const bs_manager *manager, bs_txn txn, bs_node node, bs_mode mode) {
  if (manager != NULL && mode > BS_X) return bs_call_only(BS_BAD_NUMBER);
  return bs_call_can_ask(manager) ? bs_call_verdict(manager, txn, node, mode) : bs_call_unasked(manager);
}

/* The slots whose wait the last accepted command may have ended: wake their sleepers. These are the slots that it told,
 * and the slot that a cancel or an abort names; it ended no other transaction's wait. A refused command, a
 * bs_release_since that releases nothing and a question leave the slots as they are. */
static inline bs_found bs_ended(const bs_manager *manager) {
  return bs_call_can_ask(manager) ? bs_call_ended(manager) : bs_call_none_found(bs_call_unasked(manager).status);
}

/* ------------------------------------------------------------------------------------------------
 * Watchers: who waits for whom, without the mutex of the manager. A manager with watchers shows them its board after
 * each accepted command that may have begun, ended or changed a wait, and after the first one since a watcher was made.
 * If nobody waits, no board is needed after a command that leaves nobody waiting. Otherwise none is needed after a
 * command that tells nobody, if it makes a node or a transaction, or is one of a transaction that neither waits nor
 * holds a node for which somebody waits: a lock, path or row that is granted at once, an unlock, a commit or an abort.
 * Then the last board shows every present wait, with the ages of the waiters and of those for whom they wait; its epoch
 * and all other ages are of its own moment. Showing a board takes memory, some three kilobytes, with 1,024 slots 136.
 * If that is refused, the command is done all the same, the last board may lack what it changed, and the next command
 * shows the board.
 */

/* Makes a watcher of a manager at a place that has none; it starts with the board of this moment. Refused with
 * BS_OTHER_VERSION, BS_OTHER_SLOTS, BS_IN_USE, BS_TOO_MANY_WATCHERS, BS_NO_MEMORY; after a refusal for lack of memory
 * the other watchers may still be shown the board of this moment. Takes memory. Costs what bs_read_board does. */
static inline bs_reply bs_watch(bs_manager *manager, bs_watcher *watcher) {
  bs_status misfit = bs_call_misfit();
  if (manager == NULL || watcher == NULL) return bs_call_null();
  return misfit == BS_DONE ? bs_call_watch(manager, watcher) : bs_call_only(misfit);
}

/* Writes the last board that was shown into `board`: whole, and never older than one that this watcher was given
 * before. With detection at block, and without parts, it has no suspect. Needs no mutex, never waits, and takes no
 * memory. After the manager was ended it is the last board that the manager showed. Refused with BS_OTHER_VERSION,
 * BS_OTHER_SLOTS, BS_NO_WATCHER; nothing is written then. */
static inline bs_reply bs_look(bs_watcher *watcher, bs_board *board) {
  bs_status misfit = bs_call_misfit();
  if (watcher == NULL || board == NULL) return bs_call_null();
  if (misfit != BS_DONE) return bs_call_only(misfit);
  return watcher->parts != NULL ? bs_call_group_look(watcher, board) : bs_call_look(watcher, board);
}

/* Ends a watcher, without a mutex. The place then has no watcher, and may be used for another. Refused with
 * BS_NO_WATCHER. */
static inline bs_reply bs_watch_end(bs_watcher *watcher) {
  if (watcher == NULL) return bs_call_null();
  return watcher->parts != NULL ? bs_call_group_watch_end(watcher) : bs_call_watch_end(watcher);
}

/* ------------------------------------------------------------------------------------------------
 * Questions. They change nothing and, except bs_effective, take no memory. Each costs a look-up or two; a question that
 * costs more says so.
 */

/* The group mode of a node, in `mode`: the least that covers all modes held on it. Refused with BS_NO_SUCH_NODE. */
static inline bs_reply bs_group(const bs_manager *manager, bs_node node) {
  return bs_call_can_ask(manager) ? bs_call_group(manager, node) : bs_call_unasked(manager);
}

/* The mode in which a transaction holds a node, in `mode`; BS_NL if it does not. Refused with BS_NO_SUCH_TXN,
 * BS_NO_SUCH_NODE. */
static inline bs_reply bs_held(const bs_manager *manager, bs_txn txn, bs_node node) {
  return bs_call_can_ask(manager) ? bs_call_held(manager, txn, node) : bs_call_unasked(manager);
}

/* The effective mode of a transaction on a node, in `mode`: what all its locks together permit, BS_NL, BS_S or BS_X.
 * Refused with BS_NO_SUCH_TXN, BS_NO_SUCH_NODE. Takes memory, and looks at each ancestor. */
static inline bs_reply bs_effective(const bs_manager *manager, bs_txn txn, bs_node node) {
  return bs_call_can_ask(manager) ? bs_call_effective(manager, txn, node) : bs_call_unasked(manager);
}

/* How many children of a node a transaction holds, in `count`. Refused with BS_NO_SUCH_TXN, BS_NO_SUCH_NODE, and with
 * BS_NOT_HELD if it does not hold the node itself, even if it holds children of it by another parent. */
static inline bs_reply bs_children(const bs_manager *manager, bs_txn txn, bs_node node) {
  bs_reply reply;
  if (!bs_call_can_ask(manager)) return bs_call_unasked(manager);
  reply = bs_call_children(manager, txn, node);
  return reply.status == BS_NOT_HELD ? bs_call_not_held(manager, txn, node) : reply;
}

/* What a node is, in `count`, of enum bs_kinds. Refused with BS_NO_SUCH_NODE. */
static inline bs_reply bs_kind(const bs_manager *manager, bs_node node) {
  return bs_call_can_ask(manager) ? bs_call_kind(manager, node) : bs_call_unasked(manager);
}

/* A parent of a node, in `node`, by its place from 0 on; the parents of a record are first its file and then, for each
 * index, an interval. Refused with BS_NO_SUCH_NODE, and with BS_NO_PLACE if there are fewer. */
static inline bs_reply bs_parent(const bs_manager *manager, bs_node node, size_t place) {
  if (!bs_call_can_ask(manager)) return bs_call_unasked(manager);
  return bs_call_of_kind(manager, bs_call_parent(manager, node, place), node, 0);
}

/* A key of a record, in `count`, by the place of its index. Refused with BS_NO_SUCH_NODE if the name names no record,
 * and with BS_NO_PLACE if there are fewer. */
static inline bs_reply bs_key(const bs_manager *manager, bs_node record, size_t place) {
  if (!bs_call_can_ask(manager)) return bs_call_unasked(manager);
  return bs_call_of_kind(manager, bs_call_key(manager, record, place), record, BS_RECORD);
}

/* An index of a file, in `node`, by its place in the order of making. Refused with BS_NO_SUCH_NODE if the name names no
 * file, and with BS_NO_PLACE if there are fewer. */
static inline bs_reply bs_index(const bs_manager *manager, bs_node file, size_t place) {
  return bs_call_can_ask(manager) ? bs_call_index(manager, file, place) : bs_call_unasked(manager);
}

/* An interval of an index, in `node`, by its place. Refused with BS_NO_SUCH_NODE if the name names no index, and with
 * BS_NO_PLACE if there are fewer. */
static inline bs_reply bs_interval(const bs_manager *manager, bs_node index, size_t place) {
  if (!bs_call_can_ask(manager)) return bs_call_unasked(manager);
  return bs_call_of_kind(manager, bs_call_interval(manager, index, place), index, BS_INDEX);
}

/* The interval of an index to which a key belongs, in `node`. Refused with BS_NO_SUCH_NODE if the name names no index.
 * Costs a binary search. */
static inline bs_reply bs_interval_of(const bs_manager *manager, bs_node index, uint64_t key) {
  return bs_call_can_ask(manager) ? bs_call_interval_of(manager, index, key) : bs_call_unasked(manager);
}

/* The place of an interval in its index, in `count`. Refused with BS_NO_SUCH_NODE if the name names no interval. Costs a
 * step for each interval before it. */
static inline bs_reply bs_place(const bs_manager *manager, bs_node interval) {
  return bs_call_can_ask(manager) ? bs_call_place(manager, interval) : bs_call_unasked(manager);
}

/* Whether a file has records: 1 or 0, in `count`. Refused with BS_NO_SUCH_NODE if the name names no file. */
static inline bs_reply bs_has_records(const bs_manager *manager, bs_node file) {
  return bs_call_can_ask(manager) ? bs_call_has_records(manager, file) : bs_call_unasked(manager);
}

/* How many nodes live, in `count`. */
static inline bs_reply bs_len(const bs_manager *manager) {
  return bs_call_can_ask(manager) ? bs_call_len(manager) : bs_call_unasked(manager);
}

/* ------------------------------------------------------------------------------------------------
 * Listings: which transactions live, what each holds, and which wait where, one after the other. They change nothing
 * and take no memory. All answers between two commands are of one moment.
 */

/* The options with which a manager was made, written into `options`, with each default as its number. If the call is
 * refused, zero is written. The slots of its transactions are those below `transactions`. */
static inline bs_reply bs_limits(const bs_manager *manager, bs_options *options) {
  if (options == NULL) return bs_call_null();
  memset(options, 0, sizeof *options);
  if (!bs_call_can_ask(manager)) return bs_call_unasked(manager);
  options->detect = (uint32_t)bs_call_detect(manager).count;
  options->victims = (uint32_t)bs_call_victims(manager).count;
  options->transactions = (uint32_t)bs_call_most(manager).count;
  options->nodes = (uint32_t)bs_call_most_nodes(manager).count;
  options->bounds = (uint32_t)bs_call_most_bounds(manager).count;
  options->parts = 1;
  return bs_call_only(BS_DONE);
}

/* The transaction in a slot, in `txn`. Refused with BS_BAD_NUMBER, first of all, if the slot is BS_SLOTS or more, and
 * with BS_NO_PLACE if it is free. */
static inline bs_reply bs_living(const bs_manager *manager, uint32_t slot) {
  if (manager != NULL && slot >= BS_SLOTS) return bs_call_only(BS_BAD_NUMBER);
  return bs_call_can_ask(manager) ? bs_call_living(manager, slot) : bs_call_unasked(manager);
}

/* What a transaction is doing, in `count`, of enum bs_doings. If it waits, `node` is the node and `mode` the wanted
 * mode, the least that covers the held and the requested mode. Refused with BS_NO_SUCH_TXN. */
static inline bs_reply bs_doing(const bs_manager *manager, bs_txn txn) {
  return bs_call_can_ask(manager) ? bs_call_doing(manager, txn) : bs_call_unasked(manager);
}

/* How many waiters are ahead of a waiting transaction in the queue of its node, in `count`. They alone, and members
 * that convert, can be granted the node before it. Refused with BS_NO_SUCH_TXN, BS_NOT_WAITING. Costs a step for each
 * waiter there. */
static inline bs_reply bs_ahead(const bs_manager *manager, bs_txn txn) {
  return bs_call_can_ask(manager) ? bs_call_ahead(manager, txn) : bs_call_unasked(manager);
}

/* How many nodes a transaction holds or waits for, in `count`. Refused with BS_NO_SUCH_TXN. */
static inline bs_reply bs_lock_count(const bs_manager *manager, bs_txn txn) {
  return bs_call_can_ask(manager) ? bs_call_lock_count(manager, txn) : bs_call_unasked(manager);
}

/* A node that a transaction holds or waits for, by its place from 0 on, in `node`. `mode` is the mode in which the
 * transaction holds it, BS_NL if it only waits for it. `wanted` is the wanted mode, BS_NL if it does not wait for it.
 * `count` is how many children of the node it holds. Each such node has one place; a command may change the places.
 * Refused with BS_NO_SUCH_TXN, and with BS_NO_PLACE if there are fewer. */
static inline bs_reply bs_lock_at(const bs_manager *manager, bs_txn txn, size_t place) {
  bs_reply reply;
  if (!bs_call_can_ask(manager)) return bs_call_unasked(manager);
  reply = bs_call_lock_at(manager, txn, place);
  if (reply.status != BS_NO_PLACE || bs_call_doing(manager, txn).status == BS_DONE) return reply;
  return bs_call_only(BS_NO_SUCH_TXN);
}

/* The slots of the transactions that hold a node. Refused with BS_NO_SUCH_NODE. */
static inline bs_found bs_holders(const bs_manager *manager, bs_node node) {
  if (!bs_call_can_ask(manager)) return bs_call_none_found(bs_call_unasked(manager).status);
  return bs_call_holders(manager, node);
}

/* How many transactions wait for a node, in `count`. Refused with BS_NO_SUCH_NODE. */
static inline bs_reply bs_queue_len(const bs_manager *manager, bs_node node) {
  return bs_call_can_ask(manager) ? bs_call_queue_len(manager, node) : bs_call_unasked(manager);
}

/* A transaction that waits for a node, in `txn`, by its place in the queue from 0 on, the first to be granted first;
 * `mode` is its wanted mode. Refused with BS_NO_SUCH_NODE, and with BS_NO_PLACE if there are fewer. */
static inline bs_reply bs_queue_at(const bs_manager *manager, bs_node node, size_t place) {
  return bs_call_can_ask(manager) ? bs_call_queue_at(manager, node, place) : bs_call_unasked(manager);
}

/* The slots for which a transaction waits: those that hold the node in a mode incompatible with the wanted one, and
 * those ahead in its queue; none if it does not wait. Refused with BS_NO_SUCH_TXN. */
static inline bs_found bs_waits_for(const bs_manager *manager, bs_txn txn) {
  if (!bs_call_can_ask(manager)) return bs_call_none_found(bs_call_unasked(manager).status);
  return bs_call_waits_for(manager, txn);
}

/* The deadlock of the last victim, as it was when the victim was condemned, written into `deadlock`. Its transactions
 * may have ended since. Refused with BS_NO_PLACE if no victim was ever condemned; nothing is written then. Costs a copy
 * of its rows. */
static inline bs_reply bs_last_deadlock(const bs_manager *manager, bs_deadlock *deadlock) {
  if (deadlock == NULL) return bs_call_null();
  return bs_call_can_ask(manager) ? bs_call_last_deadlock(manager, deadlock) : bs_call_unasked(manager);
}

/* What the manager has done since it was made, written into `counts`. */
static inline bs_reply bs_counters(const bs_manager *manager, bs_counts *counts) {
  if (counts == NULL) return bs_call_null();
  return bs_call_can_ask(manager) ? bs_call_counters(manager, counts) : bs_call_unasked(manager);
}

/* ------------------------------------------------------------------------------------------------
 * Boards: who waits for whom at one moment, as a value that any thread may read without the manager and its mutex. A
 * board may be out of date; to settle a suspect of an old board does no harm.
 */

/* The board of this moment, written into `board`; if the call is refused, nothing is written. Refused with
 * BS_OTHER_VERSION, BS_OTHER_SLOTS. Costs a step for each transaction, and two passes over each queue. */
static inline bs_reply bs_read_board(const bs_manager *manager, bs_board *board) {
  bs_status misfit = bs_call_misfit();
  if (manager == NULL || board == NULL) return bs_call_null();
  if (misfit != BS_DONE) return bs_call_only(misfit);
  return bs_call_can_ask(manager) ? bs_call_board(manager, board) : bs_call_unasked(manager);
}

/* The slots on a cycle of waits with this slot: those that it reaches by waits and that reach it; none if it is on no
 * cycle. Refused with BS_NULL_POINTER, BS_OTHER_VERSION, BS_OTHER_SLOTS, and BS_BAD_NUMBER if the slot is BS_SLOTS or
 * more. Costs at most a step for each slot that it reaches, twice. */
static inline bs_found bs_on_cycle(const bs_board *board, uint32_t slot) {
  bs_status misfit = bs_call_misfit();
  if (board == NULL) return bs_call_none_found(BS_NULL_POINTER);
  return misfit == BS_DONE ? bs_call_on_cycle(board, slot) : bs_call_none_found(misfit);
}

/* The slots that are on any cycle of waits. Refused with BS_NULL_POINTER, BS_OTHER_VERSION, BS_OTHER_SLOTS. Costs a
 * pass over the rows if nobody waits, otherwise a step for each slot and each that waits. */
static inline bs_found bs_suspects(const bs_board *board) {
  bs_status misfit = bs_call_misfit();
  if (board == NULL) return bs_call_none_found(BS_NULL_POINTER);
  return misfit == BS_DONE ? bs_call_suspects(board) : bs_call_none_found(misfit);
}

/* The youngest of these slots, in `count`; of equal ages, the lowest slot. Refused with BS_NULL_POINTER,
 * BS_OTHER_VERSION, BS_OTHER_SLOTS, and with BS_NO_PLACE if there is none. */
static inline bs_reply bs_youngest(const bs_board *board, bs_slots slots) {
  bs_status misfit = bs_call_misfit();
  if (board == NULL) return bs_call_null();
  return misfit == BS_DONE ? bs_call_youngest(board, &slots) : bs_call_only(misfit);
}

/* Whether a set has a slot, which may be any number. */
static inline bool bs_has(bs_slots slots, uint32_t slot) {
  return slot < BS_SLOTS && (slots.words[slot / 64] >> slot % 64 & 1) != 0;
}

/* ------------------------------------------------------------------------------------------------
 * Texts.
 */

/* The name of a mode; "?" for any other number. */
static inline const char *bs_mode_text(bs_mode mode) {
  static const char *const texts[] = { "NL", "IS", "IX", "S", "SIX", "X" };
  return mode <= BS_X ? texts[mode] : "?";
}

/* The name of a kind of node, of enum bs_kinds; "?" for any other number. */
static inline const char *bs_kind_text(uint64_t kind) {
  static const char *const texts[] = { "?", "inner", "file", "index", "interval", "record" };
  return kind <= BS_RECORD ? texts[kind] : "?";
}

/* The name of a status, for a log; "?" for any other number. */
static inline const char *bs_text(bs_status status) {
  switch (status) {
    case BS_DONE: return "Done";
    case BS_NO_MEMORY: return "NoMemory";
    case BS_NO_SUCH_NODE: return "NoSuchNode";
    case BS_NO_SUCH_TXN: return "NoSuchTxn";
    case BS_TXN_WAITING: return "TxnWaiting";
    case BS_TXN_CONDEMNED: return "TxnCondemned";
    case BS_BAD_MODE: return "BadMode";
    case BS_NEED_PARENTS: return "NeedParents";
    case BS_NOT_HELD: return "NotHeld";
    case BS_HELD_CHILD: return "HeldChild";
    case BS_WOULD_BLOCK: return "WouldBlock";
    case BS_TOO_MANY_TXNS: return "TooManyTxns";
    case BS_TOO_MANY_NODES: return "TooManyNodes";
    case BS_BAD_PARENTS: return "BadParents";
    case BS_NEED_EXCLUSIVE: return "NeedExclusive";
    case BS_NOT_WAITING: return "NotWaiting";
    case BS_NAME_TAKEN: return "NameTaken";
    case BS_FILE_IN_USE: return "FileInUse";
    case BS_BAD_KEYS: return "BadKeys";
    case BS_WORN_OUT: return "WornOut";
    case BS_BAD_LINE: return "BadLine";
    case BS_CYCLE: return "Cycle";
    case BS_RECORD_IN_USE: return "RecordInUse";
    case BS_HAS_CHILDREN: return "HasChildren";
    case BS_NEED_RELEASE: return "NeedRelease";
    case BS_WAITING: return "Waiting";
    case BS_VICTIM: return "Victim";
    case BS_MOVED: return "Moved";
    case BS_GONE: return "Gone";
    case BS_TIMED_OUT: return "TimedOut";
    case BS_ON_THE_WAY: return "OnTheWay";
    case BS_OTHER_KEYS: return "OtherKeys";
    case BS_NOT_MADE: return "NotMade";
    case BS_NULL_POINTER: return "NullPointer";
    case BS_NO_MANAGER: return "NoManager";
    case BS_BAD_NUMBER: return "BadNumber";
    case BS_IN_USE: return "InUse";
    case BS_NO_PLACE: return "NoPlace";
    case BS_NO_WATCHER: return "NoWatcher";
    case BS_TOO_MANY_WATCHERS: return "TooManyWatchers";
    case BS_ROWS_BY_NUMBER: return "RowsByNumber";
    case BS_NOT_ROWS: return "NotRows";
    case BS_OTHER_SLOTS: return "OtherSlots";
    case BS_OTHER_VERSION: return "OtherVersion";
    case BS_NOT_WRITTEN: return "NotWritten";
    case BS_TOO_LATE: return "TooLate";
    case BS_NO_TRACE: return "NoTrace";
    case BS_IN_PARTS: return "InParts";
    default: return "?";
  }
}

#ifdef __cplusplus
}
#endif

#endif
