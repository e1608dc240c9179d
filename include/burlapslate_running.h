/*
 * burlapslate_running.h: for whoever runs a table of locks: who waits, for whom, for how long, and how it was until
 * now, also as a script of all commands; for C and C++.
 *
 * A table times each wait by CLOCK_MONOTONIC, always: from the command that leaves a lock waiting to the command that
 * ends the wait, whatever its thread does meanwhile. A lock that does not wait reads no clock. A path or a row that
 * waits several times has several waits. A begin that waits for a slot has none.
 *
 * All times are in nanoseconds. What burlapslate_shared.h requires of callers holds here too, and so does what it says
 * of a null table, one that was ended, and one that this thread holds. Probes for bpftrace and SystemTap are in the
 * library if sys/sdt.h was there when it was built (docs/ENGINES.md).
 */
#ifndef BURLAPSLATE_RUNNING_H
#define BURLAPSLATE_RUNNING_H

#include "burlapslate_shared.h"

#ifdef __cplusplus
extern "C" {
#endif

/* ------------------------------------------------------------------------------------------------
 * How long.
 */

/* How a wait ended: with the lock; its transaction was condemned; its time was over; a cancel or an abort named it; the
 * node moved; the node is gone. BS_WAIT_ENDS is how many there are. */
enum bs_wait_ends {
  BS_END_GRANTED = 0, BS_END_VICTIM, BS_END_TIMED_OUT, BS_END_CANCELLED, BS_END_MOVED, BS_END_GONE, BS_WAIT_ENDS
};

/* How many buckets a histogram has. */
enum { BS_WAIT_BUCKETS = 29 };

/* Waits by their length. Bucket 0 counts those of at most a microsecond, bucket i up to 27 those of at most 2^i
 * microseconds and more than half of that, and bucket 28 those that were longer than 2^27, some 134 seconds. */
typedef struct bs_histogram {
  uint64_t buckets[BS_WAIT_BUCKETS];
  uint64_t nanoseconds; /* of all these together; it stops at the greatest uint64_t */
} bs_histogram;

/* The waits of a table. */
typedef struct bs_waits {
  bs_histogram ended[BS_WAIT_ENDS]; /* those that have ended since the table was made, by enum bs_wait_ends */
  uint64_t waiting;                 /* how many transactions wait now */
  uint64_t longest;                 /* for how long that one does which waits longest; 0 if none waits */
} bs_waits;

/* Writes the waits of a table, all of one moment. A request whose transaction is condemned at once (BS_VICTIM) has not
 * waited, and is not in them. So `waited` of bs_counts is `waiting` and all buckets together. Refused with
 * BS_NULL_POINTER; nothing is written then. */
bs_reply bs_table_waits(bs_table *table, bs_waits *waits);

/* For how long a transaction has waited, in `count`; `node` and `mode` are what it waits for. Refused with
 * BS_NO_SUCH_TXN, BS_NOT_WAITING. */
bs_reply bs_table_waited(bs_table *table, bs_txn txn);

/* ------------------------------------------------------------------------------------------------
 * Where.
 */

/* A node with how long it was waited for. The waits for it took `nanoseconds` together, or up to `error` less. */
typedef struct bs_awaited_node {
  bs_node node; /* it may be gone */
  uint64_t nanoseconds;
  uint64_t error;
  uint64_t waits; /* how many were counted; if `error` is not 0 there may have been more */
} bs_awaited_node;

enum { BS_MOST_AWAITED = 8 };

/* The nodes that were waited for longest since the last reset, the first the longest. */
typedef struct bs_awaited {
  uint64_t nanoseconds; /* all waits for all nodes together */
  uint64_t since;       /* how long ago the last reset was, or the table was made */
  size_t count;
  bs_awaited_node at[BS_MOST_AWAITED]; /* the first `count` places */
} bs_awaited;

/* Writes the nodes that were waited for longest since the last reset. Waits that have not ended count up to now, and of
 * those that began before the reset what came after it. If `reset` is true, the count begins anew at this moment, so
 * that no wait is lost between two calls. Takes no memory: the table counts 32 nodes, as Space-Saving does, and another
 * node takes the place of the one with the least. So while waits were for at most 32 nodes, all is exact. Else `error`
 * is at most a 32nd of `nanoseconds` of the whole, and a node with more than a 32nd of the whole is counted. Refused
 * with BS_NULL_POINTER; nothing is written or reset then. */
bs_reply bs_table_awaited(bs_table *table, bs_awaited *awaited, bool reset);

/* ------------------------------------------------------------------------------------------------
 * Long waits and deadlocks are told.
 */

/* A transaction that is in the way of a waiter. */
typedef struct bs_blocker {
  bs_txn txn;
  bs_mode held;   /* the mode in which it holds the node; BS_NL if it does not */
  bs_mode wanted; /* the mode in which it waits for the node; BS_NL if it does not */
  uint32_t doing; /* of enum bs_doings: if it waits, for this node or another */
} bs_blocker;

/* A wait that is long, as it was at one moment. */
typedef struct bs_long_wait {
  bs_txn txn; /* this transaction waits */
  bs_node node;
  bs_mode mode; /* the wanted mode, as of bs_doing */
  uint64_t nanoseconds; /* for how long */
  size_t count;
  bs_blocker at[BS_SLOTS]; /* for these: the first `count` places, by rising slot, as bs_waits_for has them */
} bs_long_wait;

/* Has long waits and deadlocks told: calls the function once for each wait that lasts so many milliseconds or longer,
 * with `wait`, and for each deadlock that ends with a victim, with `deadlock`; the other of the two is null. Both are
 * there only during the call.
 *
 * The first such call starts a thread, which makes all calls of the function, one after the other, without the latch.
 * It is not that of bs_table_watch_thread, so a slow function delays no victim, and no wait: only what it is told next.
 * It sleeps until the next wait is long, takes no signals, and ends with the table; bs_table_end awaits the function.
 *   - A wait is told once at most, also if the function or the time is another meanwhile. One that has ended before the
 *     thread looks is not told, and one that is told may have ended by then. A wait that began before counts in full.
 *   - Of a deadlock the function is given what bs_last_deadlock has of its victim. If one command condemned several,
 *     that is the last of them. Deadlocks since the function was given are told in their order, before any wait. Up to
 *     16 may await the function, with up to twice BS_SLOTS transactions on their cycles. Others are lost;
 *     bs_table_metrics counts them.
 *   - The function may make what calls the callback of bs_table_on_end may make, under the same rules: so it may cancel
 *     or abort the waiter. Those that could sleep, and bs_table_end, are refused with BS_IN_USE. Ends of asks that it
 *     sets off are told after it by the same thread.
 *   - A null function takes back the one before, which is not called any more after this. If it is being called, the
 *     call sleeps until it has returned, unless the function itself makes the call: so that what `context` points to
 *     can be freed. Another function takes its place likewise. No mutex that the function takes may be held around this
 *     call.
 * Refused with BS_NULL_POINTER; with BS_IN_USE also while the thread holds any table, and in any callback but this
 * function of this table; with BS_BAD_NUMBER if the time is 0, unless the function is null; and with BS_NO_MEMORY also
 * if no thread can be started. The first call takes memory, some 33 kilobytes, with 1,024 slots 720, and the thread's
 * stack. */
bs_reply bs_table_on_long_wait(bs_table *table, uint64_t milliseconds,
                               void (*function)(void *context, const bs_long_wait *wait, const bs_deadlock *deadlock),
                               void *context);

/* ------------------------------------------------------------------------------------------------
 * Metrics.
 */

/* Writes all counters of a table, and its waits as a histogram, as text in the form of OpenMetrics, with a name, a type
 * and a help for each. It calls the function with one part after the other, each of `length` bytes with no zero at
 * their end, until that answers false: then the call answers BS_NOT_WRITTEN, and what was written lacks `# EOF`, by
 * which a reader knows a whole text. All numbers are of one moment. The function is called without the latch, so it may
 * be slow, and may make any call. It must return; a pthread_cancel takes effect after the call. Refused with
 * BS_NULL_POINTER also if the function is null. Takes no memory. */
bs_reply bs_table_metrics(bs_table *table, bool (*write)(void *context, const char *text, size_t length),
                          void *context);

/* ------------------------------------------------------------------------------------------------
 * A trace: what a table has done, as a script.
 */

/* Begins a trace: writes each command that the table accepts as a line of a script (docs/SCRIPT.md), and in comments
 * after it its answer and the notices, each with the seconds since the trace began. gltool plays the script and answers
 * the same; the trace says with which words. `file` is a descriptor to write to. The table makes a copy of it, so the
 * caller may close it.
 *   - All commands are there, whoever made them: each lock of a path, the request of a row after its grant, the cancel
 *     of a wait whose time is over, a begin that waited for a slot. Nodes that were made before come first. Refused
 *     commands and questions are not there.
 *   - A thread of the table's own writes; it takes no signals. If it is late by more than eight megabytes, further
 *     lines are dropped until there is room, and a comment says how many. Only bs_table_trace_end and bs_table_end
 *     await it.
 *   - No index is made beside records meanwhile (bs_table_index_records).
 *   - A transaction is named t and its slot, a node n and its birth; an interval is its index and its place.
 *   - The trace cannot be played beyond dropped lines, an index whose bounds make a line of more than 256 bytes, or
 *     more than 128 transactions at once. A comment says so, and all later lines are comments too. gltool reads the
 *     first 16 megabytes of a script, and has at most 65,536 nodes.
 * Each command of a traced table reads a clock and makes some look-ups. Refused with BS_IN_USE also if the table has a
 * trace; with BS_TOO_LATE if a transaction has begun in it or a record was made; with BS_BAD_NUMBER if the file cannot
 * be written to; and with BS_NO_MEMORY also if no thread can be started. Takes memory, some eight megabytes, and more
 * for many rows that are locked at once. */
bs_reply bs_table_trace(bs_table *table, int file);

/* Ends the trace, after all lines are written; so it may sleep. `count` is how many lines were dropped, also because a
 * write has failed: after a first failure no more is written. bs_table_end ends a trace too. Refused with BS_NO_TRACE
 * if the table has none, and with BS_IN_USE as a call that may sleep. Answers BS_NOT_WRITTEN, with that count, if a
 * write has failed; the trace has ended then too. */
bs_reply bs_table_trace_end(bs_table *table);

#ifdef __cplusplus
}
#endif

#endif
