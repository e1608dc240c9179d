/*
 * burlapslate_session.h: how a table's transactions follow each other, for C and C++: sessions, whose transactions keep
 * the intentions of the one before, since most need the same again; and begins that wait for a slot without a sleeping
 * thread. What burlapslate_shared.h requires of callers holds here too, and so does what it says of a null table, one
 * that was ended, and one that this thread holds.
 */
#ifndef BURLAPSLATE_SESSION_H
#define BURLAPSLATE_SESSION_H

#include "burlapslate_shared.h"

#ifdef __cplusplus
extern "C" {
#endif

/* Commits a transaction of a manager, as bs_commit, and begins another in its slot, which keeps the first `keep` locks
 * of its list: all others are released, as by bs_release_since. `txn` is the transaction that began; its age is 0 if
 * none did, and then nothing is kept: if a kept lock is more than an intention (BS_IS, BS_IX), or somebody waits for its
 * node, or ages have run out. `since` is as in bs_renew. Refused as bs_commit, and with BS_WORN_OUT if not each release
 * and one command more can be counted. Takes no memory. */
static inline bs_reply bs_commit_keeping(bs_manager *manager, bs_txn txn, uint64_t keep, uint64_t since,
                                         bs_notices *told) {
  if (bs_call_lacks(manager, told)) return bs_call_null();
  return bs_call_commit_keeping(manager, txn, (size_t)keep, since, told);
}

/* A session of one thread with a table, made by bs_session_of. Its fields are the library's. While a transaction rests,
 * `txn` names none, so a call for it is refused with BS_NO_SUCH_TXN. */
typedef struct bs_session {
  bs_table *table;
  bs_txn txn, rests;
  uint32_t most, kept;
} bs_session;

/* A session that keeps at most so many locks; 16 is usual. It takes no memory. */
static inline bs_session bs_session_of(bs_table *table, uint32_t most) {
  bs_session session;
  memset(&session, 0, sizeof session);
  session.table = table;
  session.most = most;
  return session;
}

/* Begins the session's next transaction, as bs_table_begin_in_turn. `txn` names it, for all calls of the table. It holds
 * what bs_session_commit has kept, so it may hold an intention that it has not asked for; or nothing, if that was
 * released since. Refused with BS_IN_USE also if the session's last transaction lives and does not rest. */
bs_reply bs_session_begin(bs_session *session, const struct timespec *until);

/* The same for work that has been tried since an earlier begin, as bs_table_begin_again_in_turn. It keeps nothing. */
bs_reply bs_session_begin_again(bs_session *session, uint64_t since, const struct timespec *until);

/* Commits the session's transaction, as bs_table_commit. Of its locks the first are kept that are intentions, BS_IS or
 * BS_IX, up to the session's most; `count` says how many. All others are released. What is kept rests until the session
 * begins its next transaction: a transaction that has done nothing holds it. Nobody waits for one that rests. It is
 * ended as soon as it is in the way of a lock, a try or an escalation that wants more than an intention, or of a begin
 * that finds no slot free: of these the one that has rested longest. So nothing is kept if somebody waits for a node of
 * it, or for a slot. Refused with BS_NO_SUCH_TXN also if the session has no transaction. A deadline ends with the
 * transaction. */
bs_reply bs_session_commit(bs_session *session, bs_notices *told);

/* Makes a list of commands in one critical section, as bs_table_run, for the session's transaction; if it has none, its
 * next one begins first, at once. A command whose `txn` is bs_begun() is of that transaction, and a BS_DO_COMMIT of it
 * is bs_session_commit; after a BS_DO_RENEW of it the session's is the one that this began. So a whole transaction is one
 * call, if none of its locks waits. If one does, or a command is refused, the transaction lives: await it, and run the
 * rest, or abort it. If none can begin, the first command is answered so, and none is made: BS_TOO_MANY_TXNS, if no slot
 * is free, or others wait for one. */
size_t bs_session_run(bs_session *session, bs_command *commands, size_t count);

/* Releases what the session keeps. Refused with BS_IN_USE if its transaction lives and does not rest: commit or abort it
 * first. The session may begin again. A session that is not ended keeps its locks until they are in the way. */
bs_reply bs_session_end(bs_session *session);

/* ------------------------------------------------------------------------------------------------
 * Begins of an event loop: asks, as in burlapslate_shared.h.
 */

/* As bs_table_begin_in_turn, but if the begin waits for a slot, it answers BS_WAITING, and its end comes by a call of
 * the table's callback (bs_table_on_end) with `word`. An ask waits in one queue with the threads that sleep for a slot,
 * after all that came before it. The call that frees a slot begins the transaction, and then tells that end: BS_DONE,
 * whose transaction is the first argument and `txn` of the reply. It lives from then on, so the engine must use it or
 * abort it. Other ends have no transaction:
 *   - BS_TIMED_OUT: bs_table_expire was called at `until` or later, and nothing has begun;
 *   - BS_NOT_WAITING: bs_table_cancel_begin named the word;
 *   - BS_NO_MANAGER: bs_table_end was called;
 *   - BS_NO_MEMORY, BS_WORN_OUT: the begin was refused so in its turn, and the next one has the slot.
 * If one command ends waits for locks and begins too, the locks are told first, then the begins by their order in the
 * queue. An ask that does not wait has no call. It ends a session that rests before it waits, and while it waits none
 * rests. Refused with BS_NULL_POINTER also if the table has no callback, and as bs_begin. BS_NO_MEMORY may come before
 * all other refusals but BS_NULL_POINTER, BS_BAD_NUMBER of the time, BS_NO_MANAGER and BS_IN_USE. */
bs_reply bs_table_ask_begin(bs_table *table, const struct timespec *until, void *word);

/* The same for work that has been tried since an earlier begin, as bs_table_begin_again_in_turn. */
bs_reply bs_table_ask_begin_again(bs_table *table, uint64_t since, const struct timespec *until, void *word);

/* Takes a begin back: ends the first that was asked for with this word and waits for a slot, and tells that end,
 * BS_NOT_WAITING, before it returns, or in a callback after it. BS_NOT_WAITING: none waits; it may have begun, and its
 * callback may be under way. Costs a step for each begin that waits before it. */
bs_reply bs_table_cancel_begin(bs_table *table, const void *word);

#ifdef __cplusplus
}
#endif

#endif
