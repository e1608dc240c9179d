/*
 * txn.h: transactions over a bank. A transaction writes rows as it goes, and keeps what they were. What
 * changes the lock graph it only notes, and its commit carries that out when all locks are held: whoever is
 * condemned can do nothing but abort, and could not take such a change back.
 *
 * What is answered is BS_DONE, or why the transaction is to be rolled back: BS_VICTIM, to end a deadlock; BS_GONE,
 * the account is no more; BS_TIMED_OUT, it took longer than its patience.
 */
#ifndef TXN_H
#define TXN_H

#include "bank.h"

#include "burlapslate_session.h"

enum { MOST_WRITES = 4, MOST_KEPT = 16 };

/* The patience of who waits as long as it takes. */
enum { FOR_EVER = 0 };

/* What an account had before a write. */
struct undo {
  bs_node account;
  uint64_t balance;
};

struct txn {
  struct bank *bank;
  bs_txn name;
  bool in_session;   /* of its thread */
  unsigned patience; /* of each wait, in milliseconds */
  size_t writes;
  struct undo undo[MOST_WRITES];
  bool opens;        /* an account in this table, with this deposit */
  const struct table *table;
  uint64_t deposit;
  bool closes;       /* this account */
  bs_node closed;
};

/* From the first on, a thread's transactions are those of one session, which keeps intentions from one to the next. */
void txn_begin_session(struct bank *b);
void txn_end_session(void);

/* Begins a transaction. Work that is done again, since a transaction for it was rolled back, keeps its turn among those
 * whom a deadlock takes: `since` is 0 before its first begin, is written then, and is handed in each time. With null
 * it is new work. */
struct txn txn_begin(struct bank *b, uint64_t *since, unsigned patience);

/* Commits where all went well so far, else rolls back. BS_DONE: it is committed; a commit may have to wait
 * for locks too. */
bs_status txn_end(struct txn *t, bs_status status);

/* Locks an account in BS_S or BS_X. */
bs_status txn_lock_account(struct txn *t, bs_node account, bs_mode mode);

/* Lock all accounts of an interval, of a table, or of all tables, to read: until the end none of them changes, and none
 * is opened or closed. The lock on a table takes the place of those on accounts that were read before. */
bs_status txn_lock_interval(struct txn *t, const struct table *table, size_t place);
bs_status txn_lock_table(struct txn *t, const struct table *table);
bs_status txn_lock_all(struct txn *t);

/* The transaction has the lock that this takes. */
uint64_t txn_read(struct txn *t, bs_node account);
void txn_write(struct txn *t, bs_node account, uint64_t balance);

#endif
