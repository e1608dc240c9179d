/*
 * store.h: what a shard keeps: a table of locks over its accounts, the accounts, and the transactions that are at work
 * here, each by the number that the whole cluster knows it by. A transaction writes accounts at its end alone, so
 * nothing has to be undone.
 *
 *   root --- file of accounts --- record: an account
 */
#ifndef STORE_H
#define STORE_H

#include "burlapslate_shared.h"

#include <pthread.h>

#include "cluster.h"

struct account {
  int64_t balance;
  uint64_t version; /* how many transactions have written it */
};

/* What a transaction did to an account: it read that version, and where it writes, this balance becomes the next. */
struct item {
  unsigned account;
  uint64_t version;
  bool writes;
  int64_t balance;
};

struct work {
  uint64_t number; /* 0: nobody is at work here */
  uint64_t owner;  /* the connection that began it */
  bs_txn name;
  bool is_prepared;
  size_t count;
  struct item items[ACCOUNTS_EACH];
};

/* What is below the mutex is read and written under it. Nobody sleeps for a lock with the mutex held. */
struct store {
  unsigned shard;
  bs_table *locks;
  bs_node records[ACCOUNTS_EACH];
  pthread_mutex_t mutex;
  bs_watcher eye;
  struct account accounts[ACCOUNTS_EACH];
  struct work works[BS_SLOTS]; /* by slot */
  int log;
};

/* Opens a shard by its log. What the log has prepared, and no word for, has its locks again, and is in doubt. */
void store_open(struct store *s, unsigned shard);

/* The numbers of those who are in doubt: prepared, by no connection that lives. How many there are. */
size_t store_in_doubt(struct store *s, uint64_t *numbers);

/* A connection is gone: what it began is aborted where it is not prepared, and in doubt where it is. */
void store_lose(struct store *s, uint64_t owner);

/* These are true where it was done. The transaction is unknown where it was not begun since the shard started. */
bool store_begin(struct store *s, uint64_t number, uint64_t owner);
bool store_read(struct store *s, uint64_t number, unsigned account, bs_mode mode, struct account *seen);
bool store_write(struct store *s, uint64_t number, unsigned account, int64_t balance);
bool store_prepare(struct store *s, uint64_t number);

/* The end by the word of others: of an unknown transaction there is nothing to do. */
void store_decided(struct store *s, uint64_t number, bool commits);

/* The end of a transaction that was at work here alone. */
bool store_finish(struct store *s, uint64_t number);

/* Takes back the wait of a transaction, which is answered that it failed. False: it does not wait. */
bool store_cancel(struct store *s, uint64_t number);

/* Who waits for whom, as `7>9 9>7`, by the last board that was shown. */
void store_board(struct store *s, char *line);

void store_list(struct store *s, char *line);

#endif
