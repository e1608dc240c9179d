/*
 * work.h: what transactions do with accounts. Each call but move_money is one transaction: it answers
 * BS_DONE where it is committed, else why it was rolled back. `since` is as txn_begin takes it.
 */
#ifndef WORK_H
#define WORK_H

#include "txn.h"

/* To move money, or all that there is where that is less. */
struct order {
  bs_node from, to;
  uint64_t amount;
  void (*between)(void *arg); /* is called between the reading and the writing of `to` */
  void *arg;
  bool skips_lock;            /* the planted fault: `to` is read and written without a lock */
};

/* Lets other threads run, as the reading of a page would. */
void let_others_run(void *unused);

/* A part of a transaction. */
bs_status move_money(struct txn *t, const struct order *o);

bs_status transfer(struct bank *b, uint64_t *since, const struct order *o);

/* Opens an account in a table with money from nowhere, while nothing else runs. */
void found_account(struct bank *b, const struct table *table, uint64_t balance);

/* An account that is to be opened in a table, with so much of a donor's money. */
struct opening {
  const struct table *table;
  bs_node donor;
  uint64_t deposit;
};

/* Open an account with money of another, and close one, whose money is paid to another. */
bs_status open_account(struct bank *b, uint64_t *since, const struct opening *o, unsigned patience);
bs_status close_account(struct bank *b, uint64_t *since, bs_node account, bs_node heir, unsigned patience);

/* To read all tables, one after the other. */
struct reading {
  uint64_t sum;               /* of all accounts */
  void (*between)(void *arg); /* is called after the first table, and before each other */
  void *arg;
  bool skips_lock;            /* the planted fault: the other tables are read without a lock */
};

/* Read all accounts, and then again: under a lock on each table, or one on all. Fail if they have another sum, or the
 * totals differ. */
bs_status audit_tables(struct bank *b, uint64_t *since, const struct reading *r);
bs_status audit_all(struct bank *b, uint64_t *since, uint64_t sum);

/* Reads all accounts of an interval, and then again. Fails if the totals differ. */
bs_status list_interval(struct bank *b, uint64_t *since, const struct table *table, size_t place);

#endif
