/*
 * bank.h: tables of accounts under granular locks. The lock graph has a data base, and for each table of accounts a
 * file, an index by balance with its intervals, and a record for each account; the rows are kept here, beside it.
 *
 *   data base --+-- table ------------------------+
 *               |                                 +-- record: an account
 *               +-- index by balance -- interval -+
 *
 * An account is named by the node of its record, a name that no other account ever has. If the table of locks has
 * parts, each table of accounts is in one of them, with its index and its records; only bank.c knows of that.
 */
#ifndef BANK_H
#define BANK_H

#include "burlapslate_group.h"

#include <pthread.h>

enum { MOST_ACCOUNTS = 32, TABLES = 2, INTERVALS = 4 };

/* A table of accounts. */
struct table {
  bs_node file, by_balance;
};

struct row {
  bool is_open;
  bs_node account; /* which lives as long as the row is open, and a little longer */
  const struct table *table;
  uint64_t number; /* they rise, and none is given twice */
  uint64_t balance;
};

/* What was done, for the summary. */
struct counts {
  uint64_t transfers, no_account, opened, closed, rekeyed, audits, whole_audits, lists, victims, given_up;
};

/* All below the mutex is read and written under it, and a row by who has the lock that it takes: the mutex keeps a
 * single step whole, and the locks a transaction. Nobody sleeps for a lock with the mutex held. */
struct bank {
  bs_table *locks;
  bs_table_group *group; /* null if the locks have no parts */
  uint32_t managers;     /* one, or a main one and one of each part */
  bs_node root;
  struct table tables[TABLES];
  pthread_mutex_t mutex;
  struct row rows[MOST_ACCOUNTS];
  uint64_t numbers; /* how many were given */
  struct counts counts;
};

struct totals {
  uint64_t count, sum;
};

/* The locks have so many parts. With a watch a thread ends deadlocks; if there are several parts, those over more than
 * one. */
void bank_open(struct bank *b, uint32_t parts, bool has_watch);
void bank_close(struct bank *b);

/* What has been done in the table of locks. */
bs_counts bank_lock_counts(struct bank *b);

/* Whether a transaction waits for a lock. */
bool bank_is_waiting(struct bank *b, bs_txn txn);

/* Fails if the accounts have another sum, a record is not where its balance belongs, or a transaction holds a lock. */
void bank_check(struct bank *b, uint64_t sum);

/* The account of the first row in use from this place on, and round. */
bs_node bank_account_from(struct bank *b, size_t place);

/* The account of a table with the least number above this one, which becomes that number. False: there is none. */
bool bank_next_account(struct bank *b, const struct table *table, uint64_t *number, bs_node *account);

/* The account of this number, which is open. */
bs_node bank_account(struct bank *b, uint64_t number);

/* Of all tables, and of the interval at a place of one: the caller has a lock on it. */
struct totals bank_total(struct bank *b);
struct totals bank_total_of_interval(struct bank *b, const struct table *table, size_t place);

void bank_count(struct bank *b, uint64_t *counter);

/* The table of an account that the caller has locked. */
const struct table *bank_table_of(struct bank *b, bs_node account);

/* The interval of a table at a place, that of a balance, and that in which the record of an account is now. */
bs_node bank_interval_at(struct bank *b, const struct table *table, size_t place);
bs_node bank_interval_for(struct bank *b, const struct table *table, uint64_t balance);
bs_node bank_interval_of(struct bank *b, bs_node account);

bool same_node(bs_node a, bs_node b);

/* These are called with the mutex held. */

/* The row of an account, or NULL. */
struct row *bank_row(struct bank *b, bs_node account);

/* The row of an account that the caller has locked, and so cannot be gone. */
struct row *bank_locked_row(struct bank *b, bs_node account);

struct row *bank_free_row(struct bank *b);

#endif
