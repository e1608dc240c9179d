/*
 * naive.h: a lock manager of plain lists, for the tests: the nodes with their parents, the transactions with what each
 * holds, and the waits in the order of their arrival. It looks everything up anew in these lists, and states each rule
 * as burlapslate.h and docs/LOCKS.md do. It shares no code with the library, only the types
 * of its headers, and it takes no memory.
 *
 * A command is a bs_command. All kinds are carried out but BS_DO_TRY_PATH and BS_DO_TRY_ROW, which only a shared table
 * has. The reply is that of the manager's call of the same name. A BS_DO_INDEX_BY with keys is bs_index_records.
 *
 * The lists name a node by its birth. Births are counted from 1.
 *
 * A row is a record with a number. It exists as long as some transaction holds it or waits for it.
 */
#ifndef NAIVE_H
#define NAIVE_H

#include "burlapslate_splits.h"

/* How many transactions and nodes can live at once; how many savepoints of a transaction and names of removed nodes are
 * kept; and how many rows all transactions together can have asked for. */
enum { NAIVE_TXNS = 128, NAIVE_NODES = 64, NAIVE_MARKS = 4, NAIVE_GONE = 8, NAIVE_ASKED = 2048 };

/* A node: what it is, and its parents. */
typedef struct naive_node {
  bs_node name;
  uint32_t kind; /* of enum bs_kinds */
  size_t parent_count;
  uint64_t parents[BS_MOST_PARENTS];
  bool has_rows;   /* of a file: its records are rows */
  bool is_adopted; /* of a file: some record came without a transaction */
  uint64_t file;   /* of an index and of a record */
  uint64_t index;  /* of an interval */
  uint64_t from;   /* of an interval: its first key */
  uint64_t to;     /* of an interval: the first key above it, if it is not the last */
  bool is_last;    /* of an interval: it has all keys from its first on */
  size_t key_count;
  uint64_t keys[BS_MOST_PARENTS]; /* of a record, one for each index of its file */
  bool is_row;
  uint64_t number; /* of a row */
} naive_node;

/* A node that a transaction holds. */
typedef struct naive_hold {
  uint64_t node;
  bs_mode mode;
} naive_hold;

/* A transaction. Its holds are in the order in which they were acquired. A savepoint is how many holds there were; it
 * is kept as long as it is good, which is until one of these holds is released. */
typedef struct naive_txn {
  bool lives;
  bool is_condemned;
  uint64_t age;
  uint64_t since; /* the begin since which its work wants to be done */
  size_t hold_count;
  naive_hold holds[NAIVE_NODES];
  size_t mark_count;
  size_t marks[NAIVE_MARKS];
  bs_notice box; /* the last notice to it, of kind 0 if there is none since its last lock */
} naive_txn;

/* A transaction that waits for a node, in its wanted mode. */
typedef struct naive_wait {
  uint32_t slot;
  uint64_t node;
  bs_mode mode;
} naive_wait;

/* A row that a transaction has asked for, or an earlier one in its slot has left there. Those of one slot are in the
 * order in which their nodes are removed. */
typedef struct naive_asked {
  uint32_t slot;
  uint64_t file;
  uint64_t number;
} naive_asked;

/* The lock manager. Nodes are listed by rising births, and the waits for one node in the order of its queue. */
typedef struct naive {
  bs_options limits;
  size_t node_count;
  naive_node nodes[NAIVE_NODES];
  naive_txn txns[NAIVE_TXNS];
  size_t wait_count;
  naive_wait waits[NAIVE_TXNS];
  size_t asked_count;
  naive_asked asked[NAIVE_ASKED];
  bool has_left[NAIVE_TXNS]; /* whether rows of the slot were left there */
  uint64_t births, begins;
  size_t key_count, freed_count;
  size_t freed[NAIVE_NODES]; /* the keys of removed nodes, the last one last */
  size_t gone_count;
  bs_node gone[NAIVE_GONE]; /* the names of the last nodes that were removed, the last one last */
  bs_notices told;          /* by the last command */
  const bs_node *records;   /* those that the next BS_DO_INDEX_BY names, as many as it has keys; null if it has none */
} naive;

/* Makes a manager with no nodes and no transactions. Only the first two options can be 0. */
void naive_open(naive *m, const bs_options *options);

/* Carries out a command. Its notices are in `told`. */
bs_reply naive_make(naive *m, const bs_command *c);

/* A savepoint of a transaction, as bs_mark. It is not kept if the transaction waits. */
bs_reply naive_mark(naive *m, bs_txn txn);

/* What became of a wait, as bs_verdict. */
bs_reply naive_verdict(const naive *m, bs_txn txn, bs_node node, bs_mode mode);

/* The transaction of this name; null if it does not live. */
const naive_txn *naive_txn_of(const naive *m, bs_txn txn);

/* The name of the transaction in a slot. */
bs_txn naive_txn_in(const naive *m, uint32_t slot);

/* The wait of a transaction; null if it does not wait. */
const naive_wait *naive_wait_of(const naive *m, bs_txn txn);

/* The node of this name, and the node of this birth; null if there is none. */
const naive_node *naive_find(const naive *m, bs_node name);
const naive_node *naive_born(const naive *m, uint64_t birth);

/* The interval of an index to which a key belongs; null if the index is none. */
const naive_node *naive_interval(const naive *m, uint64_t index, uint64_t key);

/* The node of a row; null if it has none. */
const naive_node *naive_row(const naive *m, bs_node file, uint64_t number);

/* The mode in which the transaction in a slot holds a node, BS_NL for none; and how many children of it it holds. */
bs_mode naive_held(const naive *m, uint32_t slot, uint64_t node);
size_t naive_held_children(const naive *m, uint32_t slot, uint64_t node);

/* For which others the transaction in a slot waits, by slot. */
void naive_waits_for(const naive *m, uint32_t slot, bool waits[NAIVE_TXNS]);

#endif
