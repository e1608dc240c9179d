/*
 * same.h: whether two names, or two sets of slots, are the same; and questions that are made of others.
 */
#ifndef SAME_H
#define SAME_H

#include "burlapslate.h"

#include <string.h>

static inline bool same_node(bs_node a, bs_node b) {
  return a.key == b.key && a.birth == b.birth;
}

static inline bool same_txn(bs_txn a, bs_txn b) {
  return a.slot == b.slot && a.age == b.age;
}

static inline bool same_slots(bs_slots a, bs_slots b) {
  return memcmp(&a, &b, sizeof a) == 0;
}

/* The wait of a transaction: BS_WAITING with its node and mode, or BS_NOT_WAITING. */
static inline bs_reply wait_of(const bs_manager *m, bs_txn txn) {
  bs_reply doing = bs_doing(m, txn);
  if (doing.status == BS_NO_SUCH_TXN) doing.status = BS_NOT_WAITING;
  if (doing.status == BS_DONE) doing.status = doing.count == BS_WAITS ? BS_WAITING : BS_NOT_WAITING;
  doing.count = 0;
  return doing;
}

/* How many commands were accepted. */
static inline uint64_t accepted_by(const bs_manager *m) {
  bs_counts counts;
  counts.accepted = 0;
  bs_counters(m, &counts);
  return counts.accepted;
}

static inline bs_options options_of(uint32_t detect, uint32_t victims, uint32_t transactions) {
  bs_options options = { 0, 0, 0, 0, 0, 0 };
  options.detect = detect;
  options.victims = victims;
  options.transactions = transactions;
  return options;
}

static inline bs_reply make_manager(bs_manager *m, uint32_t detect, uint32_t transactions) {
  bs_options options = options_of(detect, BS_YOUNGEST, transactions);
  return bs_make(m, &options);
}

/* The limits of a manager. */
static inline bs_options limits_of(const bs_manager *m) {
  bs_options limits = { 0, 0, 0, 0, 0, 0 };
  bs_limits(m, &limits);
  return limits;
}

#endif
