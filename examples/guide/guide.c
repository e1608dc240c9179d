/*
 * The topics of docs/ENGINES.md, one after the other: a line for each that went as it should.
 */
#include "guide.h"

#include <stdio.h>
#include <stdlib.h>

bs_notices told;

/* Other threads may run still: no end of the program but at once. */
void wanted(bool holds, const char *what, const char *file, int line) {
  if (holds) return;
  fprintf(stderr, "%s:%d: not so: %s\n", file, line, what);
  _Exit(1);
}

bs_reply done(bs_reply reply, const char *call, const char *file, int line) {
  if (reply.status != BS_DONE) fprintf(stderr, "answered: %s\n", bs_text(reply.status));
  wanted(reply.status == BS_DONE, call, file, line);
  return reply;
}

void open_manager(bs_manager *m, uint32_t detect, uint32_t victims) {
  static const bs_manager none = BS_NO_MANAGER_HERE;
  bs_options options = { 0 };
  *m = none;
  options.detect = detect;
  options.victims = victims;
  DONE(bs_make(m, &options));
}

bs_txn begin(bs_manager *m) {
  return DONE(bs_begin(m)).txn;
}

bs_node interval_of(bs_manager *m, const struct shop *s, uint64_t day) {
  return DONE(bs_interval_of(m, s->by_day, day)).node;
}

bs_node add_order(bs_manager *m, const struct shop *s, uint64_t day) {
  bs_txn t = begin(m);
  bs_node order;
  DONE(bs_lock_path(m, t, s->orders, BS_IX, &told));
  DONE(bs_lock_path(m, t, interval_of(m, s, day), BS_IX, &told));
  order = DONE(bs_insert(m, t, s->orders, &day, 1)).node;
  DONE(bs_commit(m, t, &told));
  return order;
}

bool is_told(size_t place, bs_txn txn, uint32_t kind) {
  const bs_notice *notice = &told.at[place];
  if (place >= told.count || notice->kind != kind) return false;
  return notice->txn.slot == txn.slot && notice->txn.age == txn.age;
}

bool same_node(bs_node a, bs_node b) {
  return a.key == b.key && a.birth == b.birth;
}

bool is_empty(bs_slots slots) {
  static const bs_slots none = { { 0 } };
  return memcmp(&slots, &none, sizeof slots) == 0;
}

/* Marsaglia's xorshift. */
uint64_t roll(uint64_t *dice) {
  *dice ^= *dice << 13;
  *dice ^= *dice >> 7;
  *dice ^= *dice << 17;
  return *dice >> 16;
}

static void tell(const char *name, void (*topic)(void)) {
  topic();
  printf("%s\n", name);
}

#define TELL(name) tell(#name, name)

int main(void) {
  setvbuf(stdout, NULL, _IONBF, 0);
  TELL(sessions_in_threads);
  TELL(several_in_one_section);
  TELL(more_clients_than_slots);
  TELL(locks_that_do_not_wait);
  TELL(jobs_in_a_table);
  TELL(savepoints);
  TELL(transactions_of_a_session);
  TELL(locks_for_an_instant);
  TELL(an_event_loop);
  TELL(which_node_for_what);
  TELL(pages_as_records);
  TELL(rows_while_they_are_locked);
  TELL(a_locked_row_is_rekeyed);
  TELL(a_row_moved_unseen);
  TELL(a_row_moves_meanwhile);
  TELL(rows_come_and_go);
  TELL(more_rows_than_nodes);
  TELL(false_conflicts);
  TELL(buckets_under_intervals);
  TELL(ranges_that_follow_the_leaves);
  TELL(a_range_follows_later);
  TELL(intentions_first);
  TELL(one_order_for_all);
  TELL(no_upgrades);
  TELL(no_phantoms);
  TELL(a_row_moves);
  TELL(what_is_in_the_way);
  TELL(an_index_is_made_beside_records);
  TELL(an_index_gets_finer_bounds);
  TELL(a_table_is_dropped_and_made_again);
  TELL(a_reader_escalates);
  TELL(a_writer_escalates);
  TELL(implied_is_not_held);
  TELL(what_each_answer_asks);
  TELL(deadlocks_at_block);
  TELL(a_victim_keeps_its_turn);
  TELL(whom_a_deadlock_takes);
  TELL(old_boards_do_no_harm);
  TELL(a_watcher_of_your_own);
  TELL(another_choice_of_victims);
  TELL(waits_that_are_too_old);
  TELL(a_thread_that_died);
  TELL(a_thread_that_died_in_a_call);
  TELL(prepared_transactions);
  TELL(after_a_restart);
  return 0;
}
