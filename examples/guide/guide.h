/*
 * guide.h: what the pieces of docs/ENGINES.md share. Each topic of the guide is a function that does the
 * thing with real calls, and ends the program with status 1 at the first answer that is not as wanted.
 */
#ifndef GUIDE_H
#define GUIDE_H

#include "burlapslate.h"

/* End the program where this does not hold, or where the answer is not BS_DONE. */
void wanted(bool holds, const char *what, const char *file, int line);
bs_reply done(bs_reply reply, const char *call, const char *file, int line);

#define WANT(condition) wanted((condition), #condition, __FILE__, __LINE__)
#define DONE(call) done((call), #call, __FILE__, __LINE__)

/* For what one thread does alone. */
extern bs_notices told;

/* A data base with an area for tables and one for indexes, a table of orders and its index by day, of three
 * intervals: to below day 100, to below day 200, and from there on. */
struct shop {
  bs_node db, tables, indexes, orders, by_day;
};

void open_manager(bs_manager *m, uint32_t detect, uint32_t victims);
struct shop make_shop(bs_manager *m);
bs_node add_order(bs_manager *m, const struct shop *s, uint64_t day);
bs_node interval_of(bs_manager *m, const struct shop *s, uint64_t day);
bs_txn begin(bs_manager *m);

/* The first places of a list: whether this transaction was told this. */
bool is_told(size_t place, bs_txn txn, uint32_t kind);
bool same_node(bs_node a, bs_node b);
bool is_empty(bs_slots slots);

/* The next of a row of numbers that looks like chance. */
uint64_t roll(uint64_t *dice);

/* tables.c */
void sessions_in_threads(void);
void several_in_one_section(void);
void more_clients_than_slots(void);

/* tries.c */
void locks_that_do_not_wait(void);
void jobs_in_a_table(void);

/* savepoints.c */
void savepoints(void);
void transactions_of_a_session(void);
void locks_for_an_instant(void);

/* loop.c */
void an_event_loop(void);

/* nodes.c */
void which_node_for_what(void);
void pages_as_records(void);

/* rows.c */
void rows_while_they_are_locked(void);
void a_locked_row_is_rekeyed(void);
void a_row_moved_unseen(void);
void a_row_moves_meanwhile(void);
void rows_come_and_go(void);

/* buckets.c */
void more_rows_than_nodes(void);
void false_conflicts(void);
void buckets_under_intervals(void);

/* leaves.c */
void ranges_that_follow_the_leaves(void);
void a_range_follows_later(void);

/* locks.c */
void intentions_first(void);
void one_order_for_all(void);
void no_upgrades(void);
void no_phantoms(void);
void a_row_moves(void);

/* schema.c */
void what_is_in_the_way(void);
void an_index_gets_finer_bounds(void);
void a_table_is_dropped_and_made_again(void);
void an_index_is_made_beside_records(void);

/* escalation.c */
void a_reader_escalates(void);
void a_writer_escalates(void);
void implied_is_not_held(void);

/* answers.c */
void what_each_answer_asks(void);

/* deadlocks.c */
void deadlocks_at_block(void);
void a_victim_keeps_its_turn(void);
void whom_a_deadlock_takes(void);
void old_boards_do_no_harm(void);

/* watcher.c */
void a_watcher_of_your_own(void);

/* policy.c */
void another_choice_of_victims(void);

/* timeouts.c */
void waits_that_are_too_old(void);

/* deaths.c */
void a_thread_that_died(void);
void a_thread_that_died_in_a_call(void);

/* prepared.c */
void prepared_transactions(void);
void after_a_restart(void);

#endif
