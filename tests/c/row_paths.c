/*
 * Stories of rows that are locked with all that must be held above them, and of lists that name what they make. Each is a
 * function that ends the program with status 1 at the first answer that is not as wanted, and else prints its name.
 *
 *   row_paths [SECONDS]   the time that a story may take before it is said to hang, 20 if none is given
 *
 * It is linked with the calls for memory of memory.h.
 */
#include "burlapslate.h"
#include "memory.h"

#include "burlapslate_rows.h"
#include "burlapslate_splits.h"

#include "burlapslate_shared.c"

#include "waiters.h"

static bs_node row_node(void) {
  return ASK(table, bs_row_node, rows, ROW).node;
}

/* The transaction holds these modes on the root, the file of rows, its two intervals, and the row. */
static void holds_all(bs_txn txn, bs_mode at_root, bs_mode of_file, bs_mode lower, bs_mode upper, bs_mode of_row) {
  holds(txn, root, at_root);
  holds(txn, rows, of_file);
  holds(txn, rows_below, lower);
  holds(txn, rows_above, upper);
  holds(txn, row_node(), of_row);
}

static void writes_below(bs_txn txn) {
  holds_all(txn, BS_IX, BS_IX, BS_IX, BS_NL, BS_X);
}

/* ------------------------------------------------------------------------------------------------
 * One call.
 */

static void a_row_and_what_is_above_it(void) {
  bs_txn reader, writer;
  bs_reply reply;
  set_up(BS_AT_BLOCK);
  reader = begin();
  reply = DONE(lock_row_path(reader, LOW_KEY, BS_S, NULL));
  WANT(reply.mode == BS_S && same_node(reply.node, row_node()));
  holds_all(reader, BS_IS, BS_IS, BS_NL, BS_NL, BS_S);
  DONE(lock_row_path(reader, LOW_KEY, BS_X, NULL));
  writes_below(reader);
  DONE(bs_table_commit(table, reader, NULL));
  writer = begin();
  reply = DONE(lock_row_path(writer, LOW_KEY, BS_X, NULL));
  WANT(reply.mode == BS_X && same_node(reply.node, row_node()));
  writes_below(writer);
  DONE(lock_row_path(writer, LOW_KEY, BS_X, NULL));
  WANT(table->waiters[writer.slot] == NULL && sleepers() == 0);
  close_table();
}

static void a_row_path_is_refused(void) {
  static const uint64_t keys[2] = { LOW_KEY, HIGH_KEY };
  bs_txn txn, nobody = { 3, 77 };
  set_up(BS_AT_BLOCK);
  txn = begin();
  ANSWERS(BS_NO_SUCH_TXN, lock_row_path(nobody, LOW_KEY, BS_X, NULL));
  ANSWERS(BS_BAD_NUMBER, lock_row_path(txn, LOW_KEY, 99, NULL));
  ANSWERS(BS_BAD_NUMBER, lock_row_path(txn, LOW_KEY, BS_X | BS_INSTANT, NULL));
  ANSWERS(BS_BAD_MODE, lock_row_path(txn, LOW_KEY, BS_IX, NULL));
  ANSWERS(BS_BAD_KEYS, bs_table_lock_row_path(table, txn, rows, ROW, keys, 2, BS_X, NULL));
  ANSWERS(BS_NULL_POINTER, bs_table_lock_row_path(table, txn, rows, ROW, NULL, 1, BS_X, NULL));
  ANSWERS(BS_NOT_ROWS, bs_table_lock_row_path(table, txn, file, ROW, keys, 1, BS_X, NULL));
  ANSWERS(BS_NULL_POINTER, bs_table_lock_row_path(NULL, txn, rows, ROW, keys, 1, BS_X, NULL));
  ANSWERS(BS_NULL_POINTER, bs_table_try_row_path(table, txn, rows, ROW, NULL, 1, BS_X, BS_KEEP_WAY));
  ANSWERS(BS_BAD_NUMBER, bs_table_try_row_path(table, txn, rows, ROW, keys, 1, BS_X, 2));
  ANSWERS(BS_NO_SUCH_TXN, bs_table_try_row_path(table, nobody, rows, ROW, keys, 1, BS_X, BS_KEEP_NOTHING));
  WANT(ASK(table, bs_lock_count, txn).count == 0);
  close_table();
}

/* ------------------------------------------------------------------------------------------------
 * Waits on the way.
 */

/* A call of one of three forms that waits: a thread that sleeps, an ask, or a list, whose wait is awaited. */
enum form { SLEEPS, ASKS, FORMS };

static struct sleeper sleeper;
static struct heard heard;

static void sets_out(enum form form, bs_txn txn, bs_mode mode) {
  if (form == SLEEPS) send(&sleeper, BY_ROW_PATH, txn, rows, mode);
  else WAITS(ask_row_path(&heard, txn, LOW_KEY, mode, NULL));
}

static bs_reply comes_to(enum form form, bs_status status) {
  return form == SLEEPS ? BACK(&sleeper, status) : HEARD(&heard, status);
}

/* An index is made while a call waits for the file: it has no key for that, and is answered so after its grant. */
static void an_index_is_made_meanwhile(void) {
  enum form form;
  for (form = SLEEPS; form < FORMS; form++) {
    bs_txn holder, waiter;
    set_up(BS_AT_BLOCK);
    holder = begin();
    waiter = begin();
    DONE(bs_table_lock_path(table, holder, rows, BS_X, NULL));
    sets_out(form, waiter, BS_X);
    WANT(waits_for(waiter, rows));
    DONE(bs_table_index_records(table, holder, &root, 1, rows, NULL, 0, NULL, NULL, 0));
    WANT(waits_for(waiter, rows));
    DONE(bs_table_commit(table, holder, NULL));
    comes_to(form, BS_BAD_KEYS);
    holds(waiter, rows, BS_IX);
    WANT(ASK(table, bs_row_node, rows, ROW).status == BS_NO_SUCH_NODE);
    close_table();
  }
}

/* Somebody holds a node above the row, or the row: the call waits for it, and goes on after that. */
static void it_waits_for(enum form form, int place) {
  bs_txn holder, waiter;
  bs_reply reply;
  bs_node node;
  set_up(BS_AT_BLOCK);
  holder = begin();
  waiter = begin();
  node = place == 0 ? root : place == 1 ? rows : rows_below;
  if (place < 3) DONE(bs_table_lock_path(table, holder, node, BS_X, NULL));
  else DONE(lock_row_path(holder, LOW_KEY, BS_X, NULL));
  if (place == 3) node = row_node();
  sets_out(form, waiter, BS_X);
  WANT(waits_for(waiter, node));
  DONE(bs_table_commit(table, holder, NULL));
  reply = comes_to(form, BS_DONE);
  WANT(reply.mode == BS_X && same_node(reply.node, row_node()));
  writes_below(waiter);
  WANT(table->waiters[waiter.slot] == NULL);
  close_table();
}

static void it_goes_on_after_each_wait(void) {
  int form, place;
  for (form = 0; form < FORMS; form++) {
    for (place = 0; place < 4; place++) it_waits_for((enum form)form, place);
  }
}

/* Two holders one after the other: it waits for the file, and then for the row. */
static void it_waits_twice(void) {
  bs_txn of_root, of_row, waiter;
  set_up(BS_AT_BLOCK);
  of_row = begin();
  waiter = begin();
  DONE(lock_row_path(of_row, LOW_KEY, BS_X, NULL));
  of_root = begin();
  DONE(bs_table_lock_path(table, of_root, rows_above, BS_X, NULL));
  sets_out(SLEEPS, waiter, BS_X);
  WANT(waits_for(waiter, row_node()));
  ANSWERS(BS_NEED_PARENTS, bs_table_rekey_row(table, of_row, rows, ROW, by_row_key, HIGH_KEY, NULL));
  DONE(bs_table_commit(table, of_root, NULL));
  DONE(bs_table_lock_path(table, of_row, rows_above, BS_IX, NULL));
  DONE(bs_table_rekey_row(table, of_row, rows, ROW, by_row_key, HIGH_KEY, NULL));
  WANT(waits_for(waiter, row_node()));
  holds(waiter, rows_above, BS_IX);
  DONE(bs_table_commit(table, of_row, NULL));
  comes_to(SLEEPS, BS_OTHER_KEYS);
  holds_all(waiter, BS_IX, BS_IX, BS_IX, BS_IX, BS_X);
  close_table();
}

/* The row gets another key while it is waited for: the call takes what is above it by then, also if it had nothing to
 * lock above it at first. */
static void it_goes_on_with_another_key(enum form form, bool has_path) {
  bs_txn holder, waiter;
  bs_reply reply;
  set_up(BS_AT_BLOCK);
  holder = begin_writer();
  waiter = begin();
  if (has_path) DONE(bs_table_lock_path(table, waiter, rows, BS_IX, NULL));
  if (has_path) DONE(bs_table_lock_path(table, waiter, rows_below, BS_IX, NULL));
  DONE(lock_row(holder, LOW_KEY, BS_X, NULL));
  sets_out(form, waiter, BS_X);
  DONE(bs_table_rekey_row(table, holder, rows, ROW, by_row_key, HIGH_KEY, NULL));
  WANT(waits_for(waiter, row_node()));
  DONE(bs_table_commit(table, holder, NULL));
  reply = comes_to(form, BS_OTHER_KEYS);
  WANT(reply.mode == BS_X && same_node(reply.node, row_node()));
  holds_all(waiter, BS_IX, BS_IX, BS_IX, BS_IX, BS_X);
  DONE(lock_row_path(waiter, HIGH_KEY, BS_X, NULL));
  close_table();
}

static void it_goes_on_with_other_keys(void) {
  int form, has_path;
  for (form = 0; form < FORMS; form++) {
    for (has_path = 0; has_path < 2; has_path++) it_goes_on_with_another_key((enum form)form, has_path);
  }
}

/* It takes the new interval as the row gets its key: nobody reads that whole before the row is locked there. */
static void it_takes_the_new_interval_meanwhile(void) {
  bs_txn holder, scans, waiter;
  set_up(BS_AT_BLOCK);
  holder = begin_writer();
  waiter = begin();
  DONE(lock_row(holder, LOW_KEY, BS_X, NULL));
  sets_out(SLEEPS, waiter, BS_X);
  DONE(bs_table_rekey_row(table, holder, rows, ROW, by_row_key, HIGH_KEY, NULL));
  holds(waiter, rows_above, BS_IX);
  scans = begin();
  DONE(bs_table_lock_path(table, scans, by_row_key, BS_IS, NULL));
  ANSWERS(BS_WOULD_BLOCK, bs_table_try(table, scans, rows_above, BS_S));
  DONE(bs_table_commit(table, holder, NULL));
  comes_to(SLEEPS, BS_OTHER_KEYS);
  close_table();
}

/* The interval of the row's key is split while it is waited for: it goes on with the part that has the key. */
static void it_follows_a_split(void) {
  int form;
  for (form = 0; form < FORMS; form++) {
    bs_txn holder, waiter;
    bs_node part;
    set_up(BS_AT_BLOCK);
    holder = begin();
    waiter = begin();
    DONE(bs_table_lock_path(table, holder, rows_below, BS_X, NULL));
    sets_out((enum form)form, waiter, BS_X);
    part = DONE(bs_table_split(table, holder, rows_below, LOW_KEY, &told)).node;
    WANT(told.count == 1 && same_txn(told.at[0].txn, waiter) && told.at[0].kind == BS_TOLD_MOVED);
    WANT(waits_for(waiter, part));
    DONE(bs_table_commit(table, holder, NULL));
    comes_to((enum form)form, BS_DONE);
    holds_all(waiter, BS_IX, BS_IX, BS_NL, BS_NL, BS_X);
    holds(waiter, part, BS_IX);
    close_table();
  }
}

/* The interval for which it waits is merged into the one before it, and is gone. */
static void it_ends_at_a_merge(void) {
  int form;
  for (form = 0; form < FORMS; form++) {
    bs_txn holder, waiter;
    set_up(BS_AT_BLOCK);
    holder = begin();
    waiter = begin();
    DONE(bs_table_lock_path(table, holder, rows_below, BS_X, NULL));
    DONE(bs_table_split(table, holder, rows_below, LOW_KEY, NULL));
    sets_out((enum form)form, waiter, BS_X);
    DONE(bs_table_merge(table, holder, rows_below, &told));
    WANT(told.count == 1 && same_txn(told.at[0].txn, waiter) && told.at[0].kind == BS_TOLD_GONE);
    comes_to((enum form)form, BS_GONE);
    DONE(bs_table_commit(table, holder, NULL));
    DONE(lock_row_path(waiter, LOW_KEY, BS_X, NULL));
    writes_below(waiter);
    close_table();
  }
}

/* The file is dropped while it is waited for. */
static void its_file_is_dropped(void) {
  int form;
  for (form = 0; form < FORMS; form++) {
    bs_txn holder, waiter;
    set_up(BS_AT_BLOCK);
    holder = begin();
    waiter = begin();
    DONE(bs_table_lock_path(table, holder, by_row_key, BS_X, NULL));
    DONE(bs_table_lock_path(table, holder, rows, BS_X, NULL));
    sets_out((enum form)form, waiter, BS_X);
    DONE(bs_table_drop(table, holder, by_row_key, NULL));
    DONE(bs_table_drop(table, holder, rows, NULL));
    comes_to((enum form)form, BS_GONE);
    holds(waiter, root, BS_IX);
    WANT(doing_of(waiter) == 1);
    close_table();
  }
}

/* It ends by a time, a cancel and an abort, above the row and at the row. */
static void it_ends_before_it_has_the_row(void) {
  struct timespec past = moment_in(-1000);
  int form, at_row;
  for (form = 0; form < FORMS; form++) {
    for (at_row = 0; at_row < 2; at_row++) {
      bs_txn holder, waiter;
      set_up(BS_AT_BLOCK);
      holder = begin();
      waiter = begin();
      if (at_row) DONE(lock_row_path(holder, LOW_KEY, BS_X, NULL));
      else DONE(bs_table_lock_path(table, holder, rows, BS_X, NULL));
      sets_out((enum form)form, waiter, BS_X);
      DONE(bs_table_cancel(table, waiter, NULL));
      comes_to((enum form)form, BS_NOT_WAITING);
      if (form == SLEEPS) {
        ANSWERS(BS_TIMED_OUT, lock_row_path(waiter, LOW_KEY, BS_X, &past));
      } else {
        WAITS(ask_row_path(&heard, waiter, LOW_KEY, BS_X, &past));
        WANT(DONE(bs_table_expire(table, NULL)).count == 0);
        HEARD_BY_NOW(&heard, BS_TIMED_OUT);
      }
      sets_out((enum form)form, waiter, BS_X);
      DONE(bs_table_abort(table, waiter, NULL));
      comes_to((enum form)form, BS_NO_SUCH_TXN);
      DONE(bs_table_commit(table, holder, NULL));
      close_table();
    }
  }
}

/* Each waits for what the other has: the younger one is the victim, above its row. */
static void it_is_a_victim_above_its_row(void) {
  bs_txn older, younger;
  set_up(BS_AT_BLOCK);
  older = begin();
  younger = begin();
  DONE(lock_row_path(older, LOW_KEY, BS_X, NULL));
  DONE(bs_table_lock_path(table, younger, below, BS_X, NULL));
  send(&sleeper, BY_PATH, older, below, BS_X);
  ANSWERS(BS_VICTIM, bs_table_lock_path(table, younger, rows, BS_S, NULL));
  DONE(bs_table_abort(table, younger, NULL));
  BACK(&sleeper, BS_DONE);
  close_table();
}

/* One who rests in the way is ended, and the call goes on. */
static void who_rests_is_ended(void) {
  bs_session own;
  bs_txn writer;
  set_up(BS_AT_BLOCK);
  own = bs_session_of(table, 16);
  DONE(bs_session_begin(&own, NULL));
  DONE(bs_table_lock_path(table, own.txn, rows, BS_IX, NULL));
  DONE(bs_session_commit(&own, NULL));
  writer = begin();
  DONE(bs_table_lock_path(table, writer, rows, BS_X, NULL));
  DONE(lock_row_path(writer, LOW_KEY, BS_X, NULL));
  DONE(bs_session_end(&own));
  close_table();
}

/* ------------------------------------------------------------------------------------------------
 * Tries.
 */

static bs_reply try_row_path(bs_txn txn, bs_mode mode, uint32_t keep) {
  static const uint64_t key = LOW_KEY;
  return bs_table_try_row_path(table, txn, rows, ROW, &key, 1, mode, keep);
}

static void a_row_is_tried_with_what_is_above_it(void) {
  bs_txn reader, writer;
  set_up(BS_AT_BLOCK);
  reader = begin();
  DONE(try_row_path(reader, BS_S, BS_KEEP_NOTHING));
  holds_all(reader, BS_IS, BS_IS, BS_NL, BS_NL, BS_S);
  DONE(bs_table_commit(table, reader, NULL));
  writer = begin();
  DONE(try_row_path(writer, BS_X, BS_KEEP_NOTHING));
  writes_below(writer);
  close_table();
}

/* A try that finds a node taken, at each place: what it acquired goes back, or stays, as it says. What the transaction
 * held before stays. */
static void a_tried_row_path_would_block(void) {
  int place, keeps;
  for (place = 0; place < 3; place++) {
    for (keeps = 0; keeps < 2; keeps++) {
      bs_txn holder, own;
      bs_reply reply;
      set_up(BS_AT_BLOCK);
      holder = begin();
      own = begin();
      DONE(bs_table_lock(table, own, root, BS_IS, NULL));
      if (place == 0) DONE(bs_table_lock_path(table, holder, rows, BS_X, NULL));
      if (place == 1) DONE(bs_table_lock_path(table, holder, rows_below, BS_X, NULL));
      if (place == 2) DONE(lock_row_path(holder, LOW_KEY, BS_X, NULL));
      reply = ANSWERS(BS_WOULD_BLOCK, try_row_path(own, BS_X, keeps ? BS_KEEP_WAY : BS_KEEP_NOTHING));
      WANT(same_node(reply.node, place == 0 ? rows : place == 1 ? rows_below : row_node()));
      holds(own, root, BS_IX);
      holds(own, rows, keeps && place > 0 ? BS_IX : BS_NL);
      holds(own, rows_below, keeps && place > 1 ? BS_IX : BS_NL);
      WANT(doing_of(own) == 1);
      DONE(bs_table_commit(table, holder, NULL));
      DONE(try_row_path(own, BS_X, BS_KEEP_NOTHING));
      close_table();
    }
  }
}

/* A skip over rows with what is above them. */
static void a_skip_tries_rows_with_what_is_above_them(void) {
  bs_command list[2];
  bs_txn holder, own;
  set_up(BS_AT_BLOCK);
  holder = begin();
  own = begin();
  DONE(lock_row_path(holder, LOW_KEY, BS_X, NULL));
  list[0] = row_command(BS_DO_TRY_ROW_PATH, own, BS_X);
  list[1] = list[0];
  list[1].number = ROW + 1;
  WANT(bs_table_try_first(table, list, 2) == 1);
  WANT(list[0].reply.status == BS_WOULD_BLOCK && list[1].reply.status == BS_DONE);
  close_table();
}

/* ------------------------------------------------------------------------------------------------
 * Inserts.
 */

static bs_reply insert_path(bs_txn txn, uint64_t key, uint32_t keep) {
  return bs_table_insert_path(table, txn, file, &key, 1, keep);
}

/* Under an index that is held in X nothing is locked before; and with nothing held all is. */
static void a_record_is_inserted_with_what_is_above_it(void) {
  bs_txn loads, inserts;
  bs_node record;
  set_up(BS_AT_BLOCK);
  loads = begin();
  DONE(bs_table_lock_path(table, loads, by_key, BS_X, NULL));
  record = DONE(insert_path(loads, LOW_KEY, BS_KEEP_NOTHING)).node;
  holds(loads, file, BS_IX), holds(loads, below, BS_IX), holds(loads, record, BS_X);
  DONE(bs_table_commit(table, loads, NULL));
  inserts = begin();
  record = DONE(insert_path(inserts, HIGH_KEY, BS_KEEP_NOTHING)).node;
  holds(inserts, above, BS_IX), holds(inserts, record, BS_X);
  close_table();
}

static void an_insert_would_block(void) {
  static const uint64_t keys[2] = { LOW_KEY, HIGH_KEY };
  int keeps;
  for (keeps = 0; keeps < 2; keeps++) {
    bs_txn reads, own;
    set_up(BS_AT_BLOCK);
    reads = begin(), own = begin();
    DONE(bs_table_lock_path(table, reads, below, BS_S, NULL));
    DONE(bs_table_lock(table, own, root, BS_IS, NULL));
    WANT(same_node(ANSWERS(BS_WOULD_BLOCK, insert_path(own, LOW_KEY, keeps ? BS_KEEP_WAY : BS_KEEP_NOTHING)).node, below));
    holds(own, file, keeps ? BS_IX : BS_NL);
    holds(own, root, BS_IX);
    ANSWERS(BS_BAD_NUMBER, insert_path(own, LOW_KEY, 2));
    ANSWERS(BS_BAD_KEYS, bs_table_insert_path(table, own, file, keys, 2, BS_KEEP_WAY));
    ANSWERS(BS_NULL_POINTER, bs_table_insert_path(table, own, file, NULL, 1, BS_KEEP_WAY));
    DONE(bs_table_commit(table, reads, NULL));
    DONE(insert_path(own, LOW_KEY, BS_KEEP_NOTHING));
    close_table();
  }
}

static void a_list_inserts_with_what_is_above(void) {
  static const uint64_t key = HIGH_KEY, blocked = LOW_KEY;
  bs_command list[3];
  bs_txn reads;
  set_up(BS_AT_BLOCK);
  reads = begin();
  list[0] = bs_do(BS_DO_BEGIN, bs_begun());
  list[1] = bs_do(BS_DO_INSERT_PATH, bs_begun());
  list[1].file = file;
  list[1].keys = &key;
  list[1].key_count = 1;
  list[2] = bs_do_at(BS_DO_DELETE, bs_begun(), bs_made(1), BS_NL);
  WANT(bs_table_run(table, list, 3) == 3);
  holds(list[0].reply.txn, above, BS_IX);
  WANT(ASK(table, bs_kind, list[1].reply.node).status == BS_NO_SUCH_NODE);
  DONE(bs_table_lock_path(table, reads, below, BS_S, NULL));
  list[1].keys = &blocked;
  list[1].keep = BS_KEEP_WAY;
  WANT(bs_table_run(table, list, 2) == 1 && list[1].reply.status == BS_WOULD_BLOCK);
  holds(list[0].reply.txn, file, BS_IX);
  close_table();
}

/* ------------------------------------------------------------------------------------------------
 * Lists.
 */

/* A whole transaction of a row is a list. */
static void a_list_locks_a_row_path(void) {
  bs_command list[3];
  set_up(BS_AT_BLOCK);
  list[0] = bs_do(BS_DO_BEGIN, bs_begun());
  list[1] = row_command(BS_DO_LOCK_ROW_PATH, bs_begun(), BS_X);
  list[2] = bs_do(BS_DO_COMMIT, bs_begun());
  WANT(bs_table_run(table, list, 2) == 2);
  writes_below(list[0].reply.txn);
  list[2].txn = list[0].reply.txn;
  WANT(bs_table_run(table, &list[2], 1) == 1);
  WANT(bs_table_run(table, list, 3) == 0 || list[2].reply.status != BS_DONE);
  close_table();
}

/* It waits in a list: nobody awaits it then, and it says for what it waits. After the grant the list is run again. */
static void a_row_path_waits_in_a_list(void) {
  int place;
  for (place = 0; place < 3; place++) {
    bs_txn holder, own;
    bs_command command;
    bs_node node;
    set_up(BS_AT_BLOCK);
    holder = begin();
    own = begin();
    node = place == 0 ? rows : rows_below;
    if (place < 2) DONE(bs_table_lock_path(table, holder, node, BS_X, NULL));
    else DONE(lock_row_path(holder, LOW_KEY, BS_X, NULL));
    if (place == 2) node = row_node();
    command = row_command(BS_DO_LOCK_ROW_PATH, own, BS_X);
    leave_waiting(&command);
    WANT(same_node(command.reply.node, node) && command.reply.mode == (place < 2 ? BS_IX : BS_X));
    WANT(table->waiters[own.slot] == NULL);
    DONE(bs_table_commit(table, holder, NULL));
    DONE(bs_table_await(table, own, command.reply.node, command.reply.mode, NULL));
    WANT(bs_table_run(table, &command, 1) == 1 && command.reply.mode == BS_X);
    writes_below(own);
    close_table();
  }
}

/* A mark and a rollback to it. */
static void a_list_marks(void) {
  bs_command list[2];
  bs_txn own;
  set_up(BS_AT_BLOCK);
  own = begin();
  DONE(bs_table_lock(table, own, root, BS_IX, NULL));
  list[0] = bs_do(BS_DO_MARK, own);
  list[1] = bs_do_at(BS_DO_LOCK_PATH, own, low, BS_X);
  WANT(bs_table_run(table, list, 2) == 2);
  holds(own, low, BS_X);
  WANT(list[0].reply.count == 1);
  list[1] = bs_do(BS_DO_RELEASE_SINCE, own);
  list[1].number = list[0].reply.count;
  WANT(bs_table_run(table, &list[1], 1) == 1);
  WANT(ASK(table, bs_lock_count, own).count == 1);
  close_table();
}

/* A list makes a schema, each part of it named by its place, and a record in it. */
static void a_list_names_what_it_makes(void) {
  static const uint64_t bound = 10;
  bs_command list[6];
  bs_node by_root, by_first[2];
  bs_txn own;
  set_up(BS_AT_BLOCK);
  own = begin();
  by_root = root;
  by_first[0] = bs_made(0);
  by_first[1] = root;
  list[0] = bs_do(BS_DO_ADD_INNER, own);
  list[0].parents = &by_root;
  list[0].parent_count = 1;
  list[1] = bs_do(BS_DO_ADD_FILE, own);
  list[1].parents = by_first;
  list[1].parent_count = 2;
  list[2] = bs_do(BS_DO_ADD_INDEX, own);
  list[2].parents = &by_root;
  list[2].parent_count = 1;
  list[2].file = bs_made(1);
  list[2].bounds = &bound;
  list[2].bound_count = 1;
  list[3] = bs_do_at(BS_DO_LOCK_PATH, own, bs_made(2), BS_X);
  list[4] = bs_do_at(BS_DO_LOCK_PATH, own, bs_made(1), BS_X);
  list[5] = bs_do_at(BS_DO_UNLOCK, own, bs_made(1), BS_NL);
  WANT(bs_table_run(table, list, 6) == 6);
  WANT(list[1].parents == by_first && by_first[0].birth == UINT64_MAX);
  WANT(same_node(ASK(table, bs_parent, list[1].reply.node, 0).node, list[0].reply.node));
  WANT(same_node(ASK(table, bs_index, list[1].reply.node, 0).node, list[2].reply.node));
  holds(own, list[2].reply.node, BS_X);
  holds(own, list[1].reply.node, BS_NL);
  close_table();
}

/* A name of a later place, or of a command that made nothing, names no node. */
static void a_list_names_nothing(void) {
  bs_command list[2];
  bs_node parent = bs_made(1);
  bs_txn own;
  set_up(BS_AT_BLOCK);
  own = begin();
  list[0] = bs_do_at(BS_DO_LOCK, own, bs_made(0), BS_IS);
  WANT(bs_table_run(table, list, 1) == 0 && list[0].reply.status == BS_NO_SUCH_NODE);
  list[0] = bs_do_at(BS_DO_LOCK, own, bs_made(1), BS_IS);
  list[1] = bs_do_at(BS_DO_LOCK, own, root, BS_IS);
  list[1].reply.node = root;
  WANT(bs_table_run(table, list, 2) == 0 && list[0].reply.status == BS_NO_SUCH_NODE);
  list[0] = bs_do(BS_DO_ADD_INNER, own);
  list[0].parents = &parent;
  list[0].parent_count = 1;
  WANT(bs_table_run(table, list, 1) == 0 && list[0].reply.status == BS_NO_SUCH_NODE);
  list[0] = bs_do(BS_DO_MARK, own);
  list[1] = bs_do_at(BS_DO_LOCK, own, bs_made(0), BS_IS);
  WANT(bs_table_run(table, list, 2) == 1 && list[1].reply.status == BS_NO_SUCH_NODE);
  WANT(bs_table_run(table, &list[1], 1) == 0 && list[1].reply.status == BS_NO_SUCH_NODE); /* it is at place 0 now */
  list[0] = row_command(BS_DO_LOCK_ROW, own, BS_S);
  list[0].file = bs_made(0);
  WANT(bs_table_run(table, list, 1) == 0 && list[0].reply.status == BS_NOT_ROWS);
  ANSWERS(BS_NO_SUCH_NODE, bs_table_lock(table, own, bs_made(0), BS_IS, NULL));
  close_table();
}

int main(int count, char **words) {
  setvbuf(stdout, NULL, _IONBF, 0);
  if (count > 1) patience = (unsigned)atoi(words[1]);
  TELL(a_row_and_what_is_above_it);
  TELL(a_row_path_is_refused);
  TELL(it_goes_on_after_each_wait);
  TELL(it_waits_twice);
  TELL(it_goes_on_with_other_keys);
  TELL(it_takes_the_new_interval_meanwhile);
  TELL(it_follows_a_split);
  TELL(it_ends_at_a_merge);
  TELL(an_index_is_made_meanwhile);
  TELL(its_file_is_dropped);
  TELL(it_ends_before_it_has_the_row);
  TELL(it_is_a_victim_above_its_row);
  TELL(who_rests_is_ended);
  TELL(a_row_is_tried_with_what_is_above_it);
  TELL(a_tried_row_path_would_block);
  TELL(a_skip_tries_rows_with_what_is_above_them);
  TELL(a_record_is_inserted_with_what_is_above_it);
  TELL(an_insert_would_block);
  TELL(a_list_inserts_with_what_is_above);
  TELL(a_list_locks_a_row_path);
  TELL(a_row_path_waits_in_a_list);
  TELL(a_list_marks);
  TELL(a_list_names_what_it_makes);
  TELL(a_list_names_nothing);
  return 0;
}
