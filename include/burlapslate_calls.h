/*
 * burlapslate_calls.h: the calls of the library, and what the functions of burlapslate.h share. Programs do not use it:
 * they call the functions of burlapslate.h, each of which tests its pointers for null and then makes these calls.
 */
#ifndef BURLAPSLATE_CALLS_H
#define BURLAPSLATE_CALLS_H

#ifndef BURLAPSLATE_H
#error "include burlapslate.h, whose functions make these calls"
#endif

bs_reply bs_call_make_with(bs_manager *manager, uint32_t detect, uint32_t victims, uint32_t most, uint32_t nodes,
                           uint32_t bounds);
bs_reply bs_call_end(bs_manager *manager);
bs_reply bs_call_add_inner(bs_manager *manager, const bs_node *parents, size_t count);
bs_reply bs_call_add_file(bs_manager *manager, const bs_node *parents, size_t count);
bs_reply bs_call_row_file(bs_manager *manager, const bs_node *parents, size_t count);
bs_reply bs_call_add_index(bs_manager *manager, const bs_node *parents, size_t count, bs_node file,
                           const uint64_t *bounds, size_t bound_count);
bs_reply bs_call_begin(bs_manager *manager);
bs_reply bs_call_begin_again(bs_manager *manager, uint64_t since);
bs_reply bs_call_join(bs_manager *manager, uint32_t slot, uint64_t since);
bs_reply bs_call_renew(bs_manager *manager, bs_txn txn, uint64_t since);
bs_reply bs_call_commit_keeping(bs_manager *manager, bs_txn txn, size_t keep, uint64_t since, bs_notices *told);
bs_reply bs_call_commit_and_rest(bs_manager *manager, bs_txn txn, size_t known, size_t most, uint64_t since,
                                 bs_notices *told);
bs_reply bs_call_first_intentions(const bs_manager *manager, bs_txn txn, size_t known, size_t most);
bs_reply bs_call_clear_way(bs_manager *manager, uint32_t one, bs_notices *told);
bs_reply bs_call_clear_node(bs_manager *manager, bs_node node, bs_mode mode, uint32_t one, bs_notices *told);
bs_reply bs_call_make_room(bs_manager *manager, bs_notices *told);
bs_reply bs_call_wake(bs_manager *manager, bs_txn txn);
bs_found bs_call_resting(const bs_manager *manager);
bs_reply bs_call_begin_in_turn(bs_manager *manager, uint64_t since, uint64_t word, uint64_t until);
bs_reply bs_call_take_begun(bs_manager *manager);
bs_reply bs_call_withdraw_begin(bs_manager *manager, uint64_t word);
bs_reply bs_call_take_late_begin(bs_manager *manager, uint64_t now);
bs_reply bs_call_await_node(bs_manager *manager, bs_txn txn, bs_node node, bs_mode mode, uint32_t instant,
                            uint64_t until);
bs_reply bs_call_await_path(bs_manager *manager, bs_txn txn, bs_node node, bs_mode mode, uint32_t instant, bs_node at,
                            bs_mode wanted, uint64_t until);
bs_reply bs_call_await_row(bs_manager *manager, bs_txn txn, bs_node file, uint64_t number, const uint64_t *keys,
                           size_t count, bs_mode mode, bs_node at, uint64_t until);
bs_reply bs_call_await_row_path(bs_manager *manager, bs_txn txn, bs_node file, uint64_t number, const uint64_t *keys,
                                size_t count, bs_mode mode, bs_node at, uint64_t until);
bs_reply bs_call_climb_to_row(bs_manager *manager, bs_txn txn, bs_node file, uint64_t number, const uint64_t *keys,
                              size_t count, bs_mode mode, bs_node parent, uint64_t until);
bs_reply bs_call_withdraw_waiter(bs_manager *manager, bs_txn txn);
bs_reply bs_call_next_waiter(const bs_manager *manager);
bs_reply bs_call_go_on(bs_manager *manager, bs_notices *told);
bs_reply bs_call_time_out(bs_manager *manager, bs_txn txn, bs_notices *told);
bs_reply bs_call_first_late(const bs_manager *manager, uint64_t now);
bs_reply bs_call_earliest_time(const bs_manager *manager);
bs_reply bs_call_lock(bs_manager *manager, bs_txn txn, bs_node node, bs_mode mode, bs_notices *told);
bs_reply bs_call_lock_path(bs_manager *manager, bs_txn txn, bs_node node, bs_mode mode, bs_notices *told);
bs_reply bs_call_try(bs_manager *manager, bs_txn txn, bs_node node, bs_mode mode);
bs_reply bs_call_try_path(bs_manager *manager, bs_txn txn, bs_node node, bs_mode mode, uint32_t keep, bs_notices *told);
bs_reply bs_call_unlock(bs_manager *manager, bs_txn txn, bs_node node, bs_notices *told);
bs_reply bs_call_release_since(bs_manager *manager, bs_txn txn, size_t mark, bs_notices *told);
bs_reply bs_call_commit(bs_manager *manager, bs_txn txn, bs_notices *told);
bs_reply bs_call_abort(bs_manager *manager, bs_txn txn, bs_notices *told);
bs_reply bs_call_cancel(bs_manager *manager, bs_txn txn, bs_notices *told);
bs_reply bs_call_escalate(bs_manager *manager, bs_txn txn, bs_node node, bs_notices *told);
bs_reply bs_call_settle(bs_manager *manager, bs_txn txn, bs_notices *told);
bs_reply bs_call_insert(bs_manager *manager, bs_txn txn, bs_node file, const uint64_t *keys, size_t count);
bs_reply bs_call_delete(bs_manager *manager, bs_txn txn, bs_node record, bs_notices *told);
bs_reply bs_call_adopt(bs_manager *manager, bs_node file, const uint64_t *keys, size_t count);
bs_reply bs_call_forget(bs_manager *manager, bs_node record);
bs_reply bs_call_rekey(bs_manager *manager, bs_txn txn, bs_node record, bs_node index, uint64_t key, bs_notices *told);
bs_reply bs_call_move(bs_manager *manager, bs_txn txn, bs_node node, const bs_node *parents, size_t count,
                      bs_notices *told);
bs_reply bs_call_drop(bs_manager *manager, bs_txn txn, bs_node node, bs_notices *told);
bs_reply bs_call_split(bs_manager *manager, bs_txn txn, bs_node interval, uint64_t at, bs_notices *told);
bs_reply bs_call_merge(bs_manager *manager, bs_txn txn, bs_node interval, bs_notices *told);
bs_reply bs_call_index_by(bs_manager *manager, bs_txn txn, const bs_node *parents, size_t count, bs_node file,
                          const uint64_t *bounds, size_t bound_count, const bs_node *records, size_t record_count,
                          const uint64_t *keys, size_t key_count);
bs_reply bs_call_lock_row(bs_manager *manager, bs_txn txn, bs_node file, uint64_t number, const uint64_t *keys,
                          size_t count, bs_mode mode, bs_notices *told);
bs_reply bs_call_try_row(bs_manager *manager, bs_txn txn, bs_node file, uint64_t number, const uint64_t *keys,
                         size_t count, bs_mode mode, bs_notices *told);
bs_reply bs_call_unlock_row(bs_manager *manager, bs_txn txn, bs_node file, uint64_t number, bs_notices *told);
bs_reply bs_call_rekey_row(bs_manager *manager, bs_txn txn, bs_node file, uint64_t number, bs_node index, uint64_t key,
                           bs_notices *told);
bs_reply bs_call_row_node(const bs_manager *manager, bs_node file, uint64_t number);
bs_reply bs_call_verdict(const bs_manager *manager, bs_txn txn, bs_node node, bs_mode mode);
bs_found bs_call_ended(const bs_manager *manager);
bs_reply bs_call_watch(bs_manager *manager, bs_watcher *watcher);
bs_reply bs_call_look(bs_watcher *watcher, bs_board *board);
bs_reply bs_call_watch_end(bs_watcher *watcher);
bs_reply bs_call_group_look(bs_watcher *watcher, bs_board *board);
bs_reply bs_call_group_watch_end(bs_watcher *watcher);
bs_reply bs_call_group(const bs_manager *manager, bs_node node);
bs_reply bs_call_held(const bs_manager *manager, bs_txn txn, bs_node node);
bs_reply bs_call_effective(const bs_manager *manager, bs_txn txn, bs_node node);
bs_reply bs_call_children(const bs_manager *manager, bs_txn txn, bs_node node);
bs_reply bs_call_kind(const bs_manager *manager, bs_node node);
bs_reply bs_call_parent(const bs_manager *manager, bs_node node, size_t place);
bs_reply bs_call_key(const bs_manager *manager, bs_node record, size_t place);
bs_reply bs_call_index(const bs_manager *manager, bs_node file, size_t place);
bs_reply bs_call_interval(const bs_manager *manager, bs_node index, size_t place);
bs_reply bs_call_interval_of(const bs_manager *manager, bs_node index, uint64_t key);
bs_reply bs_call_place(const bs_manager *manager, bs_node interval);
bs_reply bs_call_has_records(const bs_manager *manager, bs_node file);
bs_reply bs_call_len(const bs_manager *manager);
bs_reply bs_call_accepted(const bs_manager *manager);
bs_reply bs_call_detect(const bs_manager *manager);
bs_reply bs_call_victims(const bs_manager *manager);
bs_reply bs_call_most(const bs_manager *manager);
bs_reply bs_call_most_nodes(const bs_manager *manager);
bs_reply bs_call_most_bounds(const bs_manager *manager);
bs_reply bs_call_living(const bs_manager *manager, uint32_t slot);
bs_reply bs_call_ahead(const bs_manager *manager, bs_txn txn);
bs_reply bs_call_doing(const bs_manager *manager, bs_txn txn);
bs_reply bs_call_lock_count(const bs_manager *manager, bs_txn txn);
bs_reply bs_call_lock_at(const bs_manager *manager, bs_txn txn, size_t place);
bs_found bs_call_holders(const bs_manager *manager, bs_node node);
bs_reply bs_call_queue_len(const bs_manager *manager, bs_node node);
bs_reply bs_call_queue_at(const bs_manager *manager, bs_node node, size_t place);
bs_found bs_call_waits_for(const bs_manager *manager, bs_txn txn);
bs_reply bs_call_next_copy(const bs_manager *manager, bs_node node, const bs_manager *part, bs_node in_part);
bs_reply bs_call_is_clear(const bs_manager *manager, bs_node node);
bs_reply bs_call_may_clear(const bs_manager *manager, bs_node node, uint64_t in_progress);
bs_reply bs_call_own_copy(const bs_manager *manager, bs_node node, const bs_manager *part, bs_node in_part,
                          uint32_t slot);
struct bs_target;
struct bs_marked;
bs_reply bs_call_path_lacks(const bs_manager *manager, const bs_manager *part, uint32_t slot,
                            const struct bs_target *target, const struct bs_marked *marks, size_t count);
bs_reply bs_call_path_lacks_there(const bs_manager *part, uint32_t slot, const struct bs_target *target,
                                  const struct bs_marked *marks, size_t count);
bs_reply bs_call_after_index(const bs_manager *part, const struct bs_target *target, bs_node file);
bs_reply bs_call_after_move(const bs_manager *part, const struct bs_target *target, bs_node node);
uint32_t bs_call_may_rest(uint32_t commits, uint64_t most, const struct bs_marked *marks, size_t count);
uint32_t bs_call_takes_up(uint64_t age, uint64_t since);
void bs_call_join_board(bs_board *joined, const bs_board *added);
bs_reply bs_call_last_deadlock(const bs_manager *manager, bs_deadlock *deadlock);
bs_reply bs_call_counters(const bs_manager *manager, bs_counts *counts);
bs_reply bs_call_board(const bs_manager *manager, bs_board *board);
bs_found bs_call_on_cycle(const bs_board *board, uint32_t slot);
bs_found bs_call_suspects(const bs_board *board);
bs_reply bs_call_youngest(const bs_board *board, const bs_slots *slots);
uint32_t bs_call_slots(void);

/* The calls with a table. */
struct bs_table;
bs_reply bs_call_table_make(struct bs_table **table, const bs_options *options, size_t size);
bs_status bs_call_table_shut(struct bs_table *table);
bs_reply bs_call_table_watch(struct bs_table *table, bs_watcher *watcher);

/* How an engine names nodes; nothing if `function` is null. */
typedef struct bs_call_namer {
  void (*function)(void *context, bs_node node, char *text, size_t room);
  void *context;
} bs_call_namer;

/* Those of a table; if that is null, of the table that this thread holds with this manager. */
bs_call_namer bs_call_table_namer(struct bs_table *table, const bs_manager *manager);

/* A reply with this status and nothing else. */
static inline bs_reply bs_call_only(bs_status status) {
  bs_reply reply = { BS_DONE, BS_NL, { 0, 0 }, { 0, 0 }, 0, 0, 0, BS_NL };
  reply.status = status;
  return reply;
}

/* The reply of a call with a null pointer. */
static inline bs_reply bs_call_null(void) {
  return bs_call_only(BS_NULL_POINTER);
}

/* No slots, for a call that is refused with this status. */
static inline bs_found bs_call_none_found(bs_status status) {
  bs_found found = { BS_DONE, { { 0 } } };
  found.status = status;
  return found;
}

/* The version of this header, in the form in which bs_version answers that of the library. */
#define BS_CALL_VERSION (BS_VERSION_MAJOR * 1000000u + BS_VERSION_MINOR * 1000u + BS_VERSION_PATCH)

/* Whether the library has the version of this header and its number of slots. The third number of a version does not
 * count: it rises if nothing is added and no program must be changed. */
static inline bs_status bs_call_misfit(void) {
  if (bs_version() / 1000 != BS_CALL_VERSION / 1000) return BS_OTHER_VERSION;
  return bs_call_slots() == BS_SLOTS ? BS_DONE : BS_OTHER_SLOTS;
}

/* Whether one of these is null. The notices are emptied first, so that a refused call leaves none of an earlier
 * call. */
static inline bool bs_call_lacks(const bs_manager *manager, bs_notices *told) {
  if (told != NULL) told->count = 0;
  return told == NULL || manager == NULL;
}

/* Whether there is a manager to ask. The library takes a manager out of its place while it answers. So only this
 * function looks at a place that never had a manager, which may be a constant. */
static inline bool bs_call_can_ask(const bs_manager *manager) {
  return manager != NULL && manager->is_open;
}

/* The reply if there is none. */
static inline bs_reply bs_call_unasked(const bs_manager *manager) {
  return bs_call_only(manager == NULL ? BS_NULL_POINTER : BS_NO_MANAGER);
}

/* A list that is not null, for a list that may be null if its count is 0. */
static inline const bs_node *bs_call_nodes(const bs_node *list) {
  static const bs_node none = { 0, 0 };
  return list == NULL ? &none : list;
}

static inline const uint64_t *bs_call_numbers(const uint64_t *list) {
  static const uint64_t none = 0;
  return list == NULL ? &none : list;
}

/* The options of a caller that may know fewer of them, with each default as its number. */
static inline bs_options bs_call_chosen(const bs_options *given, size_t size) {
  bs_options options = { 0, 0, 0, 0, 0, 0 };
  if (given != NULL) memcpy(&options, given, size < sizeof options ? size : sizeof options);
  if (options.transactions == 0) options.transactions = BS_SLOTS;
  if (options.nodes == 0) options.nodes = 65536;
  if (options.bounds == 0) options.bounds = 256;
  if (options.parts == 0) options.parts = 1;
  return options;
}

/* A reply about a place of a node, which must be of this kind unless that is 0. BS_NO_PLACE does not say whether the
 * node exists. */
static inline bs_reply bs_call_of_kind(const bs_manager *manager, bs_reply reply, bs_node node, uint64_t kind) {
  bs_reply is;
  if (reply.status != BS_NO_PLACE) return reply;
  is = bs_call_kind(manager, node);
  return is.status == BS_DONE && (kind == 0 || is.count == kind) ? reply : bs_call_only(BS_NO_SUCH_NODE);
}

/* Why a node is not held. */
static inline bs_reply bs_call_not_held(const bs_manager *manager, bs_txn txn, bs_node node) {
  bs_reply held = bs_call_held(manager, txn, node);
  return held.status == BS_DONE ? bs_call_only(BS_NOT_HELD) : held;
}

#endif
