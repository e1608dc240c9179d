#!/usr/bin/env bash
# faults.sh [--tenth] [NAME..] [LIBRARY LIBRARY]: plants faults in a copy of the C sources, one at a time: the shared
# table, its dump, its trace, what times its waits, and the group. The stories or the crowd must find each: a check
# fails, or they hang or crash. `all` means every fault there is, --tenth each tenth, by turns: the sum of the folder c
# chooses which. The libraries are the proved one and the calls for memory; without them they are the last two that
# tools/c_library.sh prints. Ends with status 1 if a fault is not found. CC names another compiler than cc.
set -uo pipefail
top=$(cd "$(dirname "$0")/../.." && pwd) || exit 2
names=() libraries=() turn=
for word in "$@"; do
  case $word in
    --tenth) turn=$((0x$("$top/tools/library.sh" sum_of c | cut -c 1-6) % 10)) ;;
    *.a) libraries+=("$word") ;;
    *) names+=("$word") ;;
  esac
done
[ -n "$turn${names[*]}" ] || { sed -n '2,6s/^# //p' "$0" >&2; exit 2; }
if [ "${#libraries[@]}" -eq 0 ]; then
  built=$("$top/tools/c_library.sh") || exit 1
  mapfile -t libraries < <(tail -n 2 <<<"$built")
fi
work=$(mktemp -d) || exit 2
trap 'rm -rf "$work"' EXIT

# The faults: a name, and an edit by sed that must change a source. There is one for each call that wakes a sleeper, and
# for each condition. The library may need more words (FAULT_LINKS).
faults() {
  local call
  for call in table_lock_by table_path_by table_row_now; do
    printf '%s-forgets-to-wake\t/%s(/,/^}/s/  table_wake(table, reply.status, [^,]*told, false);//\n' "$call" "$call"
    printf '%s-is-not-watched\t/%s(/,/^}/s/wake(table, reply.status,/wake(table, reply.status == BS_WAITING ? BS_DONE : reply.status,/\n' \
      "$call" "$call"
  done
  for call in unlock{,_row} release_since cancel commit abort escalate settle delete drop rekey{,_row} move; do
    printf '%s-forgets-to-wake\ts/TABLE_TELL(table, told, [a-z]*, \\(.*_%s(.*\\)list))/TABLE_ASK(table, \\1table_list_of(table, told)))/\n' \
      "$call" "$call"
  done
  cat <<'FAULTS'
try-row-reads-null	s/  if (row->keys == NULL \&\& row->count != 0) return bs_call_null();//
skip-takes-a-later-one	s/bs_inside_is_passed(table_try_one(table, &commands\[place\]))) place++;/bs_inside_is_passed(table_try_one(table, \&commands[place]))) place += 2;/
skip-passes-refusals	s/bs_inside_is_passed(table_try_one(table, &commands\[place\]))) place++;/table_try_one(table, \&commands[place]) != BS_DONE) place++;/
skip-ends-at-what-moved	s/ || status == BS_NEED_PARENTS || / || /
skip-ends-at-what-is-gone	s/ || status == BS_NO_SUCH_NODE;/;/
skip-makes-any-command	/ table_try_one(/,/^}/s/^  if (bs_inside_is_try(next->kind)) {/  if (true) {/
skip-keeps-replies	/^size_t bs_table_try_first(/,/^}/s/^  if (place < count) .*//
other-keys-wake-nobody	s/^ *status == BS_OTHER_KEYS;/false;/
run-forgets-to-wake	/ table_make_one(/,/^}/s/^  table_wake(.*//
run-forgets-names	s/, c->kind == BS_DO_CANCEL || c->kind == BS_DO_ABORT);/, false);/
savepoint-is-of-nobody	s/    case BS_DO_RELEASE_SINCE: return table_make_release_since(table, txn, c->number, told);/    case BS_DO_RELEASE_SINCE: return table_make_release_since(table, txn, c->key, told);/
instant-at-once-forgets-the-victims	/ table_give_back_at_once(bs_table/,/^}/{s/table_make_unlock(table, txn, node, &more)/table_make_unlock(table, txn, node, told)/;/table_tell_too/d}
instant-gives-back-what-was-held	/ table_is_instant(const/,/^}/s/ \&\& bs_held(&table->manager, txn, node).mode == BS_NL;/;/
instant-came-and-is-not-known	/table_became(/,/^}/s/^  if (reply.status != BS_NOT_WAITING) return reply;/  return reply;/
list-tells-its-own	/ table_made_waiting(/,/^}/s/^  table_tell_all_but(told, txn);//
instant-tells-nobody	s/^      table_tell_too(told, &more);//
run-says-not-for-what	/ table_made_waiting(/,/^}/s/^  reply.node = wait.node;//
run-takes-a-slot-for-begun	/ bs_inside_is_own(/,/^}/s/c->txn.slot == own.slot \&\& //
list-path-tells-the-last	s/ table_tell_too(told, &table->told);/ *told = table->told;/
list-path-tells-the-first	s/    if (told != &table->told) table_tell_too(.*//
nobody-is-named	s/by_name || told->count/told->count/
nobody-is-told	s/by_name || told->count > 0/by_name/
who-looks-does-not-take	/table_take_held(bs_table/,/^}/s/    if (pthread_mutex_trylock(&table->latch) == 0) return;/    if (pthread_mutex_trylock(\&table->latch) == 0) { pthread_mutex_unlock(\&table->latch); return; }/
who-looks-does-not-sleep	/table_take_held(bs_table/,/^}/s/^  pthread_mutex_lock(&table->latch);$//
release-wakes-nobody	s/^  table_wake_sleepers(table, &to_wake);//
release-wakes-one	s/^    for (; word != 0; word \&= word - 1) pthread_cond_broadcast/    if (word != 0) pthread_cond_broadcast/
release-wakes-the-first-word	/table_wake_sleepers(/,/^}/s/  for (i = 0; i < BS_SLOTS \/ 64; i++) {/  for (i = 0; i < 1; i++) {/
watch-forgets-earlier-waits	/ table_blocked(bs_table/,/^}/s/^    table->waited = 1;//
watch-is-not-woken	s/^  pthread_cond_signal(&table->began);//
watch-forgets-to-wake	s/  table_wake(table, \(table_make_settle(.*\)\.status, &table->told, false);/  \1;/
sleeper-is-cancelled	/table_doze(/,/^}/s/  pthread_setcancelstate(PTHREAD_CANCEL_DISABLE, &state);/  state = PTHREAD_CANCEL_ENABLE;/
list-keeps-replies	/ table_leave_list(/,/^}/s/^  if (done < count) .*//
dump-keeps-the-latch	/^static void dump_let_go(/,/^}/s/^  if (copy->of.manager == NULL) .*//
watch-takes-signals	s/  pthread_sigmask(SIG_SETMASK, &blocked, &before);/  pthread_sigmask(SIG_SETMASK, NULL, \&before);/
watch-forgets-what-it-saw	s/    seen = board.epoch;/    seen = 0;/
watch-sees-one-deadlock	s/  while (youngest.status == BS_DONE \&\& /  if (youngest.status == BS_DONE \&\& /
watch-does-not-rest	s/    table_rest(table, table->pace);//
end-leaves-the-watch	s/  pthread_cond_broadcast(&table->began);//
end-leaves-the-rest	s/  pthread_cond_broadcast(&table->over);//
end-does-not-wait	s/  while (table->sleepers + table->to_tell > 0) .*//
last-sleeper-says-nothing	s/  if (table->stage == TABLE_ENDING && table->sleepers == 0) .*//
free-does-not-ask	s/  if (!is_ended) return bs_call_only(BS_IN_USE);//
free-keeps-the-pointer	s/^  \*table = NULL;$//
make-does-not-look	s/  if (\*table != NULL) return bs_call_only(BS_IN_USE);//
section-is-nobodys	s/^  table_held = table;//
section-is-anybodys	s/^static __thread [^ ]* bs_table/static bs_table/
section-forgets-the-one-before	s/^  table->held_before = table_held;/  table->held_before = NULL;/
let-go-holds-on	s/^  \*at = table->held_before;//
listed-work-is-new	s/table_begin_again_now(table, c->number);/table_begin_now(table);/
work-in-turn-is-new	s/make_call_begin_in_turn(table, since,/make_call_begin_in_turn(table, TABLE_NEW_WORK,/
work-again-is-new	s/  TABLE_ASK(table, table_begin_again_now(table, since));/  TABLE_ASK(table, table_begin_now(table));/
call-keeps-the-slot	s/  table_hand_on(table);  *\\$/ \\/
run-keeps-the-slot	/ table_leave_list(/,/^}/s/^  table_hand_on(table);$//
section-keeps-the-slot	/^bs_reply bs_table_let_go(/,/^}/s/^  table_hand_on(table);$//
one-slot-is-handed-on	s/  for (; begun.count != 0; begun = .*/  if (begun.count != 0) {/
time-before-queued-begin	s/  if (own->begun.status == BS_WAITING) {/  if (late == ETIMEDOUT) {/
queued-begin-wakes-nobody	s/^  pthread_cond_signal(&own->came);//
late-begin-stays-in-the-queue	s/^    bs_call_withdraw_begin(.*//
who-began-is-still-counted	/^static void table_end_begin(/,/^}/s/^  table->queued--;$//
who-was-late-is-still-counted	s/^    table->queued--;$//
who-waits-for-a-slot-is-not-counted	s/^  if (reply.status == BS_WAITING) table->queued++;//
asked-begin-has-no-transaction	/^static void table_end_asked_begin(/,/^}/s/^  ask->txn = came.txn;//
asked-begin-is-not-told	/^static void table_end_asked_begin(/,/^}/s/^  table_has_to_tell(.*//
asked-work-is-new	/^bs_reply bs_table_ask_begin_again(/,/^}/s/table_begin_or_wait(table, since, /table_begin_or_wait(table, TABLE_NEW_WORK, /
asked-work-is-new-in-the-trace	/^bs_reply bs_table_ask_begin_again(/,/^}/s/own->begin.since = since;/own->begin.since = TABLE_NEW_WORK;/
asked-begin-has-no-time	/^bs_reply bs_table_ask_begin_again(/,/^}/s/&own->begin, own->begin_time)/\&own->begin, TABLE_NO_TIME)/
asked-begins-are-not-late	/^bs_reply bs_table_expire(/,/^}/s/^  table_end_late_begins(.*//
all-begins-are-late	/^bs_reply bs_table_expire(/,/^}/s/table_end_late_begins(table, table_time_of(&now)/table_end_late_begins(table, UINT64_MAX/
begins-are-late-once	/^static void table_end_late_begins(/,/^}/s/^  for (; late.count != 0; .*/  if (late.count != 0) {/
all-asked-begins-have-a-time	/^static uint64_t table_count_timed_begins(/,/^}/s/count += ask->begin_time != TABLE_NO_TIME;/count++;/
next-time-is-not-said	s/^  if (earliest.status == BS_DONE \&\& next != NULL) .*//
any-begin-is-taken-back	/^static table_asked \*table_asked_by(/,/^}/s/^  while (ask != NULL .*//
begin-taken-back-is-not-told	/^bs_reply bs_table_cancel_begin(/,/^}/s/^  table_end_begin(.*//
last-begin-stays-the-last	/^static void table_unlist(/,/^}/s/^  if (list->last == ask) .*//
ahead-by-a-second-less	s/    time.tv_sec++;//
asks-are-told-under-the-latch	/table_release_and_tell(bs_table \*table) {/,/^}/s/^  pthread_mutex_unlock(&table->latch);$//; /table_release_and_tell(bs_table \*table) {/,/^}/s/^  if (over.first != NULL) table_tell(&over);/&\n  pthread_mutex_unlock(\&table->latch);/
one-of-two-is-told	s/^    over->first = next->next;/    over->first = next->next == NULL ? NULL : next->next->next;/
an-end-is-told-twice	s/^  table->asks->on_end(.*/&\n&/
the-function-is-called-within-itself	s/^  if (table_telling != NULL) {$/  if (false) {/
what-is-held-in-a-call-stays-held	s/^  while (table_held != table_held_outside) .*//
what-is-held-outside-is-given-back	s/^  if (table_is_among(table, table_held_outside)) .*//
end-does-not-wait-for-calls	s/  while (table->sleepers + table->to_tell > 0) /  while (table->sleepers > 0) /
last-call-says-nothing	s/  if (table->stage == TABLE_ENDING \&\& table->to_tell == 0) .*//
a-call-ends-a-table	s/  if (table != NULL \&\& !table_may_sleep()) return bs_call_only(BS_IN_USE);//
a-call-sleeps	s/  return table_telling == NULL \&\& table_held == NULL;/  return table_held == NULL;/
a-holder-sleeps	s/  return table_telling == NULL \&\& table_held == NULL;/  return table_telling == NULL;/
a-call-is-cancelled	/^static void table_tell(/,/^}/s/  pthread_setcancelstate(PTHREAD_CANCEL_DISABLE, &state);/  state = PTHREAD_CANCEL_ENABLE;/
watch-tells-nobody-before-it-rests	/^static void table_settle_all(/,/^}/s/^    table_release(table);$/    pthread_mutex_unlock(\&table->latch);/
dump-is-cancelled	/^static bs_reply dump_of(/,/^}/s/  pthread_setcancelstate(PTHREAD_CANCEL_DISABLE, &state);/  state = PTHREAD_CANCEL_ENABLE;/
a-list-tells-nobody	/ table_leave_list(/,/^}/s/  table_release(table);/  pthread_mutex_unlock(\&table->latch);/
a-call-tells-nobody	s/  table_release(table);                                         \\/  pthread_mutex_unlock(\&(table)->latch); \\/
on-end-is-given-twice	s/  if (table->asks != NULL) return table_leave(table, bs_call_only(BS_IN_USE));//
spare-asks-are-kept	s/  while (table->asks != NULL \&\& table->asks->spare != NULL) {/  while (false) {/
end-leaves-the-queue	/^static void table_end_waits(/,/^}/s/^  table_end_late_begins(.*//
watch-takes-an-old-board	s/^    if (board.epoch < seen) bs_read_board(.*//
watch-reads-no-board-of-now	s/^    if (board.epoch < seen) bs_read_board(.*/    if (board.epoch < seen) board.epoch = seen;/
caller-keeps-signals-blocked	s/^  pthread_sigmask(SIG_SETMASK, &before, NULL);//
watch-waits-with-its-faults	s/^  for (i = 0; i < sizeof faults .*sigdelset.*//
watch-blocks-one-signal	s/^  sigfillset(&blocked);/  sigemptyset(\&blocked), sigaddset(\&blocked, SIGUSR1);/
watch-that-failed-keeps-its-seat	/^bs_reply bs_table_watch_thread(/,/^}/s/^    bs_watch_end(&table->eye);//
watch-that-failed-is-done	/^bs_reply bs_table_watch_thread(/,/^}/s/^    reply.status = BS_NO_MEMORY;//
instant-is-not-watched	/ table_lock_by(/,/^}/s/wake(table, reply.status,/wake(table, is_instant \&\& reply.status == BS_WAITING ? BS_DONE : reply.status,/
path-for-an-instant-is-not-watched	/ table_path_by(/,/^}/s/wake(table, reply.status,/wake(table, is_instant \&\& reply.status == BS_WAITING ? BS_DONE : reply.status,/
next-end-forgets-the-last	/^static void table_tell(/,/^}/s/^    table_telling->last = over->last;//
last-of-two-ends-is-the-first	/^static void table_tell(/,/^}/s/^    table_telling->last = over->last;/    table_telling->last = over->first;/
next-end-hides-those-before	/^static void table_tell(/,/^}/s/    else table_telling->last->next = over->first;/    else table_telling->first = over->first;/
ends-within-are-told-first	/^static void table_tell(/,/^}/s/^    if (table_telling->first == NULL) table_telling->first = over->first;/    if (table_telling->first != NULL) { over->last->next = table_telling->first; table_telling->first = over->first; return; }\n&/
instant-is-of-its-slot	s/  if (own->came == BS_NL || own->txn.age != txn.age || /  if (own->came == BS_NL || /
instant-is-of-any-node	s/ || own->txn.age != txn.age || !table_is_same_node(own->node, node)) return reply;/ || own->txn.age != txn.age) return reply;/
listed-row-is-for-an-instant	s/ request = table_row_request(kind, txn, row, c->mode);/ request = table_row_request(kind, txn, row, table_mode_of(c->mode));/
end-of-a-table-is-cancelled	/^bs_reply bs_table_end(/,/^}/s/  pthread_setcancelstate(PTHREAD_CANCEL_DISABLE, &state);/  pthread_setcancelstate(PTHREAD_CANCEL_ENABLE, \&state);/
end-of-a-table-keeps-cancels-off	/^bs_reply bs_table_end(/,/^}/s/^  pthread_setcancelstate(state, &state);//
dump-prints-names-as-they-are	s/(unsigned char)text\[i\] < ' ' ? '?' : text\[i\]/text[i]/
dump-names-have-no-end	s/^  text\[sizeof text - 1\] = 0;//
held-dump-has-no-names	s/while (held != NULL \&\& &held->manager != manager)/while (held != NULL)/
dump-keeps-cancels-off	/^static bs_reply dump_of(/,/^}/s/^  pthread_setcancelstate(state, &state);//
a-holder-ends-a-table	s/  if (table != NULL \&\& !table_may_sleep()) return bs_call_only(BS_IN_USE);/  if (table != NULL \&\& table_telling != NULL) return bs_call_only(BS_IN_USE);/
what-is-held-outside-is-forgotten	s/^  table_held_outside = NULL;//
watch-settles-all-in-one-section	/^static void table_settle_all(/,/^}/{s/^    table_release(table);$//;s/^    table_take(table);$//;s/^}/  table_tell_between(table);\n}/}
bucket-has-no-upper-bound	/^static size_t running_bucket(/,/^}/s/__builtin_clzll(microseconds - 1)/__builtin_clzll(microseconds)/
bucket-cuts-nanoseconds	/^static size_t running_bucket(/,/^}/s/ + (nanoseconds % 1000 != 0)//
moved-wait-is-gone	s/^    case BS_TOLD_MOVED: return BS_END_MOVED;//
named-wait-stays	/^void bs_call_waits_ended(/,/^}/s/^  running_cancelled(running, &left, now);//
ended-wait-ends-again	/^static uint64_t running_keep_waiting(/,/^}/s/slots->words\[i\] \&= running->waiting.words\[i\]/slots->words[i]/
sketch-forgets-its-error	/^static void running_count(/,/^}/s/error = sketch->at\[place\].nanoseconds;/error = 0;/
sketch-gives-up-the-most	/^static size_t running_least(/,/^}/s/nanoseconds < sketch/nanoseconds > sketch/
sketch-begins-at-nothing	/^static void running_count(/,/^}/s/^    sketch->at\[place\].waits = 0;/&\n    sketch->at[place].nanoseconds = sketch->at[place].error = 0;/
present-waits-do-not-count	s/^  running_count_present(running, &sketch, now);//
reset-keeps-what-was-before	/^static void running_end(/,/^}/s/running_later(wait->since, running->reset)/wait->since/
reset-keeps-its-time	/^bs_reply bs_table_awaited(/,/^}/s/^    running->reset = now;//
dump-of-waits-is-by-slot	/^static dump_txn \*dump_next_wait(/,/^}/s/ || next->since < first->since//
long-wait-is-told-again	/^static void running_take_wait(/,/^}/s/^  running->waits\[slot\].is_told = true;//
long-wait-is-told-of-the-next	/^void bs_call_wait_began(/,/^}/s/^  wait->is_told = false;//
long-wait-is-told-too-early	s/waited >= teller->limit/waited + 1 >= teller->limit/
long-wait-is-told-too-late	s/waited >= teller->limit/waited > teller->limit/
long-wait-wakes-nobody	/^void bs_call_wait_began(/,/^}/s/^    pthread_cond_signal(&running->teller->due);//
long-wait-of-the-last-is-first	/^static uint32_t running_first_untold(/,/^}/s/since < running->waits/since > running->waits/
blocker-ahead-wants-nothing	/^static void running_note_blocker(/,/^}/s/ blocker->wanted = doing.mode;/ return;/
blocker-wants-other-nodes	/^static void running_note_blocker(/,/^}/s/ \&\& running_is_same_node(doing.node, wait->node)//
requester-that-is-condemned-is-not-told	s/^  if (status == BS_VICTIM) bs_call_condemned(&table->running);//
waiter-that-is-condemned-is-not-told	/^void bs_call_waits_ended(/,/^}/s/^  if (has_victims) running_note_deadlock(running);//
deadlock-is-told-twice	/^static void running_note_deadlock(/,/^}/s/^  if (condemned == running->condemned) return;//
deadlock-wakes-nobody	/^static void running_note_deadlock(/,/^}/s/^  pthread_cond_signal(&teller->due);//
deadlocks-keep-their-rows	/^static bool running_take_deadlock(/,/^}/s/^  memmove(teller->stuck, .*//
deadlock-that-is-lost-is-not-counted	s/^  if (!running_join_deadlock(teller)) running->lost_deadlocks++;/  running_join_deadlock(teller);/
deadlocks-need-no-room	/^static bool running_join_deadlock(/,/^}/s/ || last->count > RUNNING_STUCK - teller->stuck_count//
deadlocks-have-no-end	/^static bool running_join_deadlock(/,/^}/s/teller->deadlock_count == RUNNING_DEADLOCKS || //
begins-that-wait-are-not-counted	/^uint64_t bs_call_queued(/,/^}/s/held->queued/0/
deadlock-waits-behind-long-waits	/^static void running_tell_next(/,/^}/s/^  if (running_take_deadlock(teller)) {/  if (slot == BS_SLOTS \&\& running_take_deadlock(teller)) {/
function-is-called-under-the-latch	/^static void running_tell(/,/^}/{s/^  pthread_mutex_unlock(running->latch);//;s/^  pthread_mutex_lock(running->latch);//}
function-taken-back-is-not-awaited	s/^  if (!running_is_own(running)) running_await_return(running);//
function-awaits-itself	s/^  if (!running_is_own(running)) running_await_return(running);/  running_await_return(running);/
next-function-is-awaited-too	/^static void running_await_return(/,/^}/s/ \&\& teller->calls == calls//
function-taken-back-is-cancelled	/^static void running_await_return(/,/^}/s/PTHREAD_CANCEL_DISABLE/PTHREAD_CANCEL_ENABLE/
another-time-wakes-nobody	/^static void running_give(/,/^}/s/^  pthread_cond_signal(&teller->due);//
time-beyond-all-wraps	/^static uint64_t running_limit(/,/^}/s/milliseconds > UINT64_MAX \/ 1000000 ? UINT64_MAX : //
time-of-nothing-is-taken	s/^  else if (function != NULL \&\& milliseconds == 0) status = BS_BAD_NUMBER;//
function-is-given-in-a-callback	s/^  if (!may_sleep \&\& !running_is_own(running)) status = BS_IN_USE;/  if (false) status = BS_IN_USE;/
end-wakes-no-teller	/^void bs_call_run_out(/,/^}/s/^  if (running->teller != NULL) pthread_cond_signal(.*//
end-does-not-await-the-function	s/^  bs_call_run_join(&table->running);//
teller-without-a-thread-stays	/^static bool running_start(/,/^}/s/^  running->teller = NULL;//
function-sleeps-in-the-table	/^void bs_call_engine(/,/^}/s/^  table_telling = &over;//
function-keeps-what-it-holds	/^void bs_call_engine(/,/^}/s/^  while (table_held != NULL) bs_table_let_go(table_held);//
ends-set-off-by-a-function-are-lost	/^void bs_call_engine(/,/^}/s/^  if (over.first != NULL) table_tell(&over);//
metrics-continue-after-a-failure	/^static void metrics_flush(/,/^}/s/!to->has_failed \&\& to->length > 0/to->length > 0/
metrics-hide-a-failure	s/to.has_failed ? BS_NOT_WRITTEN : BS_DONE/BS_DONE/
metrics-buckets-do-not-add-up	/^static void metrics_put_histogram(/,/^}/s/^    count += histogram->buckets\[i\];/    count = histogram->buckets[i];/
metrics-are-cancelled	/^bs_reply bs_table_metrics(/,/^}/s/PTHREAD_CANCEL_DISABLE/PTHREAD_CANCEL_ENABLE/
metrics-are-written-under-the-latch	/ metrics_copy_of(/,/^}/s/^  bs_table_let_go(table);//;/^bs_reply bs_table_metrics(/,/^}/s/^  metrics_flush(&to);/&\n  bs_table_let_go(table);/
trace-tells-nobody	/^static void trace_say_many(/,/^}/s/told == NULL ? 0 : told->count/0/
trace-leaves-one-notice-out	/^static void trace_say_many(/,/^}/s/told == NULL ? 0 : told->count/told == NULL || told->count == 0 ? 0 : told->count - 1/
trace-says-a-command-twice	/^static bs_reply trace_end(/,/^}/s/^  if (trace_is_accepted(reply.status)) trace_say(.*/&\n&/
trace-says-what-was-refused	/^static bs_reply trace_end(/,/^}/s/^  if (trace_is_accepted(reply.status)) trace_say(/  trace_say(/
trace-does-not-count-what-it-drops	/^static void trace_end_put(/,/^}/s/^    trace->lost += lines;//
trace-counts-no-notices-it-drops	s/^  trace_end_put(trace, 1 + line->head.told_count);/  trace_end_put(trace, 1);/
trace-forgets-a-gap	/^static void trace_begin_put(/,/^}/s/^  if (trace->lost > 0) .*//
trace-plays-on-after-a-gap	/^static void trace_cut(/,/^}/s/^  trace->is_cut = true;//
trace-waits-for-its-writer	/^static void trace_put(/,/^}/s/^  if (trace->next + count - .*/  while (trace->next + count - __atomic_load_n(\&trace->tail, __ATOMIC_ACQUIRE) > TRACE_WORDS) continue;/
trace-does-not-hand-on	s/^  bs_call_hand_on(trace->table);//
trace-says-no-begin-in-turn	s/^    if (table->is_traced) bs_traced_begun(.*//
trace-forgets-since-when	s/^  own->queued.since = since;//
trace-says-no-forgotten-rows	s/^  if (trace->said < accepted) trace_say_forgotten(.*//
trace-says-no-adopted-rows	/^static void trace_say_row(/,/^}/s/^    trace_say(trace, &adopted, .*//
trace-hides-what-it-does-not-know	/^static bs_reply trace_end_call(/,/^}/s/^  if (trace->said == accepted) return reply;/  trace->said = accepted;\n&/
trace-path-is-one-lock	/^bs_reply bs_traced_lock_path(/,/^}/s/^  if (made <= steps) trace_say_steps(trace, TRACE_LOCK, txn, (size_t)made, /  if (made <= steps) trace_say_steps(trace, TRACE_LOCK, txn, 1, /
trace-path-reads-as-it-writes	/^static bool trace_find_above(/,/^}/s/bool writes = trace_is_to_write(mode)/bool writes = true/
trace-path-waits-at-its-first	/^static void trace_say_steps(/,/^}/s/i + 1 == count \&\& trace_is_accepted(last) ? last/i == 0 \&\& trace_is_accepted(last) ? last/
trace-try-gives-nothing-back	/^bs_reply bs_traced_call_try_path(/,/^}/s/^    trace_say_release(trace, txn, before, released, told);//
trace-row-is-tried-and-not-locked	/^bs_reply bs_traced_call_try_row(/,/^}/s/^  if (is_held || !is_busy) trace_say_row(.*/  if (!is_busy) trace_say_row(trace, txn, file, keys, count, mode, before, reply, told);/
trace-release-is-one-command	/^static void trace_say_release(/,/^}/s/told, released);/told, 1);/
trace-settles-in-silence	/^static void table_settle_one(/,/^}/s/table_make_settle(table, /bs_settle(\&table->manager, /
trace-is-not-ended-with-its-table	s/^  if (trace != NULL) bs_call_trace_end(trace);//
trace-leaves-lines-in-its-ring	/^static void \*trace_write_on(/,/^}/s/^  trace_write_all(trace);//
trace-hides-a-failure	s/trace->has_failed ? BS_NOT_WRITTEN : BS_DONE/BS_DONE/
trace-does-not-count-what-fails	s/^  if (trace->has_failed) trace->dropped += trace->unwritten;//
trace-gives-up-a-full-pipe	s/^    else if (written < 0 \&\& errno == EAGAIN) poll(.*//
trace-begins-too-late	s/^  if (!trace_has_only_schema(manager)) return .*//
trace-takes-records-for-schema	/^static bool trace_has_only_schema(/,/^}/s/kind.status != BS_DONE || kind.count == BS_RECORD/kind.status != BS_DONE/
trace-reads-what-it-cannot-write	s/^  if (flags < 0 || (flags & O_ACCMODE) == O_RDONLY) return .*/  if (flags < 0) return bs_call_only(BS_BAD_NUMBER);/
trace-finds-bounds-too-high	/^static uint64_t trace_lowest_key(/,/^}/s/>= place) high = key;/> place) high = key;/
trace-lacks-an-index-beside-records	/ table_index_records_now(/,/^}/s/^  if (table->is_traced) .*//
trace-is-begun-twice	/^bs_reply bs_table_trace(/,/^}/s/^  if (table->is_traced) return .*//
trace-writes-long-lines	s/line->head.is_too_long || trace->length - start > TRACE_LONGEST/line->head.is_too_long/
trace-keeps-its-memory	/^static void trace_free(/,/^}/s/^  free(trace->ring);//
instant-stays-held-at-once	s/  if (is_instant \&\& reply.status == BS_DONE) table_give_back_at_once(.*//
wait-is-not-registered	/ table_register(bs_table/,/^}/s/^  table_enlist(table, request, wait, waiter);//
lock-wakes-before-it-registers	/ table_lock_by(/,/^}/{/^    table_register(/d;s/^  table_wake(table, .*/&\n  if (reply.status == BS_WAITING) { table_request request = table_request_of(TABLE_NODE, txn, node, mode, is_instant); table_wait wait = { node, mode }; table_register(table, \&request, wait, waiter, told); }/}
path-wakes-before-it-registers	/ table_path_by(/,/^}/{/^    table_register(/d;s/^  table_wake(table, .*/&\n  if (reply.status == BS_WAITING) { table_request request = table_request_of(TABLE_PATH, txn, node, mode, is_instant); table_wait wait = { reply.node, reply.mode }; table_register(table, \&request, wait, waiter, told); }/}
wait-that-begins-is-not-noted	/^static void table_note_wait(/,/^}/s/^  bs_call_wait_began(.*//
instant-that-came-is-the-next-wait	/^static void table_note_wait(/,/^}/s/^  table->instants.*//
nobody-goes-on	/ table_wake_told(bs_table/,/^}/s/^  table_go_on(table, told);//
one-goes-on	s/^    is_over = came.count != 0;/    is_over = false;/
an-end-says-who-goes-on	/^static void table_end(/,/^}/s/^  waiter->end.count = 0;//
who-is-told-by-others-is-timed-on	/ table_go_on(bs_table/,/^}/s/^      table_note_ended(table, &more);//
who-waits-again-is-not-timed	/^static void table_gone_on(/,/^}/s/^  if (came.status == BS_WAITING) bs_call_wait_began(.*//
who-waits-again-is-not-watched	/^static void table_gone_on(/,/^}/s/^  table_blocked(table, came.status);//
notices-are-unordered	/^static void table_tell_too(/,/^}/s/^    while (place > 0 .*//
notices-are-told-twice	/^static void table_tell_too(/,/^}/s/txn.slot >= next->txn.slot/txn.slot > next->txn.slot/
nobody-is-to-wake	/^    table->to_wake.words/{n;s/.*//}
an-end-wakes-in-the-first-word	s/table->to_wake.words\[slot \/ 64\] |= /table->to_wake.words[0] |= /
last-end-alone-wakes	s/table->to_wake.words\[slot \/ 64\] |= /table->to_wake.words[slot \/ 64] = /
an-end-is-told-within-the-ask	s/^  } else if (ask != NULL \&\& !ask->is_inside) {/  } else if (ask != NULL) {/
an-end-is-not-to-be-told	/ table_has_to_tell(bs_table/,/^}/s/^  table->is_due = true;//
listed-instant-stays-held	/ table_leave_waiting(/,/^}/s/^    bs_call_await_node(.*//
listed-instant-is-of-nobody	/ table_leave_waiting(/,/^}/s/^    own->txn = txn;//
path-is-awaited-as-a-node	/^static bs_reply table_await(/,/^}/s/  switch (request->kind) {/  switch (TABLE_NODE) {/
asked-row-keeps-no-keys	/^static bs_reply table_await(/,/^}/s/bs_call_numbers(row->keys), row->count/bs_call_numbers(NULL), 0/
awaited-instant-stays-held	/^static bs_reply table_await(/,/^}/s/bs_call_await_node(m, txn, request->node, mode, request->is_instant, until)/bs_call_await_node(m, txn, request->node, mode, false, until)/
awaited-path-for-an-instant-stays-held	/^static bs_reply table_await(/,/^}/s/mode, request->is_instant, wait.node, wait.mode/mode, false, wait.node, wait.mode/
ask-has-no-time	s/waiter->ask->has_time = time != TABLE_NO_TIME;/waiter->ask->has_time = false;/
ask-is-awaited-for-ever	/ table_begin_wait(/,/^}/s/^  return time;/  return TABLE_NO_TIME;/
deadline-is-forgotten	/^static uint64_t table_earlier(/,/^}/s/^  return .*/  return time;/
deadline-is-of-the-slot	/^static uint64_t table_earlier(/,/^}/s/own->age == txn.age \&\& /own->age != 0 \&\& /
deadline-hides-the-call	/^static uint64_t table_earlier(/,/^}/s/ \&\& own->time < time//
times-within-a-second-are-one	/^static uint64_t table_time_of(/,/^}/s/ + (uint64_t)until->tv_nsec//
time-before-the-clock-is-none	/^static uint64_t table_time_of(/,/^}/s/  if (until->tv_sec < 0) return 0;//
time-after-all-wraps	/^static uint64_t table_time_of(/,/^}/s/^  if ((uint64_t)until->tv_sec >= .*//
late-forgets-to-wake	/^static bs_reply table_time_out(/,/^}/s/^  table_wake_told(table, &table->told);//
late-wait-is-cancelled	/^static bs_reply table_time_out(/,/^}/s/^  bs_call_wait_cut(.*//
time-leaves-the-ask	/^static bs_reply table_time_out(/,/^}/s/^  table_end(table, waiter, txn.slot, end);//
a-sleeper-tells-behind-its-sleep	/ table_sleep(bs_table/,/^}/s/^  if (!own->has_ended) table_tell_between(table);//
early-return	/ table_sleep(bs_table/,/^}/s/  while (!own->has_ended \&\& late != ETIMEDOUT) {/  if (!own->has_ended) {/
time-before-grant	/ table_sleep(bs_table/,/^}/s/  if (!own->has_ended) table_give_up(/  if (late == ETIMEDOUT) table_give_up(/
a-wait-is-awaited-twice	s/  if (table->waiters\[txn.slot\] != NULL) return bs_call_only(BS_IN_USE);//
awaited-list-forgets-its-instant	s/  request.is_instant = bs_call_withdraw_waiter(.*/  bs_call_withdraw_waiter(\&table->manager, txn);/
what-is-over-is-awaited	/ table_await_left(bs_table/,/^}/s/  if (reply.status == BS_WAITING) return bs_call_only(BS_WAITING);/  return bs_call_only(BS_WAITING);/
path-stops-on-the-way	/ table_path_through(bs_table/,/^}/s/  } while (reply.status == BS_ON_THE_WAY);/  } while (false);/
times-are-not-over	/^bs_reply bs_table_expire(/,/^}/s/^  table_end_late(.*//
times-are-looked-at-once	/^static void table_end_late(/,/^}/s/  while (late.status == BS_DONE) {/  if (late.status == BS_DONE) {/
times-are-of-the-first-word	/^static uint64_t table_count_timed(/,/^}/s/slot < BS_SLOTS/slot < 64/
all-asks-have-a-time	/^static uint64_t table_count_timed(/,/^}/s/ \&\& waiter->ask->has_time//
end-forgets-waits	s/^  table_end_waits(table);//
end-forgets-the-second-word	/^static void table_end_waits(/,/^}/s/slot < BS_SLOTS/slot < 64/
an-ask-is-answered-waiting	s/  if (waits \&\& own->waiter.has_ended) reply = own->waiter.end;/  if (false) return reply;/
asked-path-answers-where-it-was	s/^  else if (waits \&\& reply.node.birth != 0) .*//
ask-tells-after-it-has-left	s/^  if (waits \&\& !own->waiter.has_ended \&\& table->is_due) table_ask_and_tell(table);//
ask-stays-in-its-call	/^static bs_reply table_asked_now(/,/^}/s/^  own->is_inside = false;//
list-does-not-settle	/ table_made_waiting(/,/^}/s/^  if (own->has_ended) return/  if (false) return/
list-s-wait-keeps-its-waiter	/ table_leave_waiting(/,/^}/s/^    bs_call_withdraw_waiter(.*//
row-path-does-not-climb	s/  if (reply.status != BS_NEED_PARENTS || request->kind != TABLE_ROW_PATH) return reply;/  return reply;/
row-climbs-too	s/  if (reply.status != BS_NEED_PARENTS || request->kind != TABLE_ROW_PATH) return reply;/  if (reply.status != BS_NEED_PARENTS) return reply;/
row-path-goes-not-on	/ table_climb(/,/^}/s/^  table_go_on(table, told);//
row-path-has-no-waiter	/ table_climb(/,/^}/s/^  table->waiters.*//
row-path-s-ask-has-no-time	/ table_climb(/,/^}/s/, lacks.node, time);/, lacks.node, TABLE_NO_TIME);/
row-path-waits-as-a-row	s/      return bs_call_await_row_path(/      return bs_call_await_row(/
tried-row-path-stops-at-the-first	/ table_row_path_tried(/,/^}/s/  while (table_got_above(/  if (table_got_above(/
tried-row-path-keeps-all	s/  if (keep == BS_KEEP_NOTHING \&\& reply.status != BS_DONE \&\& reply.status != BS_OTHER_KEYS) {/  if (false) {/
tried-row-path-keeps-nothing	s/  if (keep == BS_KEEP_NOTHING \&\& reply.status != BS_DONE \&\& reply.status/  if (reply.status != BS_DONE \&\& reply.status/
tried-row-path-gives-all-back	/ table_row_path_tried(/,/^}/s/    table_give_back(table, txn, mark);/    table_give_back(table, txn, 0);/
tried-row-path-takes-any-keep	/ table_row_path_tried(/,/^}/s/^  if (keep > BS_KEEP_WAY) return bs_call_only(BS_BAD_NUMBER);//
tried-path-is-above-refused	/ table_got_above(/,/^}/s/^  return above.status == BS_DONE;/  return true;/
insert-path-stops-at-the-first	/ table_inserted_by_path(/,/^}/s/  while (table_got_above(/  if (table_got_above(/
insert-path-keeps-all	s/^  if (keep == BS_KEEP_NOTHING \&\& reply.status != BS_DONE) table_give_back(.*//
insert-path-keeps-nothing	s/^  if (keep == BS_KEEP_NOTHING \&\& reply.status != BS_DONE) table_give_back(.*/  if (reply.status != BS_DONE) table_give_back(table, txn, mark);/
insert-path-takes-any-keep	/ table_inserted_by_path(/,/^}/s/^  if (keep > BS_KEEP_WAY) return bs_call_only(BS_BAD_NUMBER);//
listed-insert-keeps-nothing	s/c->keys, c->key_count, c->keep);$/c->keys, c->key_count, BS_KEEP_NOTHING);/
made-is-a-later-one	s/  if (bs_inside_is_made(\*node) \&\& node->key < place) /  if (bs_inside_is_made(*node)) /
made-node-has-no-name	/ bs_inside_named(/,/^}/s/^  bs_inside_name_made(commands, place, &named.node);//
made-file-has-no-name	/ bs_inside_named(/,/^}/s/^  bs_inside_name_made(commands, place, &named.file);//
made-parents-have-no-names	/ bs_inside_named(/,/^}/s/^    bs_inside_name_made(.*//
made-parents-are-not-looked-at	/ table_names_made(/,/^}/s/^  for (i = 0; .*//
list-marks-nothing	s/    case BS_DO_MARK: return bs_mark(&table->manager, txn);/    case BS_DO_MARK: return bs_call_only(BS_DONE);/
second-thread-watches	s/^  if (table->is_watched) return table_leave(table, bs_call_only(BS_IN_USE));//
traced-row-path-gets-no-node	/ trace_say_row_next(/,/^}/s/  bs_reply before = .*/  bs_reply before = bs_call_only(BS_DONE);/
traced-row-path-is-unsaid	s/^    trace_say_row_next(trace, next, reply, told);//
list-path-stops-on-the-way	/ table_path_made(/,/^}/s/  reply = table_path_through(/  reply = table_path_now(/
list-path-says-not-how-it-waits	/ table_made_waiting(/,/^}/s/^  reply.mode = wait.mode;//
trace-goes-on-unsaid	/^bs_reply bs_traced_call_go_on(/,/^}/s/^    trace_say_steps(.*//
trace-goes-on-by-one-lock	/^bs_reply bs_traced_call_go_on(/,/^}/s/next.txn, (size_t)made, /next.txn, 1, /
trace-gives-back-unsaid	/^bs_reply bs_traced_call_go_on(/,/^}/s/^    trace_say(trace, &line, done, told);//
trace-gives-back-by-a-lock	/^bs_reply bs_traced_call_go_on(/,/^}/s/next.count == TRACE_GIVES_BACK ? TRACE_UNLOCK : TRACE_LOCK/TRACE_LOCK/
trace-hides-a-time-that-is-over	/^bs_reply bs_traced_call_time_out(/,/^}/s/^  if (reply.status == BS_TIMED_OUT) trace_say(.*//
a-lock-waits-for-who-rests	/ table_lock_by(/,/^}/s/^  if (reply.status == BS_WAITING \&\& table->has_rested) .*//
a-path-waits-for-who-rests	/ table_path_by(/,/^}/s/^  if (reply.status == BS_WAITING \&\& table->has_rested) .*//
a-path-goes-on-to-who-rests	s/^    if (table->has_rested \&\& came.status == BS_WAITING) .*//
who-waited-for-who-rests-goes-not-on	s/^    if (table->has_rested \&\& came.status == BS_WAITING) is_over |= /    if (table->has_rested \&\& came.status == BS_WAITING) /
nobody-goes-on-past-who-rested	s/^  if (table_clear_all(table, told)) table_go_on(table, told);/  table_clear_all(table, told);/
a-try-is-refused-for-who-rests	/ table_try_now(/,/^}/s/^  if (table_may_clear(table, reply) .*/  if (false) {/
a-try-of-a-path-is-refused-for-who-rests	/ table_path_tried(/,/^}/s/^  if (!table_may_clear(table, reply) .*/  return reply;/
an-escalation-is-refused-for-who-rests	/ table_do_escalate(/,/^}/s/^  if (!table_may_clear(table, reply) .*/  return reply;/
who-rests-tells-nobody	/ table_ended_resting(/,/^}/s/^  table_tell_too(told, more);//
a-begin-finds-no-slot	s/^  return __builtin_expect(reply.status == BS_TOO_MANY_TXNS, 0) \&\& table->has_rested .*/  return false;/
a-begin-waits-while-one-rests	/ table_begin_or_wait(bs_table/,/^}/s/^  if (table->has_rested) {/  if (false) {/
a-list-begins-without-a-slot	s/^    case BS_DO_BEGIN: return table_begin_now(table);/    case BS_DO_BEGIN: return table_make_begin(table);/
one-rests-while-others-sleep	s/^  if (table->queued == 0) reply = table_let_rest(/  reply = table_let_rest(/
a-session-keeps-more	s/session->kept, session->most, told);/session->kept, 2 * session->most, told);/
a-session-keeps-what-it-kept-alone	s/session->kept, session->most, told);/session->kept, session->kept == 0 ? session->most : session->kept, told);/
one-in-the-way-alone-is-ended	/ table_clear_all(/,/^}/s/^  while (\(.*\)) any = true;/  if (\1) any = true;/
a-try-ends-one-alone	/ table_clears_node(/,/^}/s/^  while (\(.*\)) any = true;/  if (\1) any = true;/
who-rests-ends-no-wait	/ table_ended_resting(/,/^}/s/^  table_note_ended(table, more);//
what-rests-is-not-in-the-trace	s/^  if (__builtin_expect(table->is_traced, 0)) return table_rest_in_lines(.*//
a-commit-in-lines-ends-no-wait	/ table_rest_in_lines(/,/^}/s/^  if (told->count > 0) table_note_ended(table, told);//
who-rested-is-no-more	/ table_session_begin(/,/^}/s/^  if (table_session_wakes(table, session)) .*//
who-rests-has-a-name	/ table_commit_and_rest(/,/^}/s/^    session->txn = reply.txn;/    session->txn = session->rests;/
a-session-begins-twice	/ table_session_begin(/,/^}/s/^  if (table_lives(table, session->txn)) .*//
a-session-ends-in-a-transaction	/^bs_reply bs_session_end(/,/^}/s/^  if (table_lives(table, session->txn)) .*//
what-a-session-kept-stays	s/^  if (table_session_wakes(table, session)) table_make_commit(.*//
work-begins-again-as-new	/^bs_reply bs_session_begin_again(/,/^}/s/table_begin_or_sleep(session->table, since, until)/table_begin_or_sleep(session->table, TABLE_NEW_WORK, until)/
a-session-s-commit-wakes-nobody	/^bs_reply bs_session_commit(/,/^}/s/^  table_hand_on(table);//
a-session-s-list-keeps-nothing	/ table_run_in_session(/,/^}/s/is_own \&\& next->kind == BS_DO_COMMIT/false/
a-session-s-list-keeps-for-others	/ table_run_in_session(/,/^}/s/is_own \&\& next->kind == BS_DO_COMMIT/next->kind == BS_DO_COMMIT/
a-session-s-list-loses-what-it-renewed	/ table_run_in_session(/,/^}/s/^    if (is_own \&\& next->kind == BS_DO_RENEW) .*//
a-session-s-list-has-what-others-renewed	/ table_run_in_session(/,/^}/s/^    if (is_own \&\& next->kind == BS_DO_RENEW) /    if (next->kind == BS_DO_RENEW) /
a-session-s-list-takes-nothing-up	/ table_session_goes_on(/,/^}/s/^  if (table_session_wakes(table, session)) .*//
a-session-s-list-begins-another	/ table_session_goes_on(/,/^}/s/  if (!table_lives(table, session->txn)) return/  return/
a-session-s-list-wakes-nobody	/ table_session_commit(/,/^}/s/^  table_wake(.*//
group-unmarks-under-a-request	s/, inner->in_progress).count/, 0).count/
group-takes-latches-downward	/ group_take_all(/,/^}/s/number = 0; number <= group->parts; number++/number = group->parts; number <= group->parts; number--/
group-visits-all-parts-but-one	/ group_visit_all(/,/^}/s/part <= group->parts/part < group->parts/
group-joins-as-old-as-it-is	/ group_join(/,/^}/s/own->number, own->since/own->number, own->age/
group-joins-the-main-table-as-old-as-it-is	/ group_join_main(/,/^}/s/own->number, own->since/own->number, own->age/
group-lets-any-sleeper-fall	/ group_settle_one(/,/^}/s/bs_suspects(&group->joined).slots/(bs_slots){ { UINT64_MAX, UINT64_MAX } }/
group-looks-at-ages-of-tables	/ group_add_board(/,/^}/s/^    group->joined.ages\[slot\] = .*/    group->joined.ages[slot] = group->one.ages[slot];/
group-looks-at-one-table-after-the-other	/^static void group_settle_all(bs_table_group \*group) {/,/^}/{s/^  group_take_all(group);//;s/^  group_release_all(group);//};/ group_settle_one(/,/^}/{s/^    if (\(!bs_inside_any_waits.*\)) continue;/    bool none = (bs_inside_take(t->table), \1);\n    bs_inside_release(t->table);\n    if (none) continue;/;s/^    if (\(bs_inside_end_sleep(.*)\)) return true;/    bool fell = (bs_inside_take(group->tables[table].table), \1);\n    bs_inside_release(group->tables[table].table);\n    if (fell) return true;/}
group-frees-the-part-before-it-requests	/ group_reach(/,/^}/s/^  way->own->target = \*way->target;/&\n  bs_inside_release(t->table), sched_yield(), bs_inside_take(t->table);/
group-visits-no-sleepers	s/^    if (!bs_inside_sleeps(t->table, slot)) continue;/    continue;/
group-visits-no-parents	s/^    if (!group_is_marked(t, inner->above\[above\])) status = .*/    ;/
group-copies-nothing-before-a-sleep	s/^  if (status == BS_DONE \&\& way->manner.may_wait) status = group_copy_own(.*//
group-looks-never	s/^  while (group_settle_one(group)) victims++;//
group-forgets-who-fell	s/^  if (__builtin_expect(reply.status == BS_VICTIM, 0)) group_falls(own);//
group-sees-no-marks	s/^  if (__builtin_expect(t->marks != 0, 0) \&\& /  if (false \&\& /
group-needs-nothing-above-an-index	s/^  target.rows = 1;/  target.rows = 0;/
group-marks-stay	/ group_end_in_main(/,/^}/s/^  if (has_more) .*//
group-clears-any-mark	/ group_clear_in(/,/^}/s/if (bs_may_clear(.*) place++;/if (inner == NULL) place++;/
group-clears-marks-of-no-used-part	/ group_more_is_over(/,/^}/s/^    if (group->tables\[part\].is_used) .*/    ;/
group-clears-marks-never	/ group_reach_marked(/,/^}/s/^    group_clear(.*//
group-frees-a-slot-early	/ group_end_txn(/,/^}/s/^  bs_status status = group_end_in_all/  bs_status status = (__atomic_store_n(\&own->is_taken, false, __ATOMIC_RELEASE), BS_DONE) + group_end_in_all/
group-rests-beside-a-mark	/ group_end_in(/,/^}/s/t->marks_at, t->marks)/t->marks_at, 0)/
group-visits-end-none-who-rests	/ group_visit(/,/^}/s/bs_inside_end_resting(t->table)/BS_DONE/
group-lets-rest-as-old-as-before	/ group_let_rest(/,/^}/s/since = group_next_age(group, own)/since = own->since/
group-takes-up-what-is-younger	/ group_take_up(/,/^}/s/^  if (bs_takes_up(own->age, own->since)) {/  if (true) {/
group-joins-beside-who-rests	/ group_take_up(/,/^}/s/^  bs_inside_commit(t->table, rests);//
group-takes-up-what-was-ended	/ group_take_up(/,/^}/s/^  if (reply.status != BS_DONE) return .*/  reply.status = BS_DONE;/
group-takes-nothing-up	s/^  if ((own->resting >> t->number \& 1) != 0) .*//
group-aborts-and-keeps	/ group_end_in(/,/^}/s/bs_may_rest(commits, /bs_may_rest(true, /
group-knows-what-it-kept-before	/ group_join(/,/^}/s/^    own->kept\[t->number\].count = 0;//
group-keeps-on	/^bs_reply bs_group_keep(/,/^}/s/^    if (most == 0) status = .*//
group-keeps-in-the-first-part	/^bs_reply bs_group_keep(/,/^}/s/part <= group->parts/part <= 1/
group-waits-for-who-rests	/^bs_reply bs_inside_commit_and_rest(/,/^}/s/^  if (reply.txn.age != 0) .*//
group-escalates-not-past-who-rests	/^bs_reply bs_inside_escalate(/,/^}/s/table_do_escalate(/table_make_escalate(/
group-wakes-nobody-by-what-it-keeps	/^bs_reply bs_inside_commit_and_rest(/,/^}/s/table_wake_after(table, reply, false)/reply/
group-tries-keep-the-way	/ group_tries(/,/^}/s/^  manner.keep = keep;/  manner.keep = BS_KEEP_WAY;/
group-tries-sleep	/ group_tries(/,/^}/s/NULL, false,/NULL, true,/
group-refused-requests-leave-marks	/ group_more_ended(/,/^}/s/^  if (status != BS_DONE) .*//
group-new-indexes-end-no-sleep	/ group_indexed(/,/^}/s/^    if (end != BS_DONE) .*//
group-new-indexes-end-no-path	/ group_indexed(/,/^}/s/^    if (end != BS_DONE) /    if (end == BS_BAD_KEYS) /
group-new-indexes-end-each-path	/ group_indexed(/,/^}/s/^    if (end != BS_DONE) bs_inside_end_sleep(t->table, slot, end)/    bs_inside_end_sleep(t->table, slot, end == BS_DONE ? BS_MOVED : end)/
group-answers-that-it-moved	/^bs_reply bs_group_lock_path(/,/^}/s/reply.status == BS_MOVED, 0/false, 0/
group-gives-records-their-own-names	/ group_index_once(/,/^}/s/ = group_name_there(call->at, index->records\[i\]);/ = index->records[i];/
group-keeps-the-names-of-records	/^bs_reply bs_group_index_records(/,/^}/s/^  free(index.there);//
group-new-indexes-end-any-sleep	/ group_indexed(/,/^}/s/^    if (end != BS_DONE) bs_inside_end_sleep(t->table, slot, end)/    bs_inside_end_sleep(t->table, slot, BS_BAD_KEYS)/
group-rolls-back-and-keeps	/ group_release_in(/,/^}/s/^  if (kept->count > savepoint) .*//
group-rolls-back-where-it-was	/^bs_reply bs_group_release_since(/,/^}/s/left = own->used;/left = own->used \& -own->used;/
group-keeps-what-was-for-an-instant	s/mode | manner->instant, manner->until)/mode, manner->until)/
group-tries-in-another-part	/ group_row_path_of(/,/^}/s/(group, file, number), there/(group, file, manner->may_wait ? number : number + 1), there/
group-deals-to-no-part	/ group_part_of_row(/,/^}/s/ + 1;/;/
group-unlocks-in-another-part	/ group_enter_row(/,/^}/s/(group, file, number)/(group, file, number + 1)/
group-makes-nodes-below-a-spread-file	/ group_any_is_spread(/,/^}/s/return true;/continue;/
group-has-no-room-for-its-files	s/is_spread ? 2 : 1/1/
group-forgets-spread-files	/ group_make_roll(/,/^}/s/^  if (old != NULL) memcpy.*//
group-gives-rows-two-names	/ group_is_misnamed(/,/^}/s/bs_group_table(file) != 0/false/
group-notes-no-files-of-parts	/ group_add_there(/,/^}/s/^  t->dealt |= .*//
group-drops-files-of-parts	/^bs_reply bs_group_drop(/,/^}/s/^  if (group_is_dealt.*//
group-ends-one-who-rests	/^bs_status bs_inside_end_resting(/,/^}/s/  } while (reply.status == BS_DONE);/  } while (false);/
group-asks-keep-what-was-for-an-instant	s/mode | manner->instant, manner->until, manner->ask/mode, manner->until, manner->ask/
group-asks-are-not-in-progress	/ group_lock_more(/,/^}/s/^  if (reply.status == BS_WAITING) .*/  if (false) ;/
group-asks-stay-in-progress	/ group_ask_goes_on(/,/^}/s/^  if (ask->inner != NULL) .*//
group-asks-end-in-the-main-table	/ group_ask_goes_on(/,/^}/s/bool is_on_the_way = .*/bool is_on_the_way = false;/
group-asks-for-rows-end-in-the-main-table	/ group_ask_goes_on(/,/^}/s/(ask->is_row || \(.*\));/\1;/
group-asks-go-on-after-any-end	/ group_ask_goes_on(/,/^}/s/end.status == (is_on_the_way ? BS_DONE : BS_MOVED)/is_on_the_way || end.status == BS_MOVED/
group-asks-do-not-begin-anew	/ group_ask_goes_on(/,/^}/s/? BS_DONE : BS_MOVED)/? BS_DONE : BS_NO_PLACE)/
group-asks-leave-their-transaction-free	s/^  __atomic_fetch_or(&own->barred, GROUP_WAITS, .*//
group-asks-bar-their-transaction	/ group_ask_for(/,/^}/s/^  if (reply.status != BS_WAITING) .*//
group-callbacks-find-it-barred	/ group_ask_ended(/,/^}/s/^  __atomic_fetch_and(.*//
group-asks-forget-who-fell	/ group_ask_ended(/,/^}/s/^  if (end.status == BS_VICTIM) .*//
group-asks-tell-names-of-parts	/ group_ask_goes_on(/,/^}/s/return group_ended_at(ask->at, end)/return end/
group-asks-have-names-of-parts	/ group_ask_ended(/,/^}/s/^  txn.age = ask->age;//
group-asks-forget-keys	/ group_copy_keys(/,/^}/s/^  if (count > 0) memcpy.*//
group-cancels-miss-who-goes-on	/ group_cancel_wait(/,/^}/s/^  if (asks) group_cancel_ask(.*//
group-cancels-take-a-later-one-s-place	/ group_cancel_ask(/,/^}/s/was < age/was != age/
group-awaits-past-a-deadline	/^bs_reply bs_group_await(/,/^}/s/^  is_limited = .*/  is_limited = false;/
group-cancels-forever	/ group_write_ask(/,/^}/s/^  __atomic_store_n(&ask->cancelled, 0, .*//
group-cancels-others	/ group_cancel_wait(/,/^}/s/__atomic_load_n(&own->age, __ATOMIC_RELAXED) == age \&\&/number != 1 \&\&/
group-aborts-spin-in-a-callback	/ group_end_wait(/,/^}/s/^    if (!bs_call_may_sleep()) .*//
group-aborts-no-ask	/^bs_reply bs_group_abort(/,/^}/s/^  if (status == BS_TXN_WAITING) .*//
group-limits-not-what-joins-later	/ group_join(/,/^}/s/^  if (__builtin_expect(own->has_deadline, 0)) .*//
group-limits-not-in-the-main-table	/ group_join_main(/,/^}/s/^    if (own->has_deadline) .*//
group-limits-not-where-it-is	/^bs_reply bs_group_deadline(/,/^}/s/^    group_limit(own, t, .*//
group-limits-not-where-it-is-in-main	/^bs_reply bs_group_deadline(/,/^}/s/^    group_limit(own, main, .*//
group-limits-the-next	/ group_end_in_all(/,/^}/s/^  own->has_deadline = false;//
group-expires-without-a-look	/^bs_reply bs_group_expire(/,/^}/s/^  group_look_again(group);//
group-expires-to-the-last-time	/ group_expire_in(/,/^}/s/(all->count == 0 || group_is_before(&time, earliest))/true/
group-expires-no-begin	/^bs_reply bs_group_expire(/,/^}/s/^  if (all.status == BS_DONE \&\& turns != NULL) .*//
group-expires-no-list	/^bs_reply bs_group_expire(/,/^}/s/^  group_end_late_lists(.*//
group-counts-no-list-with-a-time	/ group_end_late_lists(/,/^}/s/^    all->count++;//
group-notes-no-second-table	/ group_join(/,/^}/s/is_spread, true/is_spread, false/
group-settles-nothing	/^bs_reply bs_group_settle(/,/^}/s/^  if (reply.status == BS_DONE) reply.count = .*//
group-settles-an-unknown-number	/ group_settle_all(/,/^}/s/^  return victims;/  return 0;/
group-keeps-ends-that-were-asked-for	/^static bool group_is_told(/,/^}/s/ask->is_told || //
group-asks-for-an-end-twice	/^bs_reply bs_group_ask_await(/,/^}/s/ \&\& !ask->is_told//
group-awaits-what-is-told	/^bs_reply bs_group_await(/,/^}/s/^  if (waits .*//
group-tells-with-latches	/ group_settle_all(/,/^}/s/^  bs_inside_keep_ends(&ends);/  ends.first = NULL;/
group-tells-with-the-latch-of-a-part	/ group_reach_by_main(/,/^}/s/^    bs_inside_tell(main->table);//
group-goes-on-for-who-has-ended	/ group_still_lives(/,/^}/s/^  return .*/  return way != NULL;/
group-sees-no-asks	/^bool bs_inside_any_waits(/,/^}/s/return any != 0;/return any != 0 \&\& table->sleepers > 0;/
group-lists-bar-their-transaction	/ group_end_list(/,/^}/s/^  __atomic_fetch_and(.*//
group-awaits-without-a-look	/ group_doze(/,/^}/s/^    group_look_again(.*//
group-awaits-cancel-nothing	/ group_await_end(/,/^}/s/^    group_cancel_wait(.*//
group-lists-name-no-made-node	/ group_run_next(/,/^}/s/bs_inside_named(commands, place, parents)/commands[place]/
group-lists-forget-who-began	/^size_t bs_group_run(/,/^}/s/^    if (bs_inside_begins(.*//
group-lists-go-on-after-a-refusal	/^size_t bs_group_run(/,/^}/s/ == BS_DONE) {/ != BS_NOT_MADE) {/
group-tries-pass-a-refusal	/^size_t bs_group_try_first(/,/^}/s/bs_inside_is_passed(group_try_next(group, &commands\[place\]))/group_try_next(group, \&commands[place]) != BS_DONE/
group-turns-are-in-no-order	/ group_begin_by_turn(/,/^}/s/bs_table_lock(turns->table, turn, turns->node, BS_X, until)/bs_table_lock(turns->table, turn, turns->node, BS_IS, until)/
group-begins-pass-the-queue	/^bs_reply bs_group_begin_again(/,/^}/s/^  if (__builtin_expect(__atomic_load_n(&group->queued.*//
group-frees-slots-for-nobody	/ group_free_slot(/,/^}/s/^  if (__builtin_expect(.*//
group-gate-stays-shut	/ group_wake_turn(/,/^}/s/^  if (at_gate.age != 0) .*//
group-cancels-no-begin	/^bs_reply bs_group_cancel_begin(/,/^}/s/^    group_cut_begin(.*//
group-cancels-no-begin-before-its-turn	/ group_cut_begin(const/,/^}/s/^  if (begin->turn.age == 0) .*/  if (begin->turn.age == 0) return;/
group-asked-begins-forget-since	/ \*group_new_begin(/,/^}/s/^  begin->since = since;/  begin->since = UINT64_MAX;/
group-asked-begins-have-no-time	/ \*group_time_of(const/,/^}/s/^  return .*/  return begin == NULL ? \&begin->until : NULL;/
group-asked-begins-tell-another-word	/ group_turn_ended(/,/^}/s/own_word = begin->word;/own_word = begin;/
group-asked-begins-keep-their-turn	/ group_end_begin(/,/^}/s/^  if (turn.age != 0) .*//
group-asked-begins-stay-in-the-queue	/ group_end_begin(/,/^}/s/^  group_leave_queue(group);//
group-turns-are-kept	/ group_begin_by_turn(/,/^}/s/^  bs_table_abort(.*//
group-renews-as-new	/^bs_reply bs_group_renew(/,/^}/s/group_begin_in(group, own, since)/group_begin_in(group, own, UINT64_MAX)/
group-watches-never	/group_watch_over(void/,/^}/s/ group_settle_all(group);/ ;/
group-leaves-who-sleeps-for-a-slot	/ group_end_turns(/,/^}/s/^  if (turns->table != NULL) bs_table_end(turns->table);//
parts-are-told-of-with-a-latch	/^bs_reply bs_inside_open(/,/^}/s/group_shut(group)/group_closed(group)/
parts-dump-without-names	/^bs_reply bs_table_name_nodes(/,/^}/s/^  TABLE_BY_GROUP(.*/  TABLE_BY_GROUP(table, bs_call_only(BS_DONE));/
parts-name-nodes-of-parts	/ dump_put_name(/,/^}/s/^  if (of->group != NULL) node = .*//
parts-count-the-nodes-of-one	/ metrics_add_part(/,/^}/s/nodes += /nodes = /
parts-know-waits-of-one	/ running_awaited_in_parts(/,/^}/s/part = bs_inside_table_of(group, ++number);/part = NULL;/
parts-know-waits-in-no-order	/ running_put_awaited(/,/^}/s/nanoseconds < node.nanoseconds/nanoseconds > node.nanoseconds/
parts-know-waits-by-names-of-parts	/ running_add_awaited(/,/^}/s/^    node.node = .*//
parts-leave-told	/ table_told_nobody(/,/^}/s/^  if (told != NULL) told->count = 0;//
parts-lend-a-manager	/^static inline bool table_enter(/,/^}/s/ || table->group != NULL//
parts-refuse-as-ended	/^static bs_status table_shut(/,/^}/s/^  if (table->group != NULL) .*//
parts-leave-their-memory	/^static bs_reply table_free_parts(/,/^}/s/^  free((\*table)->block);//
parts-sum-no-locks	/^bs_reply bs_inside_mark(/,/^}/s/reply.count += savepoint/reply.count = savepoint/
parts-keep-old-savepoints	/ \*group_new_savepoint(/,/^}/s/^    own->savepoint_count--;/    break;/
parts-keep-savepoints-of-others	/ group_end_in_all(/,/^}/s/^  own->savepoint_count = 0;//
parts-roll-back-to-an-older-one	/^bs_reply bs_inside_release_to(/,/^}/s/^  while (place < own->savepoint_count .*/  while (place + 1 < own->savepoint_count \&\& group_savepoint_at(group, own, place + 1)[0] <= locks) place++;/
parts-forget-a-savepoint	/^bs_reply bs_inside_mark(/,/^}/s/^  memcpy(place + 1.*//
parts-session-leaves-what-rests	/^bs_reply bs_inside_session_end(/,/^}/s/^  if (session->rests.age != 0) .*//
group-counts-no-victim	/ group_settle_one(/,/^}/s/^    __atomic_fetch_add(.*//
parts-session-begins-twice	/^bs_reply bs_inside_session_begin(/,/^}/s/^  if (group_named(.*//
parts-session-ends-in-a-transaction	/^bs_reply bs_inside_session_end(/,/^}/s/^  if (group_named(.*//
parts-session-begins-as-new	/^bs_reply bs_inside_session_begin(/,/^}/s/group, since, until/group, UINT64_MAX, until/
parts-session-keeps-nothing	/^bs_reply bs_inside_session_commit(/,/^}/s/^  if (__atomic_load_n(&group->most_kept.*//
parts-session-commits-others	/^size_t bs_inside_session_run(/,/^}/s/if (is_own \&\& next->kind == BS_DO_COMMIT)/if (next->kind == BS_DO_COMMIT)/
parts-session-loses-what-it-renewed	/^size_t bs_inside_session_run(/,/^}/s/^    if (is_own \&\& next->kind == BS_DO_RENEW) .*//
parts-insert-with-any-keep	/^bs_reply bs_table_insert_path(/,/^}/s/keep > BS_KEEP_WAY ?/false ?/
a-refused-list-of-a-session-tells	/^size_t bs_session_run(/,/^}/s/^    table_list_of(table, commands\[0\].told)->count = 0;//
group-move-lets-waits-go-on	/^bs_reply bs_inside_move(/,/^}/s/^  table_withdraw_all(.*//
group-move-ends-no-wait	/ group_passers(/,/^}/s/ == BS_DONE) continue;/ != BS_NO_MEMORY) continue;/
group-move-ends-all-waits	/ group_passers(/,/^}/s/^    if (bs_after_move(.*//
group-move-leaves-who-could-wait-on	/ table_end_moved(/,/^}/s/table_make_cancel(table, txn, &more).status == BS_DONE/false/
group-move-counts-no-wait	/ table_end_moved(/,/^}/s/^    bs_call_wait_cut(.*//
group-move-wakes-nobody	/ table_end_moved(/,/^}/s/^  table_end(table, .*//
group-move-needs-what-is-above	/^bs_reply bs_group_move(/,/^}/s/^    if (reply.status == BS_NEED_PARENTS) .*/    if (false) continue;/
group-move-by-new-parents-alone	/ group_exclude(/,/^}/s/^  if (!group_has_exclusive(group, call->own, above.*//
group-move-by-old-parents-alone	/ group_exclude(/,/^}/s/^  if (!group_has_exclusive(group, call->own, parents.*//
group-move-by-any-lock-above	/ group_has_exclusive(/,/^}/s/ == BS_X) i++/ >= BS_S) i++/
group-move-of-a-dealt-file	/ group_move_once(/,/^}/s/ || group_is_dealt(group, call->at, name)) {/) {/
group-move-below-a-spread-file	/ group_move_once(/,/^}/s/group_any_is_spread(group, parents, count) || //
group-row-ends-as-moved	/^bs_reply bs_group_lock_row_path(/,/^}/s/(reply.status == BS_MOVED, 0)/(false, 0)/
group-asked-row-ends-as-moved	/ group_ask_goes_on(/,/^}/s/? BS_DONE : BS_MOVED)) return/? BS_DONE : BS_MOVED) \&\& (is_on_the_way || !ask->is_row)) return/
group-watcher-names-by-table	/ group_name_waiters(/,/^}/s/^    board->ages\[slot\] = group_age_in(.*//
group-watcher-shows-who-has-ended	/ group_name_waiters(/,/^}/s/^    if (was_there .*//
group-watcher-shows-the-last-table	/^bs_reply bs_call_group_look(/,/^}/s/^    group_join_board(.*/    *board = eye->one;/
group-watcher-has-no-epoch	/ group_join_board(/,/^}/s/^  all->epoch = .*//
group-watcher-watches-twice	/^bs_reply bs_call_group_watch(/,/^}/s/status == BS_DONE \&\& watcher->is_open/false/
group-watcher-keeps-the-slots	/^bs_reply bs_call_group_watch_end(/,/^}/s/^  group_leave_slots(.*//
group-watcher-keeps-its-seats	/ group_end_eyes(/,/^}/s/while (eye->count > 0)/while (eye->count > 1)/
group-refused-watcher-keeps-its-seats	/^bs_reply bs_call_group_watch(/,/^}/s/^    group_end_eyes(.*//
group-frees-slots-beside-a-watcher	/ group_share_slots(/,/^}/s/^  __atomic_fetch_add(.*//
FAULTS
}

# says THERE WORD..: compiles a program of the tests with the sources there, and runs it: status 1 if it fails, hangs or
# crashes, and 2 if it cannot be compiled.
says() {
  local there=$1 program=$2 status with=()
  [ "$program" = running ] || with+=("$there/burlapslate_running.c")
  [ "$program" = traces ] || with+=("$there/burlapslate_trace.c")
  [[ ( $program != group* || $program == group_replay ) && $program != parts ]] || with+=("$there/burlapslate_shared.c")
  [[ $program == group* ]] || with+=("$there/burlapslate_group.c")
  [ "$program" != parts ] || with+=("$there/burlapslate_dump.c")
  [ "$program" = crowd ] || with+=("-Wl,--wrap=malloc,--wrap=realloc,--wrap=free")
  # shellcheck disable=SC2086 # CC and FAULT_LINKS may have several words.
  ${CC:-cc} -std=c99 -D_POSIX_C_SOURCE=200809L -pthread -O1 -w -I"$top/include" -I"$there" -o "$there/$program" \
    "$top/tests/c/$program.c" "${libraries[@]}" ${FAULT_LINKS:-} "${with[@]}" || return 2
  timeout 60 "$there/$program" "${@:3}" >>"$there/said" 2>&1 && return
  status=$?
  [ "$status" -eq 1 ] || echo "$program: not so: it ends with status $status" >>"$there/said"
  return 1
}

# found NAME EDIT: whether the fault is found.
found() {
  local there=$work/$1
  mkdir -p "$there" && cp "$top"/c/*.[ch] "$there/" && sed -i "$2" "$there"/*.[ch] || return 1
  ! diff -q "$top/c" "$there" -x out >/dev/null || { echo "faults.sh: $1 changes nothing"; return 1; }
  if ! cmp -s "$top/c/burlapslate_group.c" "$there/burlapslate_group.c"; then
    says "$there" group_asks && says "$there" parts && says "$there" group_replay 15 10 && says "$there" groups
  else
    says "$there" shared 5 && says "$there" asks 5 100 && says "$there" begins 5 && says "$there" waits 5 && says "$there" sessions 5 &&
      says "$there" own_ends 20 && says "$there" row_paths 5 && says "$there" running 5 && says "$there" traces 5 &&
      says "$there" crowd 4 4 && says "$there" parts && says "$there" group_asks && says "$there" groups && says "$there" group_replay 15 10
  fi
  [ $? -eq 1 ] || { echo "faults.sh: $1 was not found"; return 1; }
  echo "$1: found: $(grep -E ': (hangs|not so|[a-z_]*: not so)' "$there/said" | tail -n 1 | sed 's/^[^ ]*\.[ch]:[0-9]*: //')"
}

for name in "${names[@]}"; do
  [ "$name" = all ] || grep -q "^$name	" < <(faults) || { echo "faults.sh: there is no fault $name" >&2; exit 2; }
done
status=0 place=0
while IFS=$'\t' read -r name edit; do
  place=$((place + 1))
  case " ${names[*]} " in
    *" all "* | *" $name "*) ;;
    *) [ "$((place % 10))" = "$turn" ] || continue ;;
  esac
  found "$name" "$edit" || status=1
done < <(faults)
exit "$status"
