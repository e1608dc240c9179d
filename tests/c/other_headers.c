/*
 * A program that was compiled with the headers of another library, of another version or for another number of slots:
 * each call that makes a manager or a table, or reads a board, is refused with REFUSED, and touches nothing. It ends
 * with status 1 at the first wrong answer.
 */
#include "burlapslate_group.h"

#include <stdio.h>
#include <stdlib.h>

static void wanted(bool holds, const char *what, int line) {
  if (holds) return;
  fprintf(stderr, "other_headers.c:%d: not so: %s\n", line, what);
  exit(1);
}

#define WANT(condition) wanted((condition), #condition, __LINE__)

int main(void) {
  static bs_board board;
  bs_table *table = NULL;
  bs_table_group *group = NULL;
  bs_manager m = BS_NO_MANAGER_HERE;
  bs_watcher watcher = BS_NO_WATCHER_HERE;
  bs_found found = bs_suspects(&board);
  WANT(bs_make(&m, NULL).status == REFUSED && bs_make(NULL, NULL).status == BS_NULL_POINTER);
  WANT(bs_table_make(&table, NULL).status == REFUSED && table == NULL);
  WANT(bs_group_make(&group, NULL, 1).status == REFUSED && group == NULL);
  WANT(bs_end(&m).status == BS_NO_MANAGER && bs_table_end(table).status == BS_NULL_POINTER);
  WANT(bs_table_watch(NULL, &watcher).status == BS_NULL_POINTER && bs_read_board(&m, &board).status == REFUSED);
  WANT(bs_watch(&m, &watcher).status == REFUSED && bs_look(&watcher, &board).status == REFUSED);
  WANT(found.status == REFUSED && !bs_has(found.slots, 0));
  WANT(bs_on_cycle(&board, 0).status == REFUSED && bs_on_cycle(NULL, 0).status == BS_NULL_POINTER);
  WANT(bs_youngest(&board, found.slots).status == REFUSED);
  printf("headers_of_another_library: %s\n", bs_text(REFUSED));
  return 0;
}
