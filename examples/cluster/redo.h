/*
 * redo.h: the log of a shard, a file of lines. It is the history of the shard too: each line of a transaction that
 * came so far has what it read and wrote, with versions.
 *
 *   P NUMBER ITEM..   it is prepared: it has voted, and keeps its locks
 *   C NUMBER          a prepared one is committed
 *   A NUMBER          a prepared one is aborted
 *   O NUMBER ITEM..   it was at work in this shard alone, and is committed
 *
 * An item is ACCOUNT:VERSION where that version was read, and ACCOUNT:VERSION:BALANCE where this balance was written
 * upon it as the next.
 */
#ifndef REDO_H
#define REDO_H

#include "store.h"

enum redo_kind { REDO_PREPARED = 'P', REDO_COMMITTED = 'C', REDO_ABORTED = 'A', REDO_ONE = 'O' };

/* Reads a line into the number and the items of `w`. Answers its kind; 0 where it is none. */
char redo_parse(char *line, struct work *w);

/* Opens the log, plays it, and fills `left` with those who are prepared and have no word. How many there are. */
size_t redo_replay(struct store *s, struct work *left);

/* Writes a line. Behind it the line is kept whatever happens to the process; of a vote, and of an end that nobody
 * else knows, whatever happens to the machine. */
void redo_note(struct store *s, enum redo_kind kind, const struct work *w);

/* Writes the accounts. */
void redo_apply(struct store *s, const struct work *w);

#endif
