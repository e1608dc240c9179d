/*
 * burlapslate_dump.h: everything that a manager or a table of locks has, as text, for C and C++.
 *
 * What burlapslate_shared.h requires of callers holds here too.
 */
#ifndef BURLAPSLATE_DUMP_H
#define BURLAPSLATE_DUMP_H

#include "burlapslate_shared.h"

#include <stdio.h>

#ifdef __cplusplus
extern "C" {
#endif

/* Writes everything to a file, as text in columns: counters, transactions, for how long each wait has lasted, the
 * longest first, the locks of each transaction, queues and the last deadlock. The counters, the transactions, the waits
 * and the deadlock are of one moment. So is each queue, and so is each part of 256 locks of a transaction. Between
 * these the call releases the latch, and it never writes while it holds the latch. So a lock may be missing, or appear
 * twice, if its transaction changes its locks meanwhile. Refused with BS_NULL_POINTER, as any call with a table, also
 * if the table is ended meanwhile, and with BS_NO_MEMORY; ferror reports errors of the file. A pthread_cancel takes
 * effect after the call. Takes memory, some fifty kilobytes however much there is, with 1,024 slots half a megabyte. Of
 * a table with parts it writes each part, one after the other: nodes and transactions have the names that they have
 * there (bs_group_name_of), and after these the engine's. */
bs_reply bs_table_dump(bs_table *table, FILE *file);

/* The same for a manager that the caller holds, as of bs_table_hold, and so all of one moment. A manager that is no
 * table's knows no time: then no wait has its length. */
bs_reply bs_dump(const bs_manager *manager, FILE *file);

/* Gives a table the engine's own names of nodes: a dump prints one after each node, as `file 3/4 orders`. The function
 * writes it into `text`, which has `room` bytes, with a zero at its end; it may leave `text` as it is, which is empty.
 * A byte below a blank is printed as `?`. The thread that dumps calls it, without the latch unless that thread holds
 * the table. It may make any call that does not sleep. `context` is its first argument. A null function takes the names
 * back; a dump that has begun in another thread may still call the function that was there. Refused with
 * BS_NULL_POINTER and as any call with a table. */
bs_reply bs_table_name_nodes(bs_table *table,
                             void (*function)(void *context, bs_node node, char *text, size_t room), void *context);

#ifdef __cplusplus
}
#endif

#endif
