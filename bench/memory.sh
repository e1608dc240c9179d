#!/usr/bin/env bash
# memory.sh: the memory of a manager, a table, a record, a lock and a row, in bytes, through the library for C. Run from
# anywhere:
#
#     bench/memory.sh
#
# It prints a line for each. Each figure is what is allocated from before to after, by the number of records. Records
# have one index, or three if a line says so, each of one interval, and are inserted a hundred in a transaction. Places
# for nodes, headers and locks are in arrays that double when they are full, so a figure also depends on the number of
# records. CC names another compiler than cc; SLOTS=1024 uses the library for so many transactions, in place of that for
# 128. It ends with status 1 if an answer is not as it should be.

# shellcheck source-path=SCRIPTDIR source=frame/frame.sh
. "$(dirname "$0")/frame/frame.sh" || exit 2
# (a malloc that is cleared would otherwise become a calloc)
compile memory -fno-builtin "$top/bench/memory/memory.c" -Wl,--wrap=malloc,--wrap=realloc,--wrap=free && "$work/memory"
