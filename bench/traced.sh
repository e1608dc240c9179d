#!/usr/bin/env bash
# traced.sh: what a trace of a shared table can follow, and what it costs. Run as:
#
#     bench/traced.sh [SECONDS]
#
# Four threads make short transactions of six commands, each with a record of its own and now and then with one for all.
# Together they make so many commands a second, for SECONDS (3 by default); a last line is of as many as they can. Each
# line has the commands that were made a second, how many lines were written and dropped, the megabytes of the trace, and
# what a command takes without a trace and with one, in nanoseconds, if one thread makes it alone. The file is in the
# folder for temporary files. CC names another compiler than cc. It ends with status 1 if an answer is not as it should be.

# shellcheck source-path=SCRIPTDIR source=frame/frame.sh
. "$(dirname "$0")/frame/frame.sh" || exit 2
compile traced "$top/bench/traced/traced.c" || exit 1
"$work/traced" costs "$work/trace" || exit 1
for rate in 100000 200000 400000 0; do
  "$work/traced" follow "$work/trace" "$rate" "${1:-3}" || exit 1
done
