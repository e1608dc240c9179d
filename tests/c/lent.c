/*
 * What may be done with a manager that a table lends: CALL is one call with `lent`. A question compiles. A command does
 * not, if a warning is an error (run.sh).
 */
#include "burlapslate_dump.h"

bs_status call(const bs_manager *lent, bs_txn txn, bs_node node, bs_notices *told);

bs_status call(const bs_manager *lent, bs_txn txn, bs_node node, bs_notices *told) {
  (void)txn, (void)node, (void)told;
  return CALL.status;
}
