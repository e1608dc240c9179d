#!/bin/sh
# A crowd of 128 sessions that each give more commands than in the tests. Run from the top of the repository:
#
#     sh bench/crowd.sh [COMMANDS]
#
# Each session gives at least so many commands to one shared table (2000 by default), with each way of detection; a
# manager alone must then answer all of them alike. Ends with the status of the tests, which it builds, and so proves,
# first.
export CROWD_COMMANDS="${1:-2000}"
cd "$(dirname "$0")/../crates/test_threads" && exec rt test
