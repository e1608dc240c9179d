#!/usr/bin/env bash
# metrics.sh: reads the metrics of a table (burlapslate_running.h) by a parser that is not ours, that of OpenMetrics in
# Prometheus's client for Python, and compares some numbers. Ends with status 1 if anything is not as expected; without a C
# compiler or that client it says so, and ends with status 77: not tried. CC names another compiler than cc, PYTHON
# another Python than python3. Debian has the client as python3-prometheus-client.
set -uo pipefail
top=$(cd "$(dirname "$0")/../.." && pwd) || exit 2
compiler=${CC:-cc} python=
if ! command -v "${compiler%% *}" >/dev/null; then
  echo "tests/c: metrics: not tried: there is no C compiler $compiler"
  exit 77
fi
for word in ${PYTHON:-python3 /usr/bin/python3}; do
  [ -n "$python" ] || ! "$word" -c 'import prometheus_client.openmetrics.parser' 2>/dev/null || python=$word
done
if [ -z "$python" ]; then
  echo "tests/c: metrics: not tried: there is no prometheus_client for Python"
  exit 77
fi
work=$(mktemp -d) || exit 2
trap 'rm -rf "$work"' EXIT

mapfile -t libraries < <("$top/tools/c_library.sh" 2>"$work/log")
[ "${#libraries[@]}" -eq 3 ] || { cat "$work/log" >&2; exit 1; }
# shellcheck disable=SC2086 # CC may have words after the name.
$compiler -std=c99 -D_POSIX_C_SOURCE=200809L -pthread -O1 -I"$top/include" -I"$top/c" -o "$work/running" \
  "$top/tests/c/running.c" "$top/c/burlapslate_trace.c" "${libraries[@]:1}" -Wl,--wrap=malloc,--wrap=realloc,--wrap=free || exit 1
timeout 60 "$work/running" metrics >"$work/text" || exit 1
"$python" "$top/tests/c/metrics.py" "$work/text" || exit 1
# A text that is not whole is refused.
head -n -1 "$work/text" >"$work/part"
if "$python" "$top/tests/c/metrics.py" "$work/part" >/dev/null 2>&1; then
  echo "metrics.sh: a text without its end is read" >&2
  exit 1
fi
echo "metrics_are_read_by_another"
