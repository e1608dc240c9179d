"""metrics.py FILE: reads a text in the form of OpenMetrics, as `running metrics` prints it, by the parser of
prometheus_client, and compares some numbers with those of the story."""

import sys

from prometheus_client.openmetrics.parser import text_string_to_metric_families

WANTED = {
    ("burlapslate_locks_waited_total", ()): 6,
    ("burlapslate_victims_total", ()): 1,
    ("burlapslate_waiting", ()): 1,
    ("burlapslate_longest_wait_seconds", ()): 1.5,
    ("burlapslate_deadlocks_told_total", ()): 1,
    ("burlapslate_wait_seconds_count", (("end", "granted"),)): 3,
    ("burlapslate_wait_seconds_sum", (("end", "granted"),)): 200.003,
    ("burlapslate_wait_seconds_bucket", (("end", "granted"), ("le", "0.004096"))): 2,
    ("burlapslate_wait_seconds_bucket", (("end", "granted"), ("le", "+Inf"))): 3,
    ("burlapslate_wait_seconds_count", (("end", "gone"),)): 0,
}
ENDS = {"granted", "victim", "timed_out", "cancelled", "moved", "gone"}


def main():
    with open(sys.argv[1], encoding="utf-8") as text:
        families = list(text_string_to_metric_families(text.read()))
    samples = {(it.name, tuple(sorted(it.labels.items()))): it.value for family in families for it in family.samples}
    for key, value in WANTED.items():
        assert samples[key] == value, (key, samples[key], value)
    assert all(family.documentation for family in families), "a metric has no help"
    assert len({family.name for family in families}) == len(families), "a name is used twice"
    waits = next(family for family in families if family.name == "burlapslate_wait_seconds")
    assert (waits.type, waits.unit) == ("histogram", "seconds"), (waits.type, waits.unit)
    assert {it.labels["end"] for it in waits.samples} == ENDS
    bounds = sorted(float(it.labels["le"]) for it in waits.samples if it.labels.get("end") == "victim" and "le" in it.labels)
    assert bounds[:-1] == [2**i / 1e6 for i in range(28)], bounds
    print(f"{len(families)} metrics, {len(samples)} samples")


main()
