#!/usr/bin/env python3
"""What checks/schedule.py decides, over tables of crates, without a toolchain."""
import unittest

from crates import crates_below, read_crates
from schedule import chain_sizes, jobs_of_urgent, next_starts

# One crate after another, and two beside the chain, of which the small one can wait.
CHAIN = {"low": 100, "mid": 100, "top": 100}
BELOW_CHAIN = {"low": [], "mid": ["low"], "top": ["low", "mid"]}
WIDE = {"low": 100, "long": 100, "near": 80, "small": 10, "tiny": 9, "top": 10}
BELOW_WIDE = {"low": [], "long": ["low"], "near": ["low"], "small": [], "tiny": []}
BELOW_WIDE["top"] = [*BELOW_WIDE]


def starts(processors, proved=(), running=(), failed=(), sizes=WIDE, below=BELOW_WIDE):
    return next_starts(sizes, below, processors, set(proved), set(running), set(failed))


def run_all(sizes, below, processors):
    """Proves all crates, each in time as its lines and jobs are. Returns the order in which they
    end, and the most that ran at once."""
    proved, running, ended, most = set(), {}, [], 0
    while len(proved) < len(sizes):
        for name, jobs in next_starts(sizes, below, processors, proved, set(running)).items():
            assert proved.issuperset(below[name]), f"{name} starts before those below it"
            running[name] = sizes[name] / jobs
        most = max(most, len(running))
        first = min(running, key=running.get)
        spent = running.pop(first)
        running = {name: left - spent for name, left in running.items()}
        proved.add(first)
        ended.append(first)
    return ended, most


class Decisions(unittest.TestCase):
    def test_a_chain_is_its_sum(self):
        self.assertEqual(chain_sizes(CHAIN, BELOW_CHAIN), {"low": 300, "mid": 200, "top": 100})

    def test_a_crate_leads_to_the_longest_of_those_above(self):
        left = chain_sizes(WIDE, BELOW_WIDE)
        self.assertEqual((left["low"], left["near"], left["small"]), (210, 90, 20))

    def test_one_processor_proves_one_crate(self):
        self.assertEqual(starts(1), {"low": 1})
        self.assertEqual(starts(1, running=["low"]), {})
        self.assertEqual(starts(1, proved=["low"], running=["long"]), {})

    def test_two_processors(self):
        self.assertEqual(starts(2), {"low": 2, "small": 1})

    def test_four_processors(self):
        self.assertEqual(starts(4), {"low": 4, "small": 1, "tiny": 1})

    def test_eight_processors_make_no_more_copies_than_help(self):
        self.assertEqual(starts(8)["low"], 4)
        self.assertEqual(jobs_of_urgent(1, 64), 4)

    def test_two_urgent_crates_share_the_processors(self):
        beside = ["low", "small", "tiny"]
        self.assertEqual(starts(2, proved=beside), {"long": 1, "near": 1})
        self.assertEqual(starts(3, proved=beside), {"long": 2, "near": 2})
        self.assertEqual(starts(4, proved=beside), {"long": 2, "near": 2})
        self.assertEqual(starts(8, proved=beside), {"long": 4, "near": 4})

    def test_an_urgent_crate_counts_one_that_runs(self):
        self.assertEqual(starts(4, proved=["low", "small", "tiny"], running=["long"]), {"near": 2})

    def test_an_urgent_crate_never_waits(self):
        found = starts(2, proved=["low"], running=["small", "tiny"])
        self.assertEqual(found, {"long": 1, "near": 1})

    def test_another_crate_waits_for_a_processor(self):
        self.assertEqual(starts(2, running=["low", "small"]), {})

    def test_a_chain_has_one_crate_at_a_time(self):
        for proved, name in (([], "low"), (["low"], "mid"), (["low", "mid"], "top")):
            found = starts(4, proved=proved, sizes=CHAIN, below=BELOW_CHAIN)
            self.assertEqual(found, {name: 4})

    def test_nothing_starts_where_a_crate_has_failed(self):
        self.assertEqual(starts(8, failed=["tiny"]), {})
        self.assertEqual(starts(8, proved=["low"], failed=["tiny"]), {})

    def test_nothing_is_left(self):
        self.assertEqual(starts(4, proved=WIDE), {})

    def test_crates_that_were_proved_before_are_no_rows(self):
        sizes = {"long": 100, "top": 10}
        self.assertEqual(starts(2, proved=["low"], sizes=sizes), {"long": 2})

    def test_the_crates_of_this_repository(self):
        crates = read_crates()
        below = {it: [lower.name for lower in crates_below(it, crates)] for it in crates}
        sizes = {it: 100 + 10 * len(below[it]) for it in crates}
        for processors in (1, 2, 3, 4, 8, 64):
            ended, most = run_all(sizes, below, processors)
            self.assertEqual(sorted(ended), sorted(crates))
            self.assertTrue(processors > 1 or most == 1)


if __name__ == "__main__":
    unittest.main()
