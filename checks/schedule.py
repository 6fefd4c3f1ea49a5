"""Which crates are proved next, and by how many copies of the prover.

A proof of all crates takes at least as long as the longest chain of them, each of which rests on
the one before. A crate is urgent if what is left to prove from it on comes near to that. An urgent
crate does not wait for others, and shares the processors with the urgent ones alone; each other
crate has one copy of the prover, and waits for a processor.
"""
# What is left to prove from an urgent crate on, as a share of what is left at the longest.
URGENT = 0.65
# More copies of the prover do not make a proof faster.
MOST_JOBS = 4


def chain_sizes(sizes, below):
    """What is to be proved one after another from each crate on, the crate included.

    `sizes` has the lines of each crate, lowest crate first, and `below` the crates that it rests
    on."""
    left = {}
    for name in reversed(list(sizes)):
        left[name] = sizes[name] + max((left[it] for it in left if name in below[it]), default=0)
    return left


def jobs_of_urgent(count, processors):
    """How many copies of the prover each of so many urgent crates has: all processors, shared, but
    two at least, unless there are but two processors."""
    least = 2 if processors > 2 else 1
    return min(MOST_JOBS, max(least, processors // count))


def next_starts(sizes, below, processors, proved, running, failed=()):
    """The crates that start now, with the copies of the prover that each has, the longest chain
    first. Where a crate has failed no other starts."""
    ready = [it for it in sizes if it not in proved | running and proved.issuperset(below[it])]
    if failed or not ready:
        return {}
    left = chain_sizes(sizes, below)
    longest = max(left[it] for it in running.union(ready))
    urgent = {it for it in running.union(ready) if left[it] >= URGENT * longest}
    starts = {}
    for name in sorted(ready, key=lambda it: -left[it]):
        is_urgent = name in urgent
        # One processor has memory for one proof.
        if len(running) + len(starts) < processors or is_urgent and processors > 1:
            starts[name] = jobs_of_urgent(len(urgent), processors) if is_urgent else 1
    return starts
