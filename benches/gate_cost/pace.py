#!/usr/bin/env python3
"""How fast the processors of this machine and its memory are at the moment.

  pace.py [SECONDS]

Keeps all processors busy for so many seconds (20 without it), as a gate does, and prints a line for each of them: what a loop of a few
milliseconds took at best and on average, and in how many of a hundred tries it took over 1.35 times the best of all; and by how much a read
from anywhere in 256 megabytes takes longer than one from the processor's own cache. It counts the time of the processor, and not that of the
clock. Run it with nothing beside it: what is slow then has its cause outside of this machine, most likely others on its host. How much slower
a proof is at such a moment wasn't measured; its price then isn't that of an idle machine.
"""
import array
import multiprocessing
import os
import statistics
import sys
import time

# From here on a try counts as slow. It was chosen between the times that were seen: 4.3 to 5 milliseconds, and 8 to 10.
MOST = 1.35

# How often a loop goes round.
ROUNDS = 20000

# How many numbers the two tables have that are read, one in the processor's cache and one far larger than any. Powers of two.
SMALL, LARGE = 1 << 9, 1 << 25


def seconds_of_a_loop():
    """What a loop takes, in processor seconds of this thread. It reads and writes a small table, as a proof does all the time."""
    began, table, number = time.thread_time(), {}, 1
    for place in range(ROUNDS):
        number = (number * 1103515245 + 12345) & 0x7FFFFFFF
        table[number & 0x3FF] = place
    return time.thread_time() - began


def seconds_of_reads(table, size):
    """What reads take all over the first so many numbers of a table of zeros, each of which waits for the one before it."""
    began, number = time.thread_time(), 1
    for _ in range(ROUNDS):
        number = (number * 5 + 3 + table[number]) & (size - 1)
    return time.thread_time() - began


def tries_until(until, attempt):
    """What each try took, one after the other until then."""
    took = [attempt()]
    while time.time() < until:
        took.append(attempt())
    return took


def paces_of(processor, began, seconds):
    """What each loop took on this processor, and the seconds of a read from memory past those of one from the cache."""
    os.sched_setaffinity(0, {processor})
    table = array.array("Q", bytes(8 * LARGE))
    loops = tries_until(began + seconds / 2, seconds_of_a_loop)
    near = tries_until(began + seconds * 3 / 4, lambda: seconds_of_reads(table, SMALL))
    far = tries_until(began + seconds, lambda: seconds_of_reads(table, LARGE))
    return loops, (statistics.median(far) - statistics.median(near)) / ROUNDS


def main():
    seconds = float(sys.argv[1]) if len(sys.argv) > 1 else 20
    processors = sorted(os.sched_getaffinity(0))
    with multiprocessing.Pool(len(processors)) as pool:
        paces = pool.starmap(paces_of, [(it, time.time(), seconds) for it in processors], chunksize=1)
    best = min(min(loops) for loops, _ in paces)
    for processor, (loops, read) in zip(processors, paces):
        slow = 100 * sum(it > MOST * best for it in loops) / len(loops)
        print(
            f"processor {processor}: {1000 * min(loops):.1f} ms at best, {1000 * statistics.mean(loops):.1f} on average, "
            f"slow in {slow:.0f} of 100 tries, {1e9 * read:.0f} ns more for a read from memory"
        )


if __name__ == "__main__":
    main()
