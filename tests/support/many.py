"""The same work for many seeds, in as many processes as there are cores."""

import concurrent.futures
import multiprocessing
import os


def each(work, seeds):
    """What the work answers for each seed, in their order."""
    fork = multiprocessing.get_context("fork")
    with concurrent.futures.ProcessPoolExecutor(os.cpu_count(), mp_context=fork) as pool:
        return list(pool.map(work, seeds))
