"""What threads of Python do at the same time."""

import concurrent.futures
import sys
import threading
import time

EIGHT = 8
TRIES = 20  # of what a busy machine may spoil


def on_eight(wrong, turns):
    """How much was wrong on each of eight threads in so many turns, between which the interpreter changes often."""
    interval = sys.getswitchinterval()
    sys.setswitchinterval(0.0002)
    try:
        with concurrent.futures.ThreadPoolExecutor(EIGHT) as pool:
            return [*pool.map(wrong, [turns] * EIGHT)]
    finally:
        sys.setswitchinterval(interval)


def turns_beside(call, *words):
    """How many turns another thread has during a call; where it has to wait for the call's end, that is one or two."""
    count, thread = 0, threading.Thread(target=call, args=words)
    thread.start()
    while thread.is_alive():
        time.sleep(0.001)
        count += 1
    return count


def tried(call, holds):
    """What a call returns, tried until that holds: all of it, the last one at the end."""
    told = []
    while len(told) < TRIES and (not told or not holds(told[-1])):
        told.append(call())
    return told
