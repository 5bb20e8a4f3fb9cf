"""What the scripts here share: the program that they time, and the least time of several runs."""
import os
import subprocess
import sys
import threading
import time

HERE = os.path.dirname(os.path.abspath(__file__))
DEFAULT = os.path.join(HERE, "..", "crates", "lifecheck", "out", "lifecheck")
# A program that takes longer than this, in seconds, is run so many times at most, and stopped after the second time.
SLOW = 2
SLOW_RUNS = 3
LONGEST = 60


def program_to_time():
    """The path in the first argument, or where `rt run` and `rt ci` leave the program."""
    return os.path.abspath(sys.argv[1] if len(sys.argv) > 1 else DEFAULT)


def timed(words):
    """How long one run takes, in seconds, and its status; `LONGEST` and none for a run that was stopped."""
    begin = time.perf_counter()
    # It waits for the end itself: `wait(timeout=..)` looks every twentieth of a second, and so tells no less.
    with subprocess.Popen(words, stdout=subprocess.DEVNULL, stderr=subprocess.DEVNULL) as run:
        watch = threading.Timer(LONGEST, run.kill)
        watch.start()
        status = run.wait()
        taken = time.perf_counter() - begin
        watch.cancel()
    return (taken, status) if taken < LONGEST else (LONGEST, None)


def least_time(words, runs):
    """The least time of so many runs, in seconds, and the status of the last; `LONGEST` and none for a run that was stopped."""
    best, done = LONGEST, 0
    while done < runs:
        taken, status = timed(words)
        if status is None:
            return LONGEST, None
        best, done = min(best, taken), done + 1
        if taken > SLOW:
            runs = min(runs, SLOW_RUNS)
    return best, status
