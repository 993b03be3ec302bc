#!/usr/bin/env python3
"""Runs a program, and tells its exit status, the seconds that it took and the peak of its memory in use, in bytes.

What the system tells of a child's peak is at least the peak of its parent when the child began. So `run` has the program
begun by this file in another Python, which holds nothing: some 11 MB are the least that can be told.
"""
import json
import os
import signal
import subprocess
import sys
import time


def run(command, seconds, **streams):
    """The exit status, the seconds and the bytes; the status is a signal's negative number where one ended the program, as
    it does when SECONDS are over."""
    reading, writing = os.pipe()
    with open(reading) as told:
        beginner = [sys.executable, "-I", "-S", __file__, str(writing), str(seconds)]
        subprocess.run(beginner + command, pass_fds=[writing], check=True, **streams)
        os.close(writing)
        return json.load(told)


def main():
    told, seconds, command = int(sys.argv[1]), float(sys.argv[2]), sys.argv[3:]
    start = time.perf_counter()
    child = os.posix_spawn(command[0], command, os.environ)
    signal.signal(signal.SIGALRM, lambda *_: os.kill(child, signal.SIGKILL))
    signal.setitimer(signal.ITIMER_REAL, seconds)
    _, status, usage = os.wait4(child, 0)
    took = time.perf_counter() - start
    with open(told, "w") as notes:
        json.dump([os.waitstatus_to_exitcode(status), took, usage.ru_maxrss * 1024], notes)


if __name__ == "__main__":
    main()
