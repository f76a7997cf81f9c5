"""Times a program on a job, and tells the most memory that it held."""

import subprocess
import time

ROUNDS = 5


def least_seconds(command, job):
    """The least time of some rounds in which a command answers a job, which it has to answer whole."""
    return min(seconds(command, job) for _ in range(ROUNDS))


def seconds(command, job):
    """How long a command takes on a job."""
    with open(job) as text:
        start = time.perf_counter()
        subprocess.run(command, stdin=text, stdout=subprocess.DEVNULL, check=True)
        return time.perf_counter() - start


def memory(command, job):
    """The most memory that it held, in kB."""
    words = ["/usr/bin/time", "-f", "%M", *command]
    with open(job) as text:
        ran = subprocess.run(words, stdin=text, stdout=subprocess.DEVNULL, stderr=subprocess.PIPE, check=True)
    return int(ran.stderr)
