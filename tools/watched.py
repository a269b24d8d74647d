#!/usr/bin/env python3
"""Runs a program and shows on the standard error how it goes: watched.py USAGE PROGRAM WORD..

The output, the status and a death by a signal are the program's, and signals are passed on to it. Where the
standard error is a terminal, a line says how long the run has taken so far, and at the end the seconds and
the peak memory, below which lie the some 13 MiB of this script. After status 2, which refuses the words,
USAGE is printed there.
"""

import os
import signal
import sys
import threading
import time

PASSED_ON = (signal.SIGHUP, signal.SIGINT, signal.SIGQUIT, signal.SIGTERM, signal.SIGUSR1, signal.SIGUSR2)
# What Python ignores, and the program is not to.
IGNORED = (signal.SIGPIPE, signal.SIGXFSZ)
CLEAR_LINE = "\r\033[K"


def say(text):
    sys.stderr.write(text)
    sys.stderr.flush()


def count_seconds(start, is_ended):
    """Shows the time of the run twice a second."""
    while not is_ended.wait(0.5):
        say(f"{CLEAR_LINE}{time.monotonic() - start:.1f} s")


def run(command):
    """Runs the command to its end, and gives its wait status and its use of resources."""
    early, program = [], []
    for number in PASSED_ON:
        signal.signal(number, lambda which, _: os.kill(program[0], which) if program else early.append(which))
    program.append(os.posix_spawn(command[0], command, os.environ, setsigdef=IGNORED))
    for number in early:
        os.kill(program[0], number)
    return os.wait4(program[0], 0)[1:]


def main(usage, *command):
    start, is_ended = time.monotonic(), threading.Event()
    is_shown = sys.stderr.isatty()
    if is_shown:
        threading.Thread(target=count_seconds, args=(start, is_ended), daemon=True).start()
    status, use = run(command)
    is_ended.set()
    if is_shown:
        say(f"{CLEAR_LINE}{time.monotonic() - start:.1f} s, at most {use.ru_maxrss / 1024:.1f} MiB\n")
    if os.WIFSIGNALED(status):
        if os.WTERMSIG(status) in PASSED_ON:
            signal.signal(os.WTERMSIG(status), signal.SIG_DFL)
        os.kill(os.getpid(), os.WTERMSIG(status))
    if os.WEXITSTATUS(status) == 2:
        say(f"{usage}\n")
    return os.WEXITSTATUS(status)


if __name__ == "__main__":
    sys.exit(main(*sys.argv[1:]))
