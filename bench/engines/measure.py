"""Runs one command and prints, as JSON, its status, processor seconds (user and system), peak of memory in KB and seconds
by the clock, and whether it was ended after so many processor seconds, or ten times as many by the clock. It is a program
of its own since a child's peak counts that of the process that forked it: this one is small.

    python3 -S -E measure.py SECONDS INPUT OUTPUT ERRORS [--as UID] -- COMMAND..
"""
import json
import os
import resource
import signal
import sys
import time


def child(words, uid, seconds, paths):
    """Becomes the command, with its three streams and, where one is given, another user."""
    resource.setrlimit(resource.RLIMIT_CPU, (seconds, seconds))
    modes = (os.O_RDONLY, os.O_WRONLY | os.O_CREAT | os.O_TRUNC, os.O_WRONLY | os.O_CREAT | os.O_TRUNC)
    for number, (path, mode) in enumerate(zip(paths, modes)):
        os.dup2(os.open(path, mode, 0o644), number)
    os.setsid()
    if uid:
        os.setgroups([])
        os.setgid(uid)
        os.setuid(uid)
    os.execvp(words[0], words)


def main():
    given, words = sys.argv[1 : sys.argv.index("--")], sys.argv[sys.argv.index("--") + 1 :]
    uid = int(given[5]) if given[4:5] == ["--as"] else 0
    seconds = int(given[0])
    began = time.monotonic()
    pid = os.fork()
    if not pid:
        try:
            child(words, uid, seconds, given[1:4])
        finally:
            os._exit(127)
    signal.signal(signal.SIGALRM, lambda *_: os.killpg(pid, signal.SIGKILL))
    signal.alarm(10 * seconds)
    _, status, used = os.wait4(pid, 0)
    clock = time.monotonic() - began
    signal.alarm(0)
    code = os.waitstatus_to_exitcode(status)
    processor = used.ru_utime + used.ru_stime
    late = code in (-signal.SIGKILL, -signal.SIGXCPU) and (processor > 0.95 * seconds - 1 or clock >= 10 * seconds)
    print(json.dumps({"status": code, "processor": processor, "memory": used.ru_maxrss, "clock": clock, "late": late}))


main()
