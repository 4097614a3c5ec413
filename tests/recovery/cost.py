"""Measures what the journal costs at a key, for check-recovery.sh: cost.py FOLDER EDITOR TABLES.

A figure is the time of the processor that the program takes for a key, from its byte to its painting, alternately with and without a journal.
The cost is the least difference of five rounds, since other load only adds time. Exit status 1: it is 10 microseconds or more.
"""

import os, subprocess, sys

folder, editor, data = sys.argv[1:]
words = [editor, "--classes", data + "/DerivedBidiClass.txt", "--brackets", data + "/BidiBrackets.txt",
         "--mirroring", data + "/BidiMirroring.txt"]


KEYS = 2000


def time_of_key(more):
    """The processor's time for each of many letters in lines of 50, in microseconds; the start has its share in it."""
    program = subprocess.Popen(words + more + [folder + "/none"], stdin=subprocess.PIPE, stdout=subprocess.PIPE,
                               stderr=subprocess.DEVNULL, bufsize=0)
    os.read(program.stdout.fileno(), 65536)
    for n in range(KEYS):
        program.stdin.write(b"\r" if n % 50 == 49 else b"a")
        os.read(program.stdout.fileno(), 65536)
    program.stdin.close()
    _, program.returncode, used = os.wait4(program.pid, 0)
    return (used.ru_utime + used.ru_stime) * 1e6 / KEYS


rounds = [(time_of_key([]), time_of_key(["--journal", folder + "/cost"])) for _ in range(5)]
cost = min(kept - bare for bare, kept in rounds)
print("a key in us of the processor, without a journal and with one: " + ", ".join("%.1f %.1f" % r for r in rounds))
print("the journal costs %.1f us at a key" % cost)
sys.exit(cost >= 10)
