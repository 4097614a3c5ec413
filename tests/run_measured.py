"""Measures a run of a command, for check-noise.sh and check-recovery.sh: run_measured.py LIMIT FILE COMMAND..

FILE gets its status, its processor time in seconds, of which LIMIT is the most, and its peak memory in megabytes.
"""

import os, resource, sys

seconds, told, command = int(sys.argv[1]), sys.argv[2], sys.argv[3:]
child = os.fork()
if child == 0:
    resource.setrlimit(resource.RLIMIT_CPU, (seconds, seconds))
    os.execvp(command[0], command)
_, status, used = os.wait4(child, 0)
with open(told, "w") as file:
    print(os.waitstatus_to_exitcode(status), f"{used.ru_utime + used.ru_stime:.1f}", used.ru_maxrss // 1024, file=file)
