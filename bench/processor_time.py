"""Runs a command with its output thrown away, and prints its processor time, user and system together, in microseconds.

    python3 bench/processor_time.py PROGRAM WORD..
"""
import os
import sys

to_null = [(os.POSIX_SPAWN_OPEN, 1, os.devnull, os.O_WRONLY, 0)]
program = os.posix_spawnp(sys.argv[1], sys.argv[1:], os.environ, file_actions=to_null)
_, status, used = os.wait4(program, 0)
if status:
    sys.exit(f"{sys.argv[1]} ended with status {os.waitstatus_to_exitcode(status)}")
print(round((used.ru_utime + used.ru_stime) * 1_000_000))
