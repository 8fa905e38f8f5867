"""How the processor time and the memory of a run are measured."""

# Runs a program and tells its seconds of processor time and the most memory that it had, in KiB. A process of its own,
# since a program's figure begins with the memory of the process that started it; so none is below that of this one.
# A program that wants more than a GiB ends there.
MEASURE = """
import os, resource, subprocess, sys
resource.setrlimit(resource.RLIMIT_AS, (2**30, 2**30))
child = subprocess.Popen(sys.argv[2:])
_, status, used = os.wait4(child.pid, 0)
child.returncode = 0
with open(sys.argv[1], "w") as told:
    print(used.ru_utime, used.ru_maxrss, file=told)
"""
