"""Time that passes on a machine that has other work."""
import contextlib
import os
import time


def waited(process):
    """The seconds that the threads of a process have waited for a processor."""
    total = 0
    with contextlib.suppress(OSError):
        for thread in os.listdir("/proc/%d/task" % process):
            with open("/proc/%d/task/%s/schedstat" % (process, thread)) as stat:
                total += int(stat.read().split()[1])
    return total / 1e9


class Stopwatch:
    """The time since it was made. `passed` is what a clock shows. `own` leaves out what this process and another one
    waited for a processor meanwhile, so that it has the same limit on a busy machine as on an idle one."""

    def __init__(self, process):
        self.processes, self.start = (os.getpid(), process), time.monotonic()
        self.before = self.waited()

    def waited(self):
        return sum(waited(it) for it in self.processes)

    def passed(self):
        return time.monotonic() - self.start

    def own(self):
        return self.passed() - (self.waited() - self.before)
