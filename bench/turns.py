"""Runs a program once, and says what it took: for the scripts beside this one."""
import os
import subprocess


class Turn:
    """One run of a program: its status (negative: the signal that ended it), its processor time in seconds, its peak memory in bytes, and what it said.

    The memory is no less than that of the Python process that ran it, of which it is a copy at first.
    """

    def __init__(self, words, seconds=600):
        """Runs a command, for that many seconds of the processor at the most."""
        words = ["prlimit", f"--cpu={seconds}", "--", *words]
        # (wait4 says the times of this process alone, also where several are run side by side)
        with subprocess.Popen(words, stdout=subprocess.PIPE, stderr=subprocess.STDOUT, stdin=subprocess.DEVNULL) as process:
            said = process.stdout.read()
            _, status, used = os.wait4(process.pid, 0)
            process.returncode = os.waitstatus_to_exitcode(status)
        self.status, self.said = process.returncode, said.decode("utf-8", "replace")
        self.user, self.system, self.memory = used.ru_utime, used.ru_stime, used.ru_maxrss * 1024

    @property
    def processor(self):
        return self.user + self.system

    def last_line(self):
        return (self.said.strip().splitlines() or [""])[-1]


def geometric_mean(numbers):
    """The geometric mean of positive numbers, or None of none."""
    product, count = 1.0, 0
    for number in numbers:
        product, count = product * number, count + 1
    return product ** (1 / count) if count else None
