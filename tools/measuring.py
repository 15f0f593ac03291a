"""Runs a program and measures it, for the scripts in tests/ and bench/."""
import dataclasses
import datetime
import os
import platform
import subprocess
import tempfile
import threading
import time

TOP = os.path.dirname(os.path.dirname(os.path.abspath(__file__)))
# The script that builds and runs the program, and the program that the gate builds.
SCRIPT = os.path.join(TOP, "hmc")
PROVED = os.path.join(TOP, "crates", "hmc", "out", "hmc")


@dataclasses.dataclass(frozen=True)
class Run:
    """How a run ended: its exit status, or 0 less the signal that ended it, what it wrote, and what it took."""

    status: int
    printed: bytes
    told: bytes
    clock: float
    processor: float
    megabytes: int

    @property
    def last(self):
        """The last line on standard output, or on standard error if there is none."""
        lines = (self.printed or self.told)[-400:].decode(errors="replace").splitlines()
        return lines[-1] if lines else ""


def measured(words, given=b"", seconds=None, cwd=None):
    """Runs a command with this standard input, and returns its Run. After so many seconds it is killed."""
    with tempfile.TemporaryFile() as source, tempfile.TemporaryFile() as printed, tempfile.TemporaryFile() as told:
        source.write(given.encode() if isinstance(given, str) else given)
        source.seek(0)
        began = time.monotonic()
        child = subprocess.Popen(words, stdin=source, stdout=printed, stderr=told, cwd=cwd)
        alarm = threading.Timer(seconds, child.kill) if seconds else None
        if alarm:
            alarm.start()
        _, status, used = os.wait4(child.pid, 0)
        clock = time.monotonic() - began
        child.returncode = os.waitstatus_to_exitcode(status)
        if alarm:
            alarm.cancel()
        printed.seek(0)
        told.seek(0)
        return Run(child.returncode, printed.read(), told.read(), clock, used.ru_utime + used.ru_stime, used.ru_maxrss * 1024 // 1_000_000)


def where():
    """Returns what figures are of: the commit, the machine, the kit and the date."""

    def said(*words):
        return subprocess.run(words, cwd=TOP, stdout=subprocess.PIPE, text=True, check=True).stdout.strip()

    with open("/proc/cpuinfo", encoding="utf-8") as it:
        models = [line.partition(":")[2].strip() for line in it if line.startswith("model name")]
    machine = f"{len(os.sched_getaffinity(0))} x {models[0] if models else platform.machine()}"
    kit = said("rt", "version").partition("\n")[0]
    return f"commit {said('git', 'rev-parse', '--short', 'HEAD')}, {machine}, {kit}, {datetime.date.today().isoformat()}"
