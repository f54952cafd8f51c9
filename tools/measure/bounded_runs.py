"""Runs commands one after the other, each with bounds on its time, its memory and what it writes.

The system counts for a command the memory of the process that starts it, too. So the commands are started by a
process of their own that has hardly any: this file, run as a program. It reads lines of JSON, each a command and the
files for its standard output and its standard error, and answers each with a line: its status, as `subprocess` has
it, its processor seconds, and its greatest resident memory in KiB.
"""

import json
import os
import resource
import signal
import sys

MIB = 1 << 20
MOST_MEMORY = 1024 * MIB  # of addresses
MOST_PROCESSOR = 60  # seconds, after which a command is stopped by a signal
CHECKED_PROCESSOR = 280  # the same of a program with checks
MOST_SECONDS = 300  # by the clock
MOST_WRITTEN = 256 * MIB  # in each file
BOUNDS = {
    resource.RLIMIT_AS: MOST_MEMORY,
    resource.RLIMIT_CPU: MOST_PROCESSOR,
    resource.RLIMIT_FSIZE: MOST_WRITTEN,
    resource.RLIMIT_CORE: 0,
}


class BoundedRuns:
    """The process that runs commands in a folder. A program with checks of its memory gets as many addresses as it
    asks for, and more time."""

    def __init__(self, folder: str, is_checked: bool = False) -> None:
        import subprocess

        command = [sys.executable, "-S", "-E", "-B", os.path.abspath(__file__), *(["--checked"] if is_checked else [])]
        self.process = subprocess.Popen(command, stdin=subprocess.PIPE, stdout=subprocess.PIPE, text=True, cwd=folder)

    def run(self, command: list[str], stdout: str, stderr: str) -> list[float]:
        """Returns the status, the processor seconds and the greatest resident memory of a command."""
        assert self.process.stdin and self.process.stdout
        print(json.dumps([command, stdout, stderr]), file=self.process.stdin, flush=True)
        answer: list[float] = json.loads(self.process.stdout.readline())
        return answer

    def end(self) -> None:
        assert self.process.stdin
        self.process.stdin.close()
        self.process.wait()


def become(command: list[str], stdout: str, stderr: str) -> None:
    """Turns this process into the command."""
    for bound, most in BOUNDS.items():
        resource.setrlimit(bound, (most, most))
    streams = [
        (os.devnull, os.O_RDONLY),
        (stdout, os.O_WRONLY | os.O_CREAT | os.O_TRUNC),
        (stderr, os.O_WRONLY | os.O_CREAT | os.O_TRUNC),
    ]
    for number, (path, way) in enumerate(streams):
        os.dup2(os.open(path, way, 0o644), number)
    os.execv(command[0], command)


def ran(command: list[str], stdout: str, stderr: str) -> tuple[int, float, int]:
    """Runs a command, and returns what BoundedRuns.run answers."""
    child = os.fork()
    if child == 0:
        try:
            become(command, stdout, stderr)
        finally:
            os._exit(127)
    signal.signal(signal.SIGALRM, lambda *_: os.kill(child, signal.SIGKILL))
    signal.alarm(MOST_SECONDS)
    _, status, used = os.wait4(child, 0)
    signal.alarm(0)
    return os.waitstatus_to_exitcode(status), used.ru_utime + used.ru_stime, used.ru_maxrss


def main() -> None:
    if sys.argv[1:] == ["--checked"]:
        BOUNDS[resource.RLIMIT_AS] = resource.RLIM_INFINITY
        BOUNDS[resource.RLIMIT_CPU] = CHECKED_PROCESSOR
    for line in sys.stdin:
        print(json.dumps(ran(*json.loads(line))), flush=True)


if __name__ == "__main__":
    main()
