"""Installs, runs and measures programs. The scripts of this folder share it."""
import argparse
import concurrent.futures
import contextlib
import os
import pathlib
import resource
import shutil
import signal
import statistics
import subprocess
import sys
import tempfile
import threading
from typing import NamedTuple

TOP = pathlib.Path(__file__).resolve().parent.parent
LAUNCHER = TOP / "mm"
BUILT = TOP / "crates/mm_tool/out/mm"
DOCUMENT = TOP / "docs/PERFORMANCE.md"
DATABASES = pathlib.Path("/usr/share/metamath/databases")
LIMIT = 600  # seconds for one run
INSTALL = "--install"


class Run(NamedTuple):
    """What a run printed, its status, its seconds of processor time and its peak memory."""
    output: str
    status: int
    seconds: float
    memory: int  # bytes

    def took_too_long(self):
        return self.status == -signal.SIGKILL


def run(words):
    """Runs a program. One that takes longer than the limit is killed.

    The processor time is that of the program and of the system for it. The system tells a memory
    that is at least that of this script, which starts the program: see `fastest`.
    """
    process = subprocess.Popen([str(word) for word in words], stdin=subprocess.DEVNULL,
                               stdout=subprocess.PIPE, start_new_session=True)
    late = threading.Event()

    def kill():
        with contextlib.suppress(ProcessLookupError):
            os.killpg(process.pid, signal.SIGKILL)

    killer = threading.Timer(LIMIT, lambda: (late.set(), kill()))
    killer.start()
    try:
        output = process.stdout.read().decode(errors="replace")
        _, status, usage = os.wait4(process.pid, 0)
    except BaseException:
        kill()
        process.wait()
        raise
    finally:
        killer.cancel()
        process.stdout.close()
    process.returncode = os.waitstatus_to_exitcode(status)
    status = -signal.SIGKILL if late.is_set() else process.returncode
    return Run(output, status, usage.ru_utime + usage.ru_stime, usage.ru_maxrss * 1024)


def at_once(jobs, work, items):
    """What the work tells of each item, in their order; of so many items at a time."""
    pool = concurrent.futures.ThreadPoolExecutor(jobs)
    try:
        return list(pool.map(work, items))
    finally:
        pool.shutdown(cancel_futures=True)


def peak(words):
    """The peak memory in bytes of one more run, from GNU time, which takes little itself."""
    with tempfile.NamedTemporaryFile("r") as told:
        run(["/usr/bin/time", "-q", "-f", "%M", "-o", told.name, *words])
        return int(told.read().strip() or 0) * 1024


class Measured(NamedTuple):
    """The fastest run of a command, and the seconds of all its runs, in the order of the turns."""
    best: Run
    seconds: list

    def times_as_long(self, other):
        """How many times as long as the other's a run of this command took: the median of turns.

        The two runs of a turn are seconds apart, so that both mostly meet the machine in one state,
        which the fastest run of each need not do.
        """
        return statistics.median(mine / its for mine, its in zip(self.seconds, other.seconds))


def measured(commands, runs):
    """What runs of the commands took. They take turns, so that other work hits them alike."""
    best = [None] * len(commands)
    seconds = [[] for _ in commands]
    for _ in range(runs):
        for place, words in enumerate(commands):
            if best[place] and best[place].took_too_long():
                continue
            latest = run(words)
            seconds[place].append(latest.seconds)
            if not best[place] or latest.took_too_long() or latest.seconds < best[place].seconds:
                best[place] = latest
    own = resource.getrusage(resource.RUSAGE_SELF).ru_maxrss * 1024
    best = [result if result.memory > own or result.took_too_long()
            else result._replace(memory=peak(words)) for words, result in zip(commands, best)]
    return [Measured(*pair) for pair in zip(best, seconds)]


def fastest(commands, runs):
    """The fastest run of each command."""
    return [command.best for command in measured(commands, runs)]


def install(*packages):
    """Looks for the packages that the scripts use, and installs those that are missing if the words
    have --install; else says which they are, and ends the script."""
    present = {
        "hyperfine": lambda: shutil.which("hyperfine"),
        "metamath": lambda: shutil.which("metamath"),
        "metamath-databases": DATABASES.is_dir,
        "linux-perf": lambda: shutil.which("perf"),
        "time": lambda: os.path.exists("/usr/bin/time"),
    }
    missing = [name for name in packages if not present[name]()]
    if not missing:
        return
    asker = [] if os.geteuid() == 0 else ["sudo"]
    apt = [*asker, "apt-get", "install", "--yes", "--no-install-recommends", *missing]
    if INSTALL not in sys.argv:
        fail(f"needs {', '.join(missing)} (packages of Debian): {INSTALL} runs {' '.join(apt)}")
    say("installs " + " ".join(missing))
    with contextlib.suppress(OSError):
        if subprocess.run(apt, stdout=sys.stderr).returncode:
            subprocess.run([*asker, "apt-get", "update"], stdout=sys.stderr)
            subprocess.run(apt, stdout=sys.stderr)
    missing = [name for name in missing if not present[name]()]
    if missing:
        fail(f"needs {', '.join(missing)} (packages of Debian), which couldn't be installed")


def program(given=None):
    """The program to be measured: the one given, or the one that the launcher builds.

    The launcher builds it anew for a check where sources have changed, and not for the version. Then
    it is called directly, since the launcher looks for changed sources at each check. What the
    launcher sets for it, large pages, is set for every program that is measured.
    """
    os.environ["GLIBC_TUNABLES"] = "glibc.malloc.hugetlb=1"
    words = [given, "--version"] if given else [LAUNCHER, "check", TOP / "examples/first.mm"]
    try:
        subprocess.run(words, stdout=subprocess.DEVNULL, check=True)
    except (OSError, subprocess.CalledProcessError) as error:
        fail(f"there is no program to measure: {error}")
    return str(given or BUILT)


class Parser(argparse.ArgumentParser):
    """A parser whose help is the script's own text. Each script takes --install."""

    def __init__(self, **options):
        super().__init__(**options)
        self.add_argument(INSTALL, action="store_true")

    def format_help(self):
        return self.description

    def error(self, message):
        fail(f"{message}\n\n{self.description.rstrip()}")


def table(heads, rows):
    """A Markdown table. The columns whose heads begin with < stand left, the others right."""
    lines = ["| " + " | ".join(head.lstrip("<") for head in heads) + " |",
             "|" + "|".join("---" if head.startswith("<") else "---:" for head in heads) + "|"]
    lines += ["| " + " | ".join(row) + " |" for row in rows]
    return "\n".join(lines) + "\n"


def write(tables):
    """Puts each text into the document, between the two comments that name it."""
    text = DOCUMENT.read_text()
    for name, lines in tables.items():
        begin, end = f"<!-- bench: {name} -->\n", "<!-- end -->"
        if begin not in text:
            fail(f"{DOCUMENT} has no line {begin.strip()}")
        before, after = text.split(begin)
        text = before + begin + lines + end + after.split(end, 1)[1]
    DOCUMENT.write_text(text)


def say(message):
    print(f"{os.path.basename(sys.argv[0])}: {message}", file=sys.stderr, flush=True)


def fail(message):
    """Ends the script for a reason other than what it measured."""
    say(message)
    sys.exit(2)


def main(work):
    """Does the work and ends with its status; when interrupted, with one line and status 130."""
    def interrupt(*_):
        raise KeyboardInterrupt

    signal.signal(signal.SIGTERM, interrupt)
    signal.signal(signal.SIGHUP, interrupt)
    try:
        sys.exit(work())
    except KeyboardInterrupt:
        say("interrupted")
        sys.exit(130)
