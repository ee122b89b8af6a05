"""The programs that benches run: tt_archive, C++ ones beside it, and small ones over copies of the crates."""
import os, re, resource, shlex, shutil, subprocess, sys, threading, time
from pathlib import Path
from typing import NamedTuple

TOP = Path(__file__).resolve().parent.parent
#: A line that is no command, and its reply, which shows where the replies to those before it end.
LAST, ENDS = "?", b"no 1 Line\n"


def archive():
    """The words that start tt_archive: those of `TT_ARCHIVE`, or `bin/tt_archive`, which builds it where it isn't built yet."""
    words = shlex.split(os.environ.get("TT_ARCHIVE", "")) or [str(TOP / "bin" / "tt_archive")]
    if "/" in words[0]:
        words[0] = os.path.abspath(words[0])
    return words


def compiled(folder, name, text):
    """The C++ program of a text, compiled."""
    source, program = Path(folder, name + ".cpp"), Path(folder, name)
    source.write_text(text, encoding="utf-8")
    subprocess.run([os.environ.get("CXX", "c++"), "-O2", "-std=c++17", "-o", program, source], check=True)
    return str(program)


def crates_below(needs):
    """The repository's crates that these stand on, with themselves, by the lines of crates.txt, and the lines."""
    lines = {line.split(":")[0]: line for line in (TOP / "crates.txt").read_text(encoding="utf-8").splitlines() if not line.startswith("#")}
    found = [name for name in needs if name in lines]
    for name in found:
        found += [below for below in lines[name].split(":")[1].split() if below in lines and below not in found]
    return [name for name in lines if name in found], lines


def timed(folder, name, files, needs, data={}):
    """A small program that calls crates, proved and built over copies of them, which takes some minutes. It needs these crates, of the
    repository and of the kit; its files are given by their paths, and those of its folder that it reads as `data`."""
    below, lines = crates_below(needs)
    for crate in below:
        shutil.copytree(TOP / "crates" / crate, Path(folder, "crates", crate), ignore=shutil.ignore_patterns("out"), dirs_exist_ok=True)
    crate = Path(folder, "crates", name)
    for path, text in {**files, **data}.items():
        (crate / path).parent.mkdir(parents=True, exist_ok=True)
        (crate / path).write_text(text, encoding="utf-8")
    Path(folder, "crates.txt").write_text("".join(lines[crate] + "\n" for crate in below) + "%s: %s\n" % (name, " ".join(needs)), encoding="utf-8")
    done = subprocess.run(["rt", "run"], cwd=crate, stdin=subprocess.DEVNULL, stdout=subprocess.PIPE, stderr=subprocess.STDOUT, text=True)
    program = crate / "out" / name
    if not os.access(program, os.X_OK):
        sys.exit("the program %s could not be built:\n%s" % (name, "\n".join(done.stdout.splitlines()[-40:])))
    return str(program)


def run(command, folder, script=b""):
    """The seconds that a program takes, what it prints, and what it says beside."""
    start = time.perf_counter()
    done = subprocess.run(command, cwd=folder, input=script, stdout=subprocess.PIPE, stderr=subprocess.PIPE)
    spent = time.perf_counter() - start
    if done.returncode != 0:
        sys.exit("%s ended with status %d: %s" % (command[0], done.returncode, done.stderr.decode()))
    return spent, done.stdout, done.stderr


class Load(NamedTuple):
    """The seconds that a load takes, and of the processor's time, and what the program says beside."""

    seconds: float
    processor: float
    told: bytes


def loads(command, folder, turns=3):
    """The least of some runs that load and end."""
    found = []
    for _ in range(turns):
        before = resource.getrusage(resource.RUSAGE_CHILDREN)
        spent, _, told = run(command, folder)
        after = resource.getrusage(resource.RUSAGE_CHILDREN)
        found.append(Load(spent, after.ru_utime + after.ru_stime - before.ru_utime - before.ru_stime, told))
    least = min(found)
    return least._replace(processor=min(it.processor for it in found))


class Asked:
    """A program that has loaded its archive and is asked through its pipes."""

    def __init__(self, command, folder):
        self.process = subprocess.Popen(command, cwd=folder, stdin=subprocess.PIPE, stdout=subprocess.PIPE, stderr=subprocess.DEVNULL, bufsize=0)
        self.ask("")

    def ask(self, script):
        """The seconds until the last reply to commands that are sent at once, and the replies, with that to a line behind them."""
        return self._asked((script + LAST + "\n").encode(), ENDS)

    def round_trip(self, command, reply):
        """The seconds until the reply to one command is there."""
        return self._asked(command.encode(), reply)[0]

    def _asked(self, script, ends):
        feeder = threading.Thread(target=self._feed, args=(script,), daemon=True)
        shown, last = [], b""
        start = time.perf_counter()
        feeder.start()
        while not last.endswith(ends):
            piece = os.read(self.process.stdout.fileno(), 1 << 20)
            if not piece:
                sys.exit("a program ended before all was answered, with status %d" % self.process.wait())
            shown.append(piece)
            last = last[-len(ends):] + piece[-len(ends):]
        spent = time.perf_counter() - start
        feeder.join()
        return spent, b"".join(shown)

    def _feed(self, script):
        rest = memoryview(script)
        while rest:
            rest = rest[self.process.stdin.write(rest):]

    def sizes(self):
        """How many bytes it has in memory now, and had at most."""
        status = Path("/proc/%d/status" % self.process.pid).read_text()
        return [1024 * int(re.search(r"^%s:\s+(\d+) kB$" % name, status, re.M)[1]) for name in ("VmRSS", "VmHWM")]

    def processor(self):
        """The seconds for which it had a processor."""
        return int(Path("/proc/%d/schedstat" % self.process.pid).read_text().split()[0]) / 1e9

    def end(self):
        self.process.stdin.close()
        self.process.stdout.read()
        self.process.stdout.close()
        if self.process.wait() != 0:
            sys.exit("a program ended with status %d" % self.process.returncode)


def by_turns(asked, script, runs=7, most=100):
    """Of each program the seconds for the commands of a script, and its replies. A hundred commands at a time are asked by turns and
    again; the least time counts."""
    times, shown = [0.0] * len(asked), [b""] * len(asked)
    lines = script.splitlines(keepends=True)
    for at in range(0, len(lines), most):
        part = "".join(lines[at : at + most])
        turns = [[program.ask(part) for program in asked] for _ in range(runs)]
        for k in range(len(asked)):
            times[k] += min(turn[k][0] for turn in turns)
            shown[k] += turns[0][k][1]
    return times, shown


def check(holds, otherwise):
    if not holds:
        sys.exit(otherwise)


def load_here():
    """What else the machine does, for the line of a bench."""
    return "load %.1f on %d processors" % (os.getloadavg()[0], os.cpu_count())
