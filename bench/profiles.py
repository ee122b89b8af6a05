"""Where the time of tt_archive goes, by the symbols of the program, where the machine has `perf` or `valgrind`."""
import os, re, shutil, subprocess

from programs import archive


def by_perf(folder, script=b""):
    """The program's symbols with the shares of the time that they take, from its start to its end; none where there is no perf, or it
    may not look."""
    if not shutil.which("perf"):
        return []
    file = os.path.join(folder, "perf.data")
    for event in ("cycles", "cpu-clock"):
        done = subprocess.run(["perf", "record", "-q", "-e", event, "-F", "1999", "-o", file, "--", *archive()], cwd=folder, input=script, capture_output=True)
        told = subprocess.run(["perf", "report", "-q", "--stdio", "--no-children", "-i", file, "-s", "symbol", "--percent-limit", "0"], capture_output=True, text=True)
        found = re.findall(r"^ +([\d.]+)% +(\[[.k]\] .*?)(?: +- +-)? *$", told.stdout, re.M)
        if done.returncode == 0 and found:
            return [(float(share), symbol) for share, symbol in found]
    return []


def by_callgrind(folder):
    """The same of a load by callgrind's counts of instructions, under which a program is some fifty times slower."""
    if not (shutil.which("valgrind") and shutil.which("callgrind_annotate")):
        return []
    file = os.path.join(folder, "callgrind.out")
    subprocess.run(["valgrind", "-q", "--tool=callgrind", "--callgrind-out-file=" + file, *archive()], cwd=folder, stdin=subprocess.DEVNULL, capture_output=True)
    told = subprocess.run(["callgrind_annotate", "--threshold=100", file], capture_output=True, text=True)
    return [(float(count.replace(",", "")), symbol) for count, symbol in re.findall(r"^ *([\d,]+) \([ \d.]+%\) +\S*?:(.*?)(?: \[.*\])?$", told.stdout, re.M)]


def shares(symbols, parts):
    """The share of each part, the greatest first. The first part whose pattern a symbol has counts, without what it is generic in."""
    sums = {}
    for share, symbol in symbols:
        part = next((name for name, pattern in parts if re.search(pattern, symbol.split("::<")[0])), "the rest")
        sums[part] = sums.get(part, 0) + share
    total = sum(sums.values()) or 1
    return {part: share / total for part, share in sorted(sums.items(), key=lambda it: -it[1])}


def told(found):
    return ", ".join("%s %.0f %%" % (part, 100 * share) for part, share in found.items())
