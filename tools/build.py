"""Builds the libraries that a program stands on, those that don't stand on each other side by side.

Usage: build.py NAME. A line on standard error says about how long the libraries take. Then a line for each, as it is begun,
says how many are left behind it and about how long it takes until all are built.
What a library's proof prints goes into its out/build.log, which is shown where the proof fails.
"""
import copy
import math
import os
import sys
import time
from concurrent.futures import FIRST_COMPLETED, ThreadPoolExecutor, wait

sys.dont_write_bytecode = True
import toolchain

# Minutes that all libraries take from nothing, by docs/figures.md: the work of all processors, and the longest chain of
# libraries that wait for each other, where each has one processor.
WORK, CHAIN = 125, 65
# The estimate begins as if so many minutes of this build had gone by these figures.
KNOWN = 10


def say(text):
    print(f"ttcnx: {text}", file=sys.stderr, flush=True)


class Estimate:
    """About how long the libraries that are left take, by the figures above, the lines of each, and the time of those that
    are built."""

    def __init__(self, crates, processors):
        self.lines = {it.name: lines_of(it) for it in crates}
        self.work = WORK / sum(self.lines.values())
        self.chain = CHAIN / max(self.weights(crates).values())
        self.processors = processors
        self.expected, self.took = KNOWN, KNOWN

    def weights(self, crates):
        """Returns for each library how many lines it has together with the longest chain of others of these that stands on it."""
        below = {it.name: {other.name for other in it.below()} for it in crates}
        weight = {}
        for crate in sorted(crates, key=lambda it: len(below[it.name]), reverse=True):
            above = [weight[it.name] for it in crates if crate.name in below[it.name]]
            weight[crate.name] = self.lines[crate.name] + max(above, default=0)
        return weight

    def built(self, crate, seconds):
        """Counts a library that was built."""
        self.expected += self.work * self.lines[crate.name]
        self.took += seconds / 60

    def minutes(self, crates):
        """Returns how many minutes these libraries are likely to take, by the clock."""
        chain = self.chain * max(self.weights(crates).values(), default=0)
        work = self.work * sum(self.lines[it.name] for it in crates) / self.processors
        return math.ceil(max(chain, work) * self.took / self.expected)


def build(crate, jobs):
    """Builds a library over what earlier builds kept, and returns whether that went well, and how many seconds it took."""
    began = time.monotonic()
    os.makedirs(f"{crate.folder}/out", exist_ok=True)
    crate = copy.copy(crate)
    with open(f"{crate.folder}/out/build.log", "w+", errors="replace") as crate.out:
        status = crate.build_rlib(["--jobs", str(jobs)], anew=False)
        if status:
            crate.out.seek(0)
            sys.stderr.write(crate.out.read())
            say(f"{crate.name} is not proved")
    return status == 0, time.monotonic() - began


def lines_of(crate):
    """Returns how many lines of code and proof a crate has."""
    count = 0
    for folder, folders, names in os.walk(crate.folder):
        folders[:] = [it for it in folders if it != "out"]
        for name in names:
            if name.endswith((".rt", ".antt")):
                with open(f"{folder}/{name}", errors="replace") as file:
                    count += sum(1 for _ in file)
    return count


def build_all(rt, crates):
    """Builds libraries as soon as those below them are built, as many side by side as processors and memory allow.

    Those on which the longest chain stands come first, and the first of them has half of the processors.
    """
    left = [it for it in crates if not it.is_built()]
    done, running = {it.name for it in crates} - {it.name for it in left}, {}
    lanes, memory = rt.processors(), 0.85 * rt.free()
    estimate = Estimate(crates, lanes)
    weight = estimate.weights(left)
    if left:
        say(f"proving {len(left)} libraries takes about {estimate.minutes(left)} minutes here (processors: {lanes})")
    with ThreadPoolExecutor(lanes) as pool:
        while left or running:
            ready = [it for it in left if all(below.name in done for below in it.below())]
            ready.sort(key=lambda it: weight[it.name], reverse=True)
            for at, crate in enumerate(ready):
                room = memory - sum(rt.need(it) for it, _ in running.values())
                idle = lanes - sum(jobs for _, jobs in running.values())
                if idle > 0 and (not running or rt.need(crate) <= room):
                    share = 2 if at == 0 and ready[1:] else len(ready) - at
                    jobs = max(1, idle // share)
                    minutes = estimate.minutes([*left, *(it for it, _ in running.values())])
                    left.remove(crate)
                    say(f"proving {crate.name}, {len(left)} left, about {minutes} minutes to go")
                    running[pool.submit(build, crate, jobs)] = crate, jobs
            ended = wait(running, return_when=FIRST_COMPLETED).done
            for it in ended:
                crate, _ = running.pop(it)
                is_built, seconds = it.result()
                if not is_built:
                    return False
                estimate.built(crate, seconds)
                done.add(crate.name)
    return True


def main(name):
    rt = toolchain.load()
    toolchain.remember(rt)
    os.chdir(toolchain.ROOT)
    crates = {it.name: it for it in rt.rtlib.crates_below(toolchain.ROOT)}
    below = crates[name].below()
    held = rt.rtlib.lock([*below, crates[name]])
    built = build_all(rt, sorted(below, key=lambda it: len(it.below())))
    for it in held:
        os.close(it)
    return 0 if built else 1


if __name__ == "__main__":
    sys.exit(main(sys.argv[1]))
