"""What the scripts that work on crates share: what crates.txt says, which kit's rt is known from inside, and tasks side by side.

`build` and `.ci/prove` begin their proofs by it; tools/compile-unproved, web/prove-module and the scripts of docs/ read crates.txt by it. `bgp` and `test`,
which start without Python, read it by tools/current.sh."""
import concurrent.futures
import importlib.machinery
import importlib.util
import os
import pathlib
import shutil
import subprocess
import sys

TOP = pathlib.Path(__file__).resolve().parent.parent
CRATES = TOP / "crates"

NO_RT = "there is no rt on the path: CONTRIBUTING.md says where it comes from"

# The kits whose rt is known from inside, the newest last.
KNOWN_KITS = ["rattle-kit-13b logic dac8208d650f15bf", "rattle-kit-13f logic dac8208d650f15bf"]

# From this number of lines on a crate gains by this number of jobs, as rt counts them. Below, most of the time goes into reading its libraries.
JOBS = [(3000, 4), (1000, 2), (0, 1)]

# Beside other work that is ready, no proof gets more: what is proved by more jobs costs more processor time. Where processors are idle beyond these, the
# first proof gets them, since the longest chain waits for it.
JOBS_BESIDE = 2

# What each further job of a proof adds to its memory: jobs are forks, which share most of theirs.
MEMORY_OF_A_JOB = 0.25


# ---- crates.txt ----


def lines():
    """The line of each crate, lowest first."""
    text = (TOP / "crates.txt").read_text(encoding="utf-8")
    return {line.partition(":")[0].split()[0]: line for line in text.splitlines() if line and not line.startswith("#")}


def below():
    """What each crate depends on, of this repository and of the kit, lowest first."""
    return {name: line.partition(":")[2].split() for name, line in lines().items()}


def with_below(targets):
    """These crates and all of this repository that they depend on, lowest first."""
    stands_on, wanted, left = below(), set(), [*targets]
    while left:
        name = left.pop()
        if name in stands_on and name not in wanted:
            wanted.add(name)
            left += stands_on[name]
    return [name for name in stands_on if name in wanted]


# ---- the kit ----


def rt_path():
    """Where rt is; None where it isn't on the path."""
    return shutil.which("rt")


def kit(path):
    """The kit of this rt, as it reports it."""
    return subprocess.run([path, "version"], capture_output=True, text=True, check=False).stdout.strip()


def is_known(path):
    """Whether the kit of this rt is known from inside."""
    return kit(path) in KNOWN_KITS


def load_rt(path):
    """The kit's rt as a module."""
    loader = importlib.machinery.SourceFileLoader("rt", os.path.realpath(path))
    rt = importlib.util.module_from_spec(importlib.util.spec_from_loader("rt", loader))
    sys.modules["rt"] = rt
    sys.dont_write_bytecode = True
    loader.exec_module(rt)
    return rt


# ---- tasks side by side ----


def fills(key):
    """Whether the task fills what proofs leave free: a wrong body, or the check that these begin with."""
    return key[1] in ("edits", "seed")


def jobs_for(key, lines_of_it, idle, others):
    """The number of jobs of a task, with this number of idle processors and of other tasks that could begin."""
    if key[1] not in ("proof", "seed"):
        return 1 if key[1] != "tests" else min(JOBS_BESIDE, idle)
    most = next(jobs for least, jobs in JOBS if lines_of_it >= least)
    if others or key[1] == "seed":
        most = min(most, JOBS_BESIDE, max(JOBS_BESIDE if idle > JOBS_BESIDE else 1, idle - others))
    return max(1, min(most, idle))


def chains(tasks):
    """The lines of the longest chain of tasks after each, with its own."""
    behind = dict.fromkeys(tasks, 0)
    # (a task comes after those that it waits for)
    for key in reversed([*tasks]):
        behind[key] += tasks[key][1]
        for it in tasks[key][0]:
            behind[it] = max(behind[it], behind[key])
    return behind


class Lanes:
    """Tasks side by side: one a processor, as many as memory holds, and first those with the longest chain of others after them.

    A task is keyed by its crate's name and its kind (proof, tests, edits and so on), and is what it waits for, its lines, its memory in bytes, and a
    call that gets what the others gave and how many jobs it may use."""

    # After at most this many seconds `tell` is called again; None: where a task has ended.
    BEAT = None

    def __init__(self, tasks, lanes, memory):
        behind = chains(tasks)
        self.tasks, self.lanes, self.memory, self.given, self.running = tasks, lanes, memory, {}, {}
        self.left = sorted(tasks, key=lambda it: (fills(it), -behind[it]))

    def tell(self):
        """Says how far all is."""

    def stop(self):
        """Ends what still runs, where something failed or the run is ended."""

    def ready(self):
        return [it for it in self.left if all(below in self.given for below in self.tasks[it][0])]

    def idle(self):
        return self.lanes - sum(jobs for _, _, jobs in self.running.values())

    def lines_of(self, key):
        return self.tasks[key[0], "proof"][1] if key[1] == "seed" else self.tasks[key][1]

    def needs_work(self, key):
        """Whether the task is one that takes long: missing tests, and what only reads results, don't."""
        return key[1] in ("proof", "seed", "edits") or self.tasks[key][1] > 0

    def begin(self, pool):
        """Begins what can be begun."""
        ready, waits = self.ready(), False
        for at, key in enumerate(ready):
            idle = self.idle()
            if idle <= 0 or waits and fills(key):
                # (a proof waits for memory, which what fills would take again and again)
                break
            # What fills takes little by little what a proof leaves, and holds up no proof.
            others = sum(self.needs_work(it) for it in ready[at + 1 :] if fills(key) or not fills(it))
            jobs, needs = jobs_for(key, self.lines_of(key), idle, others), self.tasks[key][2]
            room = self.memory - sum(it for _, it, _ in self.running.values())
            while jobs > 1 and needs * (1 + MEMORY_OF_A_JOB * (jobs - 1)) > room:
                jobs -= 1
            if not self.running or needs <= room:
                self.left.remove(key)
                taken = needs * (1 + MEMORY_OF_A_JOB * (jobs - 1))
                self.running[pool.submit(self.tasks[key][3], self.given, jobs)] = key, taken, jobs
            else:
                waits = waits or not fills(key)

    def run(self):
        with concurrent.futures.ThreadPoolExecutor(self.lanes) as pool:
            try:
                while self.left or self.running:
                    self.begin(pool)
                    self.tell()
                    done = concurrent.futures.wait(self.running, self.BEAT, concurrent.futures.FIRST_COMPLETED).done
                    for it in done:
                        self.given[self.running.pop(it)[0]] = it.result()
            finally:
                self.stop()
        return self.given
