"""A scheduler of Dask and its workers as processes of their own, each on a host: this machine, or a network namespace."""
import json
import pathlib
import subprocess
import time

SCHEDULER, WORKER = "distributed.cli.dask_scheduler", "distributed.cli.dask_worker"
WATCHING = pathlib.Path(__file__).resolve().with_name("watching.py")
# The seconds to wait for what should come.
PATIENCE = 60


class Host:
    """A host: the words before a command that is run on it, and its address."""

    def __init__(self, address, words=()):
        self.address, self.words = address, list(words)


def eventually(what):
    """The answer to a question once it is true, or the last one."""
    until = time.monotonic() + PATIENCE
    while not (found := what()) and time.monotonic() < until:
        time.sleep(0.01)
    return found


def in_file(path):
    """The content of a file; nothing where it is missing."""
    return path.read_text() if path.exists() else ""


class Cluster:
    """A scheduler on the first of some hosts, and a worker on each other. In a `with` they run, and all end with it."""

    def __init__(self, python, environment, hosts, folder):
        self.python, self.hosts, self.folder = python, hosts, folder / "cluster"
        self.environment = {**environment, "WATCHED": str(self.folder)}
        self.address, self.running = None, []

    def __enter__(self):
        self.folder.mkdir()
        first, *others = self.hosts
        said = self.folder / "scheduler.json"
        # The system chooses the port, so that it is a free one.
        self.start(first, "-m", SCHEDULER, "--host", first.address, "--port", "0", "--no-dashboard", "--no-show", "--preload", WATCHING,
                   "--scheduler-file", said)
        self.address = json.loads(eventually(lambda: in_file(said)) or '{"address": "no scheduler"}')["address"]
        for number, host in enumerate(others):
            self.start(host, "-m", WORKER, self.address, "--host", host.address, "--name", f"worker-{number}", "--nthreads", "1", "--no-nanny",
                       "--no-dashboard", "--local-directory", self.folder / f"worker-{number}")
        return self

    def __exit__(self, *_):
        for one in reversed(self.running):
            one.kill()
            one.wait()

    def start(self, host, *words):
        """Starts a process of Dask on a host."""
        words = [*host.words, self.python, *map(str, words)]
        with open(self.folder / f"{len(self.running)}.log", "wb") as log:
            self.running.append(subprocess.Popen(words, env=self.environment, stdout=log, stderr=log, cwd=self.folder))

    def asked(self, *words, **more):
        """Starts a process of Python on the scheduler's host."""
        return subprocess.Popen([*self.hosts[0].words, self.python, *words], env=self.environment, **more)

    def kill_at_work(self, number):
        """Kills a worker once it holds results and works on more. Answers how many it held; 0 where that doesn't happen."""
        held = eventually(lambda: in_file(self.folder / f"worker-{number}.held"))
        self.running[1 + number].kill()
        return int(held or 0)

    def logs(self):
        """What the processes printed."""
        return "".join(path.read_text(errors="replace") for path in sorted(self.folder.glob("*.log")))
