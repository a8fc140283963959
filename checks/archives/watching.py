"""Loaded by a scheduler of Dask (--preload): once a worker holds results and works on more, how many it holds is written to WORKER.held in the folder
that WATCHED names."""
import os
import pathlib

import distributed


class Watching(distributed.SchedulerPlugin):
    """What a scheduler calls when the state of a task changes."""

    def __init__(self, scheduler):
        self.scheduler, self.folder = scheduler, pathlib.Path(os.environ["WATCHED"])

    def transition(self, key, start, finish, *_, **__):
        """Looks at the workers."""
        for worker in self.scheduler.workers.values():
            held = self.folder / f"{worker.name}.held"
            if finish == "memory" and worker.has_what and worker.processing and not held.exists():
                held.with_suffix(".new").write_text(str(len(worker.has_what)))
                held.with_suffix(".new").rename(held)


def dask_setup(scheduler):
    """The scheduler starts."""
    scheduler.add_plugin(Watching(scheduler))
