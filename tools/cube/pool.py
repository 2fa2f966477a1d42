"""Work done by several processes at once, its results in the order in which it was given."""
import os
import pickle
import selectors
import signal

from .files import in_memory
from .trouble import Trouble


class Worker:
    """A process of our own that does one piece of work. Its result comes in a file in memory, and the end of a pipe says that it is there."""

    def __init__(self, work):
        self.value, self.file = None, in_memory()
        self.pipe, theirs = os.pipe()
        # A signal that comes between the fork and `serve` would have the child end the work of others, which is the parent's to do.
        mask = signal.pthread_sigmask(signal.SIG_BLOCK, (signal.SIGINT, signal.SIGTERM))
        self.pid = os.fork()
        if self.pid == 0:
            self.serve(work, mask)
        signal.pthread_sigmask(signal.SIG_SETMASK, mask)
        os.close(theirs)

    def serve(self, work, mask):
        try:
            try:
                signal.signal(signal.SIGINT, signal.SIG_DFL)
                signal.pthread_sigmask(signal.SIG_SETMASK, mask)
                result = (True, work())
            except Trouble as t:
                result = (False, str(t))
            pickle.dump(result, self.file)
            os._exit(0)
        except BaseException:
            os._exit(1)

    def finish(self):
        os.close(self.pipe)
        os.waitpid(self.pid, 0)
        self.pid = 0
        with self.file:
            self.file.seek(0)
            self.value = self.file.read()

    def result(self):
        try:
            fine, value = pickle.loads(self.value)
        except Exception:
            raise Trouble("a process of cube was ended before its work was done")
        if not fine:
            raise Trouble(value)
        return value

    def stop(self):
        if self.pid:
            os.kill(self.pid, signal.SIGTERM)
            os.waitpid(self.pid, 0)


def in_order(pieces, jobs):
    """The results of the pieces of work, `jobs` of them at a time."""
    if jobs == 1:
        for work in pieces:
            yield work()
        return
    given, waiting, running, more = iter(pieces), [], selectors.DefaultSelector(), True
    try:
        while more or waiting:
            if more and len(running.get_map()) < jobs and len(waiting) < 4 * jobs:
                work = next(given, None)
                more = work is not None
                if more:
                    waiting.append(Worker(work))
                    running.register(waiting[-1].pipe, selectors.EVENT_READ, waiting[-1])
            elif running.get_map():
                for key, _ in running.select():
                    running.unregister(key.fileobj)
                    key.data.finish()
            while waiting and waiting[0].value is not None:
                yield waiting.pop(0).result()
    finally:
        for worker in waiting:
            worker.stop()
