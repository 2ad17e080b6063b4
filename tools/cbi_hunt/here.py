"""Makes runs in processes of this machine. Not proved."""
import concurrent.futures.process
import multiprocessing
import os
import signal
import tempfile
import threading
import time
from typing import Any, List, Optional

from cbi_hunt.counts import Progress
from cbi_hunt.kept import Kept
from cbi_hunt.lists import runner_of
from cbi_hunt.runs import Batch, Plan, Runner
from cbi_hunt.signals import SIGNALS, heed, heed_now, heeded, noted
from cbi_show.files import TROUBLE, Fault


RUNNER: Optional[Runner] = None
KEPT = ""


def begin_worker(plan: Plan, batches: str, lock: int, stop: Any) -> None:
    """A worker lets ^C and its like pass, and so do the calls that it makes: it is told to stop by the event, and ends its run first.

    One whose hunt was ended by force ends too, also where it waits for a batch, and doesn't hold the lock that a next call asks for.
    """
    global RUNNER, KEPT
    for number in SIGNALS:
        signal.signal(number, signal.SIG_IGN)
    os.close(lock)
    hunt = os.getppid()

    def end_with_hunt() -> None:
        while os.getppid() == hunt:
            time.sleep(1)
        os._exit(TROUBLE)

    threading.Thread(target=end_with_hunt, daemon=True).start()

    def stopped() -> bool:
        if os.getppid() != hunt:
            os._exit(TROUBLE)
        return bool(stop.is_set())

    RUNNER = runner_of(plan, tempfile.mkdtemp(prefix="worker-", dir=os.path.dirname(batches)), stopped)
    KEPT = batches


def work(batch: Batch) -> Optional[Batch]:
    assert RUNNER
    return RUNNER.make_batch(batch, lambda made: os.path.join(KEPT, made.name()))


def make_here(plan: Plan, kept: Kept, batches: List[Batch], jobs: int, progress: Progress) -> bool:
    """Makes the batches in so many processes; answers whether all were made. After ^C the runs that go on are ended,
    and collected, and the others aren't begun."""
    context = multiprocessing.get_context("fork")
    stop = context.Event()
    futures: List["concurrent.futures.Future[Optional[Batch]]"] = []
    pool = concurrent.futures.ProcessPoolExecutor(jobs, context, begin_worker, (plan, kept.batches, kept.lock.fileno(), stop))
    try:
        try:
            futures += [pool.submit(work, batch) for batch in batches]
            for future in concurrent.futures.as_completed(futures):
                taken(future, kept, progress)
                heed_now()
        finally:
            heed(noted)
        return True
    except KeyboardInterrupt:
        return False
    except concurrent.futures.process.BrokenProcessPool:
        raise Fault("a worker was ended from outside; a hunt with --keep goes on where it stopped")
    finally:
        stop.set()
        for future in futures:
            future.cancel()
        pool.shutdown()
        heeded()


def taken(future: "concurrent.futures.Future[Optional[Batch]]", kept: Kept, progress: Progress) -> None:
    made = future.result()
    if made:
        progress.count.add(kept.batch_path(made))
    progress.step()
