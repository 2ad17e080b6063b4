"""The signals that end a hunt. Not proved.

Their handler raises, so that a hunt ends wherever it is. But what is raised in code that Python runs by itself, as behind a fork or where an object goes,
is told and lost. So it is noted as well that the end was asked for, and a hunt looks at that note wherever it goes on to the next thing.
What comes until that is heeded is noted alone, and so is what comes while a hunt waits for its processes to end: where that is interrupted,
Python takes a thread for ended that isn't, and waits for good in the end for what nobody ends.
"""
import signal
import time
from typing import Any

# Seconds within which a signal is the same as the first: `timeout` sends its own to the process and then to the group, so that a hunt gets it twice.
SAME = 0.15
SIGNALS = [number for name in ("SIGINT", "SIGTERM", "SIGHUP") for number in [getattr(signal, name, None)] if number is not None]


class Asked:
    """Whether the end was asked for and hasn't been heeded yet, when, and whether it was asked for again since."""
    now = False
    again = False
    at = 0.0


def heed(handler: Any) -> None:
    """What is done at a signal that ends a hunt. What whoever began it has it ignore, as `nohup` does, and a shell for `&`, stays ignored."""
    for number in SIGNALS:
        if signal.getsignal(number) != signal.SIG_IGN:
            signal.signal(number, handler)


def is_same() -> bool:
    """Whether a signal that comes now is the one that came before it."""
    return Asked.at > 0 and time.monotonic() - Asked.at <= SAME


def interrupted(number: int, frame: Any) -> None:
    if is_same():
        return
    Asked.now, Asked.at = True, time.monotonic()
    heed(noted)
    raise KeyboardInterrupt


def noted(number: int, frame: Any) -> None:
    Asked.again = Asked.again or not is_same()


def heed_now() -> None:
    """Ends here what was asked to end and went on."""
    if Asked.now:
        raise KeyboardInterrupt


def heeded() -> None:
    """What was asked for is done; a hunt may go on to tell what it has, unless it was asked for again."""
    Asked.now, Asked.again = Asked.again, False
    heed(interrupted)
