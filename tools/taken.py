"""How long a tool takes, also as a multiple of the yardstick: what tools/test and tools/compare share."""
import os
import re
import resource
import subprocess
import time

YARDSTICK = os.path.join(os.path.dirname(os.path.abspath(__file__)), "yardstick")


def processor():
    """The processor seconds of this process, and of all that it began and that has ended."""
    used = [resource.getrusage(it) for it in (resource.RUSAGE_SELF, resource.RUSAGE_CHILDREN)]
    return sum(it.ru_utime + it.ru_stime for it in used)


def span(seconds, word):
    """So many seconds, or minutes where they are many; the word stands before the unit."""
    return f"{seconds:.0f} {word}seconds" if seconds < 120 else f"{seconds / 60:.0f} {word}minutes"


class Taken:
    """What has been taken since this was made. The yardstick is run first, if it is wanted, and isn't counted."""

    def __init__(self, is_measured=True):
        self.yardstick = None
        if is_measured:
            said = subprocess.run([YARDSTICK], stdout=subprocess.PIPE, text=True).stdout
            print(said, end="", flush=True)
            seconds = re.search(r"\d+", said)  # none where it fails, which is no reason to end
            self.yardstick = int(seconds[0]) if seconds else None
        self.began, self.before = time.monotonic(), processor()

    def told(self):
        clock, used = time.monotonic() - self.began, processor() - self.before
        multiple = f", {used / self.yardstick:.1f} yardsticks" if self.yardstick else ""
        return f"took: {span(clock, '')} by the clock on {os.cpu_count()} cores, {span(used, 'processor ')}{multiple}"
