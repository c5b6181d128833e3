"""Has `rt` take the sum of each crate's files once where it sums a crate, and find the crates below each once, for who
starts it with this folder on PYTHONPATH (.ci/run and tools/build) or loads this file (tools/edits).

A crate's sum is made of its files and of the sums of the crates that it stands on. Some kits take these anew for each
way that leads down to a crate: for td_listen 367,158 times, reckoned at half an hour in which nothing is proved. The
sums are the same, and so is all else that `rt` does. The crates below one are found anew by each way too: 30 seconds
for each time that all crates are read.
"""

import threading
from importlib.machinery import SourceFileLoader

load = SourceFileLoader.exec_module


def sum_once(crate_type):
    """Within one sum each crate's is taken once. The next one reads all files again."""
    sum_anew, now = crate_type.stamp, threading.local()

    def stamp(crate):
        known = getattr(now, "known", None)
        if known is None:
            now.known = {}
            try:
                return sum_anew(crate)
            finally:
                now.known = None
        if crate.folder not in known:
            known[crate.folder] = sum_anew(crate)
        return known[crate.folder]

    crate_type.stamp = stamp


def find_once(crate_type):
    """Finds the crates below a crate anew only where those that it names have changed."""
    find_anew = crate_type.below

    def below(crate):
        deps, known = tuple(map(id, crate.deps)), getattr(crate, "known_below", None)
        if known is None or known[0] != deps:
            known = crate.known_below = deps, find_anew(crate)
        return list(known[1])

    crate_type.below = below


def exec_module(loader, module):
    load(loader, module)
    if module.__name__ == "rtlib" and hasattr(getattr(module, "Crate", None), "stamp"):
        sum_once(module.Crate)
        if hasattr(module.Crate, "below"):
            find_once(module.Crate)


SourceFileLoader.exec_module = exec_module
