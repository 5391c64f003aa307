"""What the scripts of this folder share: each other as modules, all processors, and how slow this machine is."""

import concurrent.futures
import hashlib
import importlib.machinery
import importlib.util
import os
import pathlib
import random
import resource
import sys

sys.dont_write_bytecode = True
HERE = pathlib.Path(__file__).resolve().parent


def load(name, folder=HERE):
    """A script of this folder or another, whose name has no ending."""
    loader = importlib.machinery.SourceFileLoader(name.replace("-", "_"), str(folder / name))
    made = importlib.util.module_from_spec(importlib.util.spec_from_loader(loader.name, loader))
    sys.modules[loader.name] = made
    loader.exec_module(made)
    return made


def on_all_processors(function, tasks):
    """What the function returns of each task, a tuple of arguments, in turn. As many tasks run at once as there are processors."""
    with concurrent.futures.ProcessPoolExecutor(len(os.sched_getaffinity(0))) as pool:
        yield from pool.map(function, *zip(*tasks))


# What the fixed piece of work took on the machine on which the limits were measured.
UNIT = 0.122


def slowness():
    """How many times as long a fixed piece of work takes here, by the least of five times; never less than once."""

    def once():
        before = resource.getrusage(resource.RUSAGE_SELF).ru_utime
        numbers = random.Random(0)
        sorted(numbers.random() for _ in range(200_000))
        hashlib.sha256(bytes(1 << 24)).digest()
        return resource.getrusage(resource.RUSAGE_SELF).ru_utime - before

    return max(1.0, min(once() for _ in range(5)) / UNIT)
