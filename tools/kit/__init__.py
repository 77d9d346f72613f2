"""Where the kit's parts stand, and how many checks it can make at the same time."""
import os
import pathlib
import re
import shutil


def folders():
    """The folder of the kit's commands, 'rattle' among them, and those above it."""
    folder = pathlib.Path(shutil.which("rattle") or shutil.which("rt") or "rt").resolve().parent
    return [folder, *folder.parents]


def root():
    """The folder of the proved logic, the kit's libraries and its toolchain, or None."""
    return next((folder for folder in folders() if (folder / "logic_built").exists()), None)


def lanes(need):
    """How many checks there are processors for, and memory, where one takes so many gigabytes; one at least."""
    try:
        free = int(re.search(r"MemAvailable:\s+(\d+)", pathlib.Path("/proc/meminfo").read_text())[1]) >> 20
    except (OSError, TypeError):
        return 1
    return max(1, min(len(os.sched_getaffinity(0)), free // need))


def jobs(need):
    """How many checks to make at the same time: RT_JOBS, as 'rt' reads it, or else as many as fit."""
    said = os.environ.get("RT_JOBS", "")
    return int(said) if re.fullmatch("[1-9][0-9]*", said) else lanes(need)
