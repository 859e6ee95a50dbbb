"""The proved program bench, started once for each run file."""

import os
import subprocess
from concurrent.futures import ThreadPoolExecutor

ROOT = os.path.normpath(os.path.join(os.path.dirname(os.path.abspath(__file__)), ".."))
PROGRAM = os.path.join(ROOT, "crates", "bench", "out", "bench")


class Trouble(Exception):
    """What keeps a file, the program or the output from being used, in one line."""


class Program:
    """Proved and built.  The script ./bench sees to that, run once on a sound file."""

    def __init__(self, data):
        printed(os.path.join(ROOT, "bench"), data)

    def reports(self, files, tell):
        """The reports of the files, in their order; `tell` is told how many are there.

        Starting the program takes most of the time, so as many run at once as there are processors.
        """
        reports = []
        with ThreadPoolExecutor(os.cpu_count() or 1) as pool:
            for report in pool.map(lambda data: printed(PROGRAM, data), files):
                reports.append(report)
                tell(len(reports))
        return reports


def printed(program, data):
    """What a program prints for the file on its standard input."""
    try:
        ended = subprocess.run([program], input=data, stdout=subprocess.PIPE)
    except OSError as error:
        raise Trouble("%s cannot be started: %s" % (program, error.strerror))
    if ended.returncode:
        raise Trouble("%s ended with status %d" % (program, ended.returncode))
    return ended.stdout.decode("ascii", "replace")
