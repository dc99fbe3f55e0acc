"""Runs `handref many` on the workers of dask.distributed: they share the pieces of the files, and
this call then takes all of them together, or does what a worker has left.

    python3 dask-many.py [--scheduler ADDRESS] JOURNAL TASK [OPTION..] PATH..

Without a scheduler two workers are started here. The files, the journal and handref are on a disk
that all workers see. It needs python3-distributed.
"""
import logging
import os
import shutil
import subprocess
import sys
from typing import List

from dask.distributed import Client, LocalCluster


def share(words: List[str], number: int, shares: int) -> int:
    """Does one share of the pieces, with one process at a time."""
    call = [*words, "--jobs", "1", "--shard", f"{number}/{shares}"]
    return subprocess.run(call, stdout=subprocess.DEVNULL).returncode


def main(given: List[str]) -> int:
    if len(given) < 3:
        sys.exit(__doc__)
    address = given[1] if given[0] == "--scheduler" else None
    journal, task, *rest = given[2:] if address else given
    clone = os.path.join(os.path.dirname(os.path.abspath(__file__)), "..", "..", "handref")
    program = shutil.which("handref") or shutil.which(clone)
    if not program:
        sys.exit("dask-many.py: handref is not on the path")
    words = [program, "many", task, *rest, "--journal", journal]
    for name in ("asyncio", "distributed", "tornado"):
        logging.getLogger(name).setLevel(logging.CRITICAL)  # what is said while workers are closed
    with Client(address or LocalCluster(n_workers=2, threads_per_worker=1, processes=False,
                                        dashboard_address="127.0.0.1:0")) as client:
        shares = max(1, sum(client.nthreads().values()))
        client.gather(client.map(share, [words] * shares, range(1, shares + 1),
                                 [shares] * shares, pure=False),
                      errors="skip")  # what a worker has not done is done below
    return subprocess.run(words).returncode


if __name__ == "__main__":
    sys.exit(main(sys.argv[1:]))
