#!/usr/bin/env python3
"""The saved clocks after a log of any size, by a Dask cluster: the log is a bag of pieces, each is replayed by a
worker, and the clocks are joined as a tree.

The file names have to mean the same on every worker (a shared folder), and each worker has the program. Without
--scheduler a cluster of processes on this machine is begun. Progress is on the scheduler's dashboard, whose address is
reported on standard error.
"""
import argparse
import os
import subprocess
import sys
import tempfile

import dask.bag
from distributed import Client, LocalCluster

CHUNK = 1 << 20  # octets that are copied at once


def cuts(log, block):
    """Where the pieces of a log begin and end: about `block` octets each, cut behind line feeds."""
    places = [0]
    size = os.path.getsize(log)
    with open(log, "rb") as file:
        while places[-1] + block < size:
            file.seek(places[-1] + block - 1)
            file.readline()
            places.append(file.tell())
    if places[-1] < size:
        places.append(size)
    return list(zip(places, places[1:]))


def printed(words, **how):
    """What a command prints; what it says on standard error is reported where it fails."""
    done = subprocess.run(words, stdout=subprocess.PIPE, stderr=subprocess.PIPE, check=False, **how)
    if done.returncode:
        raise RuntimeError(f"{' '.join(words)}: {(done.stderr or done.stdout).decode(errors='replace').strip()}")
    return done.stdout


def replayed(piece, program, moment, config, clocks, log):
    """The clocks that a piece brings. The piece is handed on as it is read, so that no more of it is held at once than
    a chunk."""
    first, last = piece
    words = [program, "replay", "--clocks-only", "--moment", moment, config, clocks, "/dev/stdin"]
    with tempfile.TemporaryFile() as told, subprocess.Popen(
        words, stdin=subprocess.PIPE, stdout=told, stderr=subprocess.PIPE
    ) as running, open(log, "rb") as file:
        file.seek(first)
        try:
            while first < last:
                chunk = file.read(min(CHUNK, last - first))
                running.stdin.write(chunk)
                first += len(chunk)
            running.stdin.close()
        except BrokenPipeError:
            pass  # (it has stopped, and says why)
        why = running.stderr.read().decode(errors="replace").strip()
        told.seek(0)
        text = told.read()
        if running.wait():
            raise RuntimeError(f"octets {piece[0]} to {last} of {log}: {why or text.decode(errors='replace').strip()}")
        return text


def joined(texts, program):
    """The join of saved clocks."""
    with tempfile.TemporaryDirectory() as folder:
        names = []
        for text in texts:
            names.append(os.path.join(folder, str(len(names))))
            with open(names[-1], "wb") as file:
                file.write(text)
        return printed([program, "merge-clocks", *names])


def main():
    parser = argparse.ArgumentParser(description=__doc__.split("\n\n")[0])
    parser.add_argument("--scheduler", metavar="ADDRESS", help="of a cluster, as tcp://station:8786")
    parser.add_argument(
        "--workers", metavar="N", type=int, default=os.cpu_count(), help="processes of a cluster on this machine"
    )
    parser.add_argument(
        "--block", metavar="OCTETS", type=int, default=64 << 20, help="size of a piece (it has at most 1000000 lines)"
    )
    parser.add_argument("--moment", metavar="MOMENT", default="0", help="when clocks without moments were seen")
    parser.add_argument("--program", default=os.environ.get("SNMPSEC", "snmpsec"))
    parser.add_argument("config")
    parser.add_argument("clocks")
    parser.add_argument("log")
    asked = parser.parse_args()
    config, clocks, log = (os.path.abspath(name) for name in (asked.config, asked.clocks, asked.log))
    begin = printed([asked.program, "merge-clocks", "--moment", asked.moment, clocks])
    pieces = cuts(log, asked.block)
    if not pieces:  # (an empty log saves what it begins with)
        sys.stdout.buffer.write(begin)
        return
    cluster = (
        None if asked.scheduler else LocalCluster(n_workers=asked.workers, threads_per_worker=1, dashboard_address=":0")
    )
    with Client(asked.scheduler or cluster) as client:
        print(f"{len(pieces)} pieces; progress: {client.dashboard_link}", file=sys.stderr)
        bag = dask.bag.from_sequence(pieces, npartitions=len(pieces)).map(
            replayed, asked.program, asked.moment, config, clocks, log
        )
        whole = bag.reduction(
            lambda texts: joined(texts, asked.program), lambda texts: joined(texts, asked.program), split_every=8
        )
        sys.stdout.buffer.write(whole.compute())
    if cluster:
        cluster.close()


if __name__ == "__main__":
    main()
