#!/usr/bin/env python3
"""Converts a file with a body on each line by dask.distributed.

    convert.py WORKERS TABLE ROOT FROM TO FILE FOLDER

WORKERS is how many processes of this machine do it, or the address of a scheduler, such as tcp://host:8786. FROM is json, json-name,
json-integral, json-name-integral or cbor, and TO is json, json-name, cbor or cbor-definite. The answers to each part of the file become a
file in FOLDER, and `cat FOLDER/*` has them in order. Workers elsewhere read and write the same file system.
"""
import os
import sys
import time

import smithy_transcode as st
from dask.distributed import Client, LocalCluster
from smithy_transcode.parts import Task, parts_of

SOURCES = {it.name: it for it in (st.JSON, st.JSON_NAME, st.JSON_INTEGRAL, st.JSON_NAME_INTEGRAL, st.CBOR)}
TARGETS = {it.name: it for it in (st.JSON, st.JSON_NAME, st.CBOR, st.CBOR_DEFINITE)}


def able(client):
    """The workers that have the library, or None if all have it. It reports why another one gets no parts."""

    def load():
        import smithy_transcode  # noqa: F401

    faults = client.run(load, on_error="return")
    for worker, fault in faults.items():
        if fault:
            print(f"{worker} gets no parts: {fault}", file=sys.stderr)
    if faults and all(faults.values()):
        sys.exit("no worker has the library")
    return [worker for worker, fault in faults.items() if not fault] if any(faults.values()) else None


def convert(client, task, parts, folder):
    """The counts of each part, once all are there."""
    os.makedirs(folder, exist_ok=True)
    workers = able(client)
    names = [os.path.join(os.path.abspath(folder), f"{number:06}") for number in range(len(parts))]
    return client.gather([client.submit(task.convert, *it, pure=False, workers=workers) for it in zip(parts, names)])


def main():
    workers, table, root, source, target, file, folder = sys.argv[1:]
    with open(table, "rb") as text:
        task = Task(text.read(), root, SOURCES[source], TARGETS[target])
    cluster = LocalCluster(n_workers=int(workers), threads_per_worker=1, dashboard_address=None) if workers.isdigit() else workers
    with Client(cluster) as client:
        begun = time.monotonic()
        counts = convert(client, task, parts_of(os.path.abspath(file)), folder)
        passed = time.monotonic() - begun
    bodies = sum(it.bodies for it in counts)
    print(f"{bodies} bodies, {sum(it.refused for it in counts)} refused, {bodies / passed:.0f} a second")


if __name__ == "__main__":
    main()
