#!/usr/bin/env python3
"""pool.py PROCESSES TABLE ROOT SOURCE TARGET < LINES > LINES: transcodes a body a line by a pool of processes.

SOURCE and TARGET are json, json-name or cbor, SOURCE also json-integral or json-name-integral, and TARGET cbor-definite; a body of CBOR is
a line of base64. Where a body is refused, its line is `!` and the number of the refusal. Lines are answered in order. It prints to
standard error how many bodies a second it did.
"""
import base64
import itertools
import multiprocessing
import sys
import time

import smithy_transcode as st
from smithy_transcode.parts import decoded

SOURCES = {it.name: it for it in (st.JSON, st.JSON_NAME, st.CBOR, st.JSON_INTEGRAL, st.JSON_NAME_INTEGRAL)}
TARGETS = {it.name: it for it in (st.JSON, st.JSON_NAME, st.CBOR, st.CBOR_DEFINITE)}
MANY = 4096
transcoder = None


def begin(text, root, source, target):
    """Accepts the table, once in each process."""
    global transcoder
    transcoder = st.Table(text).transcoder(root, SOURCES[source], TARGETS[target]), source == "cbor", target.startswith("cbor")


def answers(lines):
    """The lines that some lines become, as one text."""
    transcode, is_coded, codes = transcoder
    bodies = [line.rstrip(b"\n") for line in lines]
    each = transcode.each(map(decoded, bodies) if is_coded else bodies)
    return b"".join((b"!%d\n" % it.status) if isinstance(it, st.Refused) else (base64.b64encode(it) if codes else it) + b"\n" for it in each)


def main():
    if len(sys.argv) != 6 or sys.argv[4] not in SOURCES or sys.argv[5] not in TARGETS:
        sys.exit(__doc__)
    processes, table, *asked = sys.argv[1:]
    with open(table, "rb") as file:
        text = file.read()
    # what each process would refuse for every body is refused here, before there are any
    try:
        begin(text, *asked)
        transcoder[0](b"")
    except (st.TableRefused, st.NoSuchShape, st.NotAStructure) as refusal:
        sys.exit(f"{table}: {refusal}")
    except st.Refused:
        pass
    lines = iter(sys.stdin.buffer)
    parts = iter(lambda: list(itertools.islice(lines, MANY)), [])
    begun, count = time.monotonic(), 0
    with multiprocessing.Pool(int(processes), begin, [text, *asked]) as pool:
        for part in pool.imap(answers, parts):
            count += part.count(b"\n")
            sys.stdout.buffer.write(part)
    passed = time.monotonic() - begun
    print(f"{processes} processes: {count} bodies, {count / passed:.0f} a second", file=sys.stderr)


if __name__ == "__main__":
    main()
