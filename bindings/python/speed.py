#!/usr/bin/env python3
"""speed.py TABLE ROOT < BODY: how many bodies of JSON a second of processor time converts to CBOR, by calls for one body and by `each`.

`python3 -I speed.py` takes the installed module, and not the one beside this file.
"""
import sys
import time

import smithy_transcode as st

SECONDS = 2
MANY = 5000


def rate(convert):
    """Bodies a second. `convert` does MANY of them."""
    begun, count = time.process_time(), 0
    while (passed := time.process_time() - begun) < SECONDS:
        convert()
        count += MANY
    return count / passed


def main():
    with open(sys.argv[1], "rb") as file:
        to_cbor = st.Table(file.read()).transcoder(sys.argv[2], st.JSON, st.CBOR)
    body = sys.stdin.buffer.read()

    def one_by_one():
        for _ in range(MANY):
            to_cbor(body)

    print(f"{st._calls.__name__}: {rate(one_by_one):.0f} bodies a second by calls, {rate(lambda: to_cbor.each([body] * MANY)):.0f} by each")


main()
