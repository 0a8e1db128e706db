#!/usr/bin/env python3
"""Turns JSON lines of expected results into the plain lines that `hs1` reads.

    vectors.py FILE.jsonl > FILE.txt

The kind of each record is told by its fields:
  stream, seed, nonce, place, bytes                     -> hs1 streams
  suite, key, nonce, header, text, siv, ciphertext      -> hs1 check
  call, suite, .., refused, siv_after, out_after        -> hs1 refusals
"""
import json
import sys

STREAM_COLUMNS = "stream seed nonce place bytes"
SEALED_COLUMNS = "suite key nonce header text siv ciphertext"
CALL_COLUMNS = (
    "call suite key nonce header input siv siv_room out_room refused siv_after out_after"
)


def call_record(record):
    """Opening has a ciphertext and a SIV given, sealing a text and a SIV buffer."""
    sealing = record["call"] == "seal"
    return {
        **record,
        "input": record["text" if sealing else "ciphertext"],
        "siv": record.get("siv", ""),
        "siv_room": record.get("siv_room", 0),
        "siv_after": record.get("siv_after", ""),
    }


def line_of(record):
    if "call" in record:
        columns, record = CALL_COLUMNS, call_record(record)
    elif "stream" in record:
        columns = STREAM_COLUMNS
    else:
        columns = SEALED_COLUMNS
    fields = (str(record[name]) for name in columns.split())
    return " ".join(field or "-" for field in fields)


def main():
    if len(sys.argv) != 2:
        sys.exit("usage: vectors.py FILE.jsonl")
    with open(sys.argv[1]) as file:
        records = [json.loads(line) for line in file if line.strip()]
    if any("call" in record for record in records):
        print("# " + CALL_COLUMNS)
    for record in records:
        print(line_of(record))


main()
