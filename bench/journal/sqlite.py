"""Inserts 1,000 rows into a table of SQLite, one a transaction, with the WAL and every commit synced, with blobs of 40
bytes and of 4,000, and prints how many nanoseconds they took."""

import sqlite3
import time

RECORDS = 1000


def inserted(path: str, payload: bytes) -> int:
    base = sqlite3.connect(path, isolation_level=None)
    base.execute("PRAGMA journal_mode=WAL")
    base.execute("PRAGMA synchronous=FULL")
    base.execute("CREATE TABLE log (id INTEGER PRIMARY KEY, payload BLOB)")
    start = time.perf_counter_ns()
    for _ in range(RECORDS):
        base.execute("INSERT INTO log (payload) VALUES (?)", (payload,))
    return time.perf_counter_ns() - start


for size in 40, 4000:
    print(f"append-of-{size}-bytes", RECORDS, inserted(f"sqlite{size}", b"\7" * size))
