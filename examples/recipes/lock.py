#!/usr/bin/env python3
"""lock.py SETTINGS NODE: takes a lock, says its fencing number, and holds it for three seconds."""
import sys
import time

import hags

with hags.Client(sys.argv[1], int(sys.argv[2])) as client:
    with hags.Lock(client, "demo") as lock:
        for _ in range(3):
            print("held, and what it guards gets the number", lock.token, flush=True)
            time.sleep(1)
