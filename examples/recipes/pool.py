#!/usr/bin/env python3
"""pool.py SETTINGS NODE: a worker of a pool that shares twelve parts of its work; no two workers have one part."""
import sys
import time

import hags

with hags.Client(sys.argv[1], int(sys.argv[2])) as client, hags.Shares(client, "demo", parts=12) as shares:
    for share in shares:
        print("works on part", share.part, "of", shares.owned, flush=True)
        time.sleep(0.3)
