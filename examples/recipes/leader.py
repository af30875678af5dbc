#!/usr/bin/env python3
"""leader.py SETTINGS NODE: stands for election, and works whenever it leads."""
import sys
import time

import hags

with hags.Client(sys.argv[1], int(sys.argv[2])) as client, hags.Leader(client, "demo") as election:
    while token := election.wait_elected():
        while election.token == token:
            print("leads, and what it acts on gets the number", token, flush=True)
            time.sleep(1)
        print("leads no more", flush=True)
