#!/usr/bin/env python3
"""An actuator: waits until the tank has its valve moved, and says how it stands then, up to the end of the host.

    actuator.py IN OUT
"""
import sys

from actor import Actor


def main(requests, replies):
    actuator = Actor(requests, replies)
    while (reply := actuator.ask("call Plant.Tank Moved")).startswith("returned "):
        print("the valve is", "open" if reply == "returned 1" else "shut", flush=True)
    print(reply or "the host has ended")


if __name__ == "__main__":
    main(*sys.argv[1:])
