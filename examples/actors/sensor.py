#!/usr/bin/env python3
"""A sensor: tells the tank each level that comes on standard input, one a line, each some ticks behind the last.

    sensor.py IN OUT TICKS < levels
"""
import sys

from actor import Actor


def main(requests, replies, ticks):
    sensor = Actor(requests, replies)
    (time,) = sensor.returned("clock") or (0,)
    for line in sys.stdin:
        reply = sensor.ask(f"call Plant.Tank Measured {int(line)}")
        print(f"level {int(line)}: {reply or 'the host has ended'}", flush=True)
        if reply in ("", "stopped"):
            return 1
        time += int(ticks)
        if sensor.ask(f"delay until {time}") in ("", "stopped"):
            return 1
    sensor.ask("finish")
    return 0


if __name__ == "__main__":
    sys.exit(main(*sys.argv[1:]))
