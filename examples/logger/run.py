#!/usr/bin/env python3
"""Runs a group of processes that pay each other and log causally, kills some of them, and starts these again. Each life of a
member writes a log into FOLDER, for fblrun check FOLDER/*.log"""
import argparse
import json
import multiprocessing
import pathlib
import socket
import sys
import time

import member
from accounts import FIRST_BALANCE

BUGS = ("stable-at-f", "not-logged", "optimistic", "incomplete-piggyback", "premature-stability", "replay-order",
        "own-determinants", "old-incarnation", "lost-messages")


class Group:
    def __init__(self, options):
        self.options, self.lives, self.processes, self.orders = options, [0] * options.members, {}, {}
        self.listeners = [socket.create_server(("127.0.0.1", 0)) for _ in self.lives]
        for number in range(options.members):
            self.start(number, [])

    def start(self, number, down):
        """Starts a life of a member as a process of its own, which ends with this one, and connects to it."""
        given = (number, list(self.lives), down, self.options, self.listeners)
        self.processes[number] = multiprocessing.Process(target=member.main, args=given, daemon=True)
        self.processes[number].start()
        self.orders[number] = socket.create_connection(self.listeners[number].getsockname()).makefile("rw")

    def ask(self, number, **order):
        """How far a member is; None if it has ended."""
        try:
            print(json.dumps({"kind": "order", **order}), file=self.orders[number], flush=True)
            return json.loads(self.orders[number].readline() or "null")
        except OSError:
            return None

    def restart(self, down):
        """One of these has crashed: the others are killed with it, and all come back."""
        for number in down:
            self.processes[number].kill()
            self.processes[number].join()
            if self.processes[number].exitcode != -9:
                sys.exit(f"member {number} has ended by itself, with {self.processes[number].exitcode}")
            self.lives[number] += 1
        for number in down:
            self.start(number, down)
        print("killed and back:", *(f"member {number} in life {self.lives[number]}" for number in down))

    def run(self):
        """Until nothing is in flight, or nothing has come for a while. Each next crash comes when all members are there."""
        crashes, states, since, are_ready = self.options.crash, [], 0, False
        while True:
            down, receipt = crashes[0] if crashes and are_ready else ([], None)
            before, states = states, [self.ask(number, are_all_ready=are_ready, crash_at=receipt if [number] == down[:1] else None)
                                      for number in range(len(self.lives))]
            are_ready = all(state and state["ready"] for state in states)
            since = since if states == before else time.monotonic()
            if None in states:
                self.restart(crashes.pop(0)[0] if crashes else [states.index(None)])
            elif are_ready and states == before:
                sent, received, total = (sum(state[key] for state in states) for key in ("sent", "received", "balance"))
                if sent == received or time.monotonic() > since + 1.5 + self.options.delay / 500:
                    return sent, received, total
            time.sleep(0.01)


def crash(text):
    """1@5 kills member 1 at its receipt 5; 1,2@5 member 2 with it; a second crash comes when all are back"""
    down, _, receipt = text.partition("@")
    return [int(number) for number in down.split(",")], int(receipt)


def main():
    words = argparse.ArgumentParser(description=__doc__)
    words.add_argument("folder", metavar="FOLDER", type=pathlib.Path)
    words.add_argument("--members", type=int, default=4, choices=range(3, 6))
    words.add_argument("--f", type=int, default=1, choices=range(1, 5), help="how many members may be down at once")
    words.add_argument("--crash", type=crash, action="append", default=[], metavar="MEMBERS@RECEIPT", help=crash.__doc__)
    words.add_argument("--bug", choices=BUGS, help="a planted bug, which README.md describes")
    words.add_argument("--acknowledge", action="store_true", help="a receiver says that it holds what a message carried")
    words.add_argument("--seed", type=int, default=1, help="of payments and delays")
    words.add_argument("--delay", type=float, default=20, help="milliseconds that a message takes on the average")
    options = words.parse_args()
    if max([options.f, *(max(down) for down, _ in options.crash)]) >= options.members:
        words.error("f and the members that crash are less than the number of members")
    options.folder.mkdir(parents=True, exist_ok=True)
    for path in options.folder.glob("member-*.log"):
        path.unlink()
    multiprocessing.set_start_method("fork")
    sent, received, total = Group(options).run()
    print(f"sent {sent}, received {received}, balances {total} of {FIRST_BALANCE * options.members}")
    return int(sent != received or total != FIRST_BALANCE * options.members)


if __name__ == "__main__":
    sys.exit(main())
