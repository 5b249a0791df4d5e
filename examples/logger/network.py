"""A member's connections over TCP on the loopback. A frame is a line of JSON; frames come in order on a connection, messages after
a delay. A thread for each connection puts what it reads into one inbox, with its sender and the sender's life."""
import json
import queue
import random
import socket
import threading
import time


class Network:
    def __init__(self, number, lives, listeners, delay):
        self.number, self.lives, self.listeners, self.delay, self.connections = number, lives, listeners, delay, {}
        self.inbox = queue.Queue()
        threading.Thread(target=self.accept, daemon=True).start()

    def accept(self):
        while True:
            threading.Thread(target=self.read, args=self.listeners[self.number].accept()[:1], daemon=True).start()

    def connect(self, others, down):
        """Connects to these. The first frame says who was down, and in which lives they come back."""
        for other in others:
            self.connections[other] = socket.create_connection(self.listeners[other].getsockname())
            self.send(other, "hello", of=(self.number, self.lives[self.number]), down=[(fallen, self.lives[fallen]) for fallen in down])
            threading.Thread(target=self.read, args=(self.connections[other], other, self.lives[other]), daemon=True).start()

    def send(self, to, kind, **frame):
        """Sends a frame, if there is a connection. What a member misses while it is down is sent again when it is back."""
        try:
            self.connections[to].sendall(json.dumps({"kind": kind, **frame}).encode() + b"\n")
        except (KeyError, OSError):     # the other end was killed
            pass

    def read(self, connection, sender=None, life=0):
        """Reads to the end. A hello says whose connection it is; that of the starter has none."""
        connection.setsockopt(socket.IPPROTO_TCP, socket.TCP_NODELAY, 1)
        try:
            for frame in map(json.loads, connection.makefile("rb")):
                sender, life = frame.get("of", (sender, life))
                time.sleep(random.uniform(0, 2 * self.delay) if frame["kind"] == "message" else 0)
                self.inbox.put((sender, life, frame, connection))
        except (OSError, ValueError):   # the other end was killed, perhaps in the middle of a line
            pass
