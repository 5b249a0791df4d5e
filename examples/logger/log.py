"""The log that one life of a member writes for `fblrun check`: an object on the first line, and then a step on each line: a
receipt, what its message brought, and the sends that follow. A step is one write, before a message of it leaves: a kill tears
at most the last line. A determinant is (sender, number of the send, receiver, number of the receipt)."""
import json
import os


class Log:
    def __init__(self, path, member, members, f):
        self.path, self.member, self.members, self.f, self.file, self.step = path, member, members, f, None, []

    def send(self, number, to):
        """The member sends its message of this number. A message that is sent again is no new send."""
        self.step.append(["send", self.member, number, to])

    def receipt(self, number, sender, sent, life):
        """The member receives the message `sent`. In this life its sender sent it, or sent it again."""
        self.step.append(["receipt", self.member, number, sender, sent] + ([life] if life else []))

    def hold(self, determinant):
        """The member's memory has the determinant. Directly behind a receipt stands only what that message brought."""
        self.step.append(["hold", self.member, *determinant])

    def tell(self, to, identity):
        """The member sends a control message: an acknowledgement, or what another member recovers from."""
        self.step.append(["tell", self.member, to, identity])

    def told(self, sender, identity):
        """The member receives a control message. What it learns from it stands behind."""
        self.step.append(["told", self.member, sender, identity])

    def restart(self, life, receipts, sends):
        """The member is back, with its first receipts and sends. Before it stands what the member was told for that."""
        self.step.append(["restart", self.member, life, receipts, sends])

    def write(self):
        """Ends the step. The first step makes the file: a life that never came back has none."""
        header = [] if self.file else [{"version": 2, "members": self.members, "f": self.f, "strike": []}]
        self.file = self.file or os.open(self.path, os.O_WRONLY | os.O_CREAT | os.O_EXCL, 0o644)
        os.write(self.file, "".join(json.dumps(line) + "\n" for line in header + [self.step]).encode())
        self.step = []
