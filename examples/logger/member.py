"""One member: it receives payments, pays others, and logs causally (family-based logging with the parameter f): a message
carries each determinant that at most f members are known to hold, and its receiver holds them before it sends anything."""
import random
import signal

import recovery
from accounts import FIRST_PAYMENTS, HOPS, Account
from log import Log
from network import Network


class Member:
    """What a crash takes: the account, the contents that were sent, and the table of determinants with their known holders."""

    def __init__(self, number, lives, options, network):
        self.number, self.lives, self.options, self.bug, self.network = number, lives, options, options.bug, network
        self.log = Log(options.folder / f"member-{number}-life-{lives[number]}.log", number, options.members, options.f)
        self.account, self.received, self.tells = Account(number, options.members, options.seed), 0, 1000000 * lives[number]
        self.taken = [0] * options.members      # the number of the last message from each member
        self.table, self.sends = {}, []         # of each determinant the known holders; of each send the number, receiver and payment
        self.note_sends([self.account.pay(part, HOPS) for part in range(FIRST_PAYMENTS)])
        self.is_ready, self.are_all_ready, self.receives, self.crash_at = False, False, False, None
        self.waiting, self.answers, self.contents = [], {}, {}

    def begin(self):
        """The first life. Its first payments are in the log before anybody can crash."""
        self.log_step(self.sends)
        self.network.connect(range(self.number), [])
        self.wait_until(lambda: len(self.network.connections) == len(self.lives))    # the others, and the starter
        self.is_ready = True
        self.wait_until(lambda: self.are_all_ready)
        for send in self.sends:
            self.transmit(*send)

    def run(self):
        """Handles what has waited, and then what comes."""
        self.is_ready = self.receives = True
        for waited in self.waiting:
            self.take_frame(*waited)
        self.wait_until(lambda: False)

    def wait_until(self, has_come):
        while not has_come():
            self.take_frame(*self.network.inbox.get())

    def take_frame(self, sender, life, frame, connection):
        """A frame of the starter, of a recovery, or to be handled by a member that receives. Lives that have ended are not heard."""
        if frame["kind"] == "order":
            self.network.connections[None], self.crash_at, self.are_all_ready = connection, frame["crash_at"], frame["are_all_ready"]
            self.network.send(None, "state", ready=self.is_ready, sent=len(self.sends), received=self.received, balance=self.account.balance)
        elif life < self.lives[sender] and self.bug != "old-incarnation":
            return
        elif frame["kind"] == "hello":
            recovery.meet(self, sender, dict(frame["down"]), connection)
        elif frame["kind"] == "answer":
            self.answers[sender] = frame
        elif self.receives:
            self.handle(sender, life, frame)
        else:
            self.waiting.append((sender, life, frame, connection))
            self.contents[sender, frame.get("number")] = frame.get("payment")

    def handle(self, sender, life, frame):
        """A message, if it was not taken already, or a control message."""
        if frame["kind"] == "message" and frame["number"] > self.taken[sender]:
            self.receive(sender, life, frame["number"], frame["payment"], frame["carried"])
        elif "tell" in frame:
            self.log.told(sender, frame["tell"])
            self.learn(frame["table"])
            self.log.write()

    def receive(self, sender, life, number, payment, carried):
        """A receipt. The whole step is in the log before a message of it leaves."""
        own = [((sender, number, self.number, self.received + 1), [])]
        self.log.receipt(self.received + 1, sender, number, life)
        self.learn(carried + (own if self.bug not in ("not-logged", "optimistic") else []))
        sends = self.apply(sender, number, payment)
        self.log_step(sends)
        is_last = self.crash_at and self.received >= self.crash_at
        for send in sends[:1] if is_last else sends:
            self.transmit(*send)
        if is_last:
            signal.raise_signal(signal.SIGKILL)
        if self.bug == "optimistic":
            self.learn(own)
        if self.options.acknowledge and carried:
            self.tell(sender, "acknowledgement", table=[(determinant, [self.number]) for determinant, _ in carried])

    def apply(self, sender, number, payment):
        """What a receipt makes of the account, and the sends that come of it: the same when it is replayed."""
        self.received += 1
        self.taken[sender] = number
        return self.note_sends(self.account.receive(sender, *payment))

    def note_sends(self, payments):
        """Numbers what is paid, and keeps the contents for receivers that crash."""
        self.sends += [(number, *payment) for number, payment in enumerate(payments, len(self.sends) + 1)]
        return self.sends[len(self.sends) - len(payments):]

    def log_step(self, sends):
        for number, to, _ in sends:
            self.log.send(number, to)
        self.log.write()

    def learn(self, entries):
        """Merges determinants with their known holders into the table. The member holds them now."""
        for determinant, holders in ((tuple(determinant), holders) for determinant, holders in entries):
            if determinant not in self.table:
                self.log.hold(determinant)
            self.table.setdefault(determinant, set()).update(holders, [self.number])

    def entries(self, most):
        """The table's entries with at most so many known holders."""
        return [(determinant, list(holders)) for determinant, holders in self.table.items() if len(holders) <= most]

    def transmit(self, number, to, payment):
        """Sends a message with what it carries."""
        carried = self.entries(self.options.f - (self.bug == "stable-at-f"))
        carried = carried[:-1] if self.bug == "incomplete-piggyback" and number % 5 == 0 else carried
        self.network.send(to, "message", number=number, payment=payment, carried=carried)
        for determinant, _ in carried if self.bug == "premature-stability" else []:
            self.table[determinant].add(to)

    def tell(self, to, kind, **frame):
        """Sends a control message."""
        self.tells += 1
        self.log.tell(to, self.tells)
        self.log.write()
        self.network.send(to, kind, tell=self.tells, **frame)


def main(number, lives, down, options, listeners):
    """A life of a member: its first one, or the one after a crash in which these were down."""
    signal.alarm(10)    # seconds, after which a life is ended
    random.seed(f"{options.seed} {number} {lives}")
    member = Member(number, lives, options, Network(number, lives, listeners, options.delay / 1000))
    recovery.recover(member, down) if down else member.begin()
    member.run()
