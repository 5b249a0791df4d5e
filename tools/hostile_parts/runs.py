"""Histories of runs by workers: what their pictures have and what is explained of them, beside a player of the protocol that makes one
step after another. It takes the order of deliveries from the picture, and nothing else."""
import json
import random
from typing import NamedTuple

from hostile_parts.logs import note_each
from hostile_parts.pictures import Picture
from program import run

SCRIPTS = 200
WORKERS = (1, 2, 4, 8)
MODULUS = 1_000_000_007


class Note(NamedTuple):
    value: int
    hops: int


class Message(NamedTuple):
    ssn: int
    note: Note
    carried: dict


def plural(count, word):
    return f"{count} {word}{'' if count == 1 else 's'}"


class Member:
    """A member's volatile memory."""

    def __init__(self):
        self.state, self.received, self.sent = 0, [], []
        # for each determinant the members that are known to hold it
        self.table = {}


class Player:
    """A group that makes one step after another, with the marks of its history."""

    def __init__(self, script):
        self.count, self.f, self.behaviour = script["members"], script["f"], script["behaviour"]
        self.members = [Member() for _ in range(self.count)]
        self.channels, self.marks, self.made, self.lost = {}, [], 0, 0
        # what is told of each strike
        self.told = []
        # for each mark of an event that stands, its event
        self.standing = {}
        self.plans = [dict((at, members) for at, members in command[1]) for command in script["commands"] if command[0] == "run"]
        for source, to, value, hops in script["start"]:
            self.send(source, to, Note(value, hops))

    def send(self, source, to, note):
        sender = self.members[source]
        sender.sent.append((to, note))
        ssn = len(sender.sent)
        self.put(source, ssn)
        self.mark("send", ("send", source, ssn), f"member {source} sends its message {ssn} to {to}")

    def put(self, source, ssn):
        """The message goes, with the determinants that too few are known to hold."""
        sender = self.members[source]
        to, note = sender.sent[ssn - 1]
        carried = {determinant: set(holders) for determinant, holders in sender.table.items() if len(holders) <= self.f}
        self.channels.setdefault((source, to), []).append(Message(ssn, note, carried))

    def mark(self, sort, event, title):
        if event:
            self.standing[event] = len(self.marks)
        self.marks.append([sort, title])

    def step(self, member, note):
        """The member's new state, and the message that it sends, if it sends one."""
        if self.behaviour == "relay":
            state = (self.members[member].state + note.value) % MODULUS
            to, value = (member + 1) % self.count, note.value
        else:
            state = (31 * self.members[member].state + note.value + 1) % MODULUS
            to, value = (member + 1 + state % (self.count - 1)) % self.count, state % 1000
        return state, ((to, Note(value, note.hops - 1)) if note.hops > 0 else None)

    def deliver(self, to, source):
        message = self.channels[source, to].pop(0)
        receiver = self.members[to]
        for determinant, holders in message.carried.items():
            receiver.table.setdefault(determinant, set()).update(holders | {to})
        receiver.received.append((source, message.ssn, message.note))
        rsn = len(receiver.received)
        receiver.table[source, message.ssn, to, rsn] = {to}
        receiver.state, sent = self.step(to, message.note)
        self.made += 1
        self.mark("receipt", ("receipt", to, rsn), f"member {to} receipt {rsn}: message {message.ssn} of {source}, state {receiver.state}")
        if sent:
            self.send(to, *sent)
        for plan in self.plans:
            if self.made in plan:
                self.crash(plan.pop(self.made))

    def crash(self, struck):
        down = sorted(set(struck))
        for member in down:
            self.mark("strike", None, f"member {member} is struck")
        held = [self.members[member].table for member in range(self.count) if member not in down]
        gathered = {}
        for table in held:
            for determinant, holders in table.items():
                gathered.setdefault(determinant, set()).update(holders | set(down))
        self.channels = {ends: flight for ends, flight in self.channels.items() if not set(ends) & set(down)}
        before = self.lost
        for member in down:
            self.restore(member, gathered)
        replayed = [len(self.members[member].received) for member in down]
        for member, count in zip(down, replayed):
            self.mark("recovery", None, f"member {member} is recovered, {plural(count, 'receipt')} replayed")
        lost, again = self.lost - before, self.send_again(down)
        self.told.append(f"strike {down} at receipt {self.made}: receipts lost {lost}, replayed {sum(replayed)}, undone {lost}; messages sent again {again}")

    def restore(self, member, gathered):
        """Undoes the member's receipts that nobody holds, with what it did after the first one, and makes the others again."""
        old, new = self.members[member], Member()
        starts = len(old.sent) - sum(self.step_sends(old, place) for place in range(len(old.received)))
        new.sent, new.table = old.sent[:starts], {determinant: set(holders) for determinant, holders in gathered.items()}
        self.members[member] = new
        for place, (source, ssn, note) in enumerate(old.received):
            if (source, ssn, member, place + 1) not in gathered:
                break
            new.received.append((source, ssn, note))
            new.state, sent = self.step(member, note)
            if sent:
                new.sent.append(sent)
        self.lost += len(old.received) - len(new.received)
        self.undo("receipt", member, len(new.received), len(old.received))
        self.undo("send", member, len(new.sent), len(old.sent))

    @staticmethod
    def step_sends(member, place):
        return member.received[place][2].hops > 0

    def undo(self, sort, member, left, before):
        for number in range(left + 1, before + 1):
            mark = self.marks[self.standing.pop((sort, member, number))]
            mark[0], mark[1] = f"{sort} undone", f"{mark[1]}, undone"

    def send_again(self, down):
        """What the logs of senders have and nobody has received goes again, from and to the restored members: so many messages."""
        count = 0
        for source in range(self.count):
            for ssn, (to, _) in enumerate(self.members[source].sent, 1):
                if source in down or to in down:
                    if (source, ssn) not in [taken[:2] for taken in self.members[to].received]:
                        self.put(source, ssn)
                        count += 1
        return count

    def heading(self):
        return f"{self.count} members, f {self.f}, {self.behaviour}: {plural(self.made, 'receipt')} made, {self.lost} undone"


def random_script(source):
    members = source.randint(2, 5)
    f = source.randint(1, members - 1)
    starts = [[*source.sample(range(members), 2), source.randint(0, 99), source.randint(0, 8)] for _ in range(source.randint(1, 6))]
    at = sorted(source.sample(range(1, 40), source.randint(1, 5)))
    plan = [[number, source.sample(range(members), source.randint(1, f))] for number in at]
    return {"version": 1, "members": members, "f": f, "behaviour": source.choice(["relay", "mix"]), "start": starts, "commands": [["run", plan]]}


def played(script, marks):
    """The player, once it has delivered what the picture shows, in that order."""
    player = Player(script)
    for sort, title in marks:
        if sort.startswith("receipt"):
            words = title.replace(":", "").replace(",", "").split()
            player.deliver(int(words[1]), int(words[7]))
    return player


def explained(told):
    """What the explanation of a run tells of each strike, and how many receipts were made and undone."""
    strikes = [line.split(", ", 1)[1].replace(" ", "") for line in told.splitlines() if " at receipt " in line]
    made, undone = told.split("receipts made ")[1].split(";")[0].split(", undone ")
    return strikes, int(made), int(undone)


def judge_run(case):
    """Whether the picture, its heading and what is explained are those of the player."""
    script, workers = case
    ran = run(["show", "--explain", "--workers", str(workers)], json.dumps(script).encode())
    picture = Picture(ran.text)
    marks = picture.titled()
    player = played(script, marks)
    wanted = [line.replace(" ", "") for line in player.told], player.made, player.lost
    yield ran.status == 0 and marks == [tuple(mark) for mark in player.marks], f"the run of {script} by {workers}: {marks} and not {player.marks}"
    yield picture.heading == player.heading(), f"the run of {script} by {workers}: {picture.heading} and not {player.heading()}"
    yield explained(ran.fault) == wanted, f"the run of {script} by {workers}: {ran.fault}, and not {wanted}"
    yield not any(player.channels.values()), f"the run of {script} by {workers}: {player.channels} are in flight"


def try_runs(tally):
    """The pictures of scripts made at random, with plans, by several numbers of workers."""
    source = random.Random(10)
    note_each(tally, judge_run, [(random_script(source), workers) for _ in range(SCRIPTS) for workers in WORKERS])
