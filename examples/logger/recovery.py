"""How a member comes back: it gathers what the survivors hold and what they sent it, replays its receipts in the order of its
determinants, and sends again what was not received. Members that were down together give each other what their replays send."""


def meet(member, sender, down, connection):
    """A member has connected. A survivor first drops what the ended lives of all that were down have sent, and then answers: it
    never receives a message later that depends on a receipt which they do not know."""
    for other, life in down.items():
        if member.lives[other] < life:
            member.lives[other] = life
            member.network.connections.pop(other, None)
    member.network.connections[sender] = connection
    if down and member.number not in down:
        give_all(member, sender, "answer", 0)


def give_all(member, to, kind, taken):
    """Tells a member what this one holds, and sends it again the messages behind this number. They carry nothing more."""
    member.tell(to, kind, table=member.entries(len(member.lives)), taken=member.taken[to])
    for number, receiver, payment in member.sends:
        if receiver == to and number > taken and not (member.bug == "lost-messages" and kind == "table"):
            member.network.send(to, "message", number=number, payment=payment, carried=[])


def recover(member, down):
    """Gathers, replays, and goes on."""
    others = [other for other in range(len(member.lives)) if other != member.number]
    survivors = [other for other in others if other not in down]
    member.network.connect([other for other in others if other in survivors or other < member.number], down)
    member.wait_until(lambda: len(member.answers) == len(survivors) and len(member.network.connections) == len(member.lives))
    gathered = [entry for survivor in survivors for entry in member.answers[survivor]["table"]]
    for number, to, payment in replay(member, gathered):
        if to in down:
            member.network.send(to, "content", number=number, payment=payment)
    for survivor in survivors:
        member.log.told(survivor, member.answers[survivor]["tell"])
    member.log.restart(member.lives[member.number], member.received, len(member.sends))
    member.learn([entry for entry in gathered if member.bug != "own-determinants" or entry[0][2] == member.number])
    member.log.write()
    for other in others:
        give_all(member, other, "table", member.answers.get(other, {"taken": 0})["taken"])


def replay(member, gathered):
    """Receives again, in the order of the determinants, as far as they have no gap. Yields what the member sends again."""
    receipts = {receipt: (sender, number) for (sender, number, to, receipt), _ in gathered if to == member.number}
    order = []
    while len(order) + 1 in receipts:
        order.append(receipts[len(order) + 1])
    order = sorted(order) if member.bug == "replay-order" else order
    yield from member.sends[:]
    for message in order:
        member.wait_until(lambda: message in member.contents)
        yield from member.apply(*message, member.contents[message])
