"""Accounts that pay each other. No payment makes money or destroys it: when none is on its way, the balances have their first
sum. A member is piecewise deterministic: whom it pays, and how much, follows from what it was paid, in that order."""

FIRST_BALANCE, FIRST_PAYMENTS, HOPS = 1000, 2, 12


class Account:
    def __init__(self, member, members, seed):
        self.member, self.members, self.balance, self.digest = member, members, FIRST_BALANCE, seed * 1009 + member * 101

    def receive(self, sender, amount, hops):
        """Takes a payment. Answers what it pays on: two payments or one, with fewer hops to go, or none."""
        self.balance += amount
        self.digest = (self.digest * 31 + sender * 13 + amount * 7 + hops) % 65537
        count = 0 if hops == 0 else 2 if hops > 2 and self.digest % 3 == 0 else 1
        return [self.pay(part, (hops - 1) // count) for part in range(count)]

    def pay(self, part, hops):
        """A payment: the receiver, and the amount with the hops that it has to go."""
        number = self.digest // (7 + part)
        amount = min(self.balance, 1 + number % 9)
        self.balance -= amount
        return (self.member + 1 + number % (self.members - 1)) % self.members, (amount, hops)
