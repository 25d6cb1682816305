"""The work by which rio and others are compared: writes in place, mails, and transfers between accounts."""

SLOT_BYTES = 64
SLOTS = 64
MAIL_BYTES = 2048
MAILS = 50
ACCOUNTS = 512
BALANCE = 1000
AMOUNT = 10

# By the name of the method that does one: what it is called in the table.
WORKS = {"write": "write of 64 bytes", "mail": "mail drop of 2 KiB", "transfer": "transfer"}


def numbered(count):
    """Data of so many bytes, for each of 256 numbers: each byte is one more than the one before it."""
    return [bytes((n + i) % 256 for i in range(count)) for n in range(256)]


SLOT_DATA = numbered(SLOT_BYTES)
MAIL_DATA = numbered(MAIL_BYTES)


class Bank:
    """What the accounts hold, as a client knows it. Each is debited and credited once in so many transfers as there are accounts."""

    def __init__(self):
        self.balances = [BALANCE] * ACCOUNTS

    def moved(self, n):
        """The two accounts of the nth transfer, each with its old and its new balance."""
        changes = []
        for account, change in ((n % ACCOUNTS, -AMOUNT), ((7 * n + 3) % ACCOUNTS, AMOUNT)):
            old = self.balances[account]
            self.balances[account] = old + change
            changes.append((account, old, old + change))
        return changes
