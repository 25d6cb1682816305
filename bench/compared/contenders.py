"""Who is compared. Each has a name, does so many operations in one go (`count`), and tells what an operation outlasts."""
import os
import struct
import subprocess
import sys

try:
    import sqlite3
except ImportError:
    sqlite3 = None

from .work import ACCOUNTS, MAIL_DATA, MAILS, SLOT_BYTES, SLOT_DATA, SLOTS, Bank

# A frame for each block that the work fills, so that no page has to leave memory.
PAIR = ["--frames", "256", "--blocks", "1024", "--inodes", "128", "--scratch", "1"]


def packed(balances):
    """Balances as they lie in a file or region: 8 bytes each, the lowest first."""
    return struct.pack(f"<{len(balances)}Q", *balances)


class Rio:
    """A run of `rio serve`, of whose operations so many are sent together. With None, each line is sent by itself."""

    def __init__(self, program, memory, folder, together):
        self.name = f"rio, {memory.name}, " + ("line by line" if together is None else f"by {together} operations")
        self.outlasts = memory.outlasts
        self.count = together or 1
        self.by_line = together is None
        self.bank = Bank()
        files = [os.path.join(folder, name) for name in ("image", "disk")]
        subprocess.run([program, "format", *files, *PAIR], stdout=subprocess.DEVNULL, check=True)
        self.run = subprocess.Popen([program, "serve", *files], stdin=subprocess.PIPE, stdout=subprocess.PIPE)
        self.ask(["create /slots", f"truncate /slots {SLOT_BYTES * SLOTS}", "mkdir /mails", "region /bank 1 2", "begin /bank",
                  f"range /bank 0 {8 * ACCOUNTS}", f"put /bank 0 {packed(self.bank.balances).hex()}", "commit /bank"])

    def ask(self, lines):
        self.run.stdin.write("".join(line + "\n" for line in lines).encode())
        self.run.stdin.flush()
        for line in lines:
            reply = self.run.stdout.readline()
            if not reply.startswith(b"ok"):
                sys.exit(f"compare: rio answers '{line[:60]}' by {reply}")

    def do(self, work, numbers):
        lines = [line for n in numbers for line in getattr(self, work)(n)]
        if self.by_line:
            for line in lines:
                self.ask([line])
        else:
            self.ask(lines)

    def write(self, n):
        return [f"write /slots {SLOT_BYTES * (n % SLOTS)} {SLOT_DATA[n % 256].hex()}"]

    def mail(self, n):
        return ["create /mails/new", f"write /mails/new 0 {MAIL_DATA[n % 256].hex()}", f"rename /mails/new /mails/{n % MAILS}"]

    def transfer(self, n):
        changes = self.bank.moved(n)
        ranges = [f"range /bank {8 * account} 8" for account, _, _ in changes]
        puts = [f"put /bank {8 * account} {packed([new]).hex()}" for account, _, new in changes]
        return ["begin /bank", *ranges, *puts, "commit /bank"]

    def end(self):
        self.run.stdin.close()
        if self.run.wait() != 0:
            sys.exit(f"compare: rio ended with status {self.run.returncode}")


class OneByOne:
    """What does one operation after the other, by a call for each."""

    count = 1

    def do(self, work, numbers):
        for n in numbers:
            getattr(self, work)(n)


class Files(OneByOne):
    """Plain files, of which each change is brought to the device or none is."""

    def __init__(self, folder, in_memory=None):
        is_synced = in_memory is None
        self.name = "files, fdatasync each time" if is_synced else f"files in {in_memory}, no sync"
        self.outlasts = "that, a kill, a crash, power" if is_synced else "that, a kill"
        self.sync, self.sync_folder = (os.fdatasync, os.fsync) if is_synced else (lambda file: None,) * 2
        self.bank = Bank()
        self.mails = os.path.join(folder, "mails")
        os.mkdir(self.mails)
        self.mails_folder = os.open(self.mails, os.O_RDONLY)
        self.slots, self.accounts, self.log = (
            os.open(os.path.join(folder, name), os.O_RDWR | os.O_CREAT) for name in ("slots", "accounts", "log"))
        self.put(self.slots, bytes(SLOT_BYTES * SLOTS), 0)
        self.put(self.accounts, packed(self.bank.balances), 0)
        self.put(self.log, bytes(32), 0)

    def put(self, file, data, at):
        if os.pwrite(file, data, at) != len(data):
            sys.exit("compare: a file was not written whole")
        self.sync(file)

    def write(self, n):
        self.put(self.slots, SLOT_DATA[n % 256], SLOT_BYTES * (n % SLOTS))

    def mail(self, n):
        new = os.path.join(self.mails, "new")
        file = os.open(new, os.O_WRONLY | os.O_CREAT | os.O_EXCL)
        self.put(file, MAIL_DATA[n % 256], 0)
        os.close(file)
        os.rename(new, os.path.join(self.mails, str(n % MAILS)))
        self.sync_folder(self.mails_folder)

    def transfer(self, n):
        changes = self.bank.moved(n)
        self.put(self.log, b"".join(struct.pack("<QQ", 8 * account, old) for account, old, _ in changes), 0)
        for account, _, new in changes:
            os.pwrite(self.accounts, packed([new]), 8 * account)
        self.sync(self.accounts)
        self.put(self.log, bytes(32), 0)

    def end(self):
        for file in (self.slots, self.accounts, self.log, self.mails_folder):
            os.close(file)


class Sqlite(OneByOne):
    """A database with this journal. Each statement is a transaction, but those of a transfer, which are one together."""

    def __init__(self, folder, journal):
        is_log = journal == "wal"
        self.name = "sqlite, FULL, write-ahead log" if is_log else "sqlite, FULL, rollback journal"
        self.outlasts = "that, a kill, a crash, power" + ("" if is_log else " (note 2)")
        self.bank = Bank()
        self.base = sqlite3.connect(os.path.join(folder, "base"), isolation_level=None)
        if self.base.execute(f"PRAGMA journal_mode = {journal}").fetchone()[0] != journal:
            sys.exit(f"compare: sqlite has no journal of the kind {journal} in {folder}")
        self.base.execute("PRAGMA synchronous = FULL")
        self.base.execute("BEGIN")
        self.base.execute("CREATE TABLE slots (slot INTEGER PRIMARY KEY, data BLOB)")
        self.base.execute("CREATE TABLE mails (name TEXT PRIMARY KEY, data BLOB)")
        self.base.execute("CREATE TABLE accounts (account INTEGER PRIMARY KEY, balance INTEGER)")
        self.base.executemany("INSERT INTO slots VALUES (?, ?)", ((slot, bytes(SLOT_BYTES)) for slot in range(SLOTS)))
        self.base.executemany("INSERT INTO accounts VALUES (?, ?)", enumerate(self.bank.balances))
        self.base.execute("COMMIT")

    def write(self, n):
        self.base.execute("UPDATE slots SET data = ? WHERE slot = ?", (SLOT_DATA[n % 256], n % SLOTS))

    def mail(self, n):
        self.base.execute("INSERT OR REPLACE INTO mails VALUES (?, ?)", (str(n % MAILS), MAIL_DATA[n % 256]))

    def transfer(self, n):
        self.base.execute("BEGIN")
        for account, _, new in self.bank.moved(n):
            self.base.execute("UPDATE accounts SET balance = ? WHERE account = ?", (new, account))
        self.base.execute("COMMIT")

    def end(self):
        self.base.close()
