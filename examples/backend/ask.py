#!/usr/bin/env python3
"""Asks rowplan as two roles through one process, as a back end would.

usage: examples/backend/ask.py FOLDER, a folder with schema.sql and a file T.csv for each table T; `rowplan` is on the path.
"""
import subprocess
import sys

MOST_BYTES = 1_048_576


class Rowplan:
    """A process of `rowplan session --frames`: an event, and a reply, is a line with its number of bytes and then these bytes."""

    def __init__(self, folder):
        words = ["rowplan", "session", "--frames", "--schema", f"{folder}/schema.sql", "--dir", folder, "-"]
        self.process = subprocess.Popen(words, stdin=subprocess.PIPE, stdout=subprocess.PIPE)

    def reply(self, event):
        """The reply to an event, whatever its text holds."""
        data = event.encode()
        if len(data) > MOST_BYTES:
            raise ValueError(f"an event of {len(data)} bytes")
        self.process.stdin.write(b"%d\n" % len(data) + data)
        self.process.stdin.flush()
        size = int(self.process.stdout.readline())
        return self.process.stdout.read(size).decode()

    def login(self, role):
        """A session of a role: a function from a query to the reply."""
        word, number = self.reply(f"login {role}").split()
        if word != "session":
            raise ValueError(f"login {role!r}: {word} {number}")
        return lambda text: self.reply(f"ask {number} {text}")

    def close(self):
        """Ends the process; its exit status."""
        self.process.stdin.close()
        return self.process.wait()


def main():
    rowplan = Rowplan(sys.argv[1])
    asking = {role: rowplan.login(role) for role in ("alice", "bob")}
    for role, ask in asking.items():
        print(role, ask("SELECT count(*) AS deals, sum(amount) AS total\nFROM deal").split())
    print("bob", asking["bob"]("SELECT id FROM deal\nlogin root").split())
    print("nobody", rowplan.reply("login bob\nlogin root").split())
    print("alice", asking["alice"]("SELECT id FROM deal").split())
    return rowplan.close()


if __name__ == "__main__":
    sys.exit(main())
