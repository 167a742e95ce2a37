"""A storm on the gateway: 100 connections of valid traffic, garbage and cut streams.

    python3 storm.py PORT SECONDS FEWEST

Each connection is told what to do by a number of its own. At the end it prints how much was sent and what came back. Status 1 if a
reply was none, not behind a session header or not marked as a reply, or if one of the commands below was done fewer times than
FEWEST, for which it goes on for LONGER seconds more. That the gateway stands and serves a fresh client is for the caller to look at.
"""
import collections
import random
import socket
import struct
import sys
import time

CONNECTIONS = 100
LONGER = 30  # seconds at most
NAMES = [b"REVOKED.LST", b"\\office.crt", b"BENCH-1.CRT", b"NONE", b""]
COMMANDS = [0x04, 0x08, 0x0A, 0x0B, 0x0C, 0x0D, 0x10, 0x11, 0x23, 0x24, 0x25, 0x2B, 0x2D, 0x2E, 0x2F, 0x32, 0x34, 0x71, 0x72, 0x73, 0x74,
            0x75, 0x80, 0xA2, 0xA4]


def block(words, data):
    return bytes([len(words) // 2]) + words + struct.pack("<H", len(data)) + data


def header(command, dice, uid, tid):
    flags2 = dice.choice([0x4001, 0x0001, 0x4000])
    return b"\xffSMB" + struct.pack("<BLBHH8xHHHHH", command, 0, 8, flags2, 0, 0, tid, dice.randrange(1, 4), uid, dice.randrange(65536))


# A storm in which one of these was hardly ever done shows little.
MUST_BE_DONE = {0x24: "LOCKING_ANDX", 0x2D: "OPEN_ANDX", 0x2E: "READ_ANDX", 0x2F: "WRITE_ANDX", 0x75: "TREE_CONNECT_ANDX", 0xA2: "NT_CREATE_ANDX"}
ANDX_END = b"\xff\0\0\0"
ANDX = {0x24, 0x2D, 0x2E, 0x2F, 0x73, 0x74, 0x75, 0xA2}
RARE = {0x11, 0x71, 0x74}  # what closes all that a client has


def requests(dice, own):
    """Valid messages of every kind, mostly on the client's own numbers, otherwise on any."""
    uid, tid, fid = own if dice.randrange(8) else (dice.randrange(0, 18), dice.randrange(0, 36), dice.randrange(0, 66))
    offset, count = dice.randrange(0, 4200), dice.randrange(0, 300)
    lock = struct.pack("<HLL", dice.randrange(1, 4), offset, count)
    read = struct.pack("<HLHHLH", fid, offset, count, 0, 0, 0)
    data = bytes(count)
    name = dice.choice(NAMES)
    locking = struct.pack("<HBBLHH", fid, dice.choice([0, 1]), 0, 0, *dice.choice([(0, 1), (1, 0), (1, 1)]))
    ranges = lock * (2 if locking.endswith(b"\1\0\1\0") else 1)
    chained = b"\x2e\0" + struct.pack("<H", 32 + 1 + 16 + 2 + len(ranges)) + locking
    nt_create = ANDX_END + struct.pack("<BHLLLQLLLLLB", 0, len(name), 0, 0, dice.choice([1, 2, 3, 0x80]), 0, 0, 7, dice.randrange(0, 7), 0, 2, 0)
    find = struct.pack("<HHHHL", 0x16, dice.randrange(0, 20), dice.randrange(0, 8), dice.choice([1, 0x104, 0x102, 7]), 0) + b"\\*\0"
    transaction = struct.pack("<HHHHBBHLHHHHHBBH", len(find), 0, 10, 4096, 0, 0, 0, 0, 0, len(find), 68, 0, 0, 1, 0, 1)
    opens = ANDX_END + struct.pack("<HHHHLHLLL", 1, dice.choice([0x42, 0x40, 0x20, 0x12]), 0, 0, 0, 1, 0, 0, 0)
    write = ANDX_END + struct.pack("<HLLHHHHH", fid, offset, 0, 0, 0, 0, count, 59)
    every = {
        0x72: (b"", b"\x02NT LM 0.12\0"),
        0x73: (ANDX_END + struct.pack("<HHHLHHLL", 8192, 1, 1, 0, 0, 0, 0, 0x50), b"\0\0\0\0"),
        0x75: (ANDX_END + struct.pack("<HH", dice.randrange(0, 2), 0), b"\\\\G\\" + dice.choice([b"files", b"IPC$"]) + b"\0?????\0"),
        0xA2: (nt_create, name + b"\0"),
        0x2D: (opens, name + b"\0"),
        0x2E: (ANDX_END + read, b""),
        0x2F: (write, data),
        0x24: (chained, ranges + block(ANDX_END + read, b"")),
        0x0A: (struct.pack("<HHLH", fid, count, offset, 0), b""),
        0x0B: (struct.pack("<HHLH", fid, count, offset, 0), b"\x01" + struct.pack("<H", count) + data),
        0x0C: (struct.pack("<HLL", fid, count, offset), b""),
        0x04: (struct.pack("<HL", fid, 0), b""),
        0x11: (b"", b""),
        0x2B: (struct.pack("<H", dice.randrange(0, 4)), b"echo"),
        0x32: (transaction, b"\0" * 3 + find),
        0x34: (struct.pack("<H", dice.randrange(0, 6)), b""),
        0x71: (b"", b""),
        0x74: (ANDX_END, b""),
        0x80: (b"", b""),
        0x08: (b"", b"\x04" + name + b"\0"),
        0x23: (struct.pack("<H", fid), b""),
    }
    command = dice.choice([0xA2, 0x2D, *[0x2E, 0x2F, 0x24] * 8, *(set(every) - RARE if dice.randrange(8) else every)])
    words, data = every[command]
    made = header(command, dice, uid, tid) + block(words, data)
    # The LOCKING_ANDX's bytes are its ranges; the block behind them is the next one's.
    if command == 0x24:
        made = header(command, dice, uid, tid) + block(words, ranges) + block(ANDX_END + read, b"")
    return made


def login(dice):
    """SESSION_SETUP_ANDX, TREE_CONNECT_ANDX and OPEN_ANDX in a chain."""
    words = [struct.pack("<HHHLHHLL", 8192, 1, 1, 0, 0, 0, 0, 0x50), struct.pack("<HH", 0, 0), struct.pack("<HHHHLHLLL", 1, 0x42, 0, 0, 0, 1, 0, 0, 0)]
    data = [b"\0\0\0\0", b"\\\\G\\files\0?????\0", dice.choice(NAMES[:3]) + b"\0"]
    made, follow = header(0x73, dice, 0, 0), [0x75, 0x2D, 0xFF]
    for words, data, following in zip(words, data, follow):
        end = len(made) + 1 + 4 + len(words) + 2 + len(data)
        made += block(struct.pack("<BBH", following, 0, end) + words, data)
    return made


def damaged(dice, own):
    """A valid message with some bytes changed, or cut, or longer than it says."""
    message = bytearray(requests(dice, own))
    for _ in range(dice.randrange(1, 6)):
        message[dice.randrange(4, len(message))] = dice.choice([0, 1, 0xFF, dice.randrange(256)])
    message[9] &= 0x7F
    return bytes(message[: dice.randrange(35, len(message) + 1)]) + bytes(dice.choice([0, 0, 7]))


def random_block(dice):
    """A known command with any words and bytes."""
    words = dice.randbytes(2 * dice.randrange(0, 30))
    return header(dice.choice(COMMANDS), dice, dice.randrange(0, 4), dice.randrange(0, 4)) + block(words, dice.randbytes(dice.randrange(0, 200)))


def framed(message):
    return struct.pack(">L", len(message)) + message


def next_bytes(dice, own):
    """What is sent next, and whether the connection ends with it."""
    turn = dice.randrange(100)
    if turn < 80:
        return framed(requests(dice, own)), False
    if turn < 88:
        return framed(damaged(dice, own)), False
    if turn < 95:
        return framed(random_block(dice)), False
    if turn < 96:
        return b"\x85\0\0\0", False
    if turn < 98:
        return dice.randbytes(dice.randrange(1, 300)), True
    whole = framed(requests(dice, own))
    return whole[: dice.randrange(1, len(whole))], True


class Client:
    """One connection after another in one place."""

    def __init__(self, port, number):
        self.port, self.dice = port, random.Random(number)
        self.replies = self.sent = self.connects = self.bad = 0
        self.done = collections.Counter()
        self.socket = None

    def connect(self):
        self.socket = socket.create_connection(("127.0.0.1", self.port), timeout=5)
        self.socket.setblocking(False)
        self.got, self.connects, self.ends = b"", self.connects + 1, False
        self.uid = self.tid = self.fid = 0
        self.waiting = framed(header(0x72, self.dice, 0, 0) + block(b"", b"\x02NT LM 0.12\0")) + framed(login(self.dice))

    def drop(self):
        self.socket.close()
        self.socket = None

    def take(self):
        """Each reply begins FF 53 4D 42 and is marked as one."""
        while len(self.got) >= 4 and len(self.got) >= 4 + struct.unpack(">L", self.got[:4])[0]:
            length = struct.unpack(">L", self.got[:4])[0]
            reply, self.got = self.got[4 : 4 + length], self.got[4 + length :]
            self.replies += 1
            self.bad += not (reply[:4] == b"\xffSMB" and len(reply) >= 35 and reply[9] & 0x80)
            self.learn(reply)

    def learn(self, reply):
        """The numbers that commands done have given the client, and how many of each were done."""
        if reply[5:9] != bytes(4):
            return
        command, at = reply[4], 32
        while at is not None:
            words = reply[at + 1 : at + 1 + 2 * reply[at]]
            self.done[command] += 1
            if command == 0x73:
                self.uid = struct.unpack_from("<H", reply, 28)[0]
            elif command == 0x75:
                self.tid = struct.unpack_from("<H", reply, 24)[0]
            elif command in (0x2D, 0xA2):
                self.fid = struct.unpack_from("<H", words, 4 if command == 0x2D else 5)[0]
            more = command in ANDX and words[0] != 0xFF
            command, at = (words[0], struct.unpack_from("<H", words, 2)[0]) if more else (None, None)

    def turn(self):
        if self.socket is None:
            self.connect()
        try:
            if not self.waiting and not self.ends:
                self.waiting, self.ends = next_bytes(self.dice, (self.uid, self.tid, self.fid))
                self.sent += 1
            # A piece of any size, so that messages are cut anywhere.
            done = self.socket.send(self.waiting[: self.dice.choice([1, 7, 40, 4096, 4096])])
            self.waiting = self.waiting[done:]
            if self.dice.randrange(3):
                self.got += self.socket.recv(65536)
                self.take()
            if self.ends and not self.waiting:
                self.drop()
        except BlockingIOError:
            pass
        except OSError:
            self.drop()


def done_by(clients):
    return sum((client.done for client in clients), collections.Counter())


def enough(clients, least):
    done = done_by(clients)
    return all(done[number] >= least for number in MUST_BE_DONE)


def main():
    port, end, least = int(sys.argv[1]), time.monotonic() + float(sys.argv[2]), int(sys.argv[3])
    clients = [Client(port, number) for number in range(CONNECTIONS)]
    # On a busy machine it blows longer, until each command was done often enough.
    while time.monotonic() < end or (time.monotonic() < end + LONGER and not enough(clients, least)):
        for client in clients:
            client.turn()
    total = {what: sum(getattr(client, what) for client in clients) for what in ("connects", "sent", "replies", "bad")}
    done = done_by(clients)
    print(f"storm: {total['connects']} connections, {total['sent']} messages and pieces, {total['replies']} replies, {total['bad']} of them none")
    print("storm: done " + ", ".join(f"{done[number]} of {name}" for number, name in MUST_BE_DONE.items()))
    return 1 if total["bad"] or not enough(clients, least) else 0


if __name__ == "__main__":
    sys.exit(main())
