"""Terminals for the tests of the gateway: clients on impacket's SMB1 classes, which others wrote.

    /usr/bin/python3 terminals.py PORT served DIRECTORY LOG
    /usr/bin/python3 terminals.py PORT harmless | patience | hold | list | reads TEXT

The gateway is on PORT of the loopback. `served` plays two terminals on a gateway that has just been started on DIRECTORY, which has
REVOKED.LST with the text below, OFFICE.CRT and BENCH-1.CRT, and that writes LOG. `harmless` plays clients that harm nobody, `patience`
those that a gateway started with --wait 1 --idle 6 hangs up on. `hold` writes to OFFICE.CRT, locks some bytes of it, says "ready" and
keeps both until its standard input ends. `list` prints the list. `reads` shows that REVOKED.LST begins with TEXT, by name and by a lock and a read in a chain.

Each thing shown is a line; the first that is not as expected ends it with status 1. What is expected is spelled here from documents
01 and 02 and from [MS-CIFS].
"""
import pathlib
import re
import socket
import struct
import sys
import time

from impacket import smb

TEXT = (
    b"Certificates revoked by the office, one to a line, as of this morning: "
    b"0017 0042 0311 0768 0901 1024 1183 1399 1777 2048"
)
CLOSE, READ, WRITE, LOCK, PROCESS_EXIT, ECHO = 0x04, 0x0A, 0x0B, 0x0C, 0x11, 0x2B
LOCKING, OPEN, READ_ANDX, WRITE_ANDX = 0x24, 0x2D, 0x2E, 0x2F
QUERY_INFORMATION, CHECK_DIRECTORY, QUERY_INFORMATION2, QUERY_INFORMATION_DISK = 0x08, 0x10, 0x23, 0x80
TRANSACTION2, FIND_CLOSE2 = 0x32, 0x34
TREE_DISCONNECT, SESSION_SETUP, LOGOFF, TREE_CONNECT, NT_CREATE = 0x71, 0x73, 0x74, 0x75, 0xA2
NT_STATUS, JUST_OPENED = 0x4000, 0xFFFF
ANDX = {LOCKING, OPEN, READ_ANDX, WRITE_ANDX, SESSION_SETUP, LOGOFF, TREE_CONNECT, NT_CREATE}

shown = 0


def show(what, given, expected):
    """One thing shown: what the gateway gave is what is expected."""
    global shown
    if given != expected:
        print(f"FAILED: {what}: {given!r} in place of {expected!r}", flush=True)
        sys.exit(1)
    shown += 1
    print(f"impacket: {what}", flush=True)


class Words(smb.SMBAndXCommand_Parameters):
    """AndX words and others given as bytes."""

    structure = (("Rest", ":"),)


def command(number, words=b"", data=b""):
    """A command as impacket puts it into a message; an ANDX command's words are those behind AndX."""
    made = smb.SMBCommand(number)
    made["Parameters"] = Words() if number in ANDX else words
    if number in ANDX:
        made["Parameters"]["Rest"] = words
    made["Data"] = data
    return made


def locking(fid, locks=(), unlocks=(), kind=0):
    ranges = b"".join(struct.pack("<HLL", *each) for each in [*unlocks, *locks])
    return command(LOCKING, struct.pack("<HBBLHH", fid, kind, 0, 0, len(unlocks), len(locks)), ranges)


def read(fid, offset, count):
    return command(READ_ANDX, struct.pack("<HLHHLH", fid, offset, count, 0, 0, 0))


def write(fid, offset, data):
    """12 words: the data stand behind the header, 25 bytes of words and the byte count."""
    words = struct.pack("<HLLHHHHH", fid, offset, 0, 0, 0, 0, len(data), 32 + 1 + 24 + 2)
    return command(WRITE_ANDX, words, data)


def close(fid):
    return command(CLOSE, struct.pack("<HL", fid, 0))


def open_by_name(name, access=0x42, flags=1, mode=1):
    """Deny none and access to both unless another access word is given."""
    return command(OPEN, struct.pack("<HHHHLHLLL", flags, access, 0, 0, 0, mode, 0, 0, 0), name + b"\0")


def session_setup(data=b"\0\0Unix\0test\0"):
    return command(SESSION_SETUP, struct.pack("<HHHLHHLL", 8192, 1, 1, 0, 0, 0, 0, 0x50), data)


def tree_connect(share, service=b"?????", flags=0):
    return command(TREE_CONNECT, struct.pack("<HH", flags, 1), b"\0\\\\GATEWAY\\" + share + b"\0" + service + b"\0")


def nt_create(name, access=1, disposition=1, options=0):
    words = struct.pack("<BHLLLQLLLLLB", 0, len(name), 0, 0, access, 0, 0, 7, disposition, options, 2, 0)
    return command(NT_CREATE, words, name + b"\0")


def transaction2(subcommand, parameters):
    """15 words, then three bytes so that the parameters stand at 68."""
    count = len(parameters)
    words = struct.pack("<HHHHBBHLHHHHHBBH", count, 0, 10, 4096, 0, 0, 0, 0, 0, count, 68, 0, 0, 1, 0, subcommand)
    return command(TRANSACTION2, words, bytes(3) + parameters)


class Reply:
    """The status, its form, and the blocks, each where the one before says: command, words, bytes, the place of the bytes."""

    def __init__(self, message):
        self.message = message
        self.nt = struct.unpack_from("<H", message, 10)[0] & NT_STATUS != 0
        self.status = struct.unpack_from("<L", message, 5)[0] if self.nt else (message[5], struct.unpack_from("<H", message, 7)[0])
        self.tid, self.pid, self.uid, self.mid = struct.unpack_from("<4H", message, 24)
        self.blocks, at, number = [], 32, message[4]
        while at is not None:
            words = message[at + 1 : at + 1 + 2 * message[at]]
            data = at + 1 + len(words) + 2
            count = struct.unpack_from("<H", message, data - 2)[0]
            self.blocks.append((number, words, message[data : data + count], data))
            more = number in ANDX and words[:1] not in (b"", b"\xff")
            number, at = (words[0], struct.unpack_from("<H", words, 2)[0]) if more else (None, None)

    def commands(self):
        return [block[0] for block in self.blocks]

    def data(self, place=-1):
        return self.blocks[place][2]

    def read(self, place=-1):
        """A READ_ANDX's data by the offset that it names."""
        length, offset = struct.unpack_from("<HH", self.blocks[place][1], 10)
        return self.message[offset : offset + length]

    def transaction(self):
        """The parameters and the data of a TRANSACTION2, by the offsets that it names."""
        words = struct.unpack("<HHHHHHHHHH", self.blocks[0][1])
        return self.message[words[4] : words[4] + words[3]], self.message[words[7] : words[7] + words[6]]

    def word(self, place, at):
        return struct.unpack_from("<H", self.blocks[place][1], at)[0]


class Terminal:
    """A client with a login of impacket's and one process."""

    def __init__(self, port, pid, login=True):
        self.smb = smb.SMB("GATEWAY", "127.0.0.1", sess_port=port, timeout=10)
        self.pid, self.tid, self.flags2 = pid, 0, NT_STATUS | 1
        if login:
            self.smb.login("", "")

    def packet(self, *commands, tid=None, uid=None):
        packet = smb.NewSMBPacket()
        for each in commands:
            packet.addCommand(each)
        packet["Flags1"], packet["Flags2"], packet["Pid"], packet["Mid"] = 0x08, self.flags2, self.pid, 5
        packet["Tid"] = self.tid if tid is None else tid
        packet["Uid"] = self.smb._uid if uid is None else uid
        return packet.getData()

    def send(self, *commands, tid=None, uid=None):
        self.smb._sess.send_packet(self.packet(*commands, tid=tid, uid=uid))

    def receive(self):
        return Reply(self.smb._sess.recv_packet(10).get_trailer())

    def ask(self, *commands, tid=None, uid=None):
        self.send(*commands, tid=tid, uid=uid)
        return self.receive()

    def raw(self, data):
        self.socket().sendall(data)

    def socket(self):
        return self.smb._sess.get_socket()

    def is_closed(self):
        """Whether the gateway hangs up within ten seconds."""
        self.socket().settimeout(10)
        try:
            return self.socket().recv(1) == b""
        except ConnectionResetError:
            return True
        except TimeoutError:
            return False


def last_lines(log, count):
    """The log's last lines of refused locks, without the clients' ports."""
    lines = [line for line in log.read_text().splitlines() if " refused: " in line]
    return [re.sub(r" \(127\.0\.0\.1:\d+\)", "", line) for line in lines[-count:]]


def holder_line(line):
    """The line but for the connections' numbers."""
    return re.sub(r"connection \d+", "connection N", line)


def negotiated(port):
    terminal = Terminal(port, 7)
    said = terminal.smb._dialects_parameters
    show("NEGOTIATE: a message has at most 8,192 bytes", said["MaxBufferSize"], 8192)
    # NT_SMBS 0x10 and STATUS32 0x40, and neither UNICODE 0x04, LARGE_READX 0x4000, LARGE_WRITEX 0x8000 nor extended security.
    show("NEGOTIATE: capabilities", said["Capabilities"], 0x50)
    show("NEGOTIATE: user level, challenge and response, no signing", said["SecurityMode"], 0x03)
    show("SESSION_SETUP_ANDX: a guest", terminal.smb.isGuestSession(), 1)
    show("a second NEGOTIATE is refused", terminal.ask(command(0x72, b"", b"\x02NT LM 0.12\0")).status, 0x00010002)
    return terminal


def opened_and_read(first):
    first.tid = first.smb.tree_connect_andx("\\\\GATEWAY\\files", service="?????")
    show("TREE_CONNECT_ANDX: the library's first TID", first.tid, 1)
    show("OPEN_ANDX by impacket's own call", first.smb.open_andx(first.tid, "REVOKED.LST", 1, 0x42)[0], 1)
    reply = first.ask(open_by_name(b"\\revoked.lst"), read(JUST_OPENED, 0, 4096))
    show("OPEN_ANDX and READ_ANDX in a chain: done", (reply.status, reply.commands()), (0, [OPEN, READ_ANDX]))
    show("OPEN_ANDX: FID and size", (reply.word(0, 4), reply.word(0, 12)), (2, 120))
    show("READ_ANDX of the file just opened: its text", reply.read(), TEXT)
    show("impacket's own read", bytes(first.smb.read_andx(first.tid, 1, 71, 4)), b"0017")
    large = command(READ_ANDX, struct.pack("<HLHHLHL", 1, 0, 0, 0, 1, 0, 0))
    show("READ_ANDX of 65,536 bytes by MaxCountHigh: none, so NEGOTIATE must not offer it", first.ask(large).data(), b"")
    show("a name that is not there", first.ask(open_by_name(b"NONE.LST")).status, 0xC000000F)
    show("OpenMode that makes a file", first.ask(open_by_name(b"NEW.LST", mode=0x11)).status, 0xC00000BB)


def locks(first, second, log):
    second.tid = second.smb.tree_connect_andx("\\\\GATEWAY\\FILES", service="A:")
    show("second terminal: its UID and TID", (second.smb._uid, second.tid), (2, 2))
    show("second terminal: NT_CREATE_ANDX", second.ask(nt_create(b"\\REVOKED.LST", access=3)).word(0, 5), 3)
    reply = first.ask(locking(1, [(7, 100, 10)]), read(1, 100, 10))
    show("lock and read in a chain", (reply.status, reply.commands(), reply.read()), (0, [LOCKING, READ_ANDX], TEXT[100:110]))
    show("read of a byte that another has locked", second.ask(read(3, 109, 4)).status, 0xC0000054)
    expected = "gateway: connection N, process 8: READ_ANDX refused: FID 1 of process 7 on connection N holds bytes 100 to 109 of REVOKED.LST"
    show("the log has a line with the holder of the lock", holder_line(last_lines(log, 1)[0]), expected)
    show("lock of such a byte", second.ask(locking(3, [(8, 109, 1)])).status, 0xC0000055)
    show("the log names the command", holder_line(last_lines(log, 1)[0]), expected.replace("READ_ANDX", "LOCKING_ANDX"))
    numbers = [int(number) for number in re.findall(r"connection (\d+)", last_lines(log, 1)[0])]
    show("the log's two connections, one behind the other", numbers[0] - numbers[1], 1)
    reply = second.ask(locking(3, [(8, 0, 4)]), read(3, 109, 4))
    show("lock granted and read refused in a chain", (reply.status, reply.commands()), (0xC0000054, [LOCKING, READ_ANDX]))
    show("the log names the refused command of a chain", holder_line(last_lines(log, 1)[0]), expected)
    reply = second.ask(locking(3, [(8, 20, 5), (8, 22, 5)]))
    show("a lock of the same request", reply.status, 0xC0000055)
    line = "FID 3 of process 8 on connection N asked in the same request for bytes 20 to 24 of REVOKED.LST"
    show("the log says that it was asked for, not held", holder_line(last_lines(log, 1)[0]).split("refused: ")[1], line)
    second.flags2 = 1
    show("without the bit of Flags2: class and code", second.ask(read(3, 109, 4)).status, (1, 33))
    second.flags2 |= NT_STATUS
    show("byte 110 is free", second.ask(locking(3, [(8, 110, 1)])).status, 0)
    show("the first lock released", first.ask(locking(1, [], [(7, 100, 10)])).status, 0)
    show("then the read is done", second.ask(read(3, 109, 1)).read(), TEXT[109:110])


def written(first, second):
    show("write where another has locked", first.ask(write(1, 110, b"x")).status, 0xC0000054)
    show("write: count", first.ask(write(1, 71, b"0018")).word(0, 4), 4)
    show("the other terminal reads what was written", second.ask(read(3, 71, 9)).read(), b"0018 0042")
    show("a write past 4,096 bytes", first.ask(write(1, 4095, b"xy")).status, 0xC000007F)
    show("PROCESS_EXIT", first.ask(command(PROCESS_EXIT)).status, 0)
    show("the opens of that process are gone", first.ask(read(2, 20, 4)).status, 0xC0000008)
    show("an open of another process stands", first.ask(read(1, 20, 3)).read(), TEXT[20:23])


def core_commands(first, second, log):
    """What the oldest benches have: LOCK_BYTE_RANGE, READ and WRITE of the core protocol."""
    show("LOCK_BYTE_RANGE", first.ask(command(LOCK, struct.pack("<HLL", 1, 6, 30))).status, 0)
    reply = first.ask(command(READ, struct.pack("<HHLH", 1, 7, 28, 0)))
    show("READ: count and data block", (reply.word(0, 0), reply.data()), (7, b"\x01\x07\x00" + TEXT[28:35]))
    show("another's LOCK_BYTE_RANGE", second.ask(command(LOCK, struct.pack("<HLL", 3, 1, 33))).status, 0xC0000055)
    line = "gateway: connection N, process 8: LOCK_BYTE_RANGE refused: FID 1 of process 7 on connection N holds bytes 30 to 35 of REVOKED.LST"
    show("the log names it", holder_line(last_lines(log, 1)[0]), line)
    reply = first.ask(locking(1, [], [(7, 30, 6)]), command(READ, struct.pack("<HHLH", 1, 4, 71, 0)))
    show("LOCKING_ANDX and READ in a chain", (reply.status, reply.commands(), reply.data()[3:]), (0, [LOCKING, READ], b"0018"))


def closed(first, second, directory):
    path = directory / "REVOKED.LST"
    show("impacket's own close", first.smb.close(first.tid, 1), 1)
    show("not saved as long as the other has it open", path.read_bytes(), TEXT)
    show("CLOSE", second.ask(close(3)).status, 0)
    new = TEXT.replace(b"0017", b"0018")
    show("saved when its last open went", path.read_bytes(), new)
    show("no file but those that were there", sorted(each.name for each in directory.iterdir()), ["BENCH-1.CRT", "OFFICE.CRT", "REVOKED.LST"])
    show("CLOSE again", second.ask(close(3)).status, 0xC0000008)


def created(first):
    reply = first.ask(nt_create(b"OFFICE.CRT", access=1), read(JUST_OPENED, 0, 11))
    show("NT_CREATE_ANDX and READ_ANDX in a chain", (reply.status, reply.commands()), (0, [NT_CREATE, READ_ANDX]))
    show("its data, where it says", reply.read(), b"Certificate")
    fid = reply.word(0, 5)
    show("written through an open to read", first.ask(write(fid, 0, b"x")).status, 0xC0000022)
    first.flags2 = 1
    show("a refusal of the host's in the form of class and code", first.ask(nt_create(b"NONE.CRT")).status, (1, 2))
    first.flags2 |= NT_STATUS
    show("and as an NTSTATUS", first.ask(nt_create(b"NONE.CRT")).status, 0xC0000034)
    show("a directory is none of the files", first.ask(nt_create(b"OFFICE.CRT", options=1)).status, 0xC0000103)
    show("made anew what exists", first.ask(nt_create(b"OFFICE.CRT", disposition=2)).status, 0xC0000035)
    show("made what does not", first.ask(nt_create(b"NEW.CRT", disposition=2)).status, 0xC0000022)
    reply = first.ask(open_by_name(b"BENCH-1.CRT", access=0x10))
    denied = first.ask(nt_create(b"BENCH-1.CRT", access=1)).status
    show("what an OPEN_ANDX denies, NT_CREATE_ANDX is refused", (reply.status, denied), (0, 0xC0000043))
    show("CLOSE of both", [first.ask(close(each)).status for each in (fid, reply.word(0, 4))], [0, 0])


def queries(first):
    """The queries of the core protocol, and TRANSACTION2's."""
    words = first.ask(command(QUERY_INFORMATION, b"", b"\x04\\revoked.lst\0")).blocks[0][1]
    show("QUERY_INFORMATION: attributes and size", struct.unpack_from("<H4xL", words), (0x20, 120))
    show("QUERY_INFORMATION of no name", first.ask(command(QUERY_INFORMATION, b"", b"\x04NONE\0")).status, 0xC0000034)
    show("QUERY_INFORMATION without a zero byte", first.ask(command(QUERY_INFORMATION, b"", b"\x04NONE")).status, 0x00010002)
    fid = first.ask(open_by_name(b"REVOKED.LST")).word(0, 4)
    words = first.ask(command(QUERY_INFORMATION2, struct.pack("<H", fid))).blocks[0][1]
    show("QUERY_INFORMATION2: size, room and attributes", struct.unpack_from("<LLH", words, 12), (120, 4096, 0x20))
    show("QUERY_INFORMATION2 of no FID", first.ask(command(QUERY_INFORMATION2, struct.pack("<H", 64))).status, 0xC0000008)
    show("CHECK_DIRECTORY of the directory", first.ask(command(CHECK_DIRECTORY, b"", b"\x04\\\0")).status, 0)
    show("CHECK_DIRECTORY of a file", first.ask(command(CHECK_DIRECTORY, b"", b"\x04\\REVOKED.LST\0")).status, 0xC0000103)
    words = first.ask(command(QUERY_INFORMATION_DISK)).blocks[0][1]
    show("QUERY_INFORMATION_DISK: 128 units of 512 bytes, none free", struct.unpack("<HHHHH", words), (128, 1, 512, 0, 0))
    data = first.ask(transaction2(5, struct.pack("<HL", 0x102, 0) + b"REVOKED.LST\0")).transaction()[1]
    show("QUERY_PATH_INFORMATION: room, size, links, no directory", struct.unpack("<QQLBB", data), (4096, 120, 1, 0, 0))
    data = first.ask(transaction2(7, struct.pack("<HH", fid, 0x107))).transaction()[1]
    show("QUERY_FILE_INFORMATION: size and name", (struct.unpack_from("<Q", data, 48)[0], data[72:]), (120, b"REVOKED.LST"))
    show("a level that is not there", first.ask(transaction2(7, struct.pack("<HH", fid, 0x999))).status, 0xC0000148)
    show("CLOSE", first.ask(close(fid)).status, 0)
    show("impacket's own listing", [each.get_longname() for each in first.smb.list_path("files", "*")], ["BENCH-1.CRT", "OFFICE.CRT", "REVOKED.LST"])
    parameters, data = first.ask(transaction2(1, struct.pack("<HHHHL", 0x16, 1, 0, 1, 0) + b"\\*\0")).transaction()
    show("FIND_FIRST2 of one: SID, count, not at the end", struct.unpack_from("<HHH", parameters), (1, 1, 0))
    show("its name", data[22:], b"\x0bBENCH-1.CRT\0")
    parameters, data = first.ask(transaction2(2, struct.pack("<HHHLH", 1, 1, 0x103, 0, 0) + b"\0")).transaction()
    show("FIND_NEXT2 of one: not at the end", struct.unpack("<HHHH", parameters), (1, 0, 0, 0))
    show("its name", data, struct.pack("<LLL", 0, 1, 10) + b"OFFICE.CRT")
    parameters, data = first.ask(transaction2(2, struct.pack("<HHHLH", 1, 9, 0x103, 0, 0) + b"\0")).transaction()
    show("FIND_NEXT2 of the rest: at the end", struct.unpack("<HHHH", parameters), (1, 1, 0, 0))
    show("its name", data, struct.pack("<LLL", 0, 2, 11) + b"REVOKED.LST")
    parameters, data = first.ask(transaction2(1, struct.pack("<HHHHL", 0x16, 9, 0, 0x103, 0) + b"*.crt\0")).transaction()
    show("FIND_FIRST2 by a pattern: two, the second at 24", struct.unpack("<HHHHH", parameters), (0xFFFF, 2, 1, 0, 24))
    show("their names", data, struct.pack("<LLL", 24, 0, 11) + b"BENCH-1.CRT\0" + struct.pack("<LLL", 0, 1, 10) + b"OFFICE.CRT")
    show("FIND_NEXT2 behind the end", first.ask(transaction2(2, struct.pack("<HHHLH", 1, 9, 1, 0, 0) + b"\0")).status, 0xC0000008)
    show("FIND_CLOSE2", first.ask(command(FIND_CLOSE2, struct.pack("<H", 1))).status, 0)
    show("FIND_FIRST2 of nothing", first.ask(transaction2(1, struct.pack("<HHHHL", 0x16, 9, 0, 1, 0) + b"\\*.ZIP\0")).status, 0xC000000F)


def host_chains(port):
    """Chains that begin with a command of the host's."""
    terminal = Terminal(port, 9, login=False)
    reply = terminal.ask(session_setup(), tree_connect(b"files"), open_by_name(b"REVOKED.LST"), read(JUST_OPENED, 71, 9), uid=0)
    show("login, tree, open and read in one message", (reply.status, reply.commands()), (0, [SESSION_SETUP, TREE_CONNECT, OPEN, READ_ANDX]))
    show("its data, where it says", (reply.read(), reply.data()), (b"0018 0042", b"0018 0042"))
    show("its data's place is that of the block's bytes", reply.word(3, 12), reply.blocks[3][3])
    show("services: a disk", reply.data(1), b"A:\0FAT\0")
    reply = terminal.ask(session_setup(), tree_connect(b"files"), open_by_name(b"NONE"), uid=0)
    show("its third command refused", (reply.status, reply.commands(), len(reply.blocks[2][1])), (0xC000000F, [SESSION_SETUP, TREE_CONNECT, OPEN], 0))
    reply = terminal.ask(session_setup(), tree_connect(b"none"), open_by_name(b"REVOKED.LST"), uid=0)
    show("its second command refused: the third is not begun", (reply.status, reply.commands()), (0xC00000CC, [SESSION_SETUP, TREE_CONNECT]))
    reply = terminal.ask(session_setup(), locking(1), uid=0)
    show("what may not follow a login", (reply.status, reply.commands()), (0x00010002, [SESSION_SETUP]))
    # A whole block as the bytes of the one before, from 61 on. AndXCommand stands at 33 and AndXOffset at 35.
    inner = tree_connect(b"files").getData()
    message = bytearray(terminal.packet(session_setup(inner), uid=0))
    message[33] = TREE_CONNECT
    struct.pack_into("<H", message, 35, 61)
    terminal.smb._sess.send_packet(bytes(message))
    reply = terminal.receive()
    show("a block that begins inside the one before", (reply.status, reply.commands()), (0x00010002, [SESSION_SETUP]))
    reply = terminal.ask(session_setup(), uid=0)
    show("a fourth session on a connection", reply.status, 0)
    show("a fifth is refused", terminal.ask(session_setup(), uid=0).status, 0x005A0002)
    statuses = [terminal.ask(tree_connect(b"files"), uid=reply.uid).status for _ in range(3)]
    show("a third and a fourth tree on a connection, a fifth is refused", statuses, [0, 0, 0xC0000205])
    terminal.smb.close_session()


def own_numbers(first, second):
    """IPC$ is the host's own tree: its TID is above the library's 32. The directory is its own open: its FID is above 64."""
    reply = first.ask(tree_connect(b"IPC$"))
    show("TREE_CONNECT_ANDX of IPC$: a TID above 32", (reply.status, reply.tid, reply.data()), (0, 33, b"IPC\0FAT\0"))
    show("a file by that TID", first.ask(open_by_name(b"REVOKED.LST"), tid=33).status, 0x00050002)
    show("TREE_DISCONNECT of it", first.ask(command(TREE_DISCONNECT), tid=33).status, 0)
    show("TREE_DISCONNECT again", first.ask(command(TREE_DISCONNECT), tid=33).status, 0x00050002)
    show("IPC$ as a disk", first.ask(tree_connect(b"IPC$", b"A:")).status, 0xC00000CB)
    reply = first.ask(nt_create(b"\\", options=1))
    show("NT_CREATE_ANDX of the directory: a FID above 64", (reply.status, reply.word(0, 5), reply.blocks[0][1][-1]), (0, 65, 1))
    show("READ_ANDX of it", first.ask(read(65, 0, 4)).status, 0xC0000008)
    show("another's CLOSE of it", second.ask(close(65)).status, 0xC0000008)
    show("CLOSE of it", first.ask(close(65)).status, 0)
    show("CLOSE again", first.ask(close(65)).status, 0xC0000008)
    fid, tid = first.ask(nt_create(b"", options=1)).word(0, 5), first.tid
    first.ask(command(TREE_DISCONNECT))
    first.tid = first.ask(tree_connect(b"files")).tid
    show("a new tree of the same TID does not have the old one's open of the directory", (first.tid, first.ask(close(fid)).status), (tid, 0xC0000008))
    fid = first.ask(nt_create(b"", options=1)).word(0, 5)
    first.tid = first.ask(tree_connect(b"files", flags=1)).tid
    show("nor one that takes the place of the old in one request", (first.tid, first.ask(close(fid)).status), (tid, 0xC0000008))
    reply = first.ask(command(ECHO, struct.pack("<H", 1), b"are you there"))
    show("ECHO", (reply.status, reply.word(0, 0), reply.data()), (0, 1, b"are you there"))
    show("a command that nobody serves", first.ask(command(0x00)).status, 0x00160002)


def left(first, second, port):
    fid = first.ask(open_by_name(b"OFFICE.CRT")).word(0, 4)
    show("a tree of another's UID", second.ask(read(fid, 0, 4), tid=first.tid).status, 0x00050002)
    show("the same for a command of the host's", second.ask(nt_create(b"OFFICE.CRT"), tid=first.tid).status, 0x00050002)
    show("another connection's UID", second.ask(read(fid, 0, 4), uid=first.smb._uid).status, 0x005B0002)
    show("the same for a command of the host's", second.ask(tree_connect(b"files"), uid=first.smb._uid).status, 0x005B0002)
    ipc = first.ask(tree_connect(b"IPC$")).tid
    show("TREE_DISCONNECT", first.ask(command(TREE_DISCONNECT)).status, 0)
    show("then its open is gone with the tree", first.ask(read(fid, 0, 4)).status, 0x00050002)
    show("LOGOFF_ANDX", first.ask(command(LOGOFF)).status, 0)
    show("then there is no session", first.ask(tree_connect(b"files")).status, 0x005B0002)
    uid = first.ask(session_setup(), uid=0).uid
    show("a new one has the same UID and not its tree on IPC$", (uid, first.ask(command(TREE_DISCONNECT), tid=ipc).status), (1, 0x00050002))
    fid = second.ask(open_by_name(b"OFFICE.CRT")).word(0, 4)
    show("a lock taken", second.ask(locking(fid, [(8, 0, 10)])).status, 0)
    second.smb.close_session()
    third = Terminal(port, 9)
    third.tid = third.ask(tree_connect(b"files")).tid
    fid = third.ask(open_by_name(b"OFFICE.CRT")).word(0, 4)
    show("a terminal that hangs up leaves no lock", third.ask(locking(fid, [(9, 0, 10)])).status, 0)
    third.smb.close_session()


def harmless(port):
    """Clients that are slow, silent or send what is no request do not keep others from being served."""
    silent, slow, begun = Terminal(port, 1), Terminal(port, 2), Terminal(port, 3)
    begun.raw(struct.pack(">L", 100) + b"\xffSMB")
    packet = smb.NewSMBPacket()
    packet.addCommand(tree_connect(b"files"))
    packet["Flags2"], packet["Uid"] = NT_STATUS, slow.smb._uid
    for byte in struct.pack(">L", len(packet.getData())) + packet.getData():
        slow.raw(bytes([byte]))
    show("a message that comes byte by byte", slow.receive().status, 0)
    reply_bit = bytes([0xFF, *b"SMB", 0x2B, 0, 0, 0, 0, 0x80]) + bytes(25)
    for what, sent in {
        "a reply as a request": struct.pack(">L", len(reply_bit)) + reply_bit,
        "another protocol": struct.pack(">L", 40) + b"\xfeSMB" + bytes(36),
        "an empty message": bytes(4),
        "a header of another type": b"\x81\0\0\0",
        "a message of 8,193 bytes": struct.pack(">L", 8193) + bytes(100),
        "an HTTP request": b"GET / HTTP/1.0\r\n\r\n",
    }.items():
        terminal = Terminal(port, 4)
        terminal.raw(sent)
        show(f"{what}: the gateway hangs up", terminal.is_closed(), True)
    greedy = Terminal(port, 5)
    greedy.tid = greedy.ask(tree_connect(b"files")).tid
    fid = greedy.ask(open_by_name(b"REVOKED.LST")).word(0, 4)
    packet = smb.NewSMBPacket()
    packet.addCommand(read(fid, 0, 4096))
    packet["Uid"], packet["Tid"], packet["Flags2"] = greedy.smb._uid, greedy.tid, NT_STATUS
    asked = struct.pack(">L", len(packet.getData())) + packet.getData()
    greedy.socket().setblocking(False)
    try:
        for _ in range(200000):
            greedy.socket().sendall(asked * 50)
    except BlockingIOError:
        pass
    started = time.monotonic()
    other = Terminal(port, 6)
    show("beside one that reads no replies another is served", other.ask(tree_connect(b"files")).status, 0)
    show("within five seconds", time.monotonic() - started < 5, True)
    for terminal in (silent, slow, begun, greedy, other):
        terminal.smb.close_session()


def patience(port):
    """A gateway that waits for a second, or six where a client has logged in, hangs up on those that take longer."""
    unknown, idle, begun = Terminal(port, 1, login=False), Terminal(port, 2), Terminal(port, 3)
    begun.raw(struct.pack(">L", 100) + b"\xffSMB")
    started = time.monotonic()
    show("no login for a second: the gateway hangs up", unknown.is_closed(), True)
    show("a message begun and not ended for a second: the gateway hangs up", begun.is_closed(), True)
    show("both within five seconds", time.monotonic() - started < 5, True)
    show("nothing sent for six seconds: the gateway hangs up", idle.is_closed(), True)
    show("not before that", time.monotonic() - started > 5, True)
    many = [Terminal(port, 4) for _ in range(4)]
    many[0].tid = many[0].ask(tree_connect(b"files")).tid
    fid = many[0].ask(open_by_name(b"REVOKED.LST")).word(0, 4)
    show("sixteen sessions", [each.ask(session_setup(), uid=0).status for each in many for _ in range(3)], [0] * 12)
    late = Terminal(port, 5, login=False)
    show("a seventeenth is refused", late.ask(session_setup(), uid=0).status, 0x005A0002)
    time.sleep(1.3)
    late = Terminal(port, 5, login=False)
    show("a client that is silent and has nothing open gives way to it", late.ask(session_setup(), uid=0).status, 0)
    show("one that has a file open does not", many[0].ask(read(fid, 0, 12)).read(), TEXT[:12])


def hold(port):
    terminal = Terminal(port, 7)
    terminal.tid = terminal.ask(tree_connect(b"files")).tid
    fid = terminal.ask(open_by_name(b"OFFICE.CRT", access=0x22)).word(0, 4)
    terminal.ask(write(fid, 0, b"certificate"))
    terminal.ask(locking(fid, [(7, 10, 5)]))
    terminal.ask(locking(fid, [(7, 20, 1)], kind=1))
    print("ready", flush=True)
    sys.stdin.read()


def reads(port, text):
    terminal = Terminal(port, 7)
    terminal.tid = terminal.smb.tree_connect_andx("\\\\GATEWAY\\files", service="?????")
    reply = terminal.ask(open_by_name(b"REVOKED.LST"), read(JUST_OPENED, 0, 4096))
    show("the list by its name, opened and read in a chain", reply.read()[: len(text)], text)
    fid = reply.word(0, 4)
    reply = terminal.ask(locking(fid, [(7, 0, len(text))]), read(fid, 0, len(text)))
    show("the list by a lock and a read in a chain", (reply.status, reply.read()), (0, text))
    show("closed", terminal.ask(close(fid)).status, 0)
    terminal.ask(command(LOGOFF))
    terminal.smb.close_session()


def show_list(port):
    """For a person: the list read by its name, and ten bytes of it locked and read in one message."""
    terminal = Terminal(port, 7)
    terminal.tid = terminal.smb.tree_connect_andx("\\\\GATEWAY\\files", service="?????")
    reply = terminal.ask(open_by_name(b"REVOKED.LST"), read(JUST_OPENED, 0, 4096))
    print("impacket, by name:", reply.read().decode())
    fid = reply.word(0, 4)
    reply = terminal.ask(locking(fid, [(7, 100, 10)]), read(fid, 100, 10))
    print("impacket, bytes 100 to 109, locked and read:", reply.read().decode())
    terminal.ask(close(fid))
    terminal.ask(command(LOGOFF))


def served(port, directory, log):
    first = negotiated(port)
    second = Terminal(port, 8)
    opened_and_read(first)
    locks(first, second, log)
    written(first, second)
    core_commands(first, second, log)
    closed(first, second, directory)
    created(first)
    queries(first)
    host_chains(port)
    own_numbers(first, second)
    left(first, second, port)


def main():
    port, what = int(sys.argv[1]), sys.argv[2]
    if what == "served":
        served(port, pathlib.Path(sys.argv[3]), pathlib.Path(sys.argv[4]))
    elif what == "reads":
        reads(port, sys.argv[3].encode())
    else:
        {"harmless": harmless, "patience": patience, "hold": hold, "list": show_list}[what](port)


if __name__ == "__main__":
    main()
