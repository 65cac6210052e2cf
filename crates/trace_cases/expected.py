"""What trace_cases prints, worked out from docs/BOOK-AND-TRACE.md alone: an independent reading of the format.

    python3 crates/trace_cases/expected.py | diff - crates/trace_cases/stdout
"""

FIRST = bytes.fromhex(
    "0002 0002 4142 0004 41424142 0002 01 00 01 00 00 01 00 0001 01 0001 02 01 00 02 00 02 01 0001 00 0001 02 0002")
SECOND = bytes.fromhex(
    "0003 0001 79 0000 0002 3030 0002 04 03 04 05 06 02 03 0001 04 0002 06 0002 03 07 00 00 00 02 07 0003 00 0001 00 0001")

USED = {1: 2, 2: 3, 3: 2, 4: 4, 5: 2, 6: 3}


class Refused(Exception):
    pass


class Bytes:
    def __init__(self, data):
        self.data = data
        self.at = 0

    def field(self, length):
        if self.at + length > len(self.data):
            raise Refused(11)
        piece = self.data[self.at:self.at + length]
        self.at += length
        return piece

    def number(self, length, lowest, highest):
        n = int.from_bytes(self.field(length), "big")
        rule(lowest <= n <= highest)
        return n


def rule(kept):
    if not kept:
        raise Refused(12)


def use(source, count, highest):
    source.number(1, 0, 63)
    index = source.number(2, 1, min(count, highest + 1))
    return max(highest, index)


def read(data):
    source = Bytes(data)
    contents = []
    for _ in range(source.number(2, 0, 1024)):
        content = source.field(source.number(2, 0, 4096))
        rule(content not in contents)
        contents.append(content)
    commands = []
    highest = 0
    for _ in range(source.number(2, 0, 256)):
        command = [source.number(1, 1, 6)]
        for place in range(4):
            command.append(source.number(1, 0, 63 if place < USED[command[0]] else 0))
        rule(command not in commands)
        commands.append(command)
        for _ in range(source.number(1, 1, 16) + 1):
            highest = use(source, len(contents), highest)
    rule(highest == len(contents))
    if source.at != len(data):
        raise Refused(11)


def outcome(data):
    try:
        read(data)
        return "."
    except Refused as refused:
        return {11: "1", 12: "2"}[refused.args[0]]


def changed(data, at, piece):
    return data[:at] + bytes(piece) + data[at + len(piece):]


def show(data):
    print("cut", "".join(outcome(data[:n]) for n in range(len(data) + 1)))
    for at in range(len(data)):
        print("at %02d" % at, "".join(outcome(changed(data, at, [b])) for b in range(256)))
    print("end", "".join(outcome(data + bytes([b])) for b in range(256)))


show(FIRST)
for at, high, low in [(0, 4, 1), (0, 4, 0), (0, 0, 3), (2, 16, 1), (2, 16, 0), (12, 1, 1), (12, 1, 0)]:
    print("at %02d %02x %02x" % (at, high, low), outcome(changed(FIRST, at, [high, low])))
show(SECOND)
