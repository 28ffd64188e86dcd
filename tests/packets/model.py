#!/usr/bin/env python3
"""An independent reader of hex packets, and a run of the program against it.

    tests/packets/model.py [--seed N] COMMAND...

COMMAND runs the program `packets`. It is given many inputs; what it writes must be what this model answers, byte for
byte. The rules are paper 01's: its table of commands, its table of refusals, and the small program's three answers.
"""
import random
import subprocess
import sys

# Opcode, and the shortest and longest payload.
COMMANDS = {
    0xFC52: (0, 0),  # GET_STATE
    0xFC54: (0, 0),  # FW_UPGRADE
    0xFC55: (0, 0),  # FW_DELETE
    0xFC56: (65, 65),  # UPDATE_AUTH_KEY: size 64, then key
    0xFC57: (0, 0),  # LOCK_AUTH_KEY
    0xFC58: (2, 255),  # STORE_USR_KEY: type, size N, N bytes
    0xFC59: (1, 1),  # LOAD_USR_KEY: index
    0xFC5A: (0, 0),  # START_WS
    0xFC5D: (1, 1),  # LOCK_USR_KEY: index
    0xFC5E: (1, 1),  # UNLOAD_USR_KEY: index
    0xFC5F: (0, 0),  # ACTIVATE_ANTIROLLBACK
}
UPDATE_AUTH_KEY, STORE_USR_KEY = 0xFC56, 0xFC58
HEX_DIGITS = set(b"0123456789abcdefABCDEF")
MOST_DIGITS = 520


# ---- the model


def refusal(packet):
    """The lowest number of 4 to 9 that applies to a packet, or None."""
    if len(packet) < 4:
        return 4
    head, low, high, length = packet[:4]
    payload = packet[4:]
    if head != 0x10:
        return 5
    if length != len(payload):
        return 6
    opcode = low + 256 * high
    if opcode not in COMMANDS:
        return 7
    shortest, longest = COMMANDS[opcode]
    if not shortest <= length <= longest:
        return 8
    if opcode == STORE_USR_KEY and payload[1] != length - 2:
        return 9
    if opcode == UPDATE_AUTH_KEY and payload[0] != 64:
        return 9
    return None


def answer(line):
    """The answer to a line, without its newline."""
    if len(line) > MOST_DIGITS or len(line) % 2 != 0 or not HEX_DIGITS.issuperset(line):
        return b"bad"
    packet = bytes(int(line[i : i + 2], 16) for i in range(0, len(line), 2))
    number = refusal(packet)
    if number is not None:
        return b"no %d" % number
    return b"ok %02X%02X %d" % (packet[2], packet[1], packet[3])


def lines_of(data):
    """The lines of an input. A newline at the end starts no further line."""
    lines = data.split(b"\n")
    return lines[:-1] if lines[-1] == b"" else lines


# ---- lines to try


def random_bytes(rng, count):
    return bytes(rng.randrange(256) for _ in range(count))


def clean_packet(rng):
    """A lawful packet."""
    opcode = rng.choice(list(COMMANDS))
    shortest, longest = COMMANDS[opcode]
    length = rng.choice([shortest, longest, rng.randint(shortest, longest)])
    payload = bytearray(random_bytes(rng, length))
    if opcode == STORE_USR_KEY:
        payload[1] = length - 2
    if opcode == UPDATE_AUTH_KEY:
        payload[0] = 64
    return bytearray([0x10, opcode % 256, opcode // 256, length]) + payload


def damaged_packet(rng):
    """A lawful packet with one or two things changed, so that most numbers of the refusals come up."""
    packet = clean_packet(rng)
    for _ in range(rng.randint(1, 2)):
        kind = rng.randrange(7)
        if kind == 0:
            del packet[rng.randrange(len(packet) + 1) :]
        elif kind == 1:
            packet += random_bytes(rng, rng.randint(1, 3))
        elif kind == 2 and len(packet) > 3:
            packet[3] = rng.choice([0, 1, 2, 64, 65, 66, 254, 255, rng.randrange(256)])
        elif kind == 3 and len(packet) > 1:
            packet[1] = rng.randrange(0x50, 0x62)
        elif kind == 4 and len(packet) > 4:
            packet[rng.randrange(4, min(len(packet), 7))] = rng.randrange(256)
        elif kind == 5 and len(packet) > 3:
            # another payload length that the packet has
            packet[4:] = random_bytes(rng, rng.choice([0, 1, 2, 3, 64, 65, 66, 255]))
            packet[3] = len(packet) - 4
        elif packet:
            packet[rng.randrange(min(len(packet), 4))] ^= 1 << rng.randrange(8)
    return packet


def hex_line(rng, packet):
    """The packet in hex, in capitals, small letters or mixed."""
    text = packet.hex()
    case = rng.randrange(3)
    if case == 0:
        text = text.upper()
    if case == 1:
        text = "".join(rng.choice([c, c.upper()]) for c in text)
    return text.encode()


def damaged_line(rng):
    """A line of hex with a digit missing or too many, or a byte that is no digit."""
    line = hex_line(rng, damaged_packet(rng))
    place = rng.randrange(len(line) + 1)
    wrong = rng.choice([b"\r", b" ", b"\t", b"\0", b"g", b"G", b"/", b":", b"@", b"`", b"0x", b"\xff"])
    return rng.choice([line[:-1], line + b"0", line[:place] + wrong + line[place:], line[:place] + wrong + line[place + 1 :]])


def long_line(rng):
    """A line about as long as the limit, or far longer."""
    length = rng.choice([517, 518, 519, 520, 521, 522, 523, 600, 1041, 5000])
    start = hex_line(rng, clean_packet(rng))[:length]
    return start + b"0" * (length - len(start))


def rubbish_line(rng):
    return random_bytes(rng, rng.randrange(40)).replace(b"\n", b"\r")


def random_line(rng):
    kind = rng.randrange(20)
    if kind < 7:
        return hex_line(rng, clean_packet(rng))
    if kind < 15:
        return hex_line(rng, damaged_packet(rng))
    if kind < 17:
        return damaged_line(rng)
    if kind < 19:
        return rubbish_line(rng)
    return long_line(rng)


# ---- the inputs


def edge_inputs():
    """Small inputs: no line, empty lines, ends with and without a newline, every single byte, lines about the limit."""
    good = b"1052FC00"
    inputs = [b"", b"\n", b"\n\n", b"10", good, good + b"\n", good + b"\r\n", b"\r", b"\n" + good, good + b"\n\n" + good]
    inputs += [bytes([b]) for b in range(256)]
    inputs += [b"1" + bytes([b]) + b"\n" + good for b in range(256)]
    for length in [0, 1, 2, 7, 8, 9, 518, 519, 520, 521, 522, 523, 600, 4095, 4096, 4097, 100000]:
        inputs += [b"0" * length, b"0" * length + b"\n", b"0" * length + b"\n" + good + b"\n", b"g" * length + b"\n" + good]
    return inputs


def random_inputs(rng):
    """Many short inputs, then one of 25,000 lines."""
    for _ in range(150):
        yield b"\n".join(random_line(rng) for _ in range(rng.randrange(60))) + rng.choice([b"", b"\n"])
    yield b"\n".join(random_line(rng) for _ in range(25000)) + b"\n"


def run(command, data):
    return subprocess.run(command, input=data, stdout=subprocess.PIPE, check=True).stdout


def first_difference(data, written):
    """The first line whose answer is another, the model's answer and the program's; None where all agree."""
    lines = lines_of(data)
    wanted = [answer(line) for line in lines]
    if written == b"".join(w + b"\n" for w in wanted):
        return None
    got = written.split(b"\n")
    for i, line in enumerate(lines):
        if i >= len(got) or got[i] != wanted[i]:
            return line, wanted[i], got[i] if i < len(got) else b"(nothing)"
    return b"(past the last line)", b"(nothing)", b"\n".join(got[len(lines) :])


def main(arguments):
    seed = random.randrange(1 << 32)
    if arguments[:1] == ["--seed"]:
        seed, arguments = int(arguments[1]), arguments[2:]
    if not arguments:
        sys.exit(__doc__)
    print("seed %d" % seed, flush=True)
    rng = random.Random(seed)
    inputs = lines = 0
    answers = {}
    for data in edge_inputs() + list(random_inputs(rng)):
        difference = first_difference(data, run(arguments, data))
        if difference:
            print("line:    %r\nmodel:   %r\nprogram: %r" % difference)
            return 1
        inputs += 1
        for line in lines_of(data):
            lines += 1
            given = answer(line).decode()
            kind = "ok" if given.startswith("ok") else given
            answers[kind] = answers.get(kind, 0) + 1
    counts = ", ".join("%s %d" % pair for pair in sorted(answers.items()))
    print("%d inputs, %d lines, none differs (%s)" % (inputs, lines, counts))
    return 0


if __name__ == "__main__":
    sys.exit(main(sys.argv[1:]))
