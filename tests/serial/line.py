"""The factory's serial line once more, written from paper 02 alone over tests/host/model.py, and sharing nothing with the crates or the C.

A command is judged as a byte string: `judge` says what the last of its bytes brings. A reader is the bytes received of the command under way,
laid out as docs/RECORD.md says.
"""
import copy
import os
import sys

sys.path.insert(0, os.path.join(os.path.dirname(os.path.abspath(__file__)), '..', 'host'))
import model

READER = 78
NEW = bytes(READER)
LEAST_ROOM = 10
PAIRS = {b'\x50\xAF': 'read', b'\x51\xAE': 'write'}
# pair and opcode on the line: our packet's opcode, and how many data bytes there may be
COMMANDS = {
    ('read', 0x0054): (0xFC52, ()),
    ('write', 0x0052): (0xFC55, (0,)),
    ('write', 0x0053): (0xFC54, (0,)),
    ('write', 0x0056): (0xFC56, (65,)),
    ('write', 0x0057): (0xFC57, (0,)),
    ('write', 0x0058): (0xFC58, range(2, 47)),
    ('write', 0x0059): (0xFC59, (1,)),
    ('write', 0x005A): (0xFC5A, (0,)),
}
NOTHING, ACK, NACK, WHOLE = b'', b'\x79', b'\x1F', b'whole'


def xor(data):
    result = 0
    for byte in data:
        result ^= byte
    return result


def complement(data):
    return bytes(255 - byte for byte in data)


def frame(pair, opcode, data=b''):
    """A good command as the line carries it."""
    packets = {name: first for first, name in PAIRS.items()}[pair]
    opcode = opcode.to_bytes(2, 'big')
    packets += opcode + complement(opcode) + bytes(3)
    if pair == 'write':
        body = len(data).to_bytes(2, 'big') + data
        packets += body + bytes([xor(body)])
    return packets


def judge(s):
    """What the last of these bytes brings, all that came before it having been right: NOTHING, ACK, NACK or WHOLE."""
    n, pair = len(s), PAIRS.get(s[:2])
    if n < 2:
        return NOTHING
    if n == 2:
        return ACK if pair else NACK
    command = pair, int.from_bytes(s[2:4], 'big')
    if n == 6:
        return ACK if s[4:] == complement(s[2:4]) and command in COMMANDS else NACK
    if n == 8:
        return NOTHING if s[6:] == b'\0\0' else NACK
    if n == 9:
        right = s[8] == xor(s[6:8])
        return NACK if not right else WHOLE if pair == 'read' else ACK
    if n < 11:
        return NOTHING
    size = int.from_bytes(s[9:11], 'big')
    if n == 11:
        return NOTHING if size in COMMANDS[command][1] else NACK
    if n < 12 + size:
        return NOTHING
    return WHOLE if s[-1] == xor(s[9:-1]) else NACK


def layout(received):
    """The reader's bytes."""
    return bytes([len(received)]) + received + bytes(READER - 1 - len(received))


def received_in(reader):
    """What a reader with these bytes has received; None where no line comes to such a reader."""
    if len(reader) != READER:
        return None
    received = reader[1:1 + reader[0]]
    if layout(received) != reader:
        return None
    prefixes = (received[:i] for i in range(1, len(received) + 1))
    return received if all(judge(prefix) in (NOTHING, ACK) for prefix in prefixes) else None


def packet_of(s):
    """Our packet for a whole command."""
    pair = PAIRS[s[:2]]
    opcode = COMMANDS[pair, int.from_bytes(s[2:4], 'big')][0]
    data = s[11:-1] if pair == 'write' else b''
    return bytes([0x10]) + opcode.to_bytes(2, 'little') + bytes([len(data)]) + data


def peek(device):
    """What GET_STATE would reply next."""
    return bytes(model.get_state(copy.copy(device)))


def respond(device, flash, packet):
    """(bytes behind the last ACK, reason): the command is handled, and answered in the line's way."""
    reply = bytearray(8)
    refusal, reason = model.handle_why(device, flash, packet, reply)
    if refusal:
        return NACK, 0
    opcode, status = packet[1], reply[6]
    if opcode == 0x52:
        return b'\0\3\0' + bytes(reply[6:8]) + b'\0\1\0' + ACK, reason
    if status:
        return b'\0\3\1' + peek(device) + ACK, reason
    if opcode == 0x58:
        return b'\0\3\0' + peek(device)[:1] + bytes(reply[7:8]) + ACK, reason
    return b'\0\1\0' + ACK, reason


def take(received, device, flash, byte):
    """(received after it, bytes sent, reason) of one byte; device and flash change in place."""
    received += bytes([byte])
    brings = judge(received)
    if brings == WHOLE:
        response, reason = respond(device, flash, packet_of(received))
        return b'', ACK + response, reason
    return b'' if brings == NACK else received, brings, 0
