#!/usr/bin/env python3
"""Random streams on the serial line of the built library beside the model.

    tests/serial/streams.py [--seed N] [--steps N] DRIVER..

DRIVER.. runs tests/host/driver.c. A stream is a command that is clean, has one bit flipped, one byte lost, doubled or added, has a wrong opcode or
size with good checks, is two commands run together, or is rubbish; N counts the streams. Between them, and now and then inside one, are
restarts, works, cuts, images and plain packets, so that devices are in every situation; there are also records that are no device's, buffers of a
wrong length and readers that no line has. For each byte the answer, what is sent, the reason, the out buffer to its end, the reader and the
record are compared, and after each stream the flash. A mismatch prints the stream and the seed, and the status is 1.
"""
import collections
import os
import sys

sys.path.insert(0, os.path.join(os.path.dirname(os.path.abspath(__file__)), '..', 'host'))
import fuzz
import line
import model
import playing

ROOM = 12  # the most that the driver has for the out buffer
# kinds of streams, and how often each is sent
KINDS = {'clean': 30, 'spoilt': 35, 'wrong': 10, 'together': 15, 'rubbish': 10}
LIKELY = bytes.fromhex('505051AFAEAE000000525354565758595AFFFFADACABA9A8A7A6A510121F79')


def data_for(rng, opcode, device):
    """The data bytes of a command with this opcode on the line, good ones most often."""
    if opcode == 0x56:
        return bytes([64 if rng.random() < 0.9 else rng.randrange(256)]) + rng.randbytes(64)
    if opcode == 0x59:
        count, locked = (len(device.keys), sorted(device.locked)) if device else (0, [])
        return bytes([rng.choice([0, 1, count, count + 1, rng.randrange(count + 1), rng.randrange(256), *locked[:2]])])
    if opcode == 0x58:
        kind = rng.choice([1, 1, 1, 2, 3, 3, rng.randrange(256)])
        n = rng.choice(model.KEY_SIZES.get(kind, (16,))) if rng.random() < 0.8 else rng.randrange(45)
        return bytes([kind, n if rng.random() < 0.95 else rng.randrange(256)]) + rng.randbytes(n)
    return b''


def command(rng, device):
    """A command that the line takes, as bytes."""
    often = [16, 3, 6, 2, 1, 16, 12, 3]
    if device is not None and device.stack_runs:
        often[0] = 60
    pair, opcode = rng.choices(list(line.COMMANDS), often)[0]
    return line.frame(pair, opcode, data_for(rng, opcode, device))


def spoilt(rng, stream):
    """The stream with one bit flipped, or one byte lost, doubled or added."""
    at = rng.randrange(len(stream))
    way = rng.randrange(4)
    if way == 0:
        return stream[:at] + bytes([stream[at] ^ 1 << rng.randrange(8)]) + stream[at + 1:]
    if way == 1:
        return stream[:at] + stream[at + 1:]
    added = stream[at] if way == 2 else rng.choice([rng.randrange(256), rng.choice(LIKELY)])
    return stream[:at] + bytes([added]) + stream[at:]


def wrong_packet(rng, stream):
    """The stream with a field that is wrong though its checks are right: another opcode, another size."""
    opcode = rng.choice([*range(0x50, 0x60), 0xFC52, 0x5200, 0x0154, rng.randrange(65536)])
    size = rng.choice([0, 1, 2, 3, 4, 45, 46, 47, 64, 65, 66, 255, 256, 258, rng.randrange(65536)])
    if rng.random() < 0.5:
        high_first = opcode.to_bytes(2, 'big')
        return stream[:2] + high_first + line.complement(high_first) + stream[6:]
    body = size.to_bytes(2, 'big') + rng.randbytes(min(size, 80))
    return stream[:9] + body + bytes([line.xor(body)])


def stream_for(rng, device):
    """(kind, stream)."""
    kind = rng.choices(list(KINDS), KINDS.values())[0]
    good = command(rng, device)
    if kind == 'spoilt':
        return kind, spoilt(rng, good)
    if kind == 'wrong':
        return kind, wrong_packet(rng, good)
    if kind == 'together':
        return kind, good[:rng.choice([len(good), rng.randrange(len(good) + 1)])] + command(rng, device)
    if kind == 'rubbish':
        most = rng.choice([1, 2, 9, 40, 100])
        return kind, bytes(rng.choice(LIKELY) if rng.random() < 0.7 else rng.randrange(256) for _ in range(rng.randrange(1, most + 1)))
    return kind, good


class Line:
    """A reader, played on both; the device is the pair's."""

    def __init__(self, pair):
        self.pair, self.tally, self.reasons = pair, collections.Counter(), set()
        pair.expect('serial_bytes', pair.raw(playing.SERIAL_BYTES)[0], line.READER)
        self.put(b'\xA5' * line.READER)
        self.fresh()

    def put(self, reader):
        """The host puts other bytes there: a reader, and two bytes behind it."""
        self.pair.file[playing.READER_AT:playing.READER_AT + line.READER + 2] = reader + b'\x5A\xA5'
        self.reader, self.received = reader, line.received_in(reader)

    def fresh(self, length=line.READER):
        pair = self.pair
        if length == line.READER:
            self.reader, self.received = line.NEW, b''
        pair.expect('serial_fresh', pair.raw(playing.SERIAL_FRESH, filler=length)[0], 0 if length == line.READER else 19)
        pair.expect('reader', pair.file[playing.READER_AT:playing.READER_AT + line.READER + 2], self.reader + b'\x5A\xA5')

    def entry(self, byte, room, length, lent):
        """What the driver should have logged of one byte."""
        before = self.record
        answer, sent, reason = 3 if room < line.LEAST_ROOM else 19 if length != line.READER or self.received is None else 0, b'', 0
        if answer == 0:
            self.received, sent, reason = line.take(self.received, *lent, byte)
            self.reader = line.layout(self.received)
            if len(sent) > 1 and lent[0] is not None:
                self.record = model.record_bytes(lent[0])
            self.reasons.add(reason)
            self.tally['commands'] += len(sent) > 1
            self.tally['NACKs'] += sent == line.NACK
        changed = self.record != before
        return (bytes([answer, len(sent), reason]) + sent + bytes(room - len(sent)) + b'\xA5' * (ROOM + 1 - room)
                + self.reader + b'\x5A\xA5' + bytes([changed]) + (self.record if changed else b''))

    def play(self, stream, room=line.LEAST_ROOM, length=line.READER, record=model.RECORD, flash=model.FLASH):
        pair = self.pair
        pair.steps += 1
        given = self.record = pair.record()
        pair.file[playing.PACKET_AT:playing.PACKET_AT + len(stream)] = stream
        _, logged, _ = pair.raw(playing.SERIAL, record, flash, len(stream), room, length)
        lent, at = pair.lent(record, flash), 0
        for index, byte in enumerate(stream):
            wanted = self.entry(byte, room, length, lent)
            got = pair.file[playing.LOG_AT + at:playing.LOG_AT + at + len(wanted)]
            if got != wanted:
                places = [i for i in range(len(wanted)) if got[i] != wanted[i]]
                raise playing.Mismatch(f'byte {index}, at {places[:6]}: {got[:97].hex()}, the model {wanted[:97].hex()}')
            at += len(wanted)
        pair.expect('log', logged, at)
        self.tally['bytes'] += len(stream)
        pair.compare(given, record)


class Run:
    def __init__(self, pair, rng):
        self.pair, self.rng = pair, rng
        self.walk, self.line = fuzz.Run(pair, rng), Line(pair)

    def between(self):
        """Something else happens to the device, by the calls that the line does not know."""
        walk, job = self.walk, self.pair.device.job is not None
        running = self.pair.device.stack_runs
        ways = [(walk.packet, 8), (walk.works, 20 if job else 1), (walk.cut, 3), (walk.restart, 2), (walk.upgrade, 0.3 if job or running else 1),
                (self.upgrade, 0.3 if job or running else 4),
                (lambda: self.pair.fresh(), 0.4), (self.many_keys, 0.2), (self.lock, 1),
                (lambda: self.pair.handle(b'\x10\x5A\xFC\0'), 4)]
        self.rng.choices([way for way, _ in ways], [weight for _, weight in ways])[0]()

    def upgrade(self):
        """An image is loaded, and asked for on the line."""
        pair, rng = self.pair, self.rng
        p, data = fuzz.image(rng, pair.device)
        if rng.random() < 0.3:
            pair.set_flash(0, b'\xFF' * (pair.device.boundary * model.SECTOR))
        pair.set_flash(p * model.SECTOR, data[:(model.COUNT - p) * model.SECTOR])
        self.line.fresh()
        self.line.play(line.frame('write', 0x53))

    def lock(self):
        index = self.rng.randrange(len(self.pair.device.keys) + 1)
        self.pair.handle_why(bytes([0x10, 0x5D, 0xFC, 1, index]))

    def many_keys(self):
        for _ in range(self.rng.choice([5, 60, 220])):
            self.pair.handle_why(fuzz.lawful(self.rng, 0xFC58))

    def other_reader(self):
        """A reader with one byte changed, or of another length; then a new one."""
        rng, reader = self.rng, bytearray(self.line.reader)
        for _ in range(rng.choice([1, 1, 2])):
            at = rng.choice([0, rng.randrange(12), rng.randrange(line.READER)])
            reader[at] = rng.choice([0, 1, 8, 9, 10, 11, 12, 13, 75, 76, 77, 78, 255, reader[at] ^ 1 << rng.randrange(8), rng.randrange(256)])
        length = rng.choice([line.READER] * 3 + [0, 1, line.READER - 1, line.READER + 1])
        self.line.put(bytes(reader))
        self.line.play(stream_for(rng, self.pair.device)[1], length=length)
        self.line.fresh(rng.choice([0, 77, 79]))
        self.line.fresh()

    def no_record(self):
        """A record that is no device's, or buffers of a wrong length: whole commands get a NACK for their response."""
        rng, pair = self.rng, self.pair
        kept = pair.record()
        if rng.random() < 0.5:
            pair.set_record(kept[:1] + b'\x04' + kept[2:])
            wrong = {}
        else:
            wrong = rng.choice([{'record': model.RECORD - 1}, {'record': 0}, {'flash': model.FLASH - 1}, {'flash': 0}])
        self.line.play(stream_for(rng, pair.device)[1], **wrong)
        pair.set_record(kept)

    def step(self):
        rng, tally = self.rng, self.line.tally
        if rng.random() < 0.12:
            self.between()
        if rng.random() < 0.02:
            self.other_reader()
        if rng.random() < 0.02:
            self.no_record()
        if rng.random() < 0.6 and self.line.received:
            self.line.fresh()
        device = self.pair.device
        kind, stream = stream_for(rng, device)
        tally[kind] += 1
        tally['stack runs' if device.stack_runs else 'job' if device.job else 'pending error' if device.error else 'idle'] += 1
        if rng.random() < 0.05:  # something happens in the middle of it
            half = rng.randrange(len(stream))
            self.line.play(stream[:half])
            self.between()
            stream = stream[half:]
        self.line.play(stream, room=rng.choice([10, 10, 10, 10, 11, 12]) if rng.random() < 0.99 else rng.randrange(10))


def run(pair, rng, streams):
    run = Run(pair, rng)
    for _ in range(streams):
        run.step()
    tally = run.line.tally
    return (f'{streams} streams (' + ', '.join(f'{tally[kind]} {kind}' for kind in KINDS) + '), '
            + ', '.join(f'{tally[what]} {what}' for what in ('bytes', 'commands', 'NACKs')) + '; devices: '
            + ', '.join(f'{tally[situation]} {situation}' for situation in ('idle', 'pending error', 'job', 'stack runs'))
            + f'; reasons {sorted(run.line.reasons)}')


if __name__ == '__main__':
    playing.main(run, 100000)
