#!/usr/bin/env python3
"""Long random runs of the built library beside the model.

    tests/host/fuzz.py [--seed N] [--steps N] DRIVER..

DRIVER.. runs driver.c. Packets and arguments are clean, rubbish, or broken but plausible; images are of many sizes and at many places, with
each check failing; jobs run with works, cuts, restarts and packets between; half of the packets are asked for their reason too. After each
step answer, reason, record, flash and reply are compared in full. A mismatch prints the step, the call and the seed, and the status is 1.
"""
import struct

import model
import playing

OPCODES = list(model.PAYLOAD)
# how often each is sent: what can't be undone is rare
OFTEN = {0xFC56: 2, 0xFC57: 1, 0xFC5A: 3, 0xFC5F: 1, 0xFC55: 3, 0xFC54: 2, 0xFC58: 12, 0xFC59: 12, 0xFC5D: 3, 0xFC5E: 6, 0xFC52: 12}


def lawful(rng, opcode, device=None):
    """A lawful packet with this opcode."""
    count, loaded = (len(device.keys), device.loaded) if device else (1, 1)
    low, high = model.PAYLOAD[opcode]
    payload = rng.randbytes(high if high != 255 else 2)
    if opcode == 0xFC56:
        payload = b'\x40' + rng.choice([bytes([rng.randrange(2)]) * 64, payload[1:]])
    elif opcode == 0xFC58:
        kind = rng.choice([1, 1, 1, 3, 3, 3, 2, 0, 4, 255])
        n = rng.choice(model.KEY_SIZES.get(kind, (16,)))
        if rng.random() < 0.2:
            n = rng.choice([16, 32, 28, 44, 0, 1, 15, 17, 45, 64, 253, rng.randrange(254)])
        payload = bytes([kind, n]) + rng.randbytes(n)
    elif high == 1:
        payload = bytes([rng.choice([0, 1, count, count + 1, loaded, loaded, 100, 101, 255, rng.randrange(256), rng.randrange(count + 1)])])
    return bytes([0x10, opcode & 0xFF, opcode >> 8, len(payload)]) + payload


def broken(rng, packet):
    """A packet that is nearly lawful."""
    packet = bytearray(packet)
    for _ in range(rng.choice([1, 1, 1, 2, 3])):
        way = rng.randrange(8)
        if way == 0 and packet:
            packet[rng.randrange(len(packet))] ^= 1 << rng.randrange(8)
        elif way == 1 and packet:
            packet[rng.randrange(min(6, len(packet)))] = rng.choice([0, 1, 2, 0x10, 0x11, 0x40, 0xFC, 0xFF, rng.randrange(256)])
        elif way == 2:
            del packet[rng.randrange(len(packet) + 1):]
        elif way == 3:
            packet += rng.randbytes(rng.choice([1, 1, 2, 4, 250]))
        elif way == 4 and len(packet) > 3:
            packet[3] = packet[3] + rng.choice([1, 255, 4, 252]) & 255
        elif way == 5 and len(packet) > 3:
            packet[3] = len(packet) - 4 & 255
        elif way == 6 and len(packet) > 3:  # another command's payload
            packet[1], packet[2] = rng.choice(OPCODES) & 255, 0xFC
        elif len(packet) > 5:  # another size inside
            packet[4 if packet[1] == 0x56 else 5] += rng.choice([1, -1]) if 0 < packet[5] < 255 and 0 < packet[4] < 255 else 0
    return bytes(packet)


def image(rng, device):
    """An image, most often good for this device, else with one thing or several wrong."""
    boundary = device.boundary
    b = rng.choice([1, 1, 2, 3, 4, 5, rng.randrange(1, 12), rng.randrange(1, 40), rng.randrange(1, 130) if rng.random() < 0.2 else 2,
                    243 if rng.random() < 0.02 else 3])
    size = b * model.SECTOR - rng.choice([0, 0, 4, model.SECTOR - 4, model.SECTOR - 84, 4 * rng.randrange(1024)])
    size = max(size, 84)
    b = model.blocks(size)
    most = boundary - b - 1
    p = rng.choice([most, most, most - 1, most + 1, 0, model.COUNT - 2 * b, model.COUNT - b - 1, rng.randrange(boundary), rng.randrange(boundary)])
    p = min(max(p, 0), boundary - 1)
    version = rng.choice([0, 1, 0x7FFFFFFF, 0x80000000, 0xFFFFFFFE, device.floor, max(device.floor, 1) - 1, min(device.floor + 1, 0xFFFFFFFE),
                          rng.randrange(2 ** 32 - 1)])
    parts = {'seal': 1, 'tag': 0, 'kind': 1, 'wrong_sum': False, 'key': rng.randbytes(64)}
    if device.auth and rng.random() < 0.7:
        parts['tag'], parts['key'] = 1, device.auth_bytes
    while rng.random() < 0.3:
        wrong = rng.randrange(8)
        if wrong == 0:
            parts['seal'] = rng.choice([0, 0, 2, 255])
        elif wrong == 1:
            parts['tag'] = rng.choice([0, 1, 1, 2, 255])
        elif wrong == 2:
            parts['kind'] = rng.choice([0, 2, 255])
        elif wrong == 3:
            parts['wrong_sum'] = True
        elif wrong == 4:
            size = rng.choice([0, 80, 83, size + 1, size + 2, size + 3, 0xFFFFFFFC, 0xFFFFF000, 0x80000000, model.FLASH + 4])
        elif wrong == 5:
            version = model.NO_VERSION
        elif wrong == 6:
            key = bytearray(device.auth_bytes)
            key[rng.randrange(64)] ^= 1
            parts['key'] = bytes(key)
        else:
            parts['key'] = device.auth_bytes
    return p, playing.image(rng, size, version, **parts)


class Run:
    def __init__(self, pair, rng):
        self.pair, self.rng = pair, rng
        self.last = b''  # the last reply, for next message
        pair.fresh()

    # arguments

    def room(self, least):
        rng = self.rng
        return least if rng.random() < 0.7 else rng.choice([0, 1, 5, 6, 7, 8, 9, 64, 300, rng.randrange(301)])

    def lengths(self, *names):
        """Now and then a wrong length of record or flash."""
        rng, wrong = self.rng, {}
        if 'record' in names and rng.random() < 0.01:
            wrong['record'] = rng.choice([0, 1, model.RECORD - 1, model.RECORD + 1, 8000])
        if 'flash' in names and rng.random() < 0.01:
            wrong['flash'] = rng.choice([0, 1, model.FLASH - 1, model.FLASH + 1, model.FLASH - model.SECTOR])
        return wrong

    # what can happen

    def packet(self):
        rng, device = self.rng, self.pair.device
        opcode = rng.choices(OPCODES, [OFTEN[opcode] for opcode in OPCODES])[0]
        if device is not None and device.stack_runs and rng.random() < 0.6:
            opcode = 0xFC52
        packet = lawful(rng, opcode, device)
        way = rng.random()
        if way < 0.2:
            packet = broken(rng, packet)
        elif way < 0.25:
            packet = rng.randbytes(rng.choice([0, 1, 3, 4, 5, 8, 300, rng.randrange(301)]))
        if rng.random() < 0.1:
            self.pair.read(packet)
        handle = rng.choice([self.pair.handle, self.pair.handle_why])
        self.last = handle(packet, self.room(8), **self.lengths('record', 'flash'))

    def works(self):
        rng = self.rng
        for _ in range(rng.choice([1, 1, 2, 3, 5, 10, 40, 200])):
            if self.pair.work(**self.lengths('record', 'flash')) == 0 and rng.random() < 0.8:
                break

    def cut(self):
        rng = self.rng
        filler = rng.choice([b'\0' * model.SECTOR, b'\xFF' * model.SECTOR, rng.randbytes(model.SECTOR),
                             b'BNI\x01\0' + rng.randbytes(model.SECTOR - 5)])
        if rng.random() < 0.05:
            filler = rng.choice([b'', filler[1:], filler + b'x', filler * 2])
        self.pair.cut(filler, rng.choice([0, 0, 1, 1, 2, 128, 255]), self.room(6), **self.lengths('record', 'flash'))

    def restart(self):
        self.pair.restart(self.room(6), **self.lengths('record'))

    def next_message(self):
        rng = self.rng
        event = rng.choice([b'', b'\x12\xFF\x03\0\x92\1', b'\x12\xFF\x03' + rng.randbytes(rng.randrange(6)), rng.randbytes(rng.randrange(9))])
        response = rng.choice([self.last, self.last, b'\x11\x0E' + bytes([rng.randrange(3, 7)]) + rng.randbytes(rng.randrange(8)), b''])
        self.pair.next_message(event, response)

    def upgrade(self):
        """An image is loaded, the host asks for it, and most often the job is begun to work."""
        pair, rng = self.pair, self.rng
        if pair.device is None:
            return
        p, data = image(rng, pair.device)
        if rng.random() < 0.3:
            pair.set_flash(0, b'\xFF' * (pair.device.boundary * model.SECTOR))
        pair.set_flash(p * model.SECTOR, data[:(model.COUNT - p) * model.SECTOR])
        if rng.random() < 0.1:  # another mark, of another version or a second image
            t = rng.randrange(model.COUNT)
            pair.set_flash(t * model.SECTOR, rng.choice([b'BNI\x01\x00', b'BNI\x02\x00', b'BNI\x01\x01', b'BNJ\x01\x00']))
        self.last = pair.handle(lawful(rng, 0xFC54), self.room(8))

    def scribble(self):
        """The host writes to flash, during a job too."""
        t = self.rng.randrange(model.COUNT)
        self.pair.set_flash(t * model.SECTOR + self.rng.randrange(model.SECTOR - 64), self.rng.randbytes(self.rng.choice([1, 4, 64])))

    def damage(self):
        """The record's bytes are changed: refused by every call, or taken and gone on with."""
        pair, rng = self.pair, self.rng
        kept = pair.record()
        record = bytearray(kept)
        for _ in range(rng.choice([1, 1, 1, 2, 3])):
            if rng.random() < 0.5:
                at = rng.choice([10, 14, 18, 22, 26, 30, 34, 38])
                old = struct.unpack_from('<I', record, at)[0]
                new = rng.choice([0, 1, old + 1, old - 1, old + 4, old - 4, 84, 243, 244, 245, model.NO_VERSION, old ^ 1 << rng.randrange(32)])
                struct.pack_into('<I', record, at, new & 0xFFFFFFFF)
            else:
                at = rng.choice([rng.randrange(10), rng.randrange(42), rng.randrange(42, 409), rng.randrange(model.RECORD)])
                record[at] = rng.choice([0, 1, 2, 3, record[at] ^ 1 << rng.randrange(8), record[at] + 1 & 255, rng.randrange(256)])
        pair.set_record(bytes(record))
        if pair.device is None:
            for call in rng.sample([self.packet, self.restart, self.cut, lambda: pair.work(**self.lengths('flash'))], 2):
                call()
            pair.set_record(kept)
        elif rng.random() < 0.5:
            for call in rng.sample([self.packet, self.works, self.cut], 2):
                call()
            pair.set_record(kept)

    def fresh(self):
        """Another device, now and then with many keys."""
        self.pair.fresh(self.rng.choice([0, 1, model.RECORD - 1, model.RECORD + 1]))
        self.pair.fresh()
        for _ in range(self.rng.choice([0, 0, 0, 5, 60, 220])):
            self.pair.handle_why(lawful(self.rng, 0xFC58))

    def step(self):
        rng, device = self.rng, self.pair.device
        job = device is not None and device.job is not None
        ways = [(self.packet, 30), (self.works, 20 if job else 1), (self.cut, 5 if job else 1), (self.restart, 2), (self.next_message, 3),
                (self.upgrade, 1 if job or device.stack_runs else 12), (self.scribble, 0.5), (self.damage, 3), (self.fresh, 0.2)]
        rng.choices([way for way, _ in ways], [weight for _, weight in ways])[0]()


def run(pair, rng, steps):
    run = Run(pair, rng)
    while pair.steps < steps:
        run.step()
    return f'{pair.steps} steps, reasons {sorted(pair.reasons)}'


if __name__ == '__main__':
    playing.main(run, 100000)
