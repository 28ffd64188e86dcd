"""A device played twice: by the driver (the built library, in a process of its own) and by the model. `Pair` makes each call on both and
compares answer, record, flash and reply in full; the driver's buffers stand in a file that both map."""
import ctypes
import mmap
import os
import random
import struct
import subprocess
import sys
import tempfile

import model

RECORD_AT, PACKET_AT, FILLER_AT, REPLY_AT, FLASH_AT, VERDICT_AT, WHOLE = 0, 8192, 12288, 20480, 24576, 1048576, 2359296
READER_AT, LOG_AT = 11264, VERDICT_AT
FRESH, READ, HANDLE, RESTART, WORK, CUT, NEXT_MESSAGE, RECORD_BYTES, VERDICTS, HANDLE_WHY, SERIAL_BYTES, SERIAL_FRESH, SERIAL = range(13)
NAMES = ('fresh', 'read', 'handle', 'restart', 'work', 'cut', 'next_message', 'record_bytes', 'verdicts', 'handle_why', 'serial_bytes',
         'serial_fresh', 'serial')

memcmp = ctypes.CDLL(None).memcmp
memcmp.argtypes = [ctypes.c_void_p, ctypes.c_void_p, ctypes.c_size_t]


def address(buffer, at=0):
    return ctypes.addressof(ctypes.c_char.from_buffer(buffer, at))


class Mismatch(Exception):
    pass


class Pair:
    def __init__(self, command):
        """`command` runs the driver; it is given the file's name."""
        self.command = command
        self.steps = 0
        self.reasons = set()  # those given so far
        self.flash = bytearray(b'\xFF' * model.FLASH)
        self.device = None  # of the record that stands there, by the model; None where it is no sound device's
        handle, name = tempfile.mkstemp()
        os.truncate(handle, WHOLE)
        self.file = mmap.mmap(handle, WHOLE)
        os.close(handle)
        self.driver = subprocess.Popen(command + [name], stdin=subprocess.PIPE, stdout=subprocess.PIPE, bufsize=0)
        self.places = address(self.flash), address(self.file, FLASH_AT)
        self.set_flash(0, bytes(self.flash))
        if self.raw(RECORD_BYTES)[0] != model.RECORD:
            raise Mismatch('record_bytes')
        os.unlink(name)  # both have it mapped

    def close(self):
        self.driver.stdin.close()
        self.driver.wait()

    def raw(self, call, record=model.RECORD, flash=model.FLASH, packet=0, reply=0, filler=0, through=0):
        """(answer, first, second) of the driver."""
        self.lengths = call, record, flash, packet, reply, filler, through
        self.driver.stdin.write(struct.pack('<7I', call, record, flash, packet, reply, filler, through))
        said = self.driver.stdout.read(12)
        if len(said) != 12:
            raise Mismatch(f'the driver died (status {self.driver.wait()})')
        return struct.unpack('<3I', said)

    def doing(self):
        """The last call, for the person who looks for a mismatch."""
        call, record, flash, packet, reply, filler, through = self.lengths
        return (f'step {self.steps}, {NAMES[call]} (record {record}, flash {flash}, packet {self.file[PACKET_AT:PACKET_AT + packet].hex()}, '
                f'reply {reply}, filler {filler}, through {through})')

    # what the host does to its own buffers

    def set_flash(self, at, data):
        self.flash[at:at + len(data)] = data
        self.file[FLASH_AT + at:FLASH_AT + at + len(data)] = data

    def set_record(self, record):
        self.file[RECORD_AT:RECORD_AT + len(record)] = record
        self.device = model.device_of(record)

    def record(self):
        return self.file[RECORD_AT:RECORD_AT + model.RECORD]

    # comparing

    def expect(self, what, got, wanted):
        if got != wanted:
            raise Mismatch(f'{what}: {got if not isinstance(got, bytes) else got[:64].hex()}, '
                           f'the model {wanted if not isinstance(wanted, bytes) else wanted[:64].hex()}')

    def compare(self, given, length):
        """Record and flash, after a call that was given this record with this length."""
        wanted = given if self.device is None or length != model.RECORD else model.record_bytes(self.device)
        got = self.record()
        if got != wanted:
            at = [i for i in range(model.RECORD) if got[i] != wanted[i]]
            raise Mismatch(f'record at {at[:8]}: {[got[i] for i in at[:8]]}, the model {[wanted[i] for i in at[:8]]}')
        if memcmp(*self.places, model.FLASH):
            mine = self.file[FLASH_AT:FLASH_AT + model.FLASH]
            at = next(i for i in range(model.FLASH) if mine[i] != self.flash[i])
            raise Mismatch(f'flash in sector {at // model.SECTOR} at {at % model.SECTOR}: {mine[at]}, the model {self.flash[at]}')

    def answered(self, said, refusal, reply, given, record, first=0, second=0):
        self.steps += 1
        self.expect('answer', said, (refusal, first, second))
        self.expect('reply', self.file[REPLY_AT:REPLY_AT + len(reply)], bytes(reply))
        self.expect('byte behind the reply', self.file[REPLY_AT + len(reply)], 0x5A)
        self.compare(given, record)

    def buffers(self, reply=0, packet=b'', filler=b''):
        """The reply buffer, with old bytes in it, and what is given."""
        self.file[REPLY_AT:REPLY_AT + reply + 1] = b'\x5A' * (reply + 1)
        self.file[PACKET_AT:PACKET_AT + len(packet)] = packet
        self.file[FILLER_AT:FILLER_AT + len(filler)] = filler
        return bytearray(b'\x5A' * reply), self.record()

    # the calls; `record` and `flash` are the lengths that the call is given

    def lent(self, record, flash=model.FLASH):
        """Device and flash as the model is given them."""
        return self.device if record == model.RECORD else None, self.flash if flash == model.FLASH else bytes(1)

    def fresh(self, record=model.RECORD):
        reply, given = self.buffers()
        said = self.raw(FRESH, record)
        if record == model.RECORD:
            self.device = model.Device()
        self.answered(said, 0 if record == model.RECORD else 1, reply, given, record)

    def read(self, packet):
        reply, given = self.buffers(0, packet)
        refusal, opcode, length = model.read(packet)
        self.answered(self.raw(READ, packet=len(packet)), refusal, reply, given, model.RECORD, opcode, length)

    def handle(self, packet, room=8, record=model.RECORD, flash=model.FLASH):
        reply, given = self.buffers(room, packet)
        said = self.raw(HANDLE, record, flash, len(packet), room)
        device, lent = self.lent(record, flash)
        self.answered(said, model.handle(device, lent, packet, reply), reply, given, record)
        return bytes(reply)

    def handle_why(self, packet, room=8, record=model.RECORD, flash=model.FLASH):
        reply, given = self.buffers(room, packet)
        said = self.raw(HANDLE_WHY, record, flash, len(packet), room)
        device, lent = self.lent(record, flash)
        refusal, reason = model.handle_why(device, lent, packet, reply)
        self.reasons.add(reason)
        self.answered(said, refusal, reply, given, record, reason)
        return bytes(reply)

    def restart(self, room=6, record=model.RECORD):
        event, given = self.buffers(room)
        said = self.raw(RESTART, record, reply=room)
        self.answered(said, model.restart(self.lent(record)[0], event), event, given, record)

    def work(self, record=model.RECORD, flash=model.FLASH):
        reply, given = self.buffers()
        said = self.raw(WORK, record, flash)
        refusal, left = model.work(*self.lent(record, flash))
        self.answered(said, refusal, reply, given, record, left)
        return left

    def cut(self, filler, through, room=6, record=model.RECORD, flash=model.FLASH):
        event, given = self.buffers(room, b'', filler)
        said = self.raw(CUT, record, flash, 0, room, len(filler), through)
        device, lent = self.lent(record, flash)
        self.answered(said, model.cut(device, lent, filler, through, event), event, given, record)

    def next_message(self, event, response):
        reply, given = self.buffers(len(response), event)
        self.file[REPLY_AT:REPLY_AT + len(response)] = reply[:] = response
        said = self.raw(NEXT_MESSAGE, packet=len(event), reply=len(response))
        self.answered(said, model.next_message(event, response), reply, given, model.RECORD)

    def verdicts(self):
        """What restart answers with each byte of the record set to each value: 256 answers a byte."""
        self.raw(VERDICTS)
        return self.file[VERDICT_AT:VERDICT_AT + 256 * model.RECORD]


# ---- images


def image(rng, size, version, seal=1, tag=0, key=bytes(64), kind=1, wrong_sum=False):
    """A bench image; its body is random, and cut where flash would end."""
    body = rng.randbytes(min(max(size, 84), model.FLASH) - 84)
    words = struct.unpack(f'<{len(body) // 4}I', body[:len(body) // 4 * 4])
    total = sum(words) + (rng.randrange(1, 2 ** 32) if wrong_sum else 0) & 0xFFFFFFFF
    return b'BNI\x01\x00' + bytes([kind, seal, tag]) + struct.pack('<3I', size, version, total) + key + body


def main(run, default):
    """Prints run(pair, rng, steps) for `SCRIPT [--seed N] [--steps N] DRIVER..`; a mismatch with its step, call and seed is status 1."""
    words, seed, steps = sys.argv[1:], None, default
    while words and words[0].startswith('--'):
        if words[0] == '--seed':
            seed = int(words[1])
        else:
            steps = int(words[1])
        words = words[2:]
    seed = int.from_bytes(os.urandom(4), 'little') if seed is None else seed
    name = os.path.basename(sys.argv[0])
    pair = Pair(words)
    try:
        print(f'{name}: seed {seed}, {run(pair, random.Random(seed), steps)}')
        pair.close()
    except Mismatch as told:
        print(f'{name}: FAILED, seed {seed}, {pair.doing()}: {told}')
        sys.exit(1)
