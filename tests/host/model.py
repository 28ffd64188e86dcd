"""The stand-in once more, written from paper 01 and from 02's list of reasons alone: slow, plain, and sharing nothing with the crates.

A Device holds what the paper lists under "Kept" and "Lost". Each call returns its refusal number (0: taken) and changes device, flash and
reply buffer in place, as the paper says; it takes None for a record that is no sound device's. `record_bytes` lays a device out as
docs/RECORD.md does, and `device_of` is its inverse.
"""
import struct

SECTOR = 4096
COUNT = 244
FLASH = SECTOR * COUNT
RECORD = 4853
NO_VERSION = 0xFFFFFFFF
MOST_KEYS = 100
KEY_ROOM = 44
ERRORS = (0x01, 0x02, 0x03, 0x04, 0x0A, 0x11, 0xFF)

# opcode: lowest and highest number of payload bytes
PAYLOAD = {
    0xFC52: (0, 0), 0xFC54: (0, 0), 0xFC55: (0, 0), 0xFC56: (65, 65), 0xFC57: (0, 0), 0xFC58: (2, 255),
    0xFC59: (1, 1), 0xFC5A: (0, 0), 0xFC5D: (1, 1), 0xFC5E: (1, 1), 0xFC5F: (0, 0),
}
KEY_SIZES = {1: (16, 32), 2: (16, 32), 3: (28, 44)}


class Job:
    """A job under way: 'upgrade' with p, size and version, or 'delete'."""

    def __init__(self, kind, p=0, size=0, version=0):
        self.kind, self.p, self.size, self.version = kind, p, size, version
        self.recorded = 0


class Device:
    def __init__(self):
        self.present, self.version, self.sectors, self.boundary = False, NO_VERSION, 0, COUNT
        self.stack_runs = False
        self.keys = []  # (type, size) of user keys 1, 2 ..
        self.master = None  # its size
        self.key_bytes = bytearray((1 + MOST_KEYS) * KEY_ROOM)  # by index; what no key fills is looked at by nobody
        self.auth, self.auth_bytes, self.auth_locked = False, bytes(64), False
        self.rollback, self.floor = False, 0
        self.job = None
        self.lose()

    def lose(self):
        """What is lost at power loss, restart, START, the second state request and a job's end."""
        self.loaded, self.locked, self.error, self.asked, self.made = 0, set(), 0, False, 0


def read(packet):
    """(0, opcode, payload length) of a lawful packet, or (refusal, 0, 0)."""
    if len(packet) < 4:
        return 4, 0, 0
    if packet[0] != 0x10:
        return 5, 0, 0
    if packet[3] != len(packet) - 4:
        return 6, 0, 0
    opcode = packet[1] | packet[2] << 8
    if opcode not in PAYLOAD:
        return 7, 0, 0
    low, high = PAYLOAD[opcode]
    if not low <= packet[3] <= high:
        return 8, 0, 0
    if opcode == 0xFC58 and packet[5] != packet[3] - 2:
        return 9, 0, 0
    if opcode == 0xFC56 and packet[4] != 64:
        return 9, 0, 0
    return 0, opcode, packet[3]


def put(buffer, message=b''):
    """The message, and zeros to the buffer's end."""
    buffer[:] = message + bytes(len(buffer) - len(message))


def blocks(size):
    return -(-size // SECTOR)


def erase(flash, t):
    flash[t * SECTOR:(t + 1) * SECTOR] = b'\xFF' * SECTOR


def word(flash, at):
    return int.from_bytes(flash[at:at + 4], 'little')


def body_sum(flash, at, size):
    return sum(struct.unpack_from(f'<{(size - 84) // 4}I', flash, at + 84)) & 0xFFFFFFFF


def check_image(device, flash):
    """(error, sector to erase or None, job or None) of FW_UPGRADE: the seven checks in order."""
    hits = [t for t in range(device.boundary) if flash[t * SECTOR:t * SECTOR + 5] == b'BNI\x01\x00']
    if not hits:
        return 0x01, None, None
    p = hits[-1]
    at = p * SECTOR
    kind, seal, tag = flash[at + 5], flash[at + 6], flash[at + 7]
    size, version, total = word(flash, at + 8), word(flash, at + 12), word(flash, at + 16)
    if kind != 1 or seal > 1 or tag > 1 or size < 84 or size % 4 or version == NO_VERSION:
        return 0x02, p, None
    if p + blocks(size) + 1 > device.boundary:
        return 0x04, None, None
    if body_sum(flash, at, size) != total:
        return 0x02, p, None
    if seal == 0:
        return 0x03, None, None
    if device.auth and (tag == 0 or flash[at + 20:at + 84] != device.auth_bytes):
        return 0x03, None, None
    if device.rollback and version < device.floor:
        return 0x11, None, None
    return 0, None, Job('upgrade', p, size, version)


def store_key(device, kind, key):
    """The index given, or None."""
    if kind not in KEY_SIZES or len(key) not in KEY_SIZES[kind]:
        return None
    if kind == 2:
        if device.master is not None:
            return None
        device.master = len(key)
        index = 0
    else:
        if len(device.keys) == MOST_KEYS:
            return None
        device.keys.append((kind, len(key)))
        index = len(device.keys)
    device.key_bytes[index * KEY_ROOM:index * KEY_ROOM + len(key)] = key
    return index


def idle(device, flash, opcode, payload):
    """A command other than GET_STATE while FUS is idle: (error, payload byte)."""
    if opcode == 0xFC54:
        error, spoilt, job = check_image(device, flash)
        if spoilt is not None:
            erase(flash, spoilt)
        if job:
            device.job = job
        return error, None
    if opcode in (0xFC55, 0xFC5A):
        if not device.present:
            return 0x01, None
        if opcode == 0xFC55:
            device.job = Job('delete')
        else:
            device.lose()
            device.stack_runs = True
        return 0, None
    if opcode == 0xFC56:
        if device.auth_locked:
            return 0x0A, None
        device.auth, device.auth_bytes = True, bytes(payload[1:])
        return 0, None
    if opcode == 0xFC57:
        if not device.auth:
            return 0xFF, None
        device.auth_locked = True
        return 0, None
    if opcode == 0xFC5F:
        if not device.rollback:
            device.rollback, device.floor = True, device.version
        return 0, None
    return idle_key(device, opcode, payload)


def idle_key(device, opcode, payload):
    """STORE, LOAD, LOCK or UNLOAD while FUS is idle: (error, payload byte)."""
    index = payload[0] if payload else 0
    stored = 1 <= index <= len(device.keys)
    if opcode == 0xFC58:
        given = store_key(device, payload[0], payload[2:])
        return (0xFF, 0xFF) if given is None else (0, given)
    if opcode == 0xFC59:
        encrypted = stored and device.keys[index - 1][0] == 3
        if not stored or index in device.locked or encrypted and device.master is None:
            return 0xFF, None
        device.loaded = index
        return 0, None
    if opcode == 0xFC5D:
        if not stored:
            return 0xFF, None
        device.locked.add(index)
        return 0, None
    if index == 0 or index != device.loaded:  # 0xFC5E
        return 0xFF, None
    device.loaded = 0
    return 0, None


def get_state(device):
    """State and error, with the effect of asking."""
    if device.stack_runs:
        if device.asked:
            device.lose()
            device.stack_runs = False
        else:
            device.asked = True
        return 0xFF, 0xFE
    if device.job:
        return 0x10, 0x00
    error, device.error = device.error, 0
    return (0xFF, error) if error else (0x00, 0x00)


def command(device, flash, opcode, payload):
    """(status, payload byte or None) of a lawful command."""
    if opcode == 0xFC52:
        return get_state(device)
    if device.stack_runs or device.job:
        device.asked = False
        return 0x01, 0xFF if opcode == 0xFC58 else None
    error, byte = idle(device, flash, opcode, payload)
    device.error = error
    return (0x01 if error else 0x00), byte


def reason(device, opcode, payload):
    """Why a key's command will be turned down: the first test of paper 02's list that holds, or 0. Asked before the command is carried out."""
    if device.stack_runs or device.job:
        return 0
    index = payload[0] if payload else 0
    kinds = [2 if device.master is not None else None] + [kind for kind, _ in device.keys]
    stored = index != 0 and index < len(kinds)
    tests = {
        0xFC58: ((1, index not in KEY_SIZES), (2, len(payload) - 2 not in KEY_SIZES.get(index, ())),
                 (3, index == 2 and kinds[0] == 2), (4, index in (1, 3) and len(device.keys) >= MOST_KEYS)),
        0xFC59: ((5, not stored), (6, index in device.locked), (7, stored and kinds[index] == 3 and kinds[0] is None)),
        0xFC5D: ((5, not stored),),
        0xFC5E: ((8, device.loaded == 0 or index != device.loaded),),
    }
    return next((number for number, holds in tests.get(opcode, ()) if holds), 0)


def handle_why(device, flash, packet, reply):
    """(refusal, reason)."""
    refusal, opcode, _ = read(packet)
    why = reason(device, opcode, packet[4:]) if device is not None and refusal == 0 else 0
    refusal = handle(device, flash, packet, reply)
    return refusal, 0 if refusal else why


def handle(device, flash, packet, reply):
    if device is None:
        put(reply)
        return 1
    if len(flash) != FLASH:
        put(reply)
        return 2
    if len(reply) < 8:
        put(reply)
        return 3
    refusal, opcode, length = read(packet)
    if refusal:
        put(reply)
        return refusal
    status, byte = command(device, flash, opcode, packet[4:])
    tail = bytes([status]) if byte is None else bytes([status, byte])
    put(reply, bytes([0x11, 0x0E, 3 + len(tail), 0xFF, opcode & 0xFF, opcode >> 8]) + tail)
    return 0


def put_event(device, event):
    put(event, bytes([0x12, 0xFF, 0x03, 0x00, 0x92, 0 if device.stack_runs else 1]))


def restart(device, event):
    if device is None:
        put(event)
        return 1
    if len(event) < 6:
        put(event)
        return 3
    device.lose()
    put_event(device, event)
    return 0


def plan(device):
    """The sectors that a job stores to: (target, source or None, bytes), in order."""
    job = device.job
    b = blocks(job.size)
    q = COUNT - b
    steps = [(q + i, job.p + i, min(SECTOR, job.size - i * SECTOR)) for i in reversed(range(b))]
    held = set(range(job.p, job.p + b)) | set(range(device.boundary, COUNT))
    return steps + [(t, None, 0) for t in sorted(held) if t < q]


def next_store(device):
    """('erase', t), ('write', t, source, n), ('record',) or ('last',)."""
    steps = plan(device)
    if device.job.recorded == len(steps):
        return ('last',)
    target, source, n = steps[device.job.recorded]
    if device.made == 0:
        return ('erase', target)
    if device.made == 1 and source is not None:
        return ('write', target, source, n)
    return ('record',)


def left(device):
    if device.job is None:
        return 0
    steps = plan(device)[device.job.recorded:]
    return sum(2 if source is None else 3 for _, source, _ in steps) + 1 - device.made


def record_store(device, store):
    """A record store, or the last one, goes through."""
    if store[0] == 'record':
        device.job.recorded += 1
        device.made = 0
        return
    job, device.job = device.job, None
    if job.kind == 'upgrade':
        device.present, device.version, device.sectors = True, job.version, blocks(job.size)
        device.stack_runs = True
        if device.rollback:
            device.floor = job.version
    else:
        device.present, device.version, device.sectors = False, NO_VERSION, 0
    device.boundary = COUNT - device.sectors
    device.lose()


def work(device, flash):
    """(refusal, stores still to do)."""
    if device is None:
        return 1, 0
    if len(flash) != FLASH:
        return 2, 0
    if device.job is None:
        return 0, 0
    store = next_store(device)
    if store[0] == 'erase':
        erase(flash, store[1])
        device.made += 1
    elif store[0] == 'write':
        _, t, s, n = store
        flash[t * SECTOR:(t + 1) * SECTOR] = flash[s * SECTOR:s * SECTOR + n] + b'\xFF' * (SECTOR - n)
        device.made += 1
    else:
        record_store(device, store)
    return 0, left(device)


def cut(device, flash, filler, through, event):
    if device is None:
        put(event)
        return 1
    if len(flash) != FLASH:
        put(event)
        return 2
    if len(event) < 6:
        put(event)
        return 3
    if len(filler) != SECTOR:
        put(event)
        return 10
    if device.job:
        store = next_store(device)
        if store[0] in ('erase', 'write'):
            flash[store[1] * SECTOR:(store[1] + 1) * SECTOR] = filler
        elif through:
            record_store(device, store)
    device.lose()
    put_event(device, event)
    return 0


def next_message(event, response):
    """The length of the next message."""
    if len(event) >= 6 and bytes(event[:3]) == b'\x12\xFF\x03':
        return 6
    if bytes(response[:3]) == b'\x11\x0E\x04' and len(response) >= 7:
        return 7
    if bytes(response[:3]) == b'\x11\x0E\x05' and len(response) >= 8:
        return 8
    return 0


def sound(device):
    """Paper 01, "Sound means", clause by clause."""
    job, master = device.job, device.master is not None
    stored = range(1, len(device.keys) + 1)
    encrypted = device.loaded in stored and device.keys[device.loaded - 1][0] == 3
    clauses = (
        1 <= device.boundary <= COUNT,
        (device.boundary == COUNT) == (not device.present),
        (device.version == NO_VERSION) == (not device.present),
        device.sectors == COUNT - device.boundary,
        not device.stack_runs or device.present and job is None,
        len(device.keys) <= MOST_KEYS,
        all(kind in (1, 3) and size in KEY_SIZES[kind] for kind, size in device.keys),
        not master or device.master in KEY_SIZES[2],
        device.loaded == 0 or device.loaded in stored,
        all(i in stored for i in device.locked),
        not encrypted or master,
        not device.auth_locked or device.auth,
        not device.asked or device.stack_runs,
        device.error == 0 or device.error in ERRORS and job is None and not device.stack_runs,
        device.floor == 0 or device.rollback,
    )
    return all(clauses) and (job is None or job_sound(device, job))


def job_sound(device, job):
    if job.kind == 'delete':
        if not device.present:
            return False
    elif (job.size < 84 or job.size % 4 or job.version == NO_VERSION
          or job.p + blocks(job.size) + 1 > device.boundary):
        return False
    steps = plan(device)
    if job.recorded > len(steps):
        return False
    if job.recorded == len(steps):
        return device.made == 0
    return device.made <= (1 if steps[job.recorded][1] is None else 2)


def record_bytes(device):
    """The C record of a device."""
    job = device.job
    mode = 0 if device.stack_runs else 1 if job is None else 2 if job.kind == 'upgrade' else 3
    small = [device.present, mode, len(device.keys), device.auth, device.auth_locked, device.rollback, device.loaded,
             device.asked, device.error, device.made]
    words = [device.version, device.sectors, device.boundary]
    words += [job.p, job.size, job.version, job.recorded] if job else [0, 0, 0, 0]
    words += [device.floor]
    slots = [(0, 0) if device.master is None else (2, device.master)] + device.keys
    slots += [(0, 0)] * (1 + MOST_KEYS - len(slots))
    out = bytes(small) + struct.pack('<8I', *words)
    out += bytes(i in device.locked for i in range(1 + MOST_KEYS))
    out += device.auth_bytes
    return out + bytes(kind for kind, _ in slots) + bytes(size for _, size in slots) + device.key_bytes


def device_of(record):
    """The device whose record this is, or None: another length, bytes that no record has, or no sound device's."""
    if len(record) != RECORD:
        return None
    present, mode, count, auth, auth_locked, rollback, loaded, asked, error, made = record[:10]
    version, sectors, boundary, p, size, job_version, recorded, floor = struct.unpack('<8I', record[10:42])
    locks, kinds, sizes = record[42:143], record[207:308], record[308:409]
    if max(present, auth, auth_locked, rollback, asked, *locks) > 1 or mode > 3 or count > MOST_KEYS:
        return None
    if mode < 2 and (recorded or made) or mode != 2 and (p or size or job_version):
        return None
    if any(kinds[count + 1:]) or any(sizes[count + 1:]) or kinds[0] not in (0, 2) or kinds[0] == 0 and sizes[0]:
        return None
    device = Device()
    device.present, device.version, device.sectors, device.boundary = present == 1, version, sectors, boundary
    device.stack_runs = mode == 0
    device.keys = [(kinds[i], sizes[i]) for i in range(1, count + 1)]
    device.master = sizes[0] if kinds[0] else None
    device.key_bytes = bytearray(record[409:])
    device.auth, device.auth_bytes, device.auth_locked = auth == 1, bytes(record[143:207]), auth_locked == 1
    device.rollback, device.floor = rollback == 1, floor
    if mode >= 2:
        device.job = Job('upgrade' if mode == 2 else 'delete', p, size, job_version)
        device.job.recorded = recorded
    device.loaded, device.locked = loaded, {i for i in range(1 + MOST_KEYS) if locks[i]}
    device.error, device.asked, device.made = error, asked == 1, made
    return device if sound(device) else None
