"""Scripts for bin/play whose answers are known: those of tests/play/scripts (NAME.play, answered line by line as NAME.out has it), and two that
would be long files, with answers worked out here from paper 01's rules: 100 keys, and a job cut at every store. The images that they load are
made here too."""
import glob
import os
import random

import model
from playing import image

OLD, NEW = 0x01020304, 0x01020305
GET_STATE, UPGRADE, DELETE = 'packet 1052FC00', 'packet 1054FC00', 'packet 1055FC00'
KEY = b'\x22' * 64  # the authentication key of the scripts
MINE = {236: 0xA6, 239: 0xA9}  # sectors that the user has filled, each with a byte


def images():
    """The files that the scripts load, by their names."""
    def made(size, version=7, **other):
        return image(random.Random(size), size, version, **other)
    return {
        'small.bin': made(84),
        'size-80.bin': made(80),
        'size-86.bin': made(86),
        'kind-2.bin': made(84, kind=2),
        'seal-2.bin': made(84, seal=2),
        'tag-2.bin': made(84, tag=2),
        'no-version.bin': made(84, model.NO_VERSION),
        'three-sectors.bin': made(8196),
        'wrong-sum.bin': made(8196, wrong_sum=True),
        'wrong-sum-unsealed.bin': made(8196, wrong_sum=True, seal=0),
        'unsealed.bin': made(84, seal=0),
        'tagged.bin': made(84, tag=1, key=KEY),
        'other-tag.bin': made(84, tag=1, key=b'\x23' * 64),
        'stack.bin': made(4 * model.SECTOR, OLD),
        'older.bin': made(84, OLD - 1),
        'newer.bin': made(4100, NEW) + b'behind',
    }


def all_of(folder):
    """Each script by its name, as lines with their answers. The images are put into the folder that we are in."""
    files = images()
    for name, data in files.items():
        with open(name, 'wb') as file:
            file.write(data)
    for play in sorted(glob.glob(os.path.join(folder, '*.play'))):
        with open(play) as script, open(play[:-5] + '.out') as answers:
            yield os.path.basename(play), list(zip(script.read().splitlines(), answers.read().splitlines(), strict=True))
    yield 'hundred_keys', hundred_keys()
    yield 'cuts', cuts(files)


def hundred_keys():
    """Lines with their answers: the 100th key is the last, and the master has its own place."""
    def store(kind, size):
        return f'packet 1058FC{size + 2:02X}{kind:02X}{size:02X}' + '11' * size
    for index in range(1, 100):
        yield store(1, 16), f'reply 110E05FF58FC00{index:02X}'
    yield store(3, 28), 'reply 110E05FF58FC0064'
    yield store(1, 16), 'reply 110E05FF58FC01FF store full'
    yield GET_STATE, 'reply 110E05FF52FCFFFF'
    yield store(3, 28), 'reply 110E05FF58FC01FF store full'
    yield GET_STATE, 'reply 110E05FF52FCFFFF'
    yield store(2, 16), 'reply 110E05FF58FC0000'
    yield 'packet 1059FC0164', 'reply 110E04FF59FC00'
    yield 'packet 1059FC0165', 'reply 110E04FF59FC01 not stored'
    yield 'state', 'FUS idle, boundary 244, version none, keys 100, loaded 100, error 0xFF, floor none'


def sectors(at, data):
    """Bytes that begin at a sector, by sector, the last one filled up with 0xFF."""
    data += b'\xFF' * (-len(data) % model.SECTOR)
    return {at + i: data[i * model.SECTOR:(i + 1) * model.SECTOR] for i in range(len(data) // model.SECTOR)}


def job_begins(order):
    """A stack in 240 to 243 and FUS idle; an image in 237 and 238 with something behind it, between the user's own sectors; the job is taken."""
    yield 'fresh', 'ok'
    yield 'load 230 stack.bin', 'loaded 16384 bytes in sectors 230 to 233'
    yield UPGRADE, 'reply 110E04FF54FC00'
    yield 'work 21', 'made 21 left 0'
    yield GET_STATE, 'reply 110E05FF52FCFFFE'
    yield GET_STATE, 'reply 110E05FF52FCFFFE'
    yield 'load 237 newer.bin', 'loaded 4106 bytes in sectors 237 to 238'
    for sector, byte in MINE.items():
        yield f'fill {sector} {byte:02X}', 'ok'
    yield order, f'reply 110E04FF{order[9:11]}FC00'


def job_ends(order, files):
    """The device and the flash once the job is done, cut or not."""
    flash = {sector: bytes([byte]) * model.SECTOR for sector, byte in MINE.items()}
    if order == UPGRADE:
        flash.update(sectors(242, files['newer.bin'][:4100]))
        yield 'state', f'stack runs, boundary 242, version 0x{NEW:08X}, keys 0, loaded none, error none, floor none'
    else:
        flash.update(sectors(237, files['newer.bin']))
        yield 'state', 'FUS idle, boundary 244, version none, keys 0, loaded none, error none, floor none'
    for sector in range(236, 244):
        yield f'dump {sector}', flash.get(sector, b'\xFF' * model.SECTOR).hex().upper()


def left_after_cut(units, store, through):
    """The stores that a job has left once it is cut at a store. `units` has the number of stores of each sector, the last of which records it, and
    at the end 1 for the job's own last store. A cut loses those of its sector, unless it is the recording one and goes through."""
    for done, unit in enumerate(units):
        if store < unit:
            recorded = through and store == unit - 1
            return sum(units[done + recorded:])
        store -= unit


def cuts(files):
    """Lines with their answers: an upgrade (b = 2, q = 242, cleared 237, 238, 240, 241) and a delete, uncut and cut at every store both ways."""
    for order, units in (UPGRADE, [3, 3, 2, 2, 2, 2, 1]), (DELETE, [2, 2, 2, 2, 1]):
        stores = sum(units)
        yield from job_begins(order)
        for left in reversed(range(stores)):
            yield 'work', f'made 1 left {left}'
        yield from job_ends(order, files)
        for store in range(stores):
            for word in 'not', 'through':
                yield from job_begins(order)
                if store:
                    yield f'work {store}', f'made {store} left {stores - store}'
                left = left_after_cut(units, store, word == 'through')
                yield f'cut 5A {word}', f'event 12FF0300920{0 if left == 0 and order == UPGRADE else 1}'
                yield f'work {stores}', f'made {left} left 0'
                yield from job_ends(order, files)
