#!/usr/bin/env python3
"""bin/makeimage from outside.

    PYTHONPATH=tests/host tests/makeimage/outside.py MAKEIMAGE SEED

Every file that it makes is compared byte for byte with the image that paper 01 asks for, worked out here anew, and shown to the model of the
seven checks. What is damaged, missing or too long must give status 1, exactly the line that is expected on standard error, nothing on standard
output, and a folder in which not a byte has changed.
"""
import os
import random
import resource
import shutil
import signal
import struct
import subprocess
import sys
import tempfile

import model

SECTOR = 4096
LONGEST = 243 * SECTOR - 84
READ = 'must be a file that can be read'
MADE = 'IMAGE must be a new file that can be written'
NUMBER = 'VERSION must be a number from 0 to 4294967294, decimal or hex after 0x'
SEAL = 'the word after VERSION must be sealed or unsealed'
USAGE = 'usage: makeimage BODY IMAGE VERSION sealed|unsealed [KEY]\n'


class Failure(Exception):
    pass


def expect(what, given, wanted):
    if given != wanted:
        raise Failure(f'{what}: {given!r:.300} for {wanted!r:.300}')


# ---- the image by paper 01


def total(body):
    return sum(struct.unpack(f'<{len(body) // 4}I', body)) % 2**32


def image_of(body, version, sealed, key):
    numbers = struct.pack('<HBBBIII', 1, 1, sealed, key is not None, 84 + len(body), version, total(body))
    return b'BNI' + numbers + (bytes(64) if key is None else key) + body


def line_of(name, body, version, sealed, key):
    size = 84 + len(body)
    sectors = -(-size // SECTOR)
    return (f'{name}: {size} bytes, {sectors} sector{"s" if sectors > 1 else ""}, version 0x{version:08x}, sum 0x{total(body):08x}, '
            f'{"sealed" if sealed else "unsealed"}, {"no tag" if key is None else "tagged"}\n')


def checks(image, version, sealed, key):
    """What the model's seven checks say of the image: at sector 0, at the highest sector with room, and one above; with authentication keys."""
    sectors = -(-len(image) // SECTOR)
    for p, room in ((0, True), (243 - sectors, True), (244 - sectors, False)):
        flash = bytearray(b'\xFF') * model.FLASH
        flash[p * SECTOR:p * SECTOR + len(image)] = image[:model.FLASH - p * SECTOR]
        for stored in (None, key or bytes(64), bytes(63) + b'\1'):
            device = model.Device()
            device.auth, device.auth_bytes = stored is not None, stored or bytes(64)
            error, erased, job = model.check_image(device, flash)
            tagged = stored is None or stored == key
            expect('error by the checks', error, 4 if not room else 0 if sealed and tagged else 3)
            expect('sector erased', erased, None)
            if error == 0:
                expect('job', (job.p, job.size, job.version), (p, len(image), version))


# ---- the program


class Bench:
    def __init__(self, program, seed):
        self.program = program
        self.random = random.Random(seed)
        self.room = tempfile.mkdtemp()
        self.made = self.refused = 0

    def path(self, name):
        return os.path.join(self.room, name)

    def write(self, name, content):
        with open(self.path(name), 'wb') as file:
            file.write(content)
        return name

    def folder(self):
        """All that the folder holds, links unfollowed."""
        held = {}
        for at, folders, files in os.walk(self.room):
            for name in folders:
                held[os.path.join(at, name)] = None
            for name in files:
                path = os.path.join(at, name)
                if os.path.islink(path):
                    held[path] = os.readlink(path)
                else:
                    with open(path, 'rb') as file:
                        held[path] = file.read()
        return held

    def call(self, words, program=None, **more):
        more.setdefault('env', dict(os.environ, LC_ALL='C'))
        return subprocess.run([program or self.program, *words], cwd=self.room, stdin=subprocess.DEVNULL, capture_output=True, **more)

    def makes(self, body, word, version, sealed, key=None, name='image.bin', **more):
        words = [self.write('body.bin', body), name, word, 'sealed' if sealed else 'unsealed']
        if key is not None:
            words.append(self.write('key.bin', key))
        before = self.folder()
        ran = self.call(words, **more)
        what = ' '.join(words)
        expect(f'{what}: standard error', ran.stderr, b'')
        expect(f'{what}: status', ran.returncode, 0)
        expect(f'{what}: line', ran.stdout.decode(), line_of(name, body, version, sealed, key))
        image = image_of(body, version, sealed, key)
        expect(f'{what}: folder', self.folder(), {**before, self.path(name): image})
        checks(image, version, sealed, key)
        os.remove(self.path(name))
        self.made += 1

    def refuses(self, words, line, **more):
        before = self.folder()
        ran = self.call(words, **more)
        what = ' '.join(words)[:100]
        expect(f'{what}: standard output', ran.stdout, b'')
        expect(f'{what}: standard error', ran.stderr.decode(), line)
        expect(f'{what}: status', ran.returncode, 1)
        if self.folder() != before:
            raise Failure(f'{what}: the folder has changed')
        self.refused += 1


def good(bench):
    random_bytes = bench.random.randbytes
    for length in (0, 4, 4008, 4012, 4096, 8112, LONGEST - 4, LONGEST):
        for sealed in (False, True):
            for key in (None, random_bytes(64)):
                for version in (0, 1, 0xFFFFFFFE):
                    word = bench.random.choice(('{}', '0x{:X}', '0x{:08x}')).format(version)
                    bench.makes(random_bytes(length), word, version, sealed, key)
    for count in (1, 2, 3, 1000):  # sums that wrap, or just don't
        bench.makes(b'\xFF\xFF\xFF\xFF' * count, '1', 1, True)
    bench.makes(struct.pack('<2I', 0x80000000, 0x7FFFFFFF), '1', 1, True)
    for _ in range(20):
        version = bench.random.randrange(0xFFFFFFFF)
        bench.makes(random_bytes(4 * bench.random.randrange(5000)), str(version), version, bench.random.random() < 0.5)
    bench.makes(b'four', '0000000000000000000000000000000007', 7, True)
    bench.makes(b'four', '0xAbCdEf', 0xABCDEF, True)
    bench.makes(b'four', '1', 1, True, bytes(64))
    bench.makes(b'four', '1', 1, True, name='obraz \u0105 -x.bin')
    os.mkdir(bench.path('below'))
    bench.makes(b'four', '1', 1, True, name='below/image.bin')
    os.symlink(bench.program, bench.path('link'))
    bench.makes(b'four', '1', 1, True, program=bench.path('link'))


def documented(bench):
    """The example of docs/IMAGES.md prints what is written there."""
    example = (b'body\n' * 2000)[:8112]
    bench.makes(example, '0x00010203', 0x00010203, True)
    with open(os.path.join(os.path.dirname(os.path.dirname(bench.program)), 'docs/IMAGES.md')) as page:
        expect('docs/IMAGES.md has its line', f'    {line_of("image.bin", example, 0x00010203, True, None)}' in page.readlines(), True)


def damaged_words(bench):
    words = [bench.write('body.bin', b'body'), 'new.bin', '1', 'sealed', bench.write('key.bin', bytes(64))]
    for count in (0, 1, 2, 3):
        bench.refuses(words[:count], USAGE)
    bench.refuses(words + ['more'], USAGE)
    for version in ('', 'abc', '0x', '0X1', 'x1', '1x', '-1', '+1', ' 1', '1 ', '1.0', '0x1g', '12a', '0xFFFFFFFF', '4294967295', '4294967296',
                    '0x100000000', '18446744073709551617', '9' * 300):
        bench.refuses(['body.bin', 'new.bin', version, 'sealed'], f"makeimage: {NUMBER}: '{version}' is not\n")
    for seal in ('', 'Sealed', 'seal', 'sealedx', 'unsealedx', 'un', '1'):
        bench.refuses(['body.bin', 'new.bin', '1', seal], f"makeimage: {SEAL}: '{seal}' is not\n")
    bench.refuses(['body.bin', 'new.bin', 'a\nb\t\x7f', 'sealed'], f"makeimage: {NUMBER}: 'a?b??' is not\n")


def damaged_files(bench):
    os.mkdir(bench.path('folder'))
    none = 'No such file or directory'
    for name, why in (('nothing', none), ('', none), ('folder', 'Is a directory'), ('body.bin/x', 'Not a directory'), ('n' * 300, 'File name too long'),
                      ('no\nthing', none)):
        shown = name.replace('\n', '?')
        bench.refuses([name, 'new.bin', '1', 'sealed'], f"makeimage: BODY {READ}: '{shown}': {why}\n")
        bench.refuses(['body.bin', 'new.bin', '1', 'sealed', name], f"makeimage: KEY {READ}: '{shown}': {why}\n")
    bench.refuses(['n' * 5000, 'new.bin', '1', 'sealed'], f"makeimage: BODY {READ}: '': File name too long\n")
    for length in (1, 2, 3, 5, 4098, LONGEST - 1):
        bench.write('odd.bin', bytes(length))
        bench.refuses(['odd.bin', 'new.bin', '1', 'sealed'], f"makeimage: BODY must have a multiple of 4 bytes: 'odd.bin' has {length}\n")
    for length in (LONGEST + 1, LONGEST + 4, 2 * LONGEST):
        bench.write('long.bin', bytes(length))
        bench.refuses(['long.bin', 'new.bin', '1', 'sealed'], f"makeimage: BODY must have at most {LONGEST} bytes: 'long.bin' has more\n")
    for length, has in ((0, '0'), (1, '1'), (63, '63'), (65, 'more'), (128, 'more'), (100000, 'more')):
        bench.write('odd.key', bytes(length))
        bench.refuses(['body.bin', 'new.bin', '1', 'sealed', 'odd.key'], f"makeimage: KEY must have exactly 64 bytes: 'odd.key' has {has}\n")
    # where several are wrong, the word VERSION is told first, then the seal, the key, the body, and the file to make last
    bench.refuses(['odd.bin', 'body.bin', 'x', 'y', 'odd.key'], f"makeimage: {NUMBER}: 'x' is not\n")
    bench.refuses(['odd.bin', 'body.bin', '1', 'y', 'odd.key'], f"makeimage: {SEAL}: 'y' is not\n")
    bench.refuses(['odd.bin', 'body.bin', '0xFFFFFFFF', 'sealed'], f"makeimage: BODY must have a multiple of 4 bytes: 'odd.bin' has {LONGEST - 1}\n")
    bench.refuses(['body.bin', 'body.bin', '0xFFFFFFFF', 'sealed'], f"makeimage: {NUMBER}: '0xFFFFFFFF' is not\n")
    bench.refuses(['long.bin', 'body.bin', '1', 'sealed', 'odd.key'], "makeimage: KEY must have exactly 64 bytes: 'odd.key' has more\n")
    bench.refuses(['long.bin', 'body.bin', '1', 'sealed', 'key.bin'], f"makeimage: BODY must have at most {LONGEST} bytes: 'long.bin' has more\n")


def damaged_images(bench):
    bench.write('there.bin', b'an image that stays')
    os.symlink('nowhere', bench.path('dangling'))
    for name, why in (('there.bin', 'File exists'), ('body.bin', 'File exists'), ('folder', 'File exists'), ('dangling', 'File exists'),
                      ('no/new.bin', 'No such file or directory'), ('', 'No such file or directory'), ('body.bin/new', 'Not a directory'),
                      ('n' * 300, 'File name too long')):
        bench.refuses(['body.bin', name, '1', 'sealed'], f"makeimage: {MADE}: '{name}': {why}\n")
    bench.refuses(['body.bin', 'n' * 5000, '1', 'sealed'], f"makeimage: {MADE}: '': File name too long\n")

    # a file that can't grow to its size is not left half written
    def no_more_than(limit):
        def narrow():
            signal.signal(signal.SIGXFSZ, signal.SIG_IGN)
            resource.setrlimit(resource.RLIMIT_FSIZE, (limit, limit))
        return narrow

    bench.write('body.bin', bytes(8112))
    for limit in (0, 50, 84, 4096, 8195):
        bench.refuses(['body.bin', 'new.bin', '1', 'sealed'], f"makeimage: {MADE}: 'new.bin': File too large\n", preexec_fn=no_more_than(limit),
                      restore_signals=False)


def wrapper(bench):
    """The wrapper where the program is not built, and where there is little else."""
    home, root = os.path.dirname(os.path.dirname(bench.program)), bench.path('root')
    for folder in ('bin', 'crates/makeimage/out'):
        os.makedirs(os.path.join(root, folder))
    alone = shutil.copy(bench.program, os.path.join(root, 'bin'))
    words = ['body.bin', 'new.bin', '1', 'sealed']
    bench.refuses(words, f"makeimage: the program is not built yet: run 'make programs' in {os.path.realpath(root)}\n", program=alone)
    shutil.copy(os.path.join(home, 'crates/makeimage/out/makeimage'), os.path.join(root, 'crates/makeimage/out'))
    os.mkdir(bench.path('tools'))
    for tool in ('sh', 'dirname', 'realpath'):
        os.symlink(shutil.which(tool), bench.path(f'tools/{tool}'))
    bench.makes(bytes(4), '1', 1, True, program=alone, env={'PATH': bench.path('tools')})


def main():
    bench = Bench(sys.argv[1], int(sys.argv[2]))
    try:
        for part in (good, documented, damaged_words, damaged_files, damaged_images, wrapper):
            part(bench)
    except Failure as failure:
        print(f'tests/makeimage: FAILED, seed {sys.argv[2]}: {failure}')
        return 1
    finally:
        shutil.rmtree(bench.room)
    print(f'tests/makeimage: {bench.made} images made and taken apart, {bench.refused} calls refused (seed {sys.argv[2]})')
    return 0


sys.exit(main())
