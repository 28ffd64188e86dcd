"""bin/play beside the model of paper 01: what each line is to be answered, worked out anew from docs/PLAY.md. Scripts with known answers
(scripts.py) come first, then every order and every bad line, then random ones.

    outside.py ROOT SEED
"""
import os
import random
import re
import select
import shutil
import subprocess
import sys
import tempfile

import fuzz
import line as factory
import model
import scripts

LINES = 4000


# why a key was turned down, as the player says it behind the reply
REASONS = ['', ' bad type', ' bad size', ' second master', ' store full', ' not stored', ' locked', ' no master', ' not loaded']


class Wrong(Exception):
    pass


class Expected:
    """The device and the flash by the model, and the line that an order is answered with."""

    def __init__(self):
        self.fresh()

    def fresh(self):
        self.device, self.flash = model.Device(), bytearray(b'\xFF' * model.FLASH)
        self.received = b''
        return 'ok'

    def answer(self, line):
        if len(line) > 4400:
            return 'bad line: over 4400 bytes'
        if line == b'' or line[:1] == b'#':
            return 'ok'
        alone = {b'restart': self.restart, b'fresh': self.fresh, b'map': self.map, b'record': self.record, b'state': self.state,
                 b'work': lambda: self.work(b'1')}
        if line in alone:
            return alone[line]()
        word, _, rest = line.partition(b' ')
        several = {b'packet': self.packet, b'serial': self.serial, b'work': self.work, b'cut': self.cut, b'load': self.load, b'dump': self.dump,
                   b'erase': self.erase, b'fill': self.fill}
        return several[word](rest) if word in several else 'bad order: unknown'

    def packet(self, digits):
        if len(digits) > 520:
            return 'bad packet: over 260 bytes'
        if len(digits) % 2 or not re.fullmatch(rb'[0-9A-Fa-f]*', digits):
            return 'bad packet: no hex pairs'
        reply = bytearray(8)
        refusal, reason = model.handle_why(self.device, self.flash, bytes.fromhex(digits.decode()), reply)
        return f'refused {refusal}' if refusal else 'reply ' + reply[:reply[2] + 3].hex().upper() + REASONS[reason]

    def serial(self, digits):
        if len(digits) > 520:
            return 'bad serial: over 260 bytes'
        if len(digits) % 2 or not re.fullmatch(rb'[0-9A-Fa-f]*', digits):
            return 'bad serial: no hex pairs'
        out, why = b'', 0
        for byte in bytes.fromhex(digits.decode()):
            self.received, sent, reason = factory.take(self.received, self.device, self.flash, byte)
            out, why = out + sent, reason or why
        return 'sent ' + out.hex().upper() + REASONS[why]

    def restart(self):
        event = bytearray(6)
        model.restart(self.device, event)
        return 'event ' + event.hex().upper()

    def work(self, word):
        stores = number(word, 2 ** 32)
        if not stores:
            return 'bad count: 1 to 4294967295'
        made = 0
        while made < stores and self.device.job:
            model.work(self.device, self.flash)
            made += 1
        return f'made {made} left {model.left(self.device)}'

    def cut(self, rest):
        byte, _, outcome = rest.partition(b' ')
        if not pair(byte):
            return 'bad byte: two hex digits'
        if outcome not in (b'through', b'not'):
            return 'bad word: through or not'
        event = bytearray(6)
        model.cut(self.device, self.flash, bytes.fromhex(byte.decode()) * model.SECTOR, outcome == b'through', event)
        return 'event ' + event.hex().upper()

    def load(self, rest):
        word, _, name = rest.partition(b' ')
        sector = number(word, model.COUNT)
        if sector is None:
            return 'bad sector: 0 to 243'
        if not name:
            return 'bad file: no name'
        try:
            with open(name, 'rb') as file:
                data = file.read()
        except IsADirectoryError:
            return 'bad file: cannot be read'
        except (OSError, ValueError):
            return 'bad file: cannot be opened'
        if not data:
            return 'bad file: empty'
        at = sector * model.SECTOR
        if at + len(data) > model.FLASH:
            return 'bad file: does not fit'
        self.flash[at:at + len(data)] = data
        return f'loaded {len(data)} bytes in sectors {sector} to {sector + (len(data) - 1) // model.SECTOR}'

    def sector(self, t):
        return self.flash[t * model.SECTOR:(t + 1) * model.SECTOR]

    def dump(self, word):
        sector = number(word, model.COUNT)
        return 'bad sector: 0 to 243' if sector is None else self.sector(sector).hex().upper()

    def map(self):
        def character(part):
            return '.' if part == b'\xFF' * model.SECTOR else 'i' if part[:5] == b'BNI\x01\x00' else '#'
        return ''.join(character(self.sector(t)) for t in range(model.COUNT))

    def record(self):
        return model.record_bytes(self.device).hex().upper()

    def state(self):
        d, job = self.device, self.device.job
        runs = 'stack runs' if d.stack_runs else f'{job.kind}, recorded {job.recorded}, made {d.made}' if job else 'FUS idle'
        return (f'{runs}, boundary {d.boundary}, version {f"0x{d.version:08X}" if d.present else "none"}, keys {len(d.keys)}, '
                f'loaded {d.loaded or "none"}, error {f"0x{d.error:02X}" if d.error else "none"}, '
                f'floor {f"0x{d.floor:08X}" if d.rollback else "none"}')

    def erase(self, word):
        return self.filled(word, b'FF')

    def fill(self, rest):
        word, _, byte = rest.partition(b' ')
        return self.filled(word, byte)

    def filled(self, word, byte):
        sector = number(word, model.COUNT)
        if sector is None:
            return 'bad sector: 0 to 243'
        if not pair(byte):
            return 'bad byte: two hex digits'
        self.flash[sector * model.SECTOR:(sector + 1) * model.SECTOR] = bytes.fromhex(byte.decode()) * model.SECTOR
        return 'ok'


def number(word, limit):
    return int(word) if re.fullmatch(rb'[0-9]+', word) and int(word) < limit else None


def pair(word):
    return re.fullmatch(rb'[0-9A-Fa-f]{2}', word)


class Player:
    """bin/play, asked line by line; an answer that does not come at once is a fault."""

    def __init__(self, program):
        self.process = subprocess.Popen([program], stdin=subprocess.PIPE, stdout=subprocess.PIPE, bufsize=0)
        self.read = b''

    def ask(self, line):
        self.process.stdin.write(line + b'\n')
        while b'\n' not in self.read:
            if not select.select([self.process.stdout], [], [], 60)[0]:
                raise Wrong('no answer came')
            got = os.read(self.process.stdout.fileno(), 65536)
            if not got:
                raise Wrong(f'the player ended (status {self.process.wait()})')
            self.read += got
        answer, _, self.read = self.read.partition(b'\n')
        return answer

    def close(self):
        self.process.stdin.close()
        rest = self.read + self.process.stdout.read()
        if rest:
            raise Wrong(f'{len(rest)} bytes more than answers')
        if self.process.wait() != 0:
            raise Wrong('status')


class Run:
    """One player and what it is expected to say."""

    def __init__(self, program):
        self.player, self.expected, self.lines = Player(program), Expected(), 0

    def ask(self, line):
        wanted = self.expected.answer(line)
        got = self.player.ask(line)
        self.lines += 1
        if got != wanted.encode():
            raise Wrong(f'line {self.lines}, {line[:80]!r}: {got[:80]!r}, not {wanted[:80]!r}')
        return wanted

    def close(self):
        for sector in range(model.COUNT):
            self.ask(b'dump %d' % sector)
        self.player.close()


BAD = [b' ', b'  ', b'restart ', b' restart', b'Restart', b'restart now', b'restart\r', b'work 0', b'work -1', b'work +1', b'work 1 ', b'work 1x', b'work x', b'work ',
       b'work  1', b'work 4294967296', b'work 99999999999999999999999999', b'packet 1', b'packet 1052FC0', b'packet 10 52 FC 00', b'packet 0x1052FC00', b'packet 1052FC0G',
       b'packet 1052FC00\r', b'packet' + b' ' * 2, b'packet ' + b'00' * 261, b'packet ' + b'0' * 521, b'cut', b'cut ', b'cut 5', b'cut 5A', b'cut 5A ', b'cut 5A maybe', b'cut 5A not ', b'cut 5AA not',
       b'cut G0 not', b'cut  5A not', b'load', b'load ', b'load 240', b'load 240 ', b'load 244 image', b'load -1 image', b'load x image', b'load 0 no such file', b'load 0 .', b'load 0 a\0b',
       b'load 0 ' + b'n' * 4090, b'dump', b'dump ', b'dump 244', b'dump 1 2', b'dump 99999999999999999999', b'dump 0x1', b'erase', b'erase 244', b'erase 1 FF', b'fill', b'fill 1', b'fill 1 ', b'fill 1 F',
       b'fill 1 FFF', b'fill 244 00', b'map ', b'serial 1', b'serial 50 AF', b'serial 5G', b'serial ' + b'00' * 261, b'record x', b'state 1', b'fresh device', b'help', b'\0', b'\xFF' * 9, b'\xC5\xBC', b'#' * 4401, b'x' * 4401, b'packet ' + b'0' * 100000]
GOOD = [b'', b'#', b'# packet', b'packet', b'packet ', b'packet 1052fc00', b'packet 1052Fc00', b'work', b'work 1', b'work 0001', b'work 4294967295', b'cut 5a not', b'cut FF through', b'map', b'record',
        b'state', b'dump 0', b'dump 000243', b'fill 7 0a', b'dump 7', b'erase 7', b'dump 7', b'#' * 4400, b'packet ' + b'00' * 260, b'serial', b'serial ', b'serial 50af', b'serial 0054FFAB000000', b'serial 7F51', b'serial ' + b'51' * 260,
        b'serial 51AE0059FFA600000000010100', b'restart', b'serial 51', b'fresh', b'serial 50AF0054FFAB000000', b'state']


def words(run):
    """Every order, and every way to get one wrong: nothing changes, and the player goes on."""
    for line in GOOD + BAD + GOOD:
        before = bytes(run.expected.flash), run.expected.record()
        said = run.ask(line)
        if said.startswith('bad') and before != (bytes(run.expected.flash), run.expected.record()):
            raise Wrong(f'the model changed on {line[:40]!r}')
        if line in BAD and not said.startswith('bad'):
            raise Wrong(f'{line[:40]!r} is to be bad')
        run.ask(b'record')


def incident(run, folder):
    """The mailbox incident: an upgrade is accepted, then each kind of damaged command comes. No good reply is given again."""
    run.ask(b'fresh')
    run.ask(b'load 200 ' + file_of(folder, fuzz.playing.image(random.Random(1), 3 * model.SECTOR, 7)))
    if run.ask(b'packet 1054FC00') != 'reply 110E04FF54FC00':
        raise Wrong('the upgrade was not accepted')
    for refusal, damaged in [(4, b''), (4, b'1052FC'), (5, b'1152FC00'), (6, b'1052FC01'), (7, b'1053FC00'), (8, b'1052FC0100'), (9, b'1058FC03010200')]:
        if run.ask(b'packet ' + damaged) != f'refused {refusal}':
            raise Wrong(f'{damaged!r} is to be refused by {refusal}')
        if run.ask(b'packet 1052FC00') != 'reply 110E05FF52FC1000':
            raise Wrong('the job is to be under way')
    run.ask(b'work 4294967295')
    run.ask(b'state')


def file_of(folder, data):
    name = os.path.join(folder, 'a file with blanks')
    with open(name, 'wb') as file:
        file.write(data)
    return name.encode()


def on_line(rng, opcode, payload):
    """A command as the serial line carries it, with a byte damaged or some of it missing now and then; GET_STATE for one that the line has not."""
    pair, number = next((key for key, (own, _) in factory.COMMANDS.items() if own == opcode), ('read', 0x0054))
    data = bytearray(factory.frame(pair, number, payload))
    if rng.random() < 0.2:
        data[rng.randrange(len(data))] ^= 1 << rng.randrange(8)
    return data[:rng.choice([len(data)] * 5 + [rng.randrange(len(data))])].hex().encode()


def random_line(rng, run, folder):
    device, way = run.expected.device, rng.random()
    if way < 0.35:
        opcode = rng.choices(fuzz.OPCODES, [fuzz.OFTEN[o] for o in fuzz.OPCODES])[0]
        packet = fuzz.lawful(rng, opcode, device)
        if rng.random() < 0.25:
            return b'serial ' + on_line(rng, opcode, packet[4:])
        if rng.random() < 0.2:
            packet = fuzz.broken(rng, packet)[:260]
        return b'packet ' + packet.hex().encode()
    if way < 0.45 and not device.job:
        p, data = fuzz.image(rng, device)
        return b'load %d ' % p + file_of(folder, data)
    if way < 0.5 and not device.job:
        return b'packet 10%sFC00' % rng.choice([b'54', b'54', b'55'])
    if way < 0.65:
        return b'work %d' % rng.choice([1, 1, 2, 5, 40, 1000])
    if way < 0.72:
        return b'cut %02X ' % rng.randrange(256) + rng.choice([b'through', b'not'])
    if way < 0.75:
        return b'restart'
    if way < 0.88:
        return rng.choice([b'record', b'state', b'map', b'dump %d' % rng.randrange(244), b'fill %d %02X' % (rng.randrange(150), rng.randrange(256)),
                           b'erase %d' % rng.randrange(150)])
    if way < 0.94:
        return rng.choice(BAD)
    if way < 0.95:
        return b'fresh'
    return bytes(b for b in rng.randbytes(rng.randrange(60)) if b != 10)


def played(program, script):
    return subprocess.run([program], input=script, stdout=subprocess.PIPE, check=True).stdout


def whole(program):
    """Scripts as a whole: none, a last line with no newline, the same twice."""
    for script, wanted in [(b'', b''), (b'\n', b'ok\n'), (b'packet 1052FC00', b'reply 110E05FF52FC0000\n'), (b'#\n\nx', b'ok\nok\nbad order: unknown\n'),
                           (b'map\n' * 3, (b'.' * 244 + b'\n') * 3), (b'\0' * 70000, b'bad line: over 4400 bytes\n')]:
        got = played(program, script)
        if got != wanted:
            raise Wrong(f'{script[:40]!r}: {got[:80]!r}')
    script = b'\n'.join(GOOD + BAD) + b'\n'
    if played(program, script) != played(program, script):
        raise Wrong('a script that is played twice is answered in two ways')
    if played(program, script).count(b'\n') != len(GOOD + BAD):
        raise Wrong('one line in, one line out')


def scripted(program, name, pairs):
    """A script whose answers are known: bin/play gives them, and so does the model. How many lines it has."""
    run = Run(program)
    try:
        for line, wanted in pairs:
            said = run.ask(line.encode())
            if said != wanted:
                raise Wrong(f'line {run.lines}, {line[:80]!r}: {said[:150]!r}, where {wanted[:150]!r} is to be')
        lines = run.lines
        run.close()
    except Wrong as wrong:
        raise Wrong(f'{name}: {wrong}') from None
    return lines


def example(root, program):
    """The example of docs/PLAY.md, as it stands there."""
    text = open(os.path.join(root, 'docs', 'PLAY.md')).read()
    script, answers = re.search(r'```text\n(.*?)```.*?```text\n(.*?)```', text, re.S).groups()
    run = subprocess.run([program], input=script.encode(), stdout=subprocess.PIPE, check=True, cwd=os.path.join(root, 'crates', 'play', 'data'))
    if run.stdout.decode() != answers:
        raise Wrong('docs/PLAY.md: its script is answered otherwise')


def wrapper(program, folder):
    """Words are told off, and a player that is not built says how to build it."""
    if subprocess.run([program, 'script'], stdin=subprocess.DEVNULL, stderr=subprocess.PIPE).returncode != 2:
        raise Wrong('words are to be status 2')
    os.mkdir(os.path.join(folder, 'bin'))
    alone = shutil.copy(program, os.path.join(folder, 'bin'))
    said = subprocess.run([alone], stdin=subprocess.DEVNULL, stdout=subprocess.PIPE, stderr=subprocess.PIPE)
    if said.returncode != 2 or said.stdout or b'make programs' not in said.stderr:
        raise Wrong('a player that is not built')


def main():
    root, seed = sys.argv[1], int(sys.argv[2])
    program, rng = os.path.join(root, 'bin', 'play'), random.Random(seed)
    with tempfile.TemporaryDirectory() as folder:
        try:
            whole(program)
            example(root, program)
            wrapper(program, folder)
            os.chdir(folder)
            lines = [scripted(program, name, pairs) for name, pairs in scripts.all_of(os.path.join(root, 'tests', 'play', 'scripts'))]
            run = Run(program)
            words(run)
            incident(run, folder)
            for _ in range(LINES):
                run.ask(random_line(rng, run, folder))
            run.close()
        except Wrong as wrong:
            print(f'tests/play: {wrong} (seed {seed})')
            return 1
    print(f'tests/play: {run.lines} lines answered as the model has it, {len(BAD)} bad ones among them, a whole script twice, the example of docs/PLAY.md (seed {seed})')
    print(f'tests/play: {len(lines)} scripts of {sum(lines)} lines with the answers that are stored or worked out for them')
    return 0


sys.exit(main())
