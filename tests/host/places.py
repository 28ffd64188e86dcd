#!/usr/bin/env python3
"""The record's bytes are where all say that they are: the table of docs/RECORD.md, include/grzelotka_record.h and the code agree.

    tests/host/places.py    in the repository's folder

Each row of the table begins where the row before it ends, and the last ends with the record. Where a row begins is the number of its name in
the header, and of its name in crates/device/src/places.rt; neither has a place more. The header's lengths and modes are the table's, too.
"""
import re
import sys

# how the table's words begin, the name in the header behind GRZELOTKA_, the name in the code
ROWS = [
    ('stack present', 'STACK_PRESENT', 'PRESENT'),
    ('mode', 'MODE', 'MODE'),
    ('user keys stored', 'KEYS_STORED', 'COUNT'),
    ('authentication key present', 'AUTH_KEY_PRESENT', 'AUTH'),
    ('authentication key locked', 'AUTH_KEY_LOCKED', 'LOCKED'),
    ('anti-rollback on', 'ANTIROLLBACK', 'ROLLBACK'),
    ('index of the loaded key', 'LOADED_KEY', 'LOADED'),
    ('first state request made', 'STATE_REQUESTED', 'ASKED'),
    ('pending error', 'PENDING_ERROR', 'ERROR'),
    ('stores made', 'STORES_MADE', 'MADE'),
    ('stack version', 'STACK_VERSION', 'VERSION'),
    ('stack sectors', 'STACK_SECTORS', 'SECTORS'),
    ('boundary', 'BOUNDARY', 'BOUNDARY'),
    ('upgrade: sector p', 'IMAGE_SECTOR', 'IMAGE'),
    ("upgrade: the image's size", 'IMAGE_SIZE', 'SIZE'),
    ("upgrade: the image's version", 'IMAGE_VERSION', 'IMAGE_VERSION'),
    ('sectors recorded', 'SECTORS_RECORDED', 'RECORDED'),
    ('floor', 'FLOOR', 'FLOOR'),
    ('lock of each key', 'LOCKS', 'LOCKS'),
    ('authentication key', 'AUTH_KEY', 'KEY'),
    ('type of each key', 'TYPES', 'KINDS'),
    ('size of each key', 'SIZES', 'SIZES'),
    ('bytes of each key', 'KEY_BYTES', 'KEYS'),
]
RECORD, LENGTH = 'RECORD_BYTES', 'LENGTH'
MODES = {'STACK_RUNS': 'the stack runs', 'IDLE': 'FUS idle', 'UPGRADE': 'upgrade', 'DELETE': 'delete'}
LENGTHS = ['SLOTS', 'KEY_BYTES_EACH', 'AUTH_KEY_BYTES']
CODE_LENGTHS = {'SLOTS': 'SLOTS', 'SLOT': 'KEY_BYTES_EACH'}  # the code's name, the header's
TABLE, HEADER, CODE = 'docs/RECORD.md', 'include/grzelotka_record.h', 'crates/device/src/places.rt'
wrong = []


def expect(where, found, wanted):
    if found != wanted:
        wrong.append(f'{where}: {found}, and not {wanted}')


def number(text):
    return int(text.replace(',', '').replace('_', ''))


def read(path):
    try:
        with open(path, encoding='utf-8') as file:
            return file.read()
    except OSError as error:
        sys.exit(f'places.py: {path}: {error.strerror}')


def table():
    """Where each row begins and how many bytes it has, the words for the modes, and the record's length."""
    text = read(TABLE)
    rows = re.findall(r'^\| (\d+) \| ([\d,]+) \| (.*?) \| (.*?) \|', text, re.M)
    expect(f'{TABLE}: rows', len(rows), len(ROWS))
    places, modes, end = [], '', 0
    for (at, count, what, values), (words, name, _) in zip(rows, ROWS):
        expect(f'{TABLE}: {at}', (number(at), what[:len(words)]), (end, words))
        places.append((number(at), number(count)))
        modes = values if name == 'MODE' else modes
        end = number(at) + number(count)
    expect(f'{TABLE}: record', [number(n) for n in re.findall(r'record of ([\d,]+) bytes', text)], [end])
    return places, modes, end


def lengths(constants):
    """How many bytes each row has that is no byte and no word, by the header."""
    slots, each, auth = (constants.get(name, 0) for name in LENGTHS)
    return {'LOCKS': slots, 'TYPES': slots, 'SIZES': slots, 'AUTH_KEY': auth, 'KEY_BYTES': slots * each}


def main():
    places, modes, end = table()
    constants = {name: number(n) for name, n in re.findall(r'\bGRZELOTKA_(\w+) = (\d+)', read(HEADER))}
    code = {name: number(n) for name, n in re.findall(r'^\s*pub const (\w+): usize = ([\d_]+);', read(CODE), re.M)}
    arrays = lengths(constants)
    for (at, count), (_, name, own) in zip(places, ROWS):
        expect(f'{HEADER}: {name}', constants.get(name), at)
        expect(f'{CODE}: {own}', code.get(own), at)
        expect(f'{TABLE}: bytes of {name}', count, arrays.get(name, count))
    expect(f'{HEADER}: {RECORD}', constants.get(RECORD), end)
    expect(f'{CODE}: {LENGTH}', code.get(LENGTH), end)
    for own, name in CODE_LENGTHS.items():
        expect(f'{CODE}: {own}', code.get(own), constants.get(name))
    for name, words in MODES.items():
        expect(f'{TABLE}: {words}', f'{constants.get(name)} {words}' in modes, True)
    expect(f'{HEADER}: others', sorted(constants.keys() - {name for _, name, _ in ROWS} - {RECORD, *LENGTHS, *MODES}), [])
    expect(f'{CODE}: others', sorted(code.keys() - {own for _, _, own in ROWS} - {LENGTH, *CODE_LENGTHS}), [])
    print('\n'.join(wrong + [f'places.py: {len(places)} places, {end} bytes, {len(wrong)} wrong']))
    sys.exit(bool(wrong))


if __name__ == '__main__':
    main()
