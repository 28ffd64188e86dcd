#!/usr/bin/env python3
"""No function that makes a store keeps an array above 64 bytes: the source.

    tests/stack/arrays.py [FOLDER]    FOLDER has the crates, and crates.txt beside it; it is crates, in the repository's folder, if none is named

From grzelotka_work and grzelotka_cut on, every function that is called is looked at, of the crates that grzelotka stands on, and what it calls in turn: locals, parameters, results and
temporaries that are arrays, or structs with an array in them that are not lent, or are copied by `*`, may have 64 bytes at most. Arrays of a length that can't be
read here count as too large. Each is told with its file and function, and the status is 1.

    tests/stack/arrays.py --self-test    plants such arrays in copies of the crates; each must be found
"""
import os
import re
import shutil
import sys
import tempfile

MOST, UNKNOWN = 64, 10 ** 9
ROOTS = [('grzelotka', 'lib', 'grzelotka_work'), ('grzelotka', 'lib', 'grzelotka_cut')]
# what a sector store runs through: where the search does not come to these, it is blind
KNOWN = [('jobs', 'stores', 'make'), ('jobs', 'stores', 'cut'), ('sectors', 'lib', 'erase'), ('sectors', 'lib', 'copy'), ('sectors', 'lib', 'store'),
         ('sectors', 'lib', 'spoil'), ('sectors', 'lib', 'fill'), ('jobs', 'lib', 'advance'), ('jobs', 'lib', 'break_off'), ('plan', 'lib', 'next')]
SIZES = {'u8': 1, 'i8': 1, 'bool': 1, 'u16': 2, 'i16': 2, 'u32': 4, 'i32': 4, 'u64': 8, 'i64': 8, 'usize': 8, 'isize': 8}


def plain(text):
    """The text without remarks, strings and contracts."""
    text = re.sub(r'//[^\n]*', '', text)
    text = re.sub(r'b?"(?:[^"\\]|\\.)*"', '""', text)
    while clause := re.search(r'\b(?:requires|ensures|ghost) *\w* *:?\s*\{', text):
        text = text[:clause.start()] + text[block_end(text, clause.start()):]
    return text


def block_end(text, start):
    """Behind the brace that closes the first one from here on."""
    depth = 0
    for i in range(text.index('{', start), len(text)):
        depth += {'{': 1, '}': -1}.get(text[i], 0)
        if depth == 0:
            return i + 1
    return len(text)


def by_value(kind, text):
    """Does a text hold, take or return such a type, not lent, or make one, also inside another type? A word behind an enum's name, which has a capital, is a variant's."""
    path = r'(?:::)?(?:[a-z_]\w*::)'
    return re.search(rf'(?:(?<!:):|->|[<(\[,])\s*{path}*{kind}\b(?!::)|(?<!&mut )(?<!&)\b{kind}\s*\{{|(?<!&mut )(?<!&)(?<![\w:]){path}+{kind}\b(?!::)', text)


def copied(kind, text):
    """The first name in a text that is lent such a type and copied as a whole."""
    lent = re.findall(rf'\b(\w+): &(?:\'\w+ )?(?:mut )?(?:\w+::)*{kind}\b', text)
    return next((name for name in lent if re.search(rf'(?<!&)(?<!&mut )\*{name}\b(?!\[)|\b{name}\.clone\(\)', text)), None)


def imports(text):
    """Each name that `use` brings in, and the path to where it stands; `use a::{b, c::d};` brings in two."""
    for start, words in re.findall(r'^\s*(?:pub )?use ((?:\w+::)*)(\w+|\{[^{}]*\});', text, re.M):
        for word in re.findall(r'[\w:]+', words):
            path = (start + word).split('::')
            yield path[-1], path[:-1]


def stood_on(folder):
    """grzelotka and the crates that it stands on, by its line of crates.txt."""
    path = os.path.join(os.path.dirname(os.path.normpath(folder)), 'crates.txt')
    try:
        with open(path, encoding='utf-8') as file:
            line = re.search(r'^grzelotka staticlib: (.*)', file.read(), re.M)
    except OSError as error:
        sys.exit(f'arrays.py: {path}: {error.strerror}')
    return ['grzelotka', *line[1].split()] if line else []


class Crates:
    def __init__(self, folder):
        self.functions, self.uses, self.constants, self.structs = {}, {}, {}, {}
        for crate in stood_on(folder):
            source = os.path.join(folder, crate, 'src')
            for name in sorted(os.listdir(source)) if os.path.isdir(source) else []:
                with open(os.path.join(source, name), encoding='utf-8') as file:
                    self.take(crate, name.removesuffix('.rt'), plain(file.read()))
        if not self.functions:
            sys.exit(f'arrays.py: {folder}: no crates there')

    def take(self, crate, module, text):
        self.uses[crate, module] = dict(imports(text))
        for name, value in re.findall(r'\bconst (\w+): \w+ = ([\d_]+);', text):
            self.constants[name] = max(self.constants.get(name, 0), int(value.replace('_', '')))
        for match in re.finditer(r'\bstruct (\w+)', text):
            self.structs[match[1]] = text[match.start():block_end(text, match.start())] if '{' in text[match.end():] else ''
        self.structs.update(re.findall(r'\btype (\w+) = (.*);', text))
        for match in re.finditer(r'\bfn (\w+)', text):
            at = crate, module, match[1]  # two of one name are looked at together
            self.functions[at] = self.functions.get(at, '') + text[match.start():block_end(text, match.start())]

    def called(self, crate, module, text):
        """The functions that this text of a module calls, as far as they are the crates' own."""
        for dot, path, name in re.findall(r'(\.?)((?:\w+::)*)(\w+)\s*\(', text):
            if dot:  # a method: its type isn't read here, so each function of that name counts
                yield from (at for at in self.functions if at[2] == name)
                continue
            where = path.rstrip(':').split('::') if path else []
            for place in self.places(crate, module, where, name):
                if (*place, name) in self.functions:
                    yield (*place, name)

    def places(self, crate, module, where, name):
        """The modules in which such a path may end."""
        uses = self.uses[crate, module]
        if not where:
            where = uses.get(name, [])
        elif where[0] in uses:
            where = uses[where[0]] + where
        yield crate, module
        yield from ((crate, word) for word in where)
        if where:
            yield where[0], 'lib'
            yield from ((where[0], word) for word in where[1:])

    def reached(self):
        """Every function that a store runs through."""
        seen, todo = set(), list(ROOTS)
        while todo:
            at = todo.pop()
            if at in seen or at not in self.functions:
                continue
            seen.add(at)
            todo += self.called(*at[:2], self.functions[at])
        return seen

    def number(self, text):
        digits = text.strip().replace('_', '')
        return int(digits) if digits.isdigit() else self.constants.get(text.strip().split('::')[-1], UNKNOWN)

    def arrays(self, text):
        """(what stands there, its bytes) of each array in a text."""
        for element, length in re.findall(r'\[([^\[\]]*);([^\[\]]*)\]', text):
            kind = next((size for name, size in SIZES.items() if re.search(rf'(?:^|\d){name}$', element.strip())), 1)
            yield f'[{element.strip()}; {length.strip()}]', kind * self.number(length)

    def large(self):
        """The structs that have an array above 64 bytes in them, or such a struct, and the other names of such arrays."""
        found = {name for name, text in self.structs.items() if any(size > MOST for _, size in self.arrays(text))}
        while True:
            more = {name for name, text in self.structs.items() if any(re.search(rf':\s*{other}\b', text) for other in found)} - found
            if not more:
                return found
            found |= more

    def faults(self):
        reached = self.reached()
        for at in KNOWN:
            if at not in reached:
                yield f'{"/".join(at)}: no store is seen to run through it, so the search is blind'
        large = self.large()
        for crate, module, name in sorted(reached):
            text, where = self.functions[crate, module, name], f'crates/{crate}/src/{module}.rt: {name}'
            yield from (f'{where}: {what}, {size} bytes' for what, size in self.arrays(text) if size > MOST)
            yield from (f'{where}: a {kind} by value' for kind in sorted(large) if by_value(kind, text))
            yield from (f'{where}: *{name}, a {kind}' for kind in sorted(large) if (name := copied(kind, text)))


# file, what stands there, what is planted in its place
PLANTS = [
    ('sectors/src/lib.rt', 'front.copy_from_slice(bytes);', 'let piece = [0u8; 65]; front.copy_from_slice(bytes);'),
    ('sectors/src/lib.rt', 'front.copy_from_slice(bytes);', 'let piece = [0u32; 17]; front.copy_from_slice(bytes);'),
    ('sectors/src/lib.rt', 'front.copy_from_slice(bytes);', 'let piece = [0u8; PIECE]; front.copy_from_slice(bytes);'),
    ('sectors/src/lib.rt', 'fill(back, 0xFF);', 'let blank: [u8; 4096] = whole(); fill(back, 0xFF);'),
    ('plan/src/lib.rt', 'match made {', 'let spare = [made; 65];\n        match made {'),
    ('plan/src/lib.rt', 'fn blocks(self) -> usize', 'fn blocks(self, c: [u8; 100]) -> usize'),
    ('jobs/src/stores.rt', 'match store {', 'let d: Device = kept();\n    match store {'),
    ('jobs/src/stores.rt', 'match store {', 'let d: device::Device = kept();\n    match store {'),
    ('jobs/src/lib.rt', 'fn finish(rec: &mut Record, board: Board)\n', 'fn finish(rec: &mut Record, board: Board) -> device::Record\n'),
    ('jobs/src/lib.rt', 'match store {', 'let spare = *rec;\n    match store {'),
    ('jobs/src/lib.rt', 'match store {', 'let spare: u8 = seen(*rec);\n    match store {'),
    ('jobs/src/lib.rt', 'match store {', 'let spare = rec.clone();\n    match store {'),
    ('jobs/src/stores.rt', 'match store {', 'let d: Option<device::Device> = kept();\n    match store {'),
    ('jobs/src/stores.rt', 'match store {', 'let d: (u8, device::Device) = kept();\n    match store {'),
    ('jobs/src/stores.rt', 'match store {', 'let d: [::device::Device; 2] = kept();\n    match store {'),
    ('jobs/src/stores.rt', 'match store {', 'let d = kept::<device::Device>();\n    match store {'),
    ('jobs/src/stores.rt', 'match store {', 'let d = kept() as device::Device;\n    match store {'),
    ('jobs/src/stores.rt', 'match store {', 'let d: Result<Device, u8> = kept();\n    match store {'),
    ('jobs/src/lib.rt', 'fn finish(rec: &mut Record, board: Board)\n', 'fn finish(rec: &mut Record, board: Board) -> Option<Record>\n'),
    ('jobs/src/lib.rt', 'fn finish(rec: &mut Record, board: Board)', 'fn finish(rec: &mut Record, board: Board) -> [u8; 65]'),
]


def self_test(folder):
    wrong = [f'nothing planted, and yet: {fault}' for fault in Crates(folder).faults()]
    for path, old, new in PLANTS:
        with tempfile.TemporaryDirectory() as copy:
            crates = os.path.join(copy, 'crates')
            shutil.copytree(folder, crates, ignore=shutil.ignore_patterns('proofs', 'specs', 'must-fail', 'out'))
            shutil.copy('crates.txt', copy)
            with open(os.path.join(crates, path), encoding='utf-8') as file:
                text = file.read()
            if old not in text:
                wrong.append(f'{path}: {old} is not there to plant {new}')
                continue
            with open(os.path.join(crates, path), 'w', encoding='utf-8') as file:
                file.write(text.replace(old, new, 1))
            if not list(Crates(crates).faults()):
                wrong.append(f'{path}: {new} was not found')
    print('\n'.join(wrong + [f'arrays.py: {len(PLANTS)} arrays planted, {len(PLANTS) - len(wrong)} found']))
    return bool(wrong)


def main(words):
    if len(words) > 1:
        sys.exit('usage: arrays.py [FOLDER], arrays.py --self-test')
    if words == ['--self-test']:
        return self_test('crates')
    crates = Crates(words[0] if words else 'crates')
    faults = list(crates.faults())
    print('\n'.join(faults + [f'arrays.py: {len(crates.reached())} functions in a store, {len(faults)} arrays above {MOST} bytes']))
    return bool(faults)


if __name__ == '__main__':
    sys.exit(main(sys.argv[1:]))
