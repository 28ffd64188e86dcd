#!/usr/bin/env python3
"""Which records are taken: every byte of many honest records, set to each value, beside the model's own reading of "Sound means".

    tests/host/verdicts.py [--seed N] [--steps N] DRIVER..

The library judges all 256 values of each byte; the model judges the values that mean something to it (all of them for the first ten
bytes), and knows that the bytes of keys may be any. N counts the honest states.
"""
import fuzz
import model
import playing

VALUES = sorted({*range(6), 15, 16, 17, 27, 28, 29, 31, 32, 33, 43, 44, 45, 83, 84, 99, 100, 101, 128, 243, 244, 245, 254, 255})
FREE = {*range(143, 207), *range(409, model.RECORD)}


def judge(pair):
    """How many verdicts were compared."""
    record, said, compared = pair.record(), pair.verdicts(), 0
    for at in range(model.RECORD):
        given = said[256 * at:256 * at + 256]
        if at in FREE:
            pair.expect(f'byte {at}', given, bytes(256))
            compared += 256
            continue
        old = record[at]
        for value in range(256) if at < 10 else {*VALUES, old, old + 1 & 255, old - 1 & 255, old ^ 0x80}:
            changed = record[:at] + bytes([value]) + record[at + 1:]
            pair.expect(f'byte {at} = {value}', given[value], 0 if model.device_of(changed) else 1)
            compared += 1
    return compared


def run(pair, rng, states):
    compared = 0
    walk = fuzz.Run(pair, rng)
    for _ in range(states):
        for _ in range(40):
            walk.step()
        compared += judge(pair)
    return f'{states} states, {compared} verdicts'


if __name__ == '__main__':
    playing.main(run, 20)
