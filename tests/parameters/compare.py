#!/usr/bin/env python3
"""compare.py PROGRAM [COUNT [SEED]]: generated parameter files, right, damaged and at every limit, and records and
tables to write, by the library that a control links (PROGRAM, of parameters.c) and by the second reading. Every answer
must be the same, byte for byte; every refusal must be among them often enough for that to say something; and what is
written must read back.
"""
import collections
import pathlib
import random
import subprocess
import sys

sys.path.insert(0, str(pathlib.Path(__file__).resolve().parent))
import second

FILE = 84_393
FRESH = [0] * 33 + [800, 170, 900, 210, 540] + [0] * 5
EDGES = (1, 2, 4998, 4999, 5000, 5001, 5210, 5211, 5212, 5213, 5214, 5219, 5220, 5221, 5223, 5224, 5240, 5241, 5243, 5244,
         5361, 5363, 5380, 5381, 5383, 5384, 5398, 5399)


def a_record(rng):
    rec = list(FRESH)
    if rng.random() < 0.8:
        for place in range(33):
            if rng.random() < 0.4:
                rec[place] = rng.choice((1, -1)) * rng.choice((1, 10, 99_999, 100_000, 123_450_000, 10 ** 9, rng.randrange(10 ** 9)))
    for place, codes in second.GROUPS.items():
        rec[place] = rng.choice(codes)
    for place, most in ((38, 253_999_999_746), (39, 999_999_999), (40, 99), (41, 2), (42, 3)):
        rec[place] = rng.choice((0, most, rng.randrange(most + 1)))
    if rng.random() < 0.06:
        place, value = rng.choice(((rng.randrange(33), 10 ** 9 + 1), (rng.randrange(33), -10 ** 9 - 1), (37, 541), (33, 11), (36, 70_000), (40, 300),
                                   (42, 4), (38, -1), (39, 10 ** 9), (41, -1)))
        rec[place] = value
    if rng.random() < 0.02:
        rec = rec[:rng.choice((0, 42))] + [0] * rng.choice((0, 2))
    return rec


def a_table(rng, over=0.05):
    table = [0] * (5000 if rng.random() < 0.97 else rng.choice((0, 1, 4999, 5001)))
    for _ in range(rng.choice((0, 1, 5, 40, 400))):
        if table:
            value = rng.choice((1, 10_000, 12_345, 999_999_999, rng.randrange(10 ** 9)))
            table[rng.randrange(len(table))] = rng.choice((1, -1)) * value
    if table and rng.random() < over:
        table[min(rng.choice((0, 1, 4999)), len(table) - 1)] = rng.choice((10 ** 9, -10 ** 9, 2 ** 62, -2 ** 63))
    return table


def zeros(rng, most=6):
    return '0' * rng.choice((0, 0, 0, 1, rng.randrange(most)))


def a_value(rng, number, wild):
    """The number of a line: one that its place takes, and where the file is wild now and then another."""
    units = second.PLACES[number][0] if number in second.PLACES else 10
    places = len(str(units)) - 1
    kind = rng.random() if wild else 1
    if units == 1 and (kind < 0.8 or not wild):
        return f'{zeros(rng)}{rng.randrange(1, 10)}' + rng.choice(('', '', '.', '.0', '.000000'))
    if kind < 0.1:
        limit = 999_999_999 if units == 10_000 else 10 ** 9
        size = limit + rng.choice((-1, 0, 0, 0, 1)) if units > 1 else rng.choice((0, 1, 9, 10))
    elif kind < 0.15:
        size = rng.randrange(10 ** 12)
    else:
        size = rng.choice((0, 1, 5, units, rng.randrange(10 ** 8)))
    whole, part = divmod(size, units)
    digits = f'{part:0{places}d}' if places else ''
    if rng.random() < 0.5:
        digits = digits.rstrip('0')
    if wild and rng.random() < 0.05:
        digits += rng.choice(('1', '00001', '9'))
    digits += zeros(rng, 40)
    before = f'{zeros(rng, 40)}{whole}' if whole or not digits or rng.random() < 0.5 else ''
    point = '.' if digits or rng.random() < 0.2 else ''
    return rng.choice(('', '', '', '-', '+')) + before + point + digits


def a_line(rng, number, wild):
    gap = rng.choice((' ', ' ', '\t', '  ', ' \t '))
    return f'{zeros(rng)}{number}{gap}{a_value(rng, number, wild)}'


def damaged(rng, line):
    """A line with something wrong in it, or nearly."""
    at = rng.randrange(len(line) + 1)
    byte = rng.choice(' \t.+-0x;\r#=[\x00\x7f')
    return rng.choice((line[:at] + byte + line[at:], line[:at] + line[at + 1:], line[:at], '', ' ' + line, line + ' ', '+' + line,
                       line.replace(' ', '', 1), line + 'e5', '; ' + line, '5 .', '5 +', '5 -.', '9' * rng.randrange(1, 60) + ' 1'))


def a_text(rng):
    many = rng.choice((0, 1, 2, 3, 8, 60, 600))
    numbers = rng.sample(range(1, 5400), min(many, 5399)) + rng.sample(EDGES, rng.randrange(len(EDGES)))
    numbers = sorted(set(numbers))
    if rng.random() < 0.1 and len(numbers) > 1:
        i = rng.randrange(len(numbers) - 1)
        numbers[i] = rng.choice((numbers[i + 1], numbers[i + 1] + 1, 0, 5400, 10 ** 30))
    wild = rng.random() < 0.4
    made = [a_line(rng, number, wild) for number in numbers]
    if made and rng.random() < 0.25:
        i = rng.randrange(len(made))
        made[i] = damaged(rng, made[i])
    end = rng.choice(('\n', '\n', '\r\n'))
    text = ''.join(line + end for line in made)
    if text and rng.random() < 0.2:
        text = text[:-rng.choice((1, len(end)))]
    if rng.random() < 0.03:
        text += rng.choice(('\n', '\r', '\r\n', ' ', '\x00'))
    return text.encode('latin-1')


def entries(table):
    return ','.join(f'{n}={z}' for n, z in enumerate(table) if z) or '-'


def numbers(rec):
    return ','.join(map(str, rec)) or '-'


def longest():
    """A record and a table whose file is as long as any: include/rs274_parameters.h names its bytes."""
    return FRESH[:3] + [-999_999_999] * 30 + FRESH[33:], [0] + [-999_999_999] * 4999


def cases(rng, count):
    """(the case for the library, the answer of the second reading, its number, 100 more where it is written)."""
    rec, table = longest()
    for room in (FILE - 1, FILE):
        number, many, out = second.write(rec, table, b'\xa5' * room)
        if many not in (0, FILE):
            sys.exit(f'parameters: the longest file has {many} bytes, and the header says {FILE}')
        yield f'write {numbers(rec)} 5000 {entries(table)} {room}', f'{number} {many} .{out.hex()}', 100 + number
    for _ in range(count):
        reads = rng.random() < 0.7
        rec, table = a_record(rng) or [0], a_table(rng, 0.05 if reads else 0.2)
        if reads:
            text = a_text(rng)
            number, after, left = second.read(text, rec, table)
            yield f'read .{text.hex()} {numbers(rec)} {len(table)} {entries(table)}', f'{number} {numbers(after)} {entries(left)}', number
            continue
        size = len(second.file(rec, table)) if not second.disordered(rec, table) else 40
        room = rng.choice((size, size, size - 1, size + 1, size + 40, 0, size // 2))
        number, many, out = second.write(rec, table, b'\xa5' * max(room, 0))
        yield f'write {numbers(rec)} {len(table)} {entries(table)} {max(room, 0)}', f'{number} {many} .{out.hex()}', 100 + number
        if number == 0:
            into, onto = a_record(random.Random(rng.random())), a_table(rng)
            if not second.disordered(into, onto):
                back = second.read(out[:many], into, onto)
                want = into[:3] + rec[3:33] + into[33:37] + rec[37:38] + into[38:]
                if back != (0, want, onto[:1] + table[1:]):
                    sys.exit(f'parameters: what is written does not read back: {out[:many]!r}')
                yield (f'read .{out[:many].hex()} {numbers(into)} {len(onto)} {entries(onto)}',
                       f'0 {numbers(want)} {entries(onto[:1] + table[1:])}', 0)


def main(program, count=3000, seed=274):
    made = list(cases(random.Random(int(seed)), int(count)))
    given = ''.join(case + '\n' for case, _, _ in made)
    got = subprocess.run([program], input=given, capture_output=True, text=True).stdout.splitlines()
    for i, (case, want, _) in enumerate(made):
        if i >= len(got) or got[i] != want:
            print(f'parameters: case {i + 1} differs\ncase: {case}\nwant: {want}\ngot:  {got[i] if i < len(got) else "nothing"}')
            return 1
    tally = collections.Counter(number for _, _, number in made)
    often = all(tally[number] >= int(count) // 300 for number in (0, 1, 20, 21, 22, 23, 100, 101, 123, 124))
    print(f'parameters: {len(made)} cases, the same answers; ' + ', '.join(
        f'{"written" if n > 99 else "read"} {n % 100}: {tally[n]}' for n in sorted(tally)))
    if not often:
        print('parameters: a refusal is too rare among them')
    return 0 if often and len(got) == len(made) else 1


if __name__ == '__main__':
    sys.exit(main(*sys.argv[1:]))
