#!/usr/bin/env python3
# SPDX-License-Identifier: Apache-2.0
"""Joins what the turns of bench/run.sh measured, and prints it as Markdown.

usage: report.py FOLDER

Reads library.N.tsv, original.N.tsv (if there are any) and circumstances.tsv in FOLDER, writes results.tsv there, which
has all figures of all calls, and prints the part of docs/SPEED.md. Of all turns the greatest rate counts."""
import glob
import math
import os
import sys
import textwrap

from traffic import FILES

# Which call of the Rust crate does the same. It has no borrowed reading, and writes by its builder alone.
COUNTERPARTS = {'borrowed': 'parse', 'refill': 'parse', 'read': 'parse', 'write_in_place': 'write', 'read_and_write': 'write',
                'build': 'write'}
CALLS = ('check', 'borrowed', 'refill', 'read', 'write_in_place', 'read_and_write', 'write_over', 'build', 'clean')
COLUMNS = ('file', 'call', 'packets', 'bytes', 'zero', 'rate', 'requests', 'original_rate', 'original_requests',
           'ratio', 'least_ratio', 'greatest_ratio')
# What the page shows, and of which files not; the Rust crate's calls come behind `read` and `build`.
SHOWN, BESIDE = ('check', 'borrowed', 'refill', 'read', 'write_in_place', 'read_and_write', 'build'), ('read', 'build')
CLEANED = {'clean_falling': 'by falling start', 'clean_shuffled': 'in any order', 'clean_overlapping': 'overlapping'}
LEFT_OUT = ('idata1200', 'sack4', 'init_ack', 'cookie_echo', 'i_forward_tsn', 'abort', 'error', 'handshake')


def rows(file):
    """The lines of a table, by the names in its first line; the lines of names that follow are left out."""
    with open(file, encoding='utf-8') as lines:
        table = [line.rstrip('\n').split('\t') for line in lines]
    return [dict(zip(table[0], line)) for line in table[1:] if line != table[0]]


def turns(folder, kind):
    found = glob.glob(os.path.join(folder, kind + '.*.tsv'))
    return [rows(file) for file in sorted(found, key=lambda it: int(it.split('.')[-2]))]


def stem(name):
    return os.path.basename(name).removesuffix('.hex')


def joined(folder):
    """One record for each file and call."""
    rates, originals, counted, counted_originals = {}, {}, {}, {}
    for turn in turns(folder, 'library'):
        for row in turn:
            key = row['file'], row['call']
            rates.setdefault(key, []).append(float(row['greatest']))
            counted[key] = row
    for turn in turns(folder, 'original'):
        for row in turn:
            key = stem(row['file']), row['what']
            originals.setdefault(key, []).append(float(row['greatest']))
            counted_originals[key] = row
    records = []
    for name, _, _, _ in FILES:
        for call in CALLS:
            row = counted[name, call]
            record = {'file': name, 'call': call, 'packets': int(row['packets']), 'bytes': float(row['bytes']),
                      'zero': int(row['zero']), 'rate': max(rates[name, call]), 'requests': float(row['requests'])}
            key = name, COUNTERPARTS.get(call)
            if key in originals:
                other = counted_originals[key]
                single = [a / b for a, b in zip(rates[name, call], originals[key])]
                record.update(original_rate=max(originals[key]), ratio=record['rate'] / max(originals[key]),
                              least_ratio=min(single), greatest_ratio=max(single))
                if 'allocs/p' in other and 'reallocs/p' in other:
                    record['original_requests'] = float(other['allocs/p']) + float(other['reallocs/p'])
                if call == 'read' and 'refused' in other and int(other['refused']) != record['zero']:
                    sys.exit('report.py: %s: the two do not refuse as many packets' % name)
            records.append(record)
    return records


def write_results(records, file):
    """With all digits of each figure, so that whatever reads the file rounds once."""
    with open(file, 'w', encoding='utf-8') as out:
        out.write('\t'.join(COLUMNS) + '\n')
        for record in records:
            out.write('\t'.join(str(record.get(name, '')) for name in COLUMNS) + '\n')


def ratio(value):
    """A ratio as the table and the plot show it."""
    return '%.2f' % value


def duration(rate):
    """How long one of so many a second takes: nanoseconds, or microseconds or milliseconds with their unit."""
    nanoseconds = 1e9 / rate
    for unit, size in (('ms', 1e6), ('µs', 1e3)):
        if nanoseconds >= 10 * size:
            return '%s %s' % (three_digits(nanoseconds / size), unit)
    return three_digits(nanoseconds)


def three_digits(value):
    return '{:,.0f}'.format(value) if value >= 99.95 else '%.1f' % value


def number(value):
    return '{:,.0f}'.format(value) if value == int(value) else '{:,.1f}'.format(value)


def table(heads, lines):
    rule = ['---'] + ['--:'] * (len(heads) - 1)
    return ['| ' + ' | '.join(cells) + ' |' for cells in [heads, rule, *lines]]


def shown(records, is_beside):
    """A line for each file that the page shows."""
    by = {(it['file'], it['call']): it for it in records}
    lines = []
    for name, what, _, _ in FILES:
        if name in LEFT_OUT or name in CLEANED:
            continue
        read = by[name, 'read']
        cells = ['`%s`' % name, what, number(read['bytes'])]
        for call in SHOWN:
            it = by[name, call]
            if it['zero'] == it['packets']:
                cells.append('-')
            else:
                cells.append(duration(it['rate']) + (' (%s)' % ratio(it['ratio']) if 'ratio' in it else ''))
            if is_beside and call in BESIDE:
                has_rate = cells[-1] != '-' and 'original_rate' in it
                cells.append(duration(it['original_rate']) if has_rate else '-')
        asked = [number(read[key]) for key in ('requests', 'original_requests') if key in read]
        lines.append(cells + [' / '.join(asked)])
    heads = ['file', 'a packet holds', 'bytes']
    for call in SHOWN:
        heads += ['`%s`' % call] + (["crate's `%s`" % COUNTERPARTS[call]] if is_beside and call in BESIDE else [])
    aligned = table(heads + ['requests'], lines)
    aligned[1] = aligned[1].replace('| --: |', '| --- |', 1)
    return aligned


def means(records):
    """The geometric mean of each call's ratios, the least, and how far those of single turns lie apart."""
    texts = []
    for call in COUNTERPARTS:
        found = [it['ratio'] for it in records if it['call'] == call and 'ratio' in it and it['zero'] != it['packets']]
        texts.append('`%s` %s (%s)' % (
            call, ratio(math.exp(sum(map(math.log, found)) / len(found))), ratio(min(found))))
    spreads = sorted(it['greatest_ratio'] / it['least_ratio'] for it in records if 'ratio' in it)
    return ('Geometric means of the ratios over all files, and the least: %s. Of the ratios of single turns the greatest of a '
            'row is %.2f times the least in the median, and %.2f at most.'
            % (', '.join(texts), spreads[len(spreads) // 2], spreads[-1]))


def cleaned(records):
    """What is said of SACK cleaning."""
    rates = {it['file']: it['rate'] for it in records if it['call'] == 'clean'}
    return 'Reading a SACK of 16,376 blocks and cleaning it: %s.' % ', '.join(
        '%s %s' % (order, duration(rates[name])) for name, order in CLEANED.items())


def filled(text):
    return textwrap.fill(text, 140, break_long_words=False, break_on_hyphens=False)


def circumstances(folder):
    """What the figures were measured with, by name."""
    with open(os.path.join(folder, 'circumstances.tsv'), encoding='utf-8') as lines:
        return dict(line.rstrip('\n').split('\t', 1) for line in lines)


def caption(folder, is_beside):
    said = circumstances(folder)
    is_busy = float(said['load']) > float(said['processors']) / 2
    return filled((
        '{date}, crates of commit `{commit}`, {processor}, {processors} processors, load {load} as it began, `{toolchain}`, the '
        'best of {turns} turns of {rounds} rounds of {millis} ms. Nanoseconds a packet where no other unit is said')
        .format(**said)
        + ("; in brackets how many times as long the Rust crate takes; and requests for memory of `read`, library / crate."
           if is_beside else '; and requests for memory of `read`.')
        + (' **The machine was busy, so these figures say little**: run it again in a quiet hour.' if is_busy else ''))


def main():
    if len(sys.argv) != 2:
        sys.exit('usage: report.py FOLDER')
    folder = sys.argv[1]
    records = joined(folder)
    write_results(records, os.path.join(folder, 'results.tsv'))
    is_beside = any('ratio' in it for it in records)
    parts = [caption(folder, is_beside), '', *shown(records, is_beside), '']
    print('\n'.join(parts + [filled((means(records) + ' ' if is_beside else '') + cleaned(records))]))


if __name__ == '__main__':
    main()
