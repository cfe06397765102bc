#!/usr/bin/env python3
# SPDX-License-Identifier: Apache-2.0
"""Draws what bench/run.sh measured, as an SVG of plain text.

usage: plot.py FOLDER PICTURE

Reads results.tsv and circumstances.tsv in FOLDER. With rates of the Rust crate among the results a bar is a ratio, with
lines at 1 and 1.5; else it is the library's own rate in megabytes of packets a second, on a logarithmic scale."""
import math
import os
import sys
from xml.sax.saxutils import escape

from report import circumstances, ratio, rows

CALLS = (('read', '#2f6fb0', 'read'), ('read_and_write', '#d9822b', 'read and write'))
LEFT, WIDTH, RIGHT = 130, 600, 70
BAR, GAP, TOP = 10, 8, 78
TEXT, FAINT = '#222222', '#dddddd'


def text(x, y, words, anchor='start', size=12, weight='normal'):
    return ('<text x="%.1f" y="%.1f" text-anchor="%s" font-size="%d" font-weight="%s" fill="%s">%s</text>'
            % (x, y, anchor, size, weight, TEXT, escape(words)))


def line(x, top, bottom, color, width=1, dashes=''):
    return ('<line x1="%.1f" y1="%.1f" x2="%.1f" y2="%.1f" stroke="%s" stroke-width="%s"%s/>'
            % (x, top, x, bottom, color, width, ' stroke-dasharray="%s"' % dashes if dashes else ''))


def bars(results, value):
    """For each file what is drawn of it: a value for each call."""
    drawn = {}
    for row in results:
        if row['call'] in [call for call, _, _ in CALLS] and row['zero'] != row['packets']:
            drawn.setdefault(row['file'], {})[row['call']] = value(row)
    return drawn, max(max(it.values()) for it in drawn.values())


def ratios(results):
    """Each file's bars, the title, a place from 0 to 1 for a value, the marks of the axis, and how a value reads."""
    values, most = bars([row for row in results if row['ratio']], lambda row: float(row['ratio']))
    end = math.ceil(2 * most + 0.2) / 2
    marks = [(step / 2, '%.1f' % (step / 2)) for step in range(int(2 * end) + 1)]
    return values, "Rate over the Rust crate's, same packets, in turns (longer is faster)", lambda it: it / end, marks, ratio


def rates(results):
    values, most = bars([row for row in results if not row['file'].startswith('clean_')],
                        lambda row: float(row['rate']) * float(row['bytes']) / 1e6)
    decades = math.ceil(math.log10(most))
    marks = [(10 ** step, '{:,}'.format(10 ** step)) for step in range(decades + 1)]
    title = 'Megabytes of packets a second, logarithmic (longer is faster)'
    return values, title, lambda it: math.log10(max(it, 1)) / decades, marks, '{:,.0f}'.format


def main():
    if len(sys.argv) != 3:
        sys.exit('usage: plot.py FOLDER PICTURE')
    folder, picture = sys.argv[1:]
    results = rows(os.path.join(folder, 'results.tsv'))
    is_beside = any(row['ratio'] for row in results)
    values, title, place, marks, label = (ratios if is_beside else rates)(results)
    step = len(CALLS) * BAR + GAP
    bottom = TOP + len(values) * step
    drawn = [text(16, 26, title, size=15, weight='bold')]
    at = LEFT
    for _, color, name in CALLS:
        drawn += ['<rect x="%d" y="38" width="12" height="12" fill="%s"/>' % (at, color), text(at + 18, 48, name)]
        at += 110
    for value, mark in marks:
        x = LEFT + WIDTH * place(value)
        drawn += [line(x, TOP - 6, bottom, FAINT), text(x, bottom + 16, mark, 'middle', 11)]
    said = circumstances(folder)
    drawn.append(text(16, bottom + 36, '{date}, {processor}, {processors} processors, commit {commit}'.format(**said), size=11))
    labels = []
    for row, (name, of_calls) in enumerate(values.items()):
        y = TOP + row * step
        drawn.append(text(LEFT - 8, y + BAR * len(CALLS) / 2 + 4, name, 'end'))
        for i, (call, color, _) in enumerate(CALLS):
            if call in of_calls:
                length = WIDTH * place(of_calls[call])
                drawn.append('<rect x="%d" y="%d" width="%.1f" height="%d" fill="%s"/>'
                             % (LEFT, y + i * BAR, length, BAR - 1, color))
                labels.append(text(LEFT + length + 4, y + i * BAR + 9, label(of_calls[call]), size=10))
    if is_beside:
        for value, dashes, name in ((1, '', 'as fast'), (1.5, '5 4', '1.5 times as fast')):
            x = LEFT + WIDTH * place(value)
            drawn += [line(x, TOP - 6, bottom, '#a01c1c', 1.5, dashes), text(x, TOP - 10, name, 'middle', 11, 'bold')]
    # last, and with a white rim, so that they can be read where they lie over a line
    drawn += ['<g stroke="#ffffff" stroke-width="3" paint-order="stroke">', *labels, '</g>']
    width, height = LEFT + WIDTH + RIGHT, bottom + 48
    with open(picture, 'w', encoding='utf-8') as file:
        file.write('<svg xmlns="http://www.w3.org/2000/svg" width="%d" height="%d" viewBox="0 0 %d %d" '
                   'font-family="sans-serif" role="img">\n' % (width, height, width, height))
        file.write('<title>%s</title>\n<rect width="100%%" height="100%%" fill="#ffffff"/>\n' % escape(title))
        file.write('\n'.join(drawn) + '\n</svg>\n')


if __name__ == '__main__':
    main()
