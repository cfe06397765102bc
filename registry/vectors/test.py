#!/usr/bin/env python3
# SPDX-License-Identifier: Apache-2.0
"""usage: registry/vectors/test.py

Tries vectors.py: copies of the files, in which each line says something else, and has to be named; and wrong answers of
answers.c, each of which has to be found. The last line is: vectors: N passed, M failed.
"""
import contextlib
import io
import json
import os
import random
import re
import sys
import tempfile

sys.dont_write_bytecode = True
import vectors

ANSWERED = 'fault', 'chunks', 'written', 'strict', 'fields', 'refused', 'returns', 'end'
WRONG = [
    ('PUT(data, tsn)', 'put("tsn", data.mid)'),
    ('PUT(data, stream)', 'put("stream", data.ssn)'),
    ('PUT(data, is_end)', 'put("is_end", 1)'),
    ('PUT(blocks[at], end)', 'put("end", blocks[at].start)'),
    ('PUT(init, a_rwnd)', 'put("a_rwnd", init.initial_tsn)'),
    ('PUT(it, last_tsn)', 'put("last_tsn", it.request_number)'),
    ('put("sender", it.sender_next_tsn)', 'put("sender", it.receiver_next_tsn)'),
    ('dcsctp_missing_parameters(', 'dcsctp_reset_streams('),
    ('.any_checksum = true', '.any_checksum = false'),
    ('.strict_padding = strict', '.strict_padding = false'),
    ('U16(outbound_streams)', '.outbound_streams = 1'),
    ('U32(immediate_ack)', '.immediate_ack = false'),
    ('number("tag_reflected")', 'false'),
    ('put(number_name, items[at].type)', 'put(number_name, at)'),
    ('memcpy(it.at + address.size, rest.at, rest.size)', 'memset(it.at + address.size, 0, rest.size)'),
    ('number("is_unicast")', 'true'),
    ('U32(awaits_cookie)', '.awaits_cookie = false'),
    ('U32(has_i_data)', '.has_i_data = false'),
    ('number("in_cookie_wait")', 'true'),
    ('if (stop < length)', 'if (stop)'),
    ('U16(source_port)', '.source_port = 0'),
    ('dcsctp_unrecognized_parameter(', 'dcsctp_unrecognized_chunk((uint8_t)'),
]


def changed(it, chance):
    """Another value of the same form."""
    if isinstance(it, dict) and it:
        key = chance.choice([*it])
        return {name: changed(value, chance) if name == key else value for name, value in it.items()}
    if isinstance(it, list) and it:
        at = chance.randrange(len(it))
        return chance.choice(([*it, it[-1]], it[:at] + it[at + 1:], it[:at] + [changed(it[at], chance)] + it[at + 1:]))
    if isinstance(it, str):
        return it + '00' if not it or chance.random() < 0.5 else it[:-1] + ('0' if it[-1] != '0' else '1')
    return not it if isinstance(it, bool) else it + 1 if isinstance(it, int) else {'other': 1}


def with_plant(line, chance):
    """A line that says something else: a value, or a key that is there or isn't."""
    given = 'fields' if 'refused' in line else 'fault' if 'call' in line else ''
    key, line = chance.choice([key for key in line if key in ANSWERED and key != given]), dict(line)
    if chance.random() < 0.1 and key in ('fault', 'written', 'strict', 'refused', 'end'):
        del line[key]
    elif 'chunks' in line and chance.random() < 0.1:
        line |= {'written': line['bytes'][:-2]}
    else:
        line[key] = changed(line[key], chance)
    return line


def compared(answers, folder):
    """The lines that are named."""
    said = io.StringIO()
    with contextlib.redirect_stdout(said):
        vectors.compare(answers, folder)
    return re.findall(r'^(\w+\.jsonl:\d+): ', said.getvalue(), re.M)


def shows_swaps(line):
    """Whether a swap of parts shows, or of a part's bytes: numbers, an address, bytes, and two at least of a list, which all differ."""
    found = []
    for name, form in vectors.REGISTERED[line['level'], line['type']]:
        its = line['fields'][name]
        size = 4 if form in vectors.words.C_NUMBERS['u32'] else 2
        for it in its if isinstance(its, list) else [its]:
            it = it[vectors.NUMBERED[vectors.ITEMS[form]]] if form in vectors.ITEMS else it
            found.append(bytes.fromhex(it) if isinstance(it, str) else it.to_bytes(size, 'big'))
        if isinstance(its, list) and len(its) < 2:
            return False
    return len({int.from_bytes(it, 'big') for it in found}) == len(found) and all(it != it[::-1] for it in found)


def registered_types():
    """Whether each type that is no kind has two lines, and one in which a swap of any two parts shows."""
    with open(os.path.join(vectors.HERE, 'registered.jsonl'), encoding='ascii') as file:
        lines = [json.loads(line) for line in file]
    for level, number in vectors.REGISTERED:
        own = [line for line in lines if (line['level'], line['type']) == (level, number) and 'value' in line]
        yield f'{level} {number} has two lines', len(own) > 1
        yield f'a swap in {level} {number} shows', any(line['fields'] is not None and shows_swaps(line) for line in own)


def main():
    results, chance = [*registered_types()], random.Random(1)
    with tempfile.TemporaryDirectory() as folder:
        answers = vectors.Answers(folder)
        results.append(('what is there is right', not compared(answers, vectors.HERE)))
        for _ in range(4):
            wanted = []
            for name in vectors.FILES:
                with open(os.path.join(vectors.HERE, name), encoding='ascii') as file:
                    lines = [vectors.text_of(with_plant(json.loads(line), chance)) + '\n' for line in file]
                wanted += [(f'{name}:{at}', line) for at, line in enumerate(lines, 1)]
                with open(os.path.join(folder, name), 'w', encoding='ascii') as file:
                    file.writelines(lines)
            named = set(compared(answers, folder))
            results += [(f'{place}: {line}', place in named) for place, line in wanted]
        with open(os.path.join(vectors.HERE, 'answers.c'), encoding='utf-8') as file:
            source = file.read()
        for right, wrong in WRONG:
            with open(os.path.join(folder, 'wrong.c'), 'w', encoding='utf-8') as file:
                file.write(source.replace(right, wrong))
            is_found = right in source and compared(vectors.Answers(folder, file.name), vectors.HERE)
            results.append((f'{wrong} in place of {right}', is_found))
    for what, is_right in results:
        if not is_right:
            print(f'vectors: {what.strip()}: failed')
    failed = sum(not is_right for _, is_right in results)
    print(f'vectors: {len(results) - failed} passed, {failed} failed')
    return failed > 0


if __name__ == '__main__':
    sys.exit(main())
