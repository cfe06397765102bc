# SPDX-License-Identifier: Apache-2.0
"""What Go's tests have of the table, bindings/go/kinds_gen_test.go: the calls that read a chunk, and those that write a kind."""
from languages.go_kinds import ACCESSORS, BY_HAND, UINTS
from languages.go_words import HEAD, camel, comment
from layouts import kinds_of

BEGIN = HEAD.replace('package davgyuti', 'package davgyuti_test\n\nimport (\n\t"encoding/json"\n\n\t"davgyuti.example/davgyuti"\n)')


def package(name):
    return name if name.startswith('uint') else f'davgyuti.{name}'


def readers(structs, alone, lists):
    """What calls all methods that read a chunk, of a Chunk and of a Parsed."""
    for name, it, index in (('Of', 'chunk davgyuti.Chunk', ''), ('At', 'chunk *davgyuti.Parsed, i int', 'i')):
        methods = [camel(one) for one in [*structs, *(row.identifier for row in alone)]]
        yield from ['', *comment(f'reads{name} returns what each method reads of a chunk, but for its parameters and error causes.'),
                    f'func reads{name}({it}) (all []interface{{}}) {{']
        yield from (f'\tit{method}, is{method} := chunk.{method}({index})' for method in methods)
        yield from [f'\tall = append(all, {", ".join(f"it{method}, is{method}" for method in methods)})', '\treturn append(all' +
                    ''.join(f',\n\t\tappend([]{package(item)}(nil), chunk.{method}({index}){"" if index else ".Slice()"}...)'
                            for method, item in lists) + ')', '}']


def argument(row, one):
    """The type of a field that a function which adds a chunk takes by itself."""
    if one.what == 'list':
        return '[]' + package(ACCESSORS[row.struct, one.name][1])
    return '[]byte' if one.what == 'rest' else 'bool' if one.what == 'flag' else UINTS[one.form]


def compared(name, rows):
    """What compares a struct, or a number, with what a vector has."""
    own, test = camel(name), ' || '.join(f'it.Kind == "{row.identifier}"' for row in rows)
    yield from [f'\tvar wanted{own} davgyuti.{own}', f'\tis{own} := {test}', f'\tif is{own} {{', f'\t\tv.decode(text, &wanted{own})']
    yield from (f'\t\twanted{own}.{camel(one.name.removesuffix("s"))}Count = len(it.{camel(one.name)})' for one in rows[0].layout.lists)
    yield from ['\t}', f'\tfound{own}, ok := chunk.{own}()',
                f'\tv.equal("{own}", []interface{{}}{{found{own}, ok}}, []interface{{}}{{wanted{own}, is{own}}})']


def tests(table):
    chunks, structs = kinds_of(table, 'chunk'), {}
    for row in chunks:
        structs.setdefault(row.struct, []).append(row)
    bare = structs.pop('-')
    alone = [row for row in bare if [one.what for one in row.layout.fields] == ['number']]
    lists = {one.name: ACCESSORS[name, one.name] for name, rows in structs.items() for one in rows[0].layout.lists}
    lines = list(readers(structs, alone, lists.values()))
    fields, calls = {}, []
    for row in chunks:
        own = [one for one in [*row.layout.fields, *row.flags] if one.what in ('number', 'list', 'flag') or one is row.layout.rest]
        if row.struct != '-' and not row.layout.lists:
            given = f'wanted{camel(row.struct)}'
        else:
            own = [one for one in own if one is not row.layout.items]
            fields.update({camel(one.name): argument(row, one) for one in own})
            given = ', '.join(f'it.{camel(one.name)}' for one in own)
        if row.identifier not in BY_HAND:
            calls += [f'\tcase "{row.identifier}":', f'\t\terr = v.to.Add{camel(row.identifier)}({given})']
    width = max(map(len, fields))
    lines += ['', *comment('A chunkVector has a chunk: its fields that are in no struct, or in one of which a list is written.'),
              'type chunkVector struct {', '\tbareVector', *(f'\t{name:{width}} {form}' for name, form in fields.items()), '}',
              '', *comment('reads compares what is read of a chunk with what is wanted, and adds that, if it is of a kind.'),
              'func (v *vector) reads(chunk davgyuti.Chunk, text json.RawMessage) (it chunkVector) {', '\tv.decode(text, &it)']
    for name, rows in structs.items():
        lines += compared(name, rows)
    for row in alone:
        own, field = camel(row.identifier), camel(row.layout.fields[0].name)
        lines += [f'\tfound{own}, ok := chunk.{own}()', f'\tv.equal("{own}", ok, it.Kind == "{row.identifier}")',
                  '\tif ok {', f'\t\tv.equal("{own}", found{own}, it.{field})', '\t}']
    for name, (method, item) in lists.items():
        lines.append(f'\tv.equal("{name}", append([]{package(item)}(nil), chunk.{method}().Slice()...), append([]{package(item)}(nil), '
                     f'it.{camel(name)}...))')
    lines += ['\tvar err error', '\tswitch it.Kind {', *calls, '\tdefault:', '\t\terr = v.to.AddChunk(chunk.Type, it.flags(), it.Value)',
              '\t}', '\tv.equal("added", err, nil)', '\treturn it', '}']
    return BEGIN + '\n'.join(lines) + '\n'
