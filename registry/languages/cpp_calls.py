# SPDX-License-Identifier: Apache-2.0
"""The calls of a receiver and of AUTH in bindings/cpp/dcsctp.hpp, which take and pass on what include/dcsctp.h declares."""
import header
from languages.cpp_kinds import C_TYPES, NUMBERS, call, doc, said, words
from layouts import kinds_of

# What an argument of C is in C++, where its type doesn't say it: what is taken, and what is passed on.
ARGUMENTS = {
    'answer': ('answer with', 'with'), 'fault': ('dcsctp::init_fault fault', 'fault'), 'header': ('const header &to', '&to'),
    'association': ('const association &known', '&known'), 'start': ('', 'start_'), 'end': ('', '&stop'),
}
# The same of some calls alone.
OF = {
    'list': ('const chunk &of', 'of.list()'), 'bytes': ('bytes_view came', 'came'),
    'known': ('const known_association &of = {}', '&of'),
}
# The calls of each place: in C and in C++ what it is named, what it returns, and what is said of it.
UNRECOGNIZED = [
    ('unrecognized_chunk', 'unrecognized', 'action',
     "Returns what is done with a chunk of a type that your association doesn't know, by the type's two highest-order "
     'bits.'),
    ('unrecognized_parameter', 'unrecognized', 'action',
     'Returns the same of a parameter.'),
]
OF_PACKET = [
    ('verify_tag', '', 'tag_verdict',
     'Returns what is done with it by its verification tag (sections 8.5 and 8.5.1); check it first.'),
    ('out_of_the_blue', '', 'answer',
     'Returns what is done with it where it belongs to no association (section 8.4); `is_unicast` says whether it is '
     'to and from unicast addresses. Ask only of a packet that check accepts: other bytes may be answered too.'),
    ('init_fault', '', 'dcsctp::init_fault',
     'Returns the fault of an INIT (section 3.3.2), or of an INIT ACK (section 3.3.3) where `is_ack` is true.'),
    ('broken_rules', '', 'rules',
     'Returns the rules that it breaks. Its CRC32c is computed here.'),
]
FREE = [
    ('reply', '', '16',
     'Returns what answer::shutdown_complete or answer::abort sends back to the sender of a packet with this header: '
     'the tag reflected, with the T bit. Seal it. bad_value for another answer.'),
    ('init_refusal', '', 'refusal',
     'Returns what is done where an INIT, or an INIT ACK, has a fault, and of an INIT ACK by whether you are in the '
     "state COOKIE-WAIT; refusal::discard for no_fault, and a number that is no fault's."),
    ('init_abort', '', '28',
     'Returns the packet with the ABORT that says a fault to the sender of an INIT or INIT ACK with this initiate tag '
     "in a packet with this header. Seal it. bad_value for no_fault, and a number that is no fault's."),
    ('adds_addresses', '', 'bool',
     'Returns whether an INIT adds addresses to an association that is there already (section 5.2.2): an ABORT with '
     "builder::add_new_addresses answers it. `known` are the association's addresses, as parameters: the bytes() of "
     'each IPv4 Address and IPv6 Address, one after the other; bound how many you keep.'),
    ('is_listed', '', 'bool',
     "Returns whether a chunk of a type has to come after AUTH: `list` is the value of the receiver's Chunk List (RFC "
     '4895 section 3.2).'),
    ('shared_key', '', 'pair_key.size() + one.size() + other.size()',
     'Returns an association shared key (RFC 4895 section 6.1) of the endpoint pair shared key, which may be empty, '
     'and the key vectors of both ends, whichever is passed first. A key vector is the parameters Random, Chunk List '
     'and Requested HMAC Algorithm that an end sent, in this order: their bytes().'),
    ('verify_auth', '', 'bool',
     'Returns whether the HMAC of an AUTH chunk is right under an association shared key (RFC 4895 section 6.3). The '
     'bytes are those of the packet from the AUTH chunk on, up to its end.'),
    ('sign_auth', '', 'result',
     "Writes the HMAC into an AUTH chunk of a packet that isn't sealed yet. The bytes are those from the AUTH chunk "
     "on, and don't overlap the key. bad_value, and nothing is changed, where verify_auth would be false whatever the "
     'HMAC is.'),
]
ADDED = [
    ('add_unrecognized_parameters', '', 'stop',
     'Adds to an INIT ACK, the last chunk, an Unrecognized Parameter for each parameter of an INIT that came whose '
     "type isn't one of `types` and is to be reported (section 3.2.2), or nothing. Returns where your program stops: "
     "the offset of the parameter at which processing stops, or of the end of the INIT's value."),
    ('add_unrecognized_parameters_error', '', 'stop',
     'Adds an ERROR with a cause Unrecognized Parameters for each parameter of an INIT ACK that came, or of another '
     'chunk but INIT, likewise; no ERROR if there is none. The packet is the one that answers.'),
    ('add_unrecognized_chunks', '', 'stop',
     "Adds an ERROR with a cause Unrecognized Chunk Type for each chunk of a packet that came whose type isn't one of "
     '`types` and is to be reported (section 3.2), likewise.'),
    ('add_new_addresses', '', 'result',
     'Adds to an ABORT, the last chunk, the cause Restart of an Association with New Addresses, with the addresses '
     'that an INIT adds to those of an association: see adds_addresses.'),
]
TEXTS = [
    ('print', 'std::string',
     "Writes the packet's text, in UTF-8: a line for the header and one for each chunk, with no line feed at the end. The "
     'output does not overlap the packet.', 'this text'),
    ('report', 'std::string',
     'Writes all that the packet holds, in UTF-8, as `sctp_dump --payload` prints it, likewise.', 'this text'),
    ('canonical', 'std::vector<std::uint8_t>',
     'Writes the canonical packet, likewise: two packets have the same one if and only if they mean the same.',
     'the canonical packet'),
]
SINGLE = {'parameter': 'a parameter', 'cause': 'an error cause'}
COOKIE = {
    'created': 'in microseconds, on your clock', 'lifespan': 'in microseconds', 'local_tag': 'the initiate tag of the INIT ACK',
    'peer_tag': 'that of the INIT',
    'local_tie_tag': 'the Local Tie-Tag (section 5.2.2): 0 where the INIT came without an association',
    'peer_tie_tag': "the Peer's Tie-Tag, likewise", 'local_initial_tsn': 'the initial TSN of the INIT ACK',
    'peer_initial_tsn': 'that of the INIT', 'outbound_streams': 'on which the local end sends',
    'extra': "further bytes of yours, of any length: the peer's addresses, the parameters of its INIT, AUTH's key vectors",
}


def arguments(name):
    """What is taken, and what is passed on, of what a function of C takes: of bytes and of items their size is in the view."""
    left, given = header.parts()[1][f'dcsctp_{name}'][1], []
    if [it.name for it in left[1:3]] == ['room', 'size']:
        left = left[3:]
    while left:
        it, *left = left
        if it.name in ARGUMENTS:
            given.append(ARGUMENTS[it.name])
        elif it.type.startswith('dcsctp_'):
            given.append(OF['known'])
        elif not it.is_pointer:
            types = {'type': f'{name.split("_")[1]}_type' if name.startswith('unrecognized') else 'chunk_type'}
            given.append((f'{types.get(it.name) or C_TYPES[it.type]} {it.name}', it.name))
        else:
            size, *left = left
            is_added = name.startswith('add')
            of = 'bytes_view' if it.type == 'uint8_t' else f'view<const {C_TYPES[it.type]}>'
            of = of if it.is_const else 'mutable_bytes_view'
            own = 'types' if size.name == 'known_count' else it.name
            given.append(('', 'bytes_') if it.name == 'packet' else OF['list'] if is_added and it.name == 'list' else
                         OF['bytes'] if is_added and it.name == 'bytes' else (f'{of} {own}', own))
    return [taken for taken, _ in given if taken], [passed for _, passed in given]


def function(c_name, name, returns, about, indent='', is_method=False):
    """A function that calls C's of the same name."""
    taken, passed = arguments(c_name)
    passed = ', '.join([f'::dcsctp_{c_name}', *passed])
    start, end = 'start_' in passed, ' const noexcept' if is_method else ' noexcept'
    kind, body = returns, [f'return detail::call<{returns}>({passed});']
    if returns == 'rules':
        body = [f'return rules(detail::call<std::uint32_t>({passed}));']
    elif returns in ('stop', 'result') and indent:
        kind, end, body = 'result', '', [f'return {"extend" if start else "append"}({passed});']
        if returns == 'stop':
            kind, at = 'outcome<std::size_t>', '::dcsctp_list_offset(&of.it_) + stop' if 'of.list()' in passed else 'stop'
            body = ['std::size_t stop = 0;', body[0].replace('return', 'const result added ='), f'return stopped(added, {at});']
    elif returns == 'result':
        body = [f'return detail::call<bool>({passed}) ? result_code::ok : result_code::bad_value;']
    elif returns[0].isdigit() or '.' in returns:
        kind = 'outcome<std::vector<std::uint8_t>>' if returns[0].isdigit() else 'std::vector<std::uint8_t>'
        end, body = '', [f'return {"*" if "." in returns else ""}detail::made({returns}, {passed});']
    inline = '' if indent else 'inline '
    nodiscard = '' if kind == 'result' or returns == 'stop' else '[[nodiscard]] '
    return [*doc(about, indent), *call(f'{indent}{nodiscard}{inline}{kind} {name or c_name}(', taken, f'){end}'),
            f'{indent}{{', *(f'{indent}    {line}' for line in body), f'{indent}}}']


def cookie():
    """What a State Cookie says."""
    fields = [it for it in header.parts()[0]['dcsctp_cookie'] if not it.name.endswith('_size')]
    lines = doc('What a State Cookie says: what its sender needs to set up the association, and for how long (section 5.1.3). '
                'Local is the end that seals and opens it.') + ['struct cookie {']
    for it in fields:
        name = it.name.removesuffix('_offset')
        line = f'    bytes_view {name}{{}};' if name != it.name else f'    {C_TYPES[it.type]} {name} = 0;'
        lines += said(line, COOKIE[name]) if name in COOKIE else [line]
    compared = ['as_text(it.extra)' if it.name == 'extra_offset' else f'it.{it.name}' for it in fields]
    return [*lines, '};', *call('DCSCTP_EQUAL(cookie, ', compared, ')')]


def cookies():
    """What seals and opens one."""
    names = [it.name for it in header.parts()[0]['dcsctp_cookie'] if not it.name.startswith('extra')]
    return [
        *doc('Returns a State Cookie, with an HMAC under a key that nobody else knows.'),
        '[[nodiscard]] inline std::vector<std::uint8_t> seal_cookie(bytes_view key, const cookie &says)', '{',
        *call('    const struct ::dcsctp_cookie it = {', [f'says.{name}' for name in names] + ['0', '0'], '};'),
        '    return *detail::made(80 + says.extra.size(), ::dcsctp_seal_cookie, key, &it, says.extra);', '}',
        *doc('Opens a State Cookie at a time in microseconds, on the clock by which it was sealed. It is good from before it '
             'was created, on a clock that was set back, to the end of its life. Its further bytes are a part of these.'),
        *call('[[nodiscard]] inline opened_cookie open_cookie(',
              ['bytes_view key', 'bytes_view bytes DCSCTP_LIFETIME_BOUND', 'std::uint64_t now'], ') noexcept'), '{',
        '    struct ::dcsctp_cookie it {};', '    opened_cookie opened;',
        '    opened.state = detail::call<cookie_state>(::dcsctp_open_cookie, key, bytes, now, &it, &opened.staleness);',
        *call('    opened.says = {', [*(f'it.{name}' for name in names),
                                      'detail::part(bytes, it.extra_offset, it.extra_size)'], '};'),
        '    return opened;', '}']


def texts():
    """What writes a packet as another text or other bytes: into a buffer, and into a container."""
    lines, options = [], ['policy accepted = {}', 'word_option word = {}']
    for name, container, about, made in TEXTS:
        # (a report says whether the checksum is right, also where any is accepted)
        word = 'word ? word : this->word()' if name == 'report' else 'word'
        lines += [*doc(about, '    '),
                  *call(f'    written {name}_to(', ['mutable_bytes_view output', *options], ') const noexcept'),
                  '    {', f'        return write(::dcsctp_{name}, output, accepted, {word});', '    }',
                  *doc(f'Returns {made}.', '    '), *call(f'    outcome<{container}> {name}(', options, ') const'),
                  '    {', f'        return make<{container}>(::dcsctp_{name}, accepted, {word});', '    }']
    return lines


def adders(table):
    """What adds to a packet by its type alone, level by level."""
    lines = []
    for level in SINGLE:
        of, own = NUMBERS[level][0], NUMBERS[level][0].split('_')[1]
        names = [it.name for it in kinds_of(table, level) if [part.what for part in it.layout.fields] == ['number']
                 and getattr(it, 'struct', '-') == '-']
        lines += [*doc(f'Adds {SINGLE[level]} to the last chunk.', '    '),
                  f'    result add_{level}({of} {own}, bytes_view value = {{}})', '    {',
                  f'        return any_item(number({own}), value);', '    }',
                  *doc(f'Adds {SINGLE[level]} whose value is a number of four bytes: {words(names)}.', '    '),
                  f'    result add_number({of} {own}, std::uint32_t value) {{ return four_bytes(number({own}), value); }}']
    return lines


def calls(table):
    """What is between marks, place by place."""
    places = [[line for it in UNRECOGNIZED for line in function(*it)], cookie(),
              [*(line for it in OF_PACKET for line in function(*it, '    ', True)), *texts()],
              [*(line for it in FREE for line in function(*it)), *cookies()],
              [*adders(table), *(line for it in ADDED for line in function(*it, '    '))]]
    return ['\n'.join([*lines, '']) for lines in places]
