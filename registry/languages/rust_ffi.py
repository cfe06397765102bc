# SPDX-License-Identifier: Apache-2.0
"""The declarations of include/dcsctp.h in Rust."""
import header
from languages.rust_words import LICENSE, WIDTH, call, camel

TYPES = {'uint8_t': 'u8', 'uint16_t': 'u16', 'uint32_t': 'u32', 'uint64_t': 'u64', 'size_t': 'usize', 'bool': 'bool'}

FRONT = '''\
//! The C functions of the texts, as `dcsctp.h` declares them.
#![allow(dead_code)] // also those that the crate does without

/// Returns what `read` writes, if it returns true.
#[inline]
pub fn read<T: Default>(read: impl FnOnce(&mut T) -> bool) -> Option<T> {
    let mut value = T::default();
    if read(&mut value) { Some(value) } else { None }
}

'''
FUNCTIONS = '''\
// What every function asks of its caller, and what the SAFETY comments of this crate are about:
//
// - A pointer leads to as many bytes or items as its length says; one without a length to one item.
//   Here each comes from a slice or a reference. That of an empty slice isn't null, and isn't read.
// - An output overlaps no input and no other output: here an output is a `&mut`.
// - A bool is 0 or 1, as Rust's is.
//
// No function keeps a pointer. What they write into the structs is valid for any of these: numbers,
// and a bool that is 0 or 1.
unsafe extern "C" {
'''


def type_of(it):
    name = TYPES.get(it.type) or camel(it.type.removeprefix('dcsctp_'))
    name = f'[{name}; {it.count}]' if it.count else name
    return f'*{"const" if it.is_const else "mut"} {name}' if it.is_pointer else name


def declaration(it):
    return f'{"r#type" if it.name == "type" else it.name}: {type_of(it)}'


def rust_ffi(table):
    structs, functions = header.parts()
    texts = [LICENSE, FRONT]
    for name, fields in structs.items():
        lines = ''.join(f'    pub {declaration(it)},\n' for it in fields)
        texts.append(f'#[repr(C)]\n#[derive(Clone, Copy, Default, PartialEq, Eq, Debug)]\n'
                     f'pub struct {camel(name.removeprefix("dcsctp_"))} {{\n{lines}}}\n\n')
    texts.append(FUNCTIONS)
    for name, (result, arguments) in functions.items():
        given, tail = [declaration(it) for it in arguments], f' -> {type_of(result)};'
        text = call(4, f'pub fn {name}(', given, ')' + tail)
        # (where the semicolon alone has no room, rustfmt keeps the arguments in one line)
        line = f'    pub fn {name}({", ".join(given)})'
        texts.append(f'{line}\n    {tail.strip()}\n' if len(line + tail) == WIDTH else text)
    return ''.join([*texts, '}\n'])
