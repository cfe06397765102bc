# SPDX-License-Identifier: Apache-2.0
"""What registry/make.py writes of the table in Rust: whole files."""
from languages.rust_ffi import rust_ffi
from languages.rust_items import rust_items
from languages.rust_registered import rust_registered
from languages.rust_requests import rust_kinds
from languages.rust_tests import rust_tests
from languages.rust_types import rust_returned, rust_rules, rust_types
from languages.rust_writes import rust_writes

FILES = {f'bindings/rust/src/{name}.rs': text for name, text in {
    'ffi': rust_ffi, 'items': rust_items, 'kinds': rust_kinds, 'registered': rust_registered, 'returned': rust_returned,
    'rules': rust_rules, 'types': rust_types, 'writes': rust_writes}.items()}
FILES['bindings/rust/tests/vectors/kinds.rs'] = rust_tests
MARKED = {}
