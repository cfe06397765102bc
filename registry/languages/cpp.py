# SPDX-License-Identifier: Apache-2.0
"""What registry/make.py writes of the table in C++."""
from languages.cpp_calls import calls
from languages.cpp_kinds import kinds
from languages.cpp_tests import tests

FILES = {'bindings/cpp/dcsctp_kinds.hpp': kinds, 'bindings/cpp/test_kinds.hpp': tests}
MARKED = {'bindings/cpp/dcsctp.hpp': calls}
