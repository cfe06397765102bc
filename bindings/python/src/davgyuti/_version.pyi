# SPDX-License-Identifier: Apache-2.0
# The module is made as the package is built, of dcsctp.h.
VERSION: tuple[int, int, int]
