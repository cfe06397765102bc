// SPDX-License-Identifier: Apache-2.0
/* FreeBSD takes the text of Linux. */
.include "dcsctp_linux_amd64.s"
