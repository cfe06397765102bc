// SPDX-License-Identifier: Apache-2.0

package davgyuti

/*
#include <stdlib.h>

// How many requests are granted before one is refused.
size_t granted = -1;

void *refusing_malloc(size_t size)
{
    return granted-- == 0 ? NULL : malloc(size);
}

void *refusing_realloc(void *block, size_t size)
{
    return granted-- == 0 ? NULL : realloc(block, size);
}
*/
import "C"

// Grant grants this many requests, and refuses the one after them.
func Grant(requests int) { C.granted = C.size_t(requests) }
