/* SPDX-License-Identifier: Apache-2.0 */
/* malloc, realloc and free for dcsctp.wasm, and for library.js; dist/wasm.py compiles it.

   A block has 2^k bytes with its head, and a freed one is kept for the next of its size. The head stands in the first of
   16 bytes, so a block is aligned to 16. No call of the library keeps a block, so what is taken from the system stays at
   what the largest call needed. */
typedef __SIZE_TYPE__ size_t;
struct block {
    struct block *next; /* of a free block */
    size_t kind;
};
/* (at most 2^30 bytes with the head: no count of pages is lost where the memory's addresses become 32 bits wide) */
enum { PAGE = 65536, KINDS = 31, MOST = (1 << 30) - sizeof(struct block) };

extern char __heap_base;
static struct block *kept[KINDS];
static size_t end; /* of what was handed out */

static struct block *fresh(size_t size)
{
    if (end == 0)
        end = ((size_t)&__heap_base + 15) & ~(size_t)15;
    size_t left = __builtin_wasm_memory_size(0) * PAGE - end;
    if (size > left) {
        __builtin_wasm_memory_grow(0, (size - left + PAGE - 1) / PAGE);
        if (size > __builtin_wasm_memory_size(0) * PAGE - end)
            return 0;
    }
    struct block *block = (struct block *)end;
    end += size;
    return block;
}

void *malloc(size_t size)
{
    if (size > MOST)
        return 0;
    size_t kind = size < 32 - sizeof(struct block) ? 5 : 64 - __builtin_clzl(size + sizeof(struct block) - 1);
    struct block *block = kept[kind];
    if (block)
        kept[kind] = block->next;
    else if (!(block = fresh((size_t)1 << kind)))
        return 0;
    block->kind = kind;
    return block + 1;
}

void free(void *at)
{
    if (!at)
        return;
    struct block *block = (struct block *)at - 1;
    block->next = kept[block->kind];
    kept[block->kind] = block;
}

void *realloc(void *at, size_t size)
{
    size_t room = at ? ((size_t)1 << ((struct block *)at - 1)->kind) - sizeof(struct block) : 0;
    if (at && size <= room)
        return at;
    void *to = malloc(size);
    if (at && to) {
        __builtin_memcpy(to, at, room);
        free(at);
    }
    return to;
}
