/* SPDX-License-Identifier: Apache-2.0 */
/* Whether a crash inside a call shows who called: crashes in calls of each kind, by bytes that can't be read, and walks the
   stack in the signal handler by the tables for unwinding. Prints what isn't found; status 0 if all is. */
#include <dcsctp.h>
#include <setjmp.h>
#include <signal.h>
#include <stdint.h>
#include <stdio.h>
#include <unwind.h>

#define NO_BYTES ((uint8_t *)0x1000)

static sigjmp_buf after;
static void *caller;
static volatile int is_found;
static uint8_t packet[1300] = {0};
static size_t size;
static const struct dcsctp_policy policy = {0};

__attribute__((noinline)) static void check(void) { dcsctp_check(NO_BYTES, 100, 0, &policy); }
__attribute__((noinline)) static void first_fault(void) { dcsctp_first_fault(NO_BYTES, 100, 0, &policy, &size); }
__attribute__((noinline)) static void word(void) { dcsctp_word(NO_BYTES, 1000); }
__attribute__((noinline)) static void report(void) { dcsctp_report(NO_BYTES, 100, 0, &policy, packet, sizeof packet, &size); }
__attribute__((noinline)) static void print(void) { dcsctp_print(NO_BYTES, 100, 0, &policy, packet, sizeof packet, &size); }
__attribute__((noinline)) static void canonical(void) { dcsctp_canonical(NO_BYTES, 100, 0, &policy, packet, sizeof packet, &size); }
__attribute__((noinline)) static void clean_blocks(void) { dcsctp_clean_blocks((struct dcsctp_gap_ack_block *)NO_BYTES, 100); }
__attribute__((noinline)) static void seal(void) { dcsctp_seal(NO_BYTES, 100); }
__attribute__((noinline)) static void chunk_at(void) {
    struct dcsctp_chunk chunk;
    dcsctp_chunk_at(NO_BYTES, 100, 12, &chunk);
}
__attribute__((noinline)) static void add_data(void) {
    const struct dcsctp_data data = {0};
    dcsctp_begin(packet, sizeof packet, &size, 1, 2, 3);
    dcsctp_add_data(packet, sizeof packet, &size, &data, NO_BYTES, 1000);
}
__attribute__((noinline)) static void add_sack(void) {
    dcsctp_begin(packet, sizeof packet, &size, 1, 2, 3);
    dcsctp_add_sack(packet, sizeof packet, &size, 1, 2, (const struct dcsctp_gap_ack_block *)NO_BYTES, 9, 0, 0);
}

static _Unwind_Reason_Code look(struct _Unwind_Context *context, void *unused) {
    (void)unused;
    if (_Unwind_FindEnclosingFunction((void *)_Unwind_GetIP(context)) == caller)
        is_found = 1;
    return _URC_NO_REASON;
}

static void on_signal(int number) {
    (void)number;
    _Unwind_Backtrace(look, 0);
    siglongjmp(after, 1);
}

int main(void) {
    static const struct {
        const char *name;
        void (*call)(void);
    } calls[] = {{"check", check}, {"first_fault", first_fault}, {"word", word}, {"report", report}, {"print", print},
                 {"canonical", canonical}, {"clean_blocks", clean_blocks}, {"seal", seal}, {"chunk_at", chunk_at},
                 {"add_data", add_data}, {"add_sack", add_sack}};
    volatile int failed = 0;
    signal(SIGSEGV, on_signal);
    signal(SIGBUS, on_signal);
    for (volatile size_t i = 0; i < sizeof calls / sizeof *calls; i++) {
        is_found = 0;
        caller = (void *)calls[i].call;
        if (sigsetjmp(after, 1) == 0) {
            calls[i].call();
            printf("unwind: %s doesn't crash\n", calls[i].name);
            failed = 1;
        } else if (!is_found) {
            printf("unwind: a crash in %s doesn't show its caller\n", calls[i].name);
            failed = 1;
        }
    }
    if (!failed)
        printf("unwind: %zu calls show their caller\n", sizeof calls / sizeof *calls);
    return failed;
}
