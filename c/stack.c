/* Makes every call on a stack that is filled with a pattern and tells whether
   they left all but 4 KiB of it alone: no block and no frame is held there, as
   it was when a block was copied by way of a local array. */
#define _XOPEN_SOURCE 600 /* for ucontext.h */
#include "adr.h"

#include <stdio.h>
#include <string.h>
#include <ucontext.h>

enum { STACK = 1 << 18, LIMIT = 4096, PATTERN = 0xA5 };
enum { FRAMES = 3001, HEADER = 5, FIRST = 10, OLD_END = 13, SKIP = 1, KEPT = 17 };
enum { DEPTH = 2, BLOCKS = 2, TAIL = 0 };

static const struct adr_geometry geometry = { FRAMES, 1, ADR_BEGINNING };
static const struct adr_reply good;

/* The frames below address 17: headers, a block and a filemark, the same added,
   and EOD. */
static uint8_t tape[KEPT][ADR_FRAME_LENGTH];
static uint8_t block[ADR_BLOCK_LENGTH], window[ADR_WINDOW_LENGTH(BLOCKS)];
static uint8_t frame[ADR_FRAME_LENGTH], line[ADR_LINE_LENGTH];
static struct adr_reading reading;
static int made; /* every call, with the answer that it should give */

/* Records a block and a filemark on a drive that has every frame on tape at
   once, but tells at the first WRITE behind the bad spot that it failed there. */
static int record(struct adr_record_outcome o, uint32_t bad_spot)
{
    const struct adr_reply write_error = { 0, bad_spot, SKIP, 0x03, 0x0C, 0x00 };
    if (!o.number)
        o = adr_record_block(o.session, block, sizeof block, window, sizeof window);
    if (!o.number)
        o = adr_record_filemark(o.session);
    if (!o.number)
        o = adr_record_close(o.session);
    int failed = 0;
    while (!o.number) {
        struct adr_record_fetched f =
            adr_record_fetch(o.session, window, sizeof window, frame, sizeof frame);
        if (f.answer != ADR_COMMAND)
            return failed && f.answer == ADR_DONE;
        if (f.command.code == ADR_WRITE && f.command.address < KEPT)
            memcpy(tape[f.command.address], frame, sizeof frame);
        int fails = !failed && f.command.code == ADR_WRITE && f.command.address == bad_spot + 1;
        failed |= fails;
        o = adr_record_reply(f.session, fails ? write_error : good);
    }
    return 0;
}

/* Reads to the end, where so many blocks and filemarks were read, and as many
   lines of a sheet are printed. */
static int read_back(int count)
{
    struct adr_read_opened o = adr_read_open(geometry, tape[HEADER], sizeof tape[HEADER]);
    struct adr_read_replied t = { o.session, ADR_NOTHING, o.number };
    struct adr_sheet sheet = adr_sheet_open(line, sizeof line).sheet;
    int blocks = 0, filemarks = 0, lines = 0;
    while (!t.number) {
        struct adr_read_fetched f = adr_read_fetch(t.session);
        reading = f.session;
        if (f.answer != ADR_COMMAND)
            return f.answer == ADR_END && blocks == count && filemarks == count
                   && lines == count && sheet.ended;
        if (f.command.address >= KEPT)
            return 0;
        uint8_t *read = tape[f.command.address];
        t = adr_read_reply(f.session, good, read, ADR_FRAME_LENGTH);
        blocks += t.answer == ADR_BLOCK;
        filemarks += t.answer == ADR_FILEMARK;
        if (t.answer == ADR_NOTHING)
            continue;
        struct adr_sheet_entered e = adr_sheet_enter(sheet, read + ADR_BLOCK_LENGTH,
                                                     ADR_AUX_LENGTH, line, sizeof line);
        sheet = e.sheet;
        lines += e.answer == ADR_LINE;
    }
    return 0;
}

/* A sheet without a field ends with asterisks. */
static int break_off(void)
{
    struct adr_sheet_entered e = adr_sheet_open(line, sizeof line);
    return e.answer == ADR_LINE
           && adr_sheet_finish(e.sheet, line, sizeof line).answer == ADR_LINE;
}

static int ask(void)
{
    struct adr_choice choice =
        adr_choose(geometry, tape[HEADER], sizeof tape[HEADER], tape[HEADER], sizeof tape[HEADER]);
    return !choice.number && adr_frames(geometry) == FRAMES && !adr_last(geometry).number
           && adr_is_user(FRAMES - 1, FIRST) && adr_header_address(0, 0) == HEADER
           && adr_frames_sent_at_most(2, 1, DEPTH, BLOCKS) == 5
           && adr_header_frames_sent_at_most(1, DEPTH) == 21 && break_off();
}

static void make_calls(void)
{
    made = record(adr_record_open_blank(geometry, DEPTH, BLOCKS, TAIL), FIRST) && ask()
           && record(adr_record_open(geometry, DEPTH, BLOCKS, TAIL, tape[HEADER],
                                     sizeof tape[HEADER]),
                     FIRST)
           && read_back(1)
           && record(adr_record_open_at_end(reading, DEPTH, BLOCKS, TAIL), OLD_END) && read_back(2);
}

/* The stack grows towards its first byte. */
static size_t used(const uint8_t *stack)
{
    size_t left = 0;
    while (left < STACK && stack[left] == PATTERN)
        left++;
    return STACK - left;
}

static int run_on(uint8_t *stack)
{
    static ucontext_t host, guest;
    if (getcontext(&guest) != 0)
        return 0;
    guest.uc_stack.ss_sp = stack;
    guest.uc_stack.ss_size = STACK;
    guest.uc_link = &host;
    makecontext(&guest, make_calls, 0);
    return swapcontext(&host, &guest) == 0;
}

int main(void)
{
    static uint8_t stack[STACK];

    make_calls(); /* once before, for what the loader does at a first call */
    memset(stack, PATTERN, sizeof stack);
    if (!run_on(stack)) {
        fputs("no second stack: getcontext or swapcontext fails\n", stderr);
        return 1;
    }
    printf("every call made: %s\n", made ? "yes" : "no");
    printf("within %d bytes of stack: %s\n", LIMIT, used(stack) <= LIMIT ? "yes" : "no");
    return 0;
}
