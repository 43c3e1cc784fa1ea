/* Prints shelf sheets: of fields made by hand, of a cartridge that is recorded and
   read, and of a reading that is refused on the way; then tells what is answered to
   calls that are refused, and whether they left sheet and line alone. */
#include "adr.h"

#include <stdio.h>
#include <string.h>

/* Where a field has its type and its number, and the types by their first byte. */
enum { TYPE_AT = 16, NUMBER_AT = 44 };
enum { DATA = 0x80, MARKER = 0x02, EOD = 0x01 };

static uint8_t line[ADR_LINE_LENGTH];

static void print(struct adr_sheet_entered e)
{
    if (e.answer == ADR_LINE)
        fwrite(line, 1, sizeof line, stdout);
}

static struct adr_sheet opened(void)
{
    struct adr_sheet_entered e = adr_sheet_open(line, sizeof line);
    print(e);
    return e.sheet;
}

static struct adr_sheet entered(struct adr_sheet s, const uint8_t *aux)
{
    struct adr_sheet_entered e = adr_sheet_enter(s, aux, ADR_AUX_LENGTH, line, sizeof line);
    print(e);
    return e.sheet;
}

static void finish(struct adr_sheet s)
{
    print(adr_sheet_finish(s, line, sizeof line));
}

/* BY HAND */

struct field {
    uint8_t type;
    uint32_t number;
};

/* A field that has nothing but a type and a number. */
static void build(struct field f, uint8_t *aux)
{
    memset(aux, 0xFF, ADR_AUX_LENGTH);
    aux[TYPE_AT] = f.type;
    aux[TYPE_AT + 1] = 0;
    for (int i = 0; i < 4; i++)
        aux[NUMBER_AT + i] = (uint8_t)(f.number >> 8 * (3 - i));
}

static void print_fields(const char *what, const struct field *fields, size_t count)
{
    static uint8_t aux[ADR_AUX_LENGTH];
    printf("%s:\n", what);
    struct adr_sheet s = opened();
    for (size_t i = 0; i < count; i++) {
        build(fields[i], aux);
        s = entered(s, aux);
    }
    finish(s);
}

#define COUNT(fields) (sizeof(fields) / sizeof *(fields))

static void by_hand(void)
{
    static const struct field two_jobs[] = {
        { DATA, 0 }, { DATA, 1 }, { MARKER, 2 }, { MARKER, 3 }, { EOD, 4 },
    };
    static const struct field further[] = { { EOD, 0 }, { DATA, 1 } };
    static const struct field unclosed[] = { { MARKER, 0 }, { DATA, 1 }, { DATA, 2 }, { EOD, 2 } };
    static const struct field gap[] = { { MARKER, 0 }, { DATA, 2 }, { EOD, 3 } };
    static const struct field two_below[] = { { DATA, 0 }, { DATA, 1 }, { EOD, 0 } };
    static const struct field two_types[] = { { DATA | MARKER, 0 }, { EOD, 1 } };
    print_fields("two jobs", two_jobs, COUNT(two_jobs));
    print_fields("two jobs without EOD", two_jobs, COUNT(two_jobs) - 1);
    print_fields("a block behind EOD", further, COUNT(further));
    print_fields("a job that no filemark closes, and EOD one below", unclosed, COUNT(unclosed));
    print_fields("a number left out", gap, COUNT(gap));
    print_fields("EOD two below", two_below, COUNT(two_below));
    print_fields("two types at once", two_types, COUNT(two_types));
}

/* A CARTRIDGE */

enum { BLOCKS = 2, FILEMARKS = 2, DEPTH = 1, TAIL = 0 };
enum { FRAMES = 3001, HEADER = 5, FIRST = 10, LAST_MARKER = FIRST + BLOCKS + FILEMARKS - 1 };
enum { NONE = 0, KEPT = LAST_MARKER + 2 };

static const struct adr_geometry geometry = { FRAMES, 1, ADR_BEGINNING };
static const struct adr_reply good;

/* The frames up to EOD: headers of the first group, blocks, filemarks and EOD. */
static uint8_t tape[KEPT][ADR_FRAME_LENGTH];

static uint8_t window[ADR_WINDOW_LENGTH(BLOCKS)];

/* Accepts the blocks, then the filemarks, then the close. */
static struct adr_record_outcome accept_next(struct adr_recording s, int turn)
{
    static const uint8_t block[ADR_BLOCK_LENGTH];
    if (turn < BLOCKS)
        return adr_record_block(s, block, sizeof block, window, sizeof window);
    return turn < BLOCKS + FILEMARKS ? adr_record_filemark(s) : adr_record_close(s);
}

/* Records them on a drive that has every frame on tape at once; returns the
   refusal. */
static int record(void)
{
    static uint8_t frame[ADR_FRAME_LENGTH];
    struct adr_record_outcome o = adr_record_open_blank(geometry, DEPTH, BLOCKS, TAIL);
    int turn = 0;
    while (!o.number) {
        struct adr_record_fetched f =
            adr_record_fetch(o.session, window, sizeof window, frame, sizeof frame);
        if (f.answer == ADR_REFUSED || f.answer == ADR_DONE)
            return f.number;
        if (f.answer == ADR_IDLE) {
            o = accept_next(f.session, turn++);
            continue;
        }
        if (f.command.code == ADR_WRITE && f.command.address < KEPT)
            memcpy(tape[f.command.address], frame, sizeof frame);
        o = adr_record_reply(f.session, good);
    }
    return o.number;
}

/* Prints the sheet of the cartridge while it is read, with a frame that does not
   read, or none; returns the refusal of the reading. */
static int print_read(uint32_t unreadable)
{
    static const struct adr_reply no_frame = { 0, 0, 0, 0x03, 0x11, 0x00 };
    struct adr_read_opened o = adr_read_open(geometry, tape[HEADER], sizeof tape[HEADER]);
    struct adr_read_replied t = { o.session, ADR_NOTHING, o.number };
    struct adr_sheet s = opened();
    while (!t.number) {
        struct adr_read_fetched f = adr_read_fetch(t.session);
        t.number = f.number;
        if (f.answer != ADR_COMMAND || f.command.address >= KEPT)
            break;
        uint8_t *frame = tape[f.command.address];
        t = adr_read_reply(f.session, f.command.address == unreadable ? no_frame : good, frame,
                           ADR_FRAME_LENGTH);
        if (t.answer == ADR_BLOCK || t.answer == ADR_FILEMARK || t.answer == ADR_END)
            s = entered(s, frame + ADR_BLOCK_LENGTH);
    }
    finish(s);
    return t.number;
}

static void by_reading(void)
{
    printf("recorded: refusal %d\n", record());
    printf("read to its end:\n");
    printf("refusal %d\n", print_read(NONE));
    printf("the second filemark does not read:\n");
    printf("refusal %d\n", print_read(LAST_MARKER));
}

/* REFUSED */

static int same(struct adr_sheet a, struct adr_sheet b)
{
    return a.first == b.first && a.next == b.next && a.job == b.job && a.ended == b.ended;
}

/* What was answered to a call that was lent a line of dots, and whether it left
   this sheet and the line. */
static void tell(const char *what, struct adr_sheet_entered e, struct adr_sheet left)
{
    int whole = 1;
    for (size_t i = 0; i < sizeof line; i++)
        whole &= line[i] == '.';
    printf("%s: answer %s, number %d, sheet %s, line %s\n", what, adr_answer_name(e.answer),
           e.number, same(e.sheet, left) ? "right" : "wrong", whole ? "left alone" : "altered");
}

static void refused(void)
{
    static uint8_t aux[ADR_AUX_LENGTH];
    const size_t most = sizeof aux, wide = sizeof line;
    struct adr_sheet s = adr_sheet_open(line, sizeof line).sheet, ended = s;
    struct adr_sheet none = { 20, 30, 40, 2 };
    build((struct field){ MARKER, 0 }, aux);
    memset(line, '.', sizeof line);
    ended.ended = 1;
    tell("an opening, 27 bytes of line", adr_sheet_open(line, wide - 1), ended);
    tell("27 bytes of line", adr_sheet_enter(s, aux, most, line, wide - 1), s);
    tell("511 bytes of AUX", adr_sheet_enter(s, aux, most - 1, line, wide), s);
    tell("no byte of AUX", adr_sheet_enter(s, aux, 0, line, wide), s);
    tell("the end, 27 bytes of line", adr_sheet_finish(s, line, wide - 1), s);
    tell("no sheet's numbers", adr_sheet_enter(none, aux, most, line, wide), none);
    tell("no sheet's numbers, 511 bytes of AUX", adr_sheet_enter(none, aux, most - 1, line, wide),
         none);
    tell("no sheet's numbers, the end", adr_sheet_finish(none, line, wide), none);
    none.ended = 1;
    tell("a sheet that has ended", adr_sheet_enter(none, aux, most, line, wide), none);
    tell("a sheet that has ended, the end", adr_sheet_finish(none, line, wide), none);
}

int main(void)
{
    by_hand();
    by_reading();
    refused();
    return 0;
}
