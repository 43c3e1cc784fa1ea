/* Records blocks and filemarks on a small drive in memory that has a bad spot
   and is often busy, reads them back and compares; then does so once more on
   the same cartridge, of whose header copies only one is left. Then it meets
   header copies that differ, and a cartridge without any. Then it records on
   another cartridge, tries to add to it where that is refused, adds twice, once
   with the old end gone bad, and reads back all of it. Then it fills a
   cartridge, of which little can be written, up to the tail, closes it, records
   the rest on one more cartridge and reads back both. And it cuts an addition
   short behind each of its frames and reads what stands. The commands are printed,
   each LOCATE on a line of its own with what follows it: W a WRITE, R a READ, C
   a READ with a correction, P a READ POSITION with the frames still buffered, B
   a busy reply, ! a write error with the address that failed. Behind each
   recording stand the frames that the drive took, and the most that it could. */
#include "adr.h"

#include <stdio.h>
#include <stdlib.h>
#include <string.h>

enum { FRAMES = 3001, DEPTH = 3, WINDOW = 4, BAD_SPOT = 12, SKIP = 3, MOST = 255 };
enum { HARD_TO_READ = 7, BUSY_TURN = 7 };

/* The elements of the cartridge that is added to, after each recording, and
   where the first one ended. */
enum { FIRST = 4, SECOND = 9, THIRD = 11, OLD_END = 14 };

/* What can't be written of the cartridge that is filled, the frames that are
   kept for EOD there, the elements that are to be recorded, and how many of
   them find room: six below the bad stretch and nine behind it. */
enum { STRETCH = 16, GOOD_AGAIN = 2980, TAIL = 12, MANY = 19, FITTING = 15, NO_TAIL = 0 };

/* The frames of an addition that is cut short, and this program's own numbers for
   a reply that can't be had and for an element that is not as it was recorded; no
   refusal has them. */
enum { HEADERS = 10, CUT_FRAMES = 2 * HEADERS + SECOND - FIRST + 1 };
enum { NO_REPLY = 255, NOT_AS_RECORDED = 254 };

/* Where a header frame has its EOD address and its update count, and the
   highest count that is added to. */
enum { EOD_AT = 32, UPDATE_AT = ADR_BLOCK_LENGTH + 12 };
static const uint32_t highest_update = 4294967293;

static const struct adr_geometry geometry = { FRAMES, 1, ADR_BEGINNING };

/* THE DRIVE */

struct drive {
    uint8_t *tape[FRAMES]; /* null where nothing reads */
    uint8_t buffer[DEPTH][ADR_FRAME_LENGTH];
    uint32_t buffered;
    uint32_t front;    /* where the oldest buffered frame goes, or the next to be read */
    uint32_t bad_spot; /* can't be written, and reads as before */
    uint32_t good;     /* where it can be written again, if not behind the bad spot */
    int quiet;         /* prints nothing */
    int stopped;       /* at a bad spot, until LOCATE */
    unsigned sent;     /* every BUSY_TURN-th command is answered busy */
    unsigned left;     /* frames that are written before the mains go; 0 if they stay */
    int silent;        /* the mains are gone: nothing is written, and no reply comes */
};

static struct adr_reply sense(uint8_t key, uint8_t asc, uint8_t ascq)
{
    struct adr_reply reply = { 0, 0, 0, key, asc, ascq };
    return reply;
}

#define SAY(drive, ...)           \
    do {                          \
        if (!(drive)->quiet)      \
            printf(__VA_ARGS__);  \
    } while (0)

static int is_bad(const struct drive *drive, uint32_t address)
{
    return address == drive->bad_spot || (address > drive->bad_spot && address < drive->good);
}

/* The skip that is advised: past the bad stretch, as far as a skip can go. */
static uint32_t skip_at(const struct drive *drive, uint32_t address)
{
    if (address >= drive->good)
        return SKIP;
    return drive->good - address < MOST ? drive->good - address : MOST;
}

static struct adr_reply write_error(const struct drive *drive)
{
    struct adr_reply reply = sense(0x03, 0x0C, 0x00);
    reply.position = drive->front;
    reply.skip = skip_at(drive, drive->front);
    SAY(drive, " !%u", (unsigned)drive->front);
    return reply;
}

/* Writes the oldest buffered frame to tape, or stops. */
static void write_oldest(struct drive *drive)
{
    if (drive->stopped || drive->silent || drive->buffered == 0)
        return;
    if (is_bad(drive, drive->front)) {
        drive->stopped = 1;
        return;
    }
    uint8_t **place = &drive->tape[drive->front];
    if (!*place && !(*place = malloc(ADR_FRAME_LENGTH))) {
        fputs("no memory for the tape\n", stderr);
        exit(1);
    }
    memcpy(*place, drive->buffer[0], ADR_FRAME_LENGTH);
    drive->front++;
    drive->buffered--;
    memmove(drive->buffer[0], drive->buffer[1], drive->buffered * (size_t)ADR_FRAME_LENGTH);
    drive->silent = drive->left != 0 && --drive->left == 0;
}

/* Reads the next address. 00/00/02 where nothing reads from there on. */
static struct adr_reply read_next(struct drive *drive, uint8_t *frame)
{
    uint32_t address = drive->front, readable = address;
    while (readable < FRAMES && !drive->tape[readable])
        readable++;
    if (readable == FRAMES)
        return sense(0x00, 0x00, 0x02);
    drive->front++;
    if (readable != address)
        return sense(0x03, 0x11, 0x00);
    memcpy(frame, drive->tape[address], ADR_FRAME_LENGTH);
    return address == HARD_TO_READ ? sense(0x01, 0x17, 0x01) : sense(0, 0, 0);
}

static struct adr_reply send(struct drive *drive, struct adr_command command, uint8_t *frame)
{
    struct adr_reply reply = sense(0, 0, 0);
    if (command.code == ADR_LOCATE)
        SAY(drive, "\nLOCATE %u:", (unsigned)command.address);
    if (++drive->sent % BUSY_TURN == 0) {
        SAY(drive, " B");
        return sense(0x02, 0x04, drive->sent % 2 ? 0x01 : 0x08);
    }
    switch (command.code) {
    case ADR_LOCATE:
        drive->front = command.address;
        drive->buffered = 0;
        drive->stopped = 0;
        return reply;
    case ADR_WRITE:
        SAY(drive, " W");
        if (drive->stopped)
            return write_error(drive);
        memcpy(drive->buffer[drive->buffered++], frame, ADR_FRAME_LENGTH);
        return reply;
    case ADR_READ_POSITION:
        SAY(drive, " P");
        write_oldest(drive);
        write_oldest(drive);
        if (drive->stopped)
            return write_error(drive);
        reply.buffered = drive->buffered;
        SAY(drive, "%u", (unsigned)drive->buffered);
        return reply;
    default: /* READ */
        reply = read_next(drive, frame);
        SAY(drive, reply.key == 0x01 ? " C" : " R");
        return reply;
    }
}

/* THE ELEMENTS: every third is a filemark, the others are blocks. */

static int is_filemark(unsigned element)
{
    return element % 3 == 2;
}

static void fill_block(uint8_t *block, unsigned element, unsigned turn)
{
    for (size_t i = 0; i < ADR_BLOCK_LENGTH; i++)
        block[i] = (uint8_t)(i * 7 + element * 31 + turn);
}

/* THE HOST */

static int failed(const char *what, uint8_t number)
{
    printf("\n%s was refused with %u: %s\n", what, number, adr_refusal_text(number));
    return 0;
}

/* What is to be recorded, and how much of it is accepted. */
struct source {
    unsigned count, turn, accepted;
    int closed;
};

static int is_sense(struct adr_reply reply, uint8_t key, uint8_t asc, uint8_t ascq)
{
    return reply.key == key && reply.asc == asc && reply.ascq == ascq;
}

/* Frames that the drive took, and the write errors that they met. */
struct tally {
    uint32_t frames, errors;
};

/* What a session sent. */
struct sent {
    struct tally elements; /* and EOD */
    struct tally headers;
};

static int is_header(uint32_t address)
{
    for (uint32_t copy = 0; copy < 10; copy++)
        if (adr_header_address(copy / 5, copy % 5) == address)
            return 1;
    return 0;
}

/* A READ POSITION has no address, and a WRITE may tell that an earlier frame
   failed: an error is of the frame at its position. */
static void count(struct sent *sent, struct adr_command command, struct adr_reply reply)
{
    int failed = is_sense(reply, 0x03, 0x0C, 0x00);
    int taken = command.code == ADR_WRITE && is_sense(reply, 0x00, 0x00, 0x00);
    uint32_t address = failed ? reply.position : command.address;
    struct tally *tally = is_header(address) ? &sent->headers : &sent->elements;
    tally->frames += (uint32_t)taken;
    tally->errors += (uint32_t)failed;
}

static void tell(const char *what, struct tally tally, uint64_t most)
{
    printf("\nframes of %s: %u of at most %llu, write errors: %u", what, (unsigned)tally.frames,
           (unsigned long long)most, (unsigned)tally.errors);
}

/* Whether a session of so many elements sent no more than it could. */
static int is_as_planned(struct sent sent, uint32_t elements)
{
    uint64_t most = adr_frames_sent_at_most(elements, sent.elements.errors, DEPTH, WINDOW);
    uint64_t most_of_headers = adr_header_frames_sent_at_most(sent.headers.errors, DEPTH);
    tell("elements and EOD", sent.elements, most);
    tell("headers", sent.headers, most_of_headers);
    return sent.elements.frames <= most && sent.headers.frames <= most_of_headers;
}

/* Accepts elements until the window is full or all are accepted, then closes. */
static struct adr_record_outcome accept(struct adr_recording session, uint8_t *window,
                                        struct source *source)
{
    static uint8_t block[ADR_BLOCK_LENGTH];
    struct adr_record_outcome outcome = { session, 0 };
    while (source->accepted < source->count && outcome.number == 0) {
        if (is_filemark(source->accepted)) {
            outcome = adr_record_filemark(outcome.session);
        } else {
            fill_block(block, source->accepted, source->turn);
            outcome = adr_record_block(outcome.session, block, sizeof block,
                                       window, ADR_WINDOW_LENGTH(WINDOW));
        }
        source->accepted += outcome.number == 0;
    }
    if (source->accepted == source->count && !source->closed) {
        outcome = adr_record_close(outcome.session);
        source->closed = 1;
    }
    return outcome;
}

/* Brings a session to ADR_DONE; or the refusal, and the session that it left.
   Without a reply the session is left as it is: there is nothing to release. */
static struct adr_record_outcome carry_through(struct drive *drive, struct adr_recording session,
                                               struct source *source, struct sent *sent)
{
    static uint8_t window[ADR_WINDOW_LENGTH(WINDOW)], frame[ADR_FRAME_LENGTH];
    for (;;) {
        struct adr_record_outcome outcome = accept(session, window, source);
        if (outcome.number && outcome.number != ADR_WINDOW_FULL) {
            failed("accepting", outcome.number);
            return outcome;
        }
        struct adr_record_fetched fetched =
            adr_record_fetch(outcome.session, window, sizeof window, frame, sizeof frame);
        outcome.session = session = fetched.session;
        outcome.number = fetched.number;
        if (fetched.answer == ADR_REFUSED)
            failed("a fetch", fetched.number);
        if (fetched.answer == ADR_REFUSED || fetched.answer == ADR_DONE)
            return outcome;
        if (fetched.answer == ADR_COMMAND) {
            struct adr_reply reply = send(drive, fetched.command, frame);
            if (drive->silent) {
                outcome.number = NO_REPLY;
                return outcome;
            }
            count(sent, fetched.command, reply);
            outcome = adr_record_reply(session, reply);
            session = outcome.session;
            if (outcome.number) {
                failed("a reply", outcome.number);
                return outcome;
            }
        }
    }
}

/* Records in a session just opened; whether the recording became whole. */
static int record(struct drive *drive, struct adr_record_outcome outcome, struct source source)
{
    if (outcome.number)
        return failed("opening", outcome.number);
    struct sent sent = { { 0, 0 }, { 0, 0 } };
    unsigned before = source.accepted;
    return carry_through(drive, outcome.session, &source, &sent).number == 0 &&
           is_as_planned(sent, source.accepted - before);
}

/* Records up to the tail, gives the rest up and closes. Returns how many
   elements are on tape, 0 if the tape did not become full or was not closed. */
static unsigned record_what_fits(struct drive *drive, struct adr_record_outcome outcome,
                                 struct source source)
{
    if (outcome.number)
        return failed("opening", outcome.number);
    struct sent sent = { { 0, 0 }, { 0, 0 } };
    outcome = carry_through(drive, outcome.session, &source, &sent);
    if (outcome.number != ADR_TAPE_FULL)
        return 0;
    outcome = adr_record_close(outcome.session);
    if (outcome.number)
        return failed("closing once more", outcome.number);
    unsigned on_tape = outcome.session.elements.first;
    printf("closing with %u elements on tape", on_tape);
    source.count = source.accepted;
    source.closed = 1;
    return carry_through(drive, outcome.session, &source, &sent).number == 0 &&
                   is_as_planned(sent, source.accepted)
               ? on_tape
               : 0;
}

/* Sends a command, again while the drive is busy. */
static struct adr_reply send_until_taken(struct drive *drive, uint8_t code, uint32_t address,
                                         uint8_t *frame)
{
    struct adr_command command = { code, address };
    struct adr_reply reply;
    do
        reply = send(drive, command, frame);
    while (is_sense(reply, 0x02, 0x04, 0x01) || is_sense(reply, 0x02, 0x04, 0x08));
    return reply;
}

enum found { NONE, FOUND, FAILED };

/* Reads the frame at an address. */
static enum found read_at(struct drive *drive, uint32_t address, uint8_t *frame)
{
    struct adr_reply reply = send_until_taken(drive, ADR_LOCATE, address, frame);
    if (!is_sense(reply, 0x00, 0x00, 0x00))
        return FAILED;
    reply = send_until_taken(drive, ADR_READ, address, frame);
    if (is_sense(reply, 0x00, 0x00, 0x00) || is_sense(reply, 0x01, 0x17, 0x01))
        return FOUND;
    if (is_sense(reply, 0x03, 0x11, 0x00) || is_sense(reply, 0x08, 0x00, 0x05) ||
        is_sense(reply, 0x00, 0x00, 0x02))
        return NONE;
    return FAILED;
}

/* Which of two header frames is the newer, 0 where neither is. */
static uint8_t newer(const uint8_t *first, const uint8_t *second)
{
    return adr_choose(geometry, first, ADR_FRAME_LENGTH, second, ADR_FRAME_LENGTH).which;
}

/* Copies the newest header to 'newest'. A copy that can't be judged is no
   reason to go on without it: it may be the newest. */
static enum found newest_header(struct drive *drive, uint8_t *newest)
{
    static uint8_t frame[ADR_FRAME_LENGTH];
    enum found found = NONE;
    int undecided = 0;
    for (uint32_t copy = 0; copy < 10; copy++) {
        enum found here = read_at(drive, adr_header_address(copy / 5, copy % 5), frame);
        if (here == FAILED) {
            failed("reading a header copy", ADR_BAD_REPLY);
            return FAILED;
        }
        /* Chosen against itself, a frame is refused only if it is not valid. */
        if (here == NONE || !newer(frame, frame))
            continue;
        uint8_t which = found == NONE ? 2 : newer(newest, frame);
        if (which == 2) {
            memcpy(newest, frame, ADR_FRAME_LENGTH);
            found = FOUND;
            undecided = 0;
        } else if (which == 0) {
            undecided = 1; /* both are valid: of the same count, with unlike data */
        }
    }
    if (undecided) {
        failed("the choice of the newest header", ADR_BAD_HEADER);
        return FAILED;
    }
    return found;
}

/* Whether a delivery is the element that was recorded. */
static int is_as_recorded(uint8_t answer, const uint8_t *frame, unsigned element, unsigned turn)
{
    static uint8_t block[ADR_BLOCK_LENGTH];
    if (is_filemark(element))
        return answer == ADR_FILEMARK;
    fill_block(block, element, turn);
    return answer == ADR_BLOCK && memcmp(frame, block, sizeof block) == 0;
}

/* What came of a reading. */
struct delivered {
    unsigned count; /* elements, as they were recorded */
    uint8_t number; /* why it did not come to its end, 0 if it did */
};

/* Reads to the end, or to a refusal, or to an element that is not as recorded;
   the first has this number at the source. */
static struct delivered deliver(struct drive *drive, struct adr_reading *session, unsigned first,
                                unsigned turn)
{
    static uint8_t frame[ADR_FRAME_LENGTH];
    struct delivered delivered = { 0, 0 };
    for (;;) {
        struct adr_read_fetched fetched = adr_read_fetch(*session);
        delivered.number = fetched.number;
        *session = fetched.session;
        if (fetched.answer != ADR_COMMAND)
            return delivered;
        struct adr_reply reply = send(drive, fetched.command, frame);
        struct adr_read_replied replied =
            adr_read_reply(fetched.session, reply, frame, sizeof frame);
        *session = replied.session;
        delivered.number = replied.number;
        if (replied.answer == ADR_REFUSED)
            return delivered;
        if (replied.answer != ADR_BLOCK && replied.answer != ADR_FILEMARK)
            continue;
        if (!is_as_recorded(replied.answer, frame, first + delivered.count, turn)) {
            delivered.number = NOT_AS_RECORDED;
            return delivered;
        }
        delivered.count++;
    }
}

/* Brings a reading to its end; whether so many elements were delivered as
   recorded, the first of them with this number at the source. */
static int read_back(struct drive *drive, struct adr_reading *session, unsigned first,
                     unsigned count, unsigned turn)
{
    struct delivered delivered = deliver(drive, session, first, turn);
    if (delivered.number == NOT_AS_RECORDED)
        printf("\nelement %u is not as it was recorded\n", first + delivered.count);
    else if (delivered.number)
        failed("reading on", delivered.number);
    else
        printf("\n%u of %u elements read back as recorded\n", delivered.count, count);
    return delivered.number == 0 && delivered.count == count;
}

/* Leaves one header copy, the one that is hard to read. */
static void lose_copies(struct drive *drive)
{
    for (uint32_t copy = 0; copy < 10; copy++) {
        uint32_t address = adr_header_address(copy / 5, copy % 5);
        if (address != HARD_TO_READ) {
            free(drive->tape[address]);
            drive->tape[address] = NULL;
        }
    }
}

/* Opens a reading; whether it was opened. */
static int open_reading(const uint8_t *header, struct adr_reading *session)
{
    struct adr_read_opened opened = adr_read_open(geometry, header, ADR_FRAME_LENGTH);
    *session = opened.session;
    return opened.number ? failed("opening", opened.number) : 1;
}

/* Finds the newest header and reads back; whether all is as recorded. Leaves
   the reading at its end. */
static int find_and_read_back(struct drive *drive, uint8_t *newest, struct adr_reading *reading,
                              unsigned count, unsigned turn)
{
    printf("\n\nreading the header copies");
    if (newest_header(drive, newest) != FOUND)
        return 0;
    printf("\n\nreading back");
    return open_reading(newest, reading) && read_back(drive, reading, 0, count, turn);
}

/* Finds the newest header, records and reads back; whether all went well. */
static int record_and_read_back(struct drive *drive, uint8_t *newest, struct adr_reading *reading,
                                unsigned count, unsigned turn)
{
    printf("\nreading the header copies");
    enum found found = newest_header(drive, newest);
    if (found == FAILED)
        return 0;
    printf("\n\nrecording %u elements on a cartridge with%s a header", count,
           found == FOUND ? "" : "out");
    struct adr_record_outcome opened =
        found == FOUND ? adr_record_open(geometry, DEPTH, WINDOW, NO_TAIL, newest, ADR_FRAME_LENGTH)
                       : adr_record_open_blank(geometry, DEPTH, WINDOW, NO_TAIL);
    struct source source = { count, turn, 0, 0 };
    return record(drive, opened, source) &&
           find_and_read_back(drive, newest, reading, count, turn);
}

/* One copy gets other data than those of its count; whether this is noticed. */
static int refuses_unlike_copies(struct drive *drive, uint8_t *newest)
{
    printf("\nreading header copies of which one was altered");
    drive->tape[adr_header_address(1, 4)][ADR_BLOCK_LENGTH - 1] ^= 1;
    return newest_header(drive, newest) == FAILED;
}

static int finds_none_on_a_blank(uint8_t *newest)
{
    static struct drive blank;
    printf("\nreading the header copies of a blank cartridge");
    int none = newest_header(&blank, newest) == NONE;
    printf("\n%s\n", none ? "none is valid" : "a header was taken that is not there");
    return none;
}

/* A number as headers hold it, the high byte first. */
static void put(uint8_t *place, uint32_t number)
{
    for (int i = 0; i < 4; i++)
        place[i] = (uint8_t)(number >> (24 - 8 * i));
}

/* Opens a reading on a header of another update count and EOD address. */
static int open_altered(const uint8_t *newest, uint32_t update, uint32_t eod,
                        struct adr_reading *reading)
{
    static uint8_t header[ADR_FRAME_LENGTH];
    memcpy(header, newest, sizeof header);
    put(header + UPDATE_AT, update);
    put(header + EOD_AT, eod);
    return open_reading(header, reading);
}

/* Whether adding at the end of a reading is answered with this number. */
static int is_answered(struct adr_reading reading, uint32_t depth, uint8_t number)
{
    uint8_t given = adr_record_open_at_end(reading, depth, WINDOW, NO_TAIL).number;
    printf("\nadding: %u, %s\n", given, adr_refusal_text(given));
    return given == number;
}

/* Reads to the end on such a header of the highest count; whether adding is then
   answered with this number. */
static int answers_end(struct drive *drive, const uint8_t *newest, uint32_t eod, uint8_t number)
{
    struct adr_reading reading;
    return open_altered(newest, highest_update, eod, &reading) &&
           read_back(drive, &reading, 0, FIRST, 0) && is_answered(reading, DEPTH, number);
}

/* Of four reasons to refuse, each shows when those before it are gone. */
static int refuses_to_add(struct drive *drive, const uint8_t *newest)
{
    struct adr_reading reading;
    printf("\nadding where that is refused");
    return open_altered(newest, highest_update + 1, 0, &reading) &&
           is_answered(reading, 0, ADR_WRONG_PHASE) &&
           read_back(drive, &reading, 0, FIRST, 0) &&
           is_answered(reading, 0, ADR_BAD_SIZE) && is_answered(reading, DEPTH, ADR_EXHAUSTED) &&
           answers_end(drive, newest, 0, ADR_END_ELSEWHERE) &&
           answers_end(drive, newest, OLD_END - 1, ADR_END_ELSEWHERE) &&
           answers_end(drive, newest, OLD_END, 0);
}

/* Adds at the end of a reading and reads back all; whether all went well. */
static int add_and_read_back(struct drive *drive, uint8_t *newest, struct adr_reading *reading,
                             unsigned earlier, unsigned count)
{
    printf("\nadding %u elements to %u", count - earlier, earlier);
    struct source source = { count, 0, earlier, 0 };
    return record(drive, adr_record_open_at_end(*reading, DEPTH, WINDOW, NO_TAIL), source) &&
           find_and_read_back(drive, newest, reading, count, 0);
}

/* The first addition meets a bad spot where the old EOD still reads, the second
   replaces an EOD. */
static int adds_twice(struct drive *drive, uint8_t *newest)
{
    struct adr_reading reading;
    if (!record_and_read_back(drive, newest, &reading, FIRST, 0) ||
        !refuses_to_add(drive, newest))
        return 0;
    drive->bad_spot = OLD_END;
    return add_and_read_back(drive, newest, &reading, FIRST, SECOND) &&
           add_and_read_back(drive, newest, &reading, SECOND, THIRD);
}

/* Finds the newest header of a cartridge and reads it back, without a word of
   its commands. */
static int reads_back(struct drive *drive, uint8_t *newest, unsigned first, unsigned count)
{
    struct adr_reading reading;
    drive->quiet = 1;
    return newest_header(drive, newest) == FOUND && open_reading(newest, &reading) &&
           read_back(drive, &reading, first, count, 0);
}

/* Fills a cartridge up to its tail, and records the rest on another. This drive
   reads nothing where a write failed; on others the element behind those on tape
   may read there. */
static int goes_on_elsewhere(struct drive *filled, struct drive *other, uint8_t *newest)
{
    struct source source = { MANY, 0, 0, 0 };
    printf("\nrecording %u elements on a cartridge that has not room for all", MANY);
    unsigned on_tape = record_what_fits(
        filled, adr_record_open_blank(geometry, DEPTH, WINDOW, TAIL), source);
    if (on_tape != FITTING)
        return 0;
    printf("\n\nrecording the other %u elsewhere", MANY - on_tape);
    source.accepted = on_tape;
    return record(other, adr_record_open_blank(geometry, DEPTH, WINDOW, TAIL), source) &&
           reads_back(filled, newest, 0, on_tape) &&
           reads_back(other, newest, on_tape, MANY - on_tape);
}

static void erase(struct drive *drive)
{
    for (size_t address = 0; address < FRAMES; address++)
        free(drive->tape[address]);
}

/* Records and adds on a blank cartridge, and lets the mains go behind so many
   frames of the addition; whether they went. */
static int add_until_cut(struct drive *drive, uint8_t *newest, unsigned frames)
{
    struct source source = { FIRST, 0, 0, 0 }, added = { SECOND, 0, FIRST, 0 };
    struct sent sent = { { 0, 0 }, { 0, 0 } };
    struct adr_record_outcome opened = adr_record_open_blank(geometry, DEPTH, WINDOW, NO_TAIL);
    struct adr_reading reading;
    if (opened.number || carry_through(drive, opened.session, &source, &sent).number ||
        newest_header(drive, newest) != FOUND || !open_reading(newest, &reading) ||
        deliver(drive, &reading, 0, 0).number)
        return 0;
    opened = adr_record_open_at_end(reading, DEPTH, WINDOW, NO_TAIL);
    drive->left = frames;
    return opened.number == 0 &&
           carry_through(drive, opened.session, &added, &sent).number == NO_REPLY;
}

/* Reads a cartridge that was cut so, with the mains back; whether all that was
   there before the addition is, then elements of it and nothing else, and whether
   the reading ends lawfully. Tells what a further addition is answered with. */
static int reads_what_stands(struct drive *drive, uint8_t *newest, unsigned frames)
{
    struct adr_reading reading;
    drive->silent = 0;
    if (newest_header(drive, newest) != FOUND || !open_reading(newest, &reading))
        return 0;
    struct delivered delivered = deliver(drive, &reading, 0, 0);
    uint8_t adding = adr_record_open_at_end(reading, DEPTH, WINDOW, NO_TAIL).number;
    printf("%2u frames: %u elements, %s; adding: %u\n", frames, delivered.count,
           delivered.number ? "and no end" : "to an end", adding);
    return delivered.count >= FIRST && delivered.count <= SECOND &&
           (delivered.number == 0 || delivered.number == ADR_NOT_FOUND);
}

/* An addition cut short behind each of its frames. */
static int survives_cuts(uint8_t *newest)
{
    printf("\nadding %u elements to %u, and the mains go behind\n", SECOND - FIRST, FIRST);
    for (unsigned frames = 1; frames <= CUT_FRAMES; frames++) {
        static struct drive drive;
        memset(&drive, 0, sizeof drive);
        drive.quiet = 1;
        int stands = add_until_cut(&drive, newest, frames) &&
                     reads_what_stands(&drive, newest, frames);
        erase(&drive);
        if (!stands)
            return 0;
    }
    return 1;
}

int main(void)
{
    static struct drive drive = { .bad_spot = BAD_SPOT }, other, last;
    static struct drive filled = { .bad_spot = STRETCH, .good = GOOD_AGAIN };
    static uint8_t newest[ADR_FRAME_LENGTH];
    struct adr_reading reading;
    printf("LAST is %u\n", (unsigned)adr_last(geometry).address);
    int whole = record_and_read_back(&drive, newest, &reading, 8, 0);
    lose_copies(&drive);
    whole = whole && record_and_read_back(&drive, newest, &reading, 5, 1) &&
            refuses_unlike_copies(&drive, newest) && finds_none_on_a_blank(newest) &&
            adds_twice(&other, newest) && goes_on_elsewhere(&filled, &last, newest) &&
            survives_cuts(newest);
    erase(&drive);
    erase(&other);
    erase(&filled);
    erase(&last);
    return !whole;
}
