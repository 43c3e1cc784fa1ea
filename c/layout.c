/* Structs cross the boundary whole: numbers that are no session's come back as
   they were, and a session of distinct numbers is altered by a call in the
   members named and no others, so that two members of a width that changed
   places are seen; so is a recording opened from the numbers of a reading. A
   shelf sheet crosses in the same way.
   Names, order and widths of all are compared with the crates' by members.awk. */
#include "adr.h"

#include <stdio.h>
#include <string.h>

static int wrong;

static void expect(const char *what, int truth)
{
    if (!truth) {
        printf("wrong: %s\n", what);
        wrong = 1;
    }
}

/* Every byte of a struct, padding too, with a value of its own. */
static void fill(void *place, size_t size)
{
    for (size_t i = 0; i < size; i++)
        ((uint8_t *)place)[i] = (uint8_t)(i + 2);
}

#define SAME(one, other, member) \
    expect(#member, memcmp(&(one).member, &(other).member, sizeof (one).member) == 0)

static void same_exchange(struct adr_exchange a, struct adr_exchange b)
{
    SAME(a, b, command.code);
    SAME(a, b, command.address);
    SAME(a, b, awaiting);
    SAME(a, b, again);
}

static void same_copies(struct adr_copies a, struct adr_copies b)
{
    SAME(a, b, header.last);
    SAME(a, b, header.eod);
    SAME(a, b, header.old);
    SAME(a, b, header.update);
    SAME(a, b, header.pass);
    SAME(a, b, group);
    SAME(a, b, copy);
    SAME(a, b, outstanding);
    SAME(a, b, confirmed);
    SAME(a, b, locate);
}

static void same_elements(struct adr_elements a, struct adr_elements b)
{
    SAME(a, b, first);
    SAME(a, b, next);
    SAME(a, b, limit);
    SAME(a, b, target);
    SAME(a, b, trail.filemarks);
    SAME(a, b, trail.marker);
    SAME(a, b, pending);
    SAME(a, b, outstanding);
    SAME(a, b, locate);
    SAME(a, b, eod);
    SAME(a, b, marks);
}

static void same_recording(struct adr_recording a, struct adr_recording b)
{
    SAME(a, b, setup.depth);
    SAME(a, b, setup.highest);
    SAME(a, b, setup.tail);
    SAME(a, b, stage);
    SAME(a, b, closed);
    SAME(a, b, ended);
    SAME(a, b, spent);
    same_exchange(a.exchange, b.exchange);
    same_copies(a.copies, b.copies);
    same_elements(a.elements, b.elements);
}

static void same_reading(struct adr_reading a, struct adr_reading b)
{
    SAME(a, b, told.last);
    SAME(a, b, told.eod);
    SAME(a, b, told.old);
    SAME(a, b, told.update);
    SAME(a, b, told.pass);
    SAME(a, b, position.next);
    SAME(a, b, position.locate);
    SAME(a, b, expected);
    SAME(a, b, trail.filemarks);
    SAME(a, b, trail.marker);
    same_exchange(a.exchange, b.exchange);
    SAME(a, b, finished);
    SAME(a, b, ended);
}

static void same_sheet(struct adr_sheet a, struct adr_sheet b)
{
    SAME(a, b, first);
    SAME(a, b, next);
    SAME(a, b, job);
    SAME(a, b, ended);
}

static void no_session(void)
{
    static uint8_t block[ADR_BLOCK_LENGTH], window[ADR_BLOCK_LENGTH], frame[ADR_FRAME_LENGTH];
    struct adr_recording s;
    struct adr_reading r;
    struct adr_reply reply;
    fill(&s, sizeof s);
    fill(&r, sizeof r);
    fill(&reply, sizeof reply);
    struct adr_record_outcome outcomes[] = {
        adr_record_block(s, block, sizeof block, window, sizeof window),
        adr_record_filemark(s),
        adr_record_close(s),
        adr_record_reply(s, reply),
    };
    for (size_t i = 0; i < sizeof outcomes / sizeof *outcomes; i++) {
        expect("refused with 7", outcomes[i].number == ADR_WRONG_PHASE);
        same_recording(outcomes[i].session, s);
    }
    struct adr_record_fetched f =
        adr_record_fetch(s, window, sizeof window, frame, sizeof frame);
    expect("refused with 7", f.answer == ADR_REFUSED && f.number == ADR_WRONG_PHASE);
    same_recording(f.session, s);
    struct adr_read_fetched rf = adr_read_fetch(r);
    expect("refused with 7", rf.answer == ADR_REFUSED && rf.number == ADR_WRONG_PHASE);
    same_reading(rf.session, r);
    struct adr_read_replied rt = adr_read_reply(r, reply, frame, sizeof frame);
    expect("refused with 7", rt.answer == ADR_REFUSED && rt.number == ADR_WRONG_PHASE);
    same_reading(rt.session, r);
}

static void no_sheet(void)
{
    static uint8_t aux[ADR_AUX_LENGTH], line[ADR_LINE_LENGTH];
    struct adr_sheet s;
    fill(&s, sizeof s);
    struct adr_sheet_entered answered[] = {
        adr_sheet_enter(s, aux, sizeof aux, line, sizeof line),
        adr_sheet_finish(s, line, sizeof line),
    };
    for (size_t i = 0; i < sizeof answered / sizeof *answered; i++) {
        expect("refused with 7",
               answered[i].answer == ADR_REFUSED && answered[i].number == ADR_WRONG_PHASE);
        same_sheet(answered[i].sheet, s);
    }
}

/* A recording with a number of its own in every member that takes one. It
   awaits the reply to a WRITE at 2000; the elements 1000 to 1002 are
   outstanding, at 1997 to 1999. */
static struct adr_recording recording(void)
{
    struct adr_recording s;
    fill(&s, sizeof s);
    s.setup.depth = 9;
    s.setup.highest = 20;
    s.setup.tail = 30;
    s.stage = 1;
    s.closed = s.ended = s.spent = 0;
    s.exchange.command.code = ADR_WRITE;
    s.exchange.command.address = 2000;
    s.exchange.awaiting = 1;
    s.exchange.again = 0;
    s.copies.group = 1;
    s.copies.copy = 4;
    s.copies.outstanding = 3;
    s.copies.confirmed = 5;
    s.copies.locate = s.elements.locate = s.elements.eod = 0;
    s.elements.first = 1000;
    s.elements.next = 2000;
    s.elements.limit = 5000;
    s.elements.pending = 5;
    s.elements.outstanding = 3;
    memset(s.elements.marks, 0, sizeof s.elements.marks);
    s.elements.marks[1001 % 64] = 1;
    return s;
}

/* The same awaiting the reply to a READ POSITION. */
static struct adr_recording asking(void)
{
    struct adr_recording s = recording();
    s.exchange.command.code = ADR_READ_POSITION;
    s.exchange.command.address = 0;
    return s;
}

static struct adr_reply sense(uint8_t key, uint8_t asc, uint8_t ascq)
{
    struct adr_reply reply = { .buffered = 1, .position = 2, .skip = 3 };
    reply.key = key;
    reply.asc = asc;
    reply.ascq = ascq;
    return reply;
}

/* A reply alters a recording to what is expected, its exchange answered. */
static void replied(const char *what, struct adr_recording s, struct adr_reply reply,
                    struct adr_recording expected)
{
    struct adr_record_outcome o = adr_record_reply(s, reply);
    expected.exchange.awaiting = 0;
    expect(what, o.number == 0);
    same_recording(o.session, expected);
}

static struct adr_reply error_at_1999(void)
{
    struct adr_reply error = sense(0x03, 0x0C, 0x00);
    error.position = 1999;
    error.skip = 7;
    return error;
}

/* A filemark at 1998 is then on tape, and 2006 is where the rest goes. */
static struct adr_recording with_error_noted(struct adr_recording s)
{
    s.elements.first = 1002;
    s.elements.pending = 3;
    s.elements.outstanding = 0;
    s.elements.trail.filemarks++;
    s.elements.trail.marker = 1998;
    s.elements.locate = 1;
    s.elements.target = 2006;
    return s;
}

static void accepting(void)
{
    struct adr_recording s = recording(), expected = s;
    struct adr_record_outcome o = adr_record_close(s);
    expected.closed = 1;
    expect("close", o.number == 0);
    same_recording(o.session, expected);

    expected = s;
    expected.elements.pending = 6;
    expected.elements.marks[1005 % 64] = 1;
    o = adr_record_filemark(s);
    expect("filemark", o.number == 0);
    same_recording(o.session, expected);
}

static void elements(void)
{
    struct adr_recording s = recording(), expected = s;
    expected.exchange.again = 1;
    replied("busy", s, sense(0x02, 0x04, 0x08), expected);

    expected = s;
    expected.elements.next = 2001;
    expected.elements.outstanding = 4;
    replied("good", s, sense(0, 0, 0), expected);

    expected = s;
    expected.elements.limit = 2000;
    replied("the tape's end", s, sense(0x0D, 0x00, 0x02), expected);

    struct adr_reply error = error_at_1999();
    expected = with_error_noted(s);
    replied("write error behind a filemark", s, error, expected);
    error.position = 2000;
    expect("a frame not outstanding", adr_record_reply(s, error).number == ADR_BAD_REPLY);
}

/* A write error's target is in the tail: 9. Close gives up from the failed
   element on, and EOD goes to the target. */
static void giving_up(void)
{
    static uint8_t window[21 * ADR_BLOCK_LENGTH], frame[ADR_FRAME_LENGTH];
    struct adr_recording s = recording(), expected;
    struct adr_reply error = error_at_1999();
    s.elements.limit = 2030; /* elements up to 1999 */
    expected = with_error_noted(s);
    expected.ended = expected.spent = 1;
    struct adr_record_outcome o = adr_record_reply(s, error);
    expect("a target in the tail", o.number == ADR_TAPE_FULL);
    same_recording(o.session, expected);

    struct adr_recording unknown = o.session;
    unknown.spent = 2;
    expect("no session's", adr_record_close(unknown).number == ADR_WRONG_PHASE);
    expect("a filemark after 9", adr_record_filemark(o.session).number == ADR_WRONG_PHASE);
    o = adr_record_close(o.session);
    expected.elements.pending = expected.elements.eod = expected.closed = 1;
    expected.ended = expected.spent = 0;
    expected.exchange.command.code = ADR_READ_POSITION;
    expected.exchange.command.address = 0;
    expected.exchange.awaiting = 0;
    expect("giving up", o.number == 0);
    same_recording(o.session, expected);
    expect("closing again", adr_record_close(o.session).number == ADR_WRONG_PHASE);

    struct adr_record_fetched f =
        adr_record_fetch(o.session, window, sizeof window, frame, sizeof frame);
    expect("EOD's place", f.answer == ADR_COMMAND && f.command.code == ADR_LOCATE &&
                              f.command.address == 2006);
}

static void header_copies(void)
{
    struct adr_recording s = recording(), expected;
    s.stage = 0;
    expected = s;
    expected.copies.copy = 5;
    expected.copies.outstanding = 4;
    replied("a copy taken", s, sense(0, 0, 0), expected);

    s = asking();
    s.stage = 0;
    expected = s;
    expected.copies.outstanding = 1;
    expected.copies.confirmed = 7;
    replied("copies on tape", s, sense(0, 0, 0), expected);

    s = recording();
    s.stage = 0;
    s.exchange.command.code = ADR_LOCATE;
    expected = s;
    s.copies.locate = 1;
    replied("a group located", s, sense(0, 0, 0), expected);
}

/* EOD is on tape: the closing headers are due. */
static void closing(void)
{
    struct adr_recording s = asking(), expected;
    struct adr_reply none_buffered = sense(0, 0, 0);
    none_buffered.buffered = 0;
    s.closed = s.elements.eod = 1;
    s.elements.pending = s.elements.outstanding = 1;
    expected = s;
    expected.stage = 2;
    expected.elements.first = 1001;
    expected.elements.pending = expected.elements.outstanding = 0;
    expected.copies.header.eod = 1999;
    expected.copies.header.old = 0;
    expected.copies.header.update++;
    expected.copies.group = expected.copies.copy = 0;
    expected.copies.outstanding = expected.copies.confirmed = 0;
    expected.copies.locate = 1;
    replied("EOD on tape", s, none_buffered, expected);
}

static const struct adr_geometry cartridge = { .segtrk = 9001, .trks = 1, .load = ADR_BEGINNING };

/* A reading is told what the header of a recording has. */
static void told(void)
{
    static uint8_t window[ADR_BLOCK_LENGTH], frame[ADR_FRAME_LENGTH];
    struct adr_recording s = recording();
    s.setup.highest = 0;
    s.stage = 0;
    s.exchange.awaiting = 0;
    s.copies.header.last = 9000;
    s.copies.header.eod = 499;
    s.copies.header.old = 0x01020304;
    struct adr_record_fetched f =
        adr_record_fetch(s, window, sizeof window, frame, sizeof frame);
    expect("a header", f.command.code == ADR_WRITE && f.command.address == 2994);
    expect("the old end", memcmp(frame + ADR_BLOCK_LENGTH + 224, "\1\2\3\4", 4) == 0);
    struct adr_read_opened o = adr_read_open(cartridge, frame, sizeof frame);
    expect("an opening", o.number == 0);
    SAME(o.session.told, s.copies.header, last);
    SAME(o.session.told, s.copies.header, eod);
    SAME(o.session.told, s.copies.header, old);
    SAME(o.session.told, s.copies.header, update);
    SAME(o.session.told, s.copies.header, pass);
}

/* A frame of a recording of pass 77, numbered 1000: EOD or a filemark. */
static void written_frame(uint8_t eod, uint8_t *frame)
{
    static uint8_t window[ADR_BLOCK_LENGTH];
    struct adr_recording s = recording();
    s.setup.highest = 0;
    s.exchange.awaiting = 0;
    s.copies.header.last = 9000;
    s.copies.header.pass = 77;
    s.elements.eod = eod;
    s.elements.marks[1000 % 64] = !eod;
    s.elements.pending = 1;
    s.elements.outstanding = 0;
    struct adr_record_fetched f =
        adr_record_fetch(s, window, sizeof window, frame, ADR_FRAME_LENGTH);
    expect("a frame", f.answer == ADR_COMMAND && f.command.code == ADR_WRITE &&
                          f.command.address == 2000 && f.number == 0);
}

/* A reading with a number of its own in every member that takes one. It awaits
   the reply to a READ at 500, where the element 1000 is expected. */
static struct adr_reading reading(void)
{
    struct adr_reading s;
    fill(&s, sizeof s);
    s.told.last = 9000;
    s.told.eod = 499;
    s.told.pass = 77;
    s.position.next = 500;
    s.position.locate = 0;
    s.expected = 1000;
    s.exchange.command.code = ADR_READ;
    s.exchange.command.address = 500;
    s.exchange.awaiting = 1;
    s.exchange.again = s.finished = s.ended = 0;
    return s;
}

/* A reply to a reading is answered so, and alters it to what is expected. */
static void replied_to(struct adr_reading s, struct adr_reply reply, const uint8_t *frame,
                       uint8_t answer, uint8_t number, struct adr_reading expected)
{
    struct adr_read_replied t = adr_read_reply(s, reply, frame, ADR_FRAME_LENGTH);
    expect("a reading's reply", t.answer == answer && t.number == number);
    same_reading(t.session, expected);
}

/* The same reading with the frame at 500 gone by. */
static struct adr_reading passed(struct adr_reading s)
{
    s.exchange.awaiting = 0;
    s.position.next = 501;
    return s;
}

static void located(void)
{
    static uint8_t frame[ADR_FRAME_LENGTH];
    struct adr_reading s = reading();
    s.exchange.command.address = 400;
    s.exchange.awaiting = 0;
    s.position.locate = 1;
    struct adr_read_fetched f = adr_read_fetch(s);
    s.exchange.command.code = ADR_LOCATE;
    s.exchange.command.address = 500;
    s.exchange.awaiting = 1;
    expect("locate", f.answer == ADR_COMMAND && f.command.code == ADR_LOCATE &&
                         f.command.address == 500 && f.number == 0);
    same_reading(f.session, s);

    struct adr_reading expected = s;
    expected.exchange.awaiting = expected.position.locate = 0;
    replied_to(s, sense(0, 0, 0), frame, ADR_NOTHING, 0, expected);
}

static void delivered(void)
{
    static uint8_t frame[ADR_FRAME_LENGTH];
    struct adr_reading s = reading(), expected = passed(s);
    written_frame(0, frame);
    expected.expected = 1001;
    expected.trail.filemarks++;
    expected.trail.marker = 500;
    replied_to(s, sense(0, 0, 0), frame, ADR_FILEMARK, 0, expected);

    expected = s;
    expected.ended = 1;
    replied_to(s, sense(0x00, 0x00, 0x02), frame, ADR_REFUSED, ADR_NOT_FOUND, expected);
}

/* An EOD at 500 ends a reading if the header names an end up to there: its EOD
   or, if it names none, the end that was added at. */
static void end_named(uint32_t eod, uint32_t old, int ends)
{
    static uint8_t frame[ADR_FRAME_LENGTH];
    struct adr_reading s = reading(), expected;
    s.told.eod = eod;
    s.told.old = old;
    written_frame(1, frame);
    expected = passed(s);
    expected.finished = ends;
    replied_to(s, sense(0, 0, 0), frame, ends ? ADR_END : ADR_NOTHING, 0, expected);
}

static void ends(void)
{
    end_named(499, 501, 1);
    end_named(500, 501, 1);
    end_named(501, 499, 0);
    end_named(0, 499, 1);
    end_named(0, 500, 1);
    end_named(0, 501, 0);
}

/* The reading at its end, which its header names. */
static struct adr_reading at_end(void)
{
    struct adr_reading s = passed(reading());
    s.told.eod = 500;
    s.finished = 1;
    return s;
}

/* An addition is a recording without a header but for the members named. */
static void adding(void)
{
    struct adr_reading s = at_end();
    struct adr_recording expected = adr_record_open_blank(cartridge, 9, 21, 30).session;
    expected.copies.header.old = 500;
    expected.copies.header.update = s.told.update + 1;
    expected.copies.header.pass = 77;
    expected.elements.first = 1000;
    expected.elements.next = expected.elements.target = 500;
    expected.elements.trail = s.trail;
    struct adr_record_outcome o = adr_record_open_at_end(s, 9, 21, 30);
    expect("adding", o.number == 0);
    same_recording(o.session, expected);
}

/* Adding is refused with this number and gives what every refused opening does. */
static void not_added(struct adr_reading s, uint32_t depth, uint32_t blocks, uint32_t tail,
                      uint8_t number)
{
    static const struct adr_geometry none;
    struct adr_record_outcome o = adr_record_open_at_end(s, depth, blocks, tail);
    expect("adding refused", o.number == number);
    same_recording(o.session, adr_record_open_blank(none, 9, 21, 30).session);
}

/* Each reason is added to those before it and goes before them. */
static void refusing(void)
{
    struct adr_reading s = at_end();
    s.told.eod = 499;
    not_added(s, 9, 21, 30, ADR_END_ELSEWHERE);
    s.told.eod = 0;
    not_added(s, 9, 21, 30, ADR_END_ELSEWHERE);
    s.told.update = 4294967294;
    not_added(s, 9, 21, 30, ADR_EXHAUSTED);
    not_added(s, 256, 21, 30, ADR_BAD_SIZE);
    not_added(s, 9, 256 + 21, 30, ADR_BAD_SIZE);
    not_added(s, 9, 21, 256, ADR_BAD_SIZE);
    struct adr_reading unfit[] = { s, s, s, s, s };
    unfit[0].finished = 0;
    unfit[1].ended = 1;
    unfit[2].exchange.awaiting = 1;
    unfit[3].exchange.again = 1;
    unfit[4].position.locate = 2; /* no session's */
    for (size_t i = 0; i < sizeof unfit / sizeof *unfit; i++)
        not_added(unfit[i], 256, 21, 256, ADR_WRONG_PHASE);
}

/* A field of this type and number alters the sheet to what is expected. */
static void entered(struct adr_sheet s, uint8_t type, uint8_t number, uint8_t answer,
                    struct adr_sheet expected)
{
    static uint8_t aux[ADR_AUX_LENGTH], line[ADR_LINE_LENGTH];
    aux[16] = type;
    aux[47] = number;
    struct adr_sheet_entered e = adr_sheet_enter(s, aux, sizeof aux, line, sizeof line);
    expect("a field", e.answer == answer && e.number == 0);
    same_sheet(e.sheet, expected);
}

/* A sheet with a number of its own in every member. */
static void sheets(void)
{
    struct adr_sheet s = { .first = 20, .next = 30, .job = 40 }, expected = s;
    expected.next = 31;
    entered(s, 0x80, 30, ADR_NOTHING, expected);

    expected.first = 31;
    expected.job = 41;
    entered(s, 0x02, 30, ADR_LINE, expected);

    expected = s;
    expected.ended = 1;
    entered(s, 0x01, 29, ADR_LINE, expected);
    entered(s, 0x80, 29, ADR_LINE, expected);
    entered(expected, 0x80, 30, ADR_NOTHING, expected);
}

static void small_structs(void)
{
    static uint8_t blank[ADR_FRAME_LENGTH];
    struct adr_geometry g = { .segtrk = 1000, .trks = 12, .load = ADR_CENTRE }, wide = g, third = g;
    wide.segtrk += 65536;
    third.load = 2;
    expect("frames", adr_frames(g) == 901 * 12 && adr_frames(wide) == 0);
    expect("last", adr_last(g).address == 10811 && adr_last(g).number == 0);
    expect("no last", adr_last(third).address == 0 && adr_last(third).number == 2);
    expect("user", adr_is_user(10811, 10811) == 1 && adr_is_user(10811, 2999) == 0);
    expect("copies", adr_header_address(1, 3) == 2993 && adr_header_address(2, 9) == 9);
    struct adr_choice none = adr_choose(g, blank, sizeof blank, blank, sizeof blank);
    expect("choice", none.which == 0 && none.number == ADR_BAD_HEADER);
    expect("depth", adr_record_open_blank(g, 256, 1, 0).number == ADR_BAD_SIZE);
    expect("window", adr_record_open_blank(g, 1, 256 + 64, 0).number == ADR_BAD_SIZE);
    expect("tail", adr_record_open_blank(g, 1, 64, 256).number == ADR_BAD_SIZE);
    expect("no cartridge first", adr_record_open_blank(third, 1, 64, 256).number == ADR_NO_CARTRIDGE);
    struct adr_recording s = adr_record_open_blank(g, 255, 64, 254).session;
    expect("setup", s.setup.depth == 255 && s.setup.highest == 63 && s.setup.tail == 254);
    expect("header", s.copies.header.last == 10811 && s.copies.header.pass == 1);
}

int main(void)
{
    no_session();
    no_sheet();
    accepting();
    elements();
    giving_up();
    header_copies();
    closing();
    told();
    located();
    delivered();
    ends();
    adding();
    refusing();
    sheets();
    small_structs();
    if (!wrong)
        puts("every struct crosses whole");
    return wrong;
}
