/* The recording and reading layer for OnStream ADR tapes, for C.

   The layer says which command goes to the drive next and with which bytes,
   and takes in the drive's replies. It talks to no drive itself: cables,
   packets and sense data stay with the host. It is a static library for
   x86-64 (System V calling convention), libadr.a, which the command
   'sh scripts/build adr' writes to target/staticlib. Programs in C11 or C++11
   use it by this header:

       cc -Iinclude program.c target/staticlib/libadr.a

   Of the C library it calls nothing but memcpy, memmove and memset, and no call
   takes more than 4 KiB of stack.

   SESSIONS. A session is a struct that the host keeps. Each call takes it by
   value and hands it back, changed, in its result: keep the new one, give it
   to the next call, and change nothing in it. The library has no state of its
   own, allocates nothing and keeps no pointer, so sessions are independent of
   each other and a call may be made from any thread. Numbers that stand for
   no session are refused with 7 and come back as they were. Not every altered
   session is told from a session: a call on another one still returns and
   writes only to the buffers lent, but what it answers means nothing.

   BUFFERS belong to the host and are lent for one call. Each is a pointer and
   a length in bytes; the pointer is never null, not even where the length is
   0. Buffers lent to the same call don't overlap, but for the two headers of
   adr_choose, which are only read and may be the same. The library writes only
   to the window of adr_record_block, to the frame of adr_record_fetch and to the
   line of a sheet's calls, and only if the call is not refused.

   REFUSALS. No call has a precondition on its numbers or lengths: what it
   can't serve it refuses with a number. A refused call writes to no buffer. 1
   to 7 leave the session as it was, and the call counts for nothing; 8 and more
   end it, and every later call is refused with 7, but for one close after a 9
   (see THE TAIL). An opening that is refused, by whatever number, gives a
   session that has ended; 13 comes from openings alone. A shelf sheet is no
   session, but its calls are refused in the same way: with 7 for numbers that
   stand for no sheet, then with 1, and with no other.

   A RECORDING, in short. 'send' sends a command to the drive and returns its
   reply; it sends the frame with a WRITE, and fills it with what a READ brings:

       struct adr_record_outcome o = adr_record_open_blank(g, depth, 64, tail);
       while (!o.number) {
           while (have_block && !o.number) {
               o = adr_record_block(o.session, block, sizeof block, window, sizeof window);
               if (!o.number)
                   have_block = next_block(block);
           }
           if (o.number && o.number != ADR_WINDOW_FULL)
               break;
           if (!have_block && !closed) {
               o = adr_record_close(o.session);
               closed = 1;
           }
           struct adr_record_fetched f =
               adr_record_fetch(o.session, window, sizeof window, frame, sizeof frame);
           o.session = f.session;
           o.number = f.number;
           if (f.answer == ADR_DONE)
               break;
           if (f.answer == ADR_COMMAND)
               o = adr_record_reply(f.session, send(f.command, frame));
       }

   After it o.number is 0 if the recording is whole, else the refusal.

   THE TAIL. A recording that fills the tape to its last frame has no room for
   EOD behind it: after its close a fetch is refused with 9, and no reading of it
   comes to an end. So an opening takes T, the tail: elements don't go to the
   last T addresses of the tape, and EOD may. (2,990 to 2,999 count, too, though
   nothing is recorded there.) At a write error EOD moves on by the skip that the
   drive advises, so let T be a few of its skips; each frame of it is 32 KiB that
   elements lack. With T 0 there is no tail, and 9 ends the session for good. Nor
   does a tail help, as a rule, where the drive meets the tape's end before the
   last address (0D/00/02): elements have then gone up to there.

   Where T is above 0 and an element finds no room, 9 leaves one call, close,
   also if the session was closed before. It gives up the elements that are not
   known to be on tape, at most W, and EOD takes their place. Behind the loop
   above:

       uint32_t on_tape = 0;
       if (o.number == ADR_TAPE_FULL) {
           o = adr_record_close(o.session);
           on_tape = o.session.elements.first;
       }
       while (!o.number) {
           ... fetch and reply as above
       }

   The close is refused with 7 where T is 0, or where it was EOD that found no
   room. After the second loop o.number is 0 if the recording is closed; 9 is for
   good now. The elements numbered below on_tape are then recorded: a reading
   delivers them and comes to its end. Before its end it may deliver one more,
   the one with that number, where that reads at the spot at which it failed. (A
   program that knows of no tails may then miss the end.) So the host records
   what has the number on_tape and above on another cartridge. Numbers count from
   0 or, in an addition, from the first on the cartridge. Blocks that were given
   up still stand in the window, element i at block i modulo W; which of the
   elements were filemarks the host has to know. on_tape is taken from what the
   close returns, since EOD is counted too once it is on tape. The end of such a
   cartridge lies, as a rule, in its tail: an addition with the same T finds no
   room for its first element either.

   A READING. The replies deliver the elements, and there is nothing to close:

       struct adr_read_opened o = adr_read_open(g, header, sizeof header);
       struct adr_read_replied t = { o.session, ADR_NOTHING, o.number };
       while (!t.number) {
           struct adr_read_fetched f = adr_read_fetch(t.session);
           t.number = f.number;
           if (f.answer != ADR_COMMAND)
               break;
           struct adr_reply reply = send(f.command, frame);
           t = adr_read_reply(f.session, reply, frame, sizeof frame);
           switch (t.answer) {
           case ADR_BLOCK: take_block(frame); break;
           case ADR_FILEMARK: take_filemark(); break;
           }
       }

   After it t.number is 0 if everything was read, else the refusal.

   ADDING. A recording may begin where a reading on the newest header has come to
   its end, behind what the cartridge holds. What the reading delivers need
   not be looked at:

       struct adr_read_opened r = adr_read_open(g, header, sizeof header);
       struct adr_read_replied t = { r.session, ADR_NOTHING, r.number };
       while (!t.number && t.answer != ADR_END) {
           struct adr_read_fetched f = adr_read_fetch(t.session);
           t.number = f.number;
           if (f.answer == ADR_COMMAND) {
               struct adr_reply reply = send(f.command, frame);
               t = adr_read_reply(f.session, reply, frame, sizeof frame);
           }
       }
       struct adr_record_outcome o =
           adr_record_open_at_end(t.session, depth, 64, tail);
       while (!o.number) {
           ... as in a recording
       }

   If t.number is not 0, the end was not found, and the opening is refused with
   7. What else has to hold, and what of it no call can tell, stands at
   adr_record_open_at_end.

   c/record.c is a whole program; it also finds the newest header, adds, and goes
   on with a second cartridge where the first is full.

   A SHELF SHEET lists the jobs of a cartridge, to be printed for its box. A job is
   the blocks up to a filemark, or up to EOD if there are any. Below a header line
   each has a line: its number, counted from 1, the number of the element that it
   begins with, which without blocks is the filemark, and how many blocks it has.
   Where blocks 0 and 1, filemarks 2 and 3 and EOD are read:

         JOB      FIRST     BLOCKS
           1          0          2
           2          3          0

   The host keeps the sheet as it keeps a session, enters the AUX of each frame
   that a reading delivers and of EOD, and prints the lent line wherever the answer
   is ADR_LINE. With the reading opened as above:

       struct adr_sheet_entered e = adr_sheet_open(line, sizeof line);
       print(e, line);
       while (!t.number) {
           ... fetch and reply as in a reading
           if (t.answer == ADR_BLOCK || t.answer == ADR_FILEMARK || t.answer == ADR_END) {
               e = adr_sheet_enter(e.sheet, frame + ADR_BLOCK_LENGTH, ADR_AUX_LENGTH,
                                   line, sizeof line);
               print(e, line);
           }
       }
       e = adr_sheet_finish(e.sheet, line, sizeof line);
       print(e, line);

   where 'print' writes the ADR_LINE_LENGTH bytes of the line if e.answer is
   ADR_LINE. A reading that was refused has not come to EOD: the last call then
   ends the sheet with a line of 27 asterisks. So does a job above 99,999, and a
   field of another type or number than comes next. After EOD or asterisks nothing
   more is printed. c/sheet.c is a whole program.

   THE DRIVE'S NUMBERS come from these commands of the standard, 'ADR Commands
   and Logical Tape Format 1.3'. Page codes are hexadecimal; the bytes of a mode
   page count from its page code, behind the four of the mode page header:

       segtrk, trks    MODE SENSE, page 2B: SEGTRK in bytes 6 and 7, TRKS in 8
                       and 9
       load            no field has it: 19,239 and 24 are the 15 GB cartridge,
                       loaded at its beginning; larger ones load at the centre
       D               MODE SENSE, page 33: byte 2, Maximum Number of Frames in
                       Buffer
       buffered        READ POSITION: byte 15, Blocks in Buffer
       key, asc, ascq  REQUEST SENSE: byte 2 (low half), bytes 12 and 13;
                       zeros where the drive reports no error
       position, skip  REQUEST SENSE: Information, bytes 3 to 6; byte 9

   Page 2B holds once TEST UNIT READY is answered good. Before a session the
   host gives the drive its pages 36 (vendor identification) and 30 (byte 3 A2:
   frames cross with their AUX) by MODE SELECT, and takes in what the drive has
   to say of a new cartridge or a reset (06/28/00, 06/29/00): in a session
   these are refused with 8.

   D AND W. At most D frames and at most W elements are with the drive and not
   known on tape. So let W be at least D (64, where D is above that), or the
   drive's buffer is never filled; with more, the host can accept elements while
   it is full.

   COMMANDS. READ and WRITE go out with the Fixed bit and a transfer length of
   1, LOCATE with BT and SKIP 0 and either Immed bit. LOCATE empties the drive's
   buffer; the layer gives one only when nothing of the session is buffered, or
   after a write error, and then gives again what is still to be written.
   In a session the host sends no command of its own that moves the tape or
   empties the buffer, and no READ POSITION or WRITE, not even one of length 0:
   they report a write error, which the layer then never sees. Where the bus
   must not be held up, MODE SENSE of page 33 tells the frames in the buffer
   (byte 3) and reports no error, and a READ of length 0 sets the drive reading;
   if that is answered by anything but good or busy, do as without a reply.

   WAITING. While the drive is busy, and while its buffer is full or is being
   emptied, the layer gives the same command again, at once and without end. A
   host pauses before it sends it again (the drive writes a frame in about
   16 ms) and sets a limit, in minutes, for a LOCATE may cross the whole tape.
   Past the limit it does as without a reply.

   NO REPLY. Where the transport fails and a reply can't be had, the command
   may have been carried out or not, and the session can't go on: make no reply
   up, don't send the command again, and leave the session; there is nothing to
   release. The cartridge is as after a power cut, and a recording that did not
   come to ADR_DONE is not whole. What stands of it, and what can be done with
   the cartridge, is said next.

   CUT SHORT. A recording is cut short where the mains go, where a reply can't be
   had, where the host leaves the session, and where 8, 9 or 12 ended it; a 9
   only if no close after it came to ADR_DONE. At the address that was being
   written the old frame, the new one or nothing is read then, and the drive may
   still write what it holds. What stands can be read: find the newest header
   again and open a reading on it.
     - Of an addition, if that header is a copy of the one that it was opened on,
       or newer: the reading first delivers everything that the sessions before
       it hold, and then elements of the one that was cut short, from its first
       on and in order.
     - Of a fresh recording, on a header copy of its own: the same, with nothing
       before it, though frames of an earlier recording may stand. Before its
       first copy was written the reading delivers what it did before, if a
       copy of the header that told of it is left.
   Nothing else is delivered, and the reading is never refused with 8, 10 or 11.
   It comes to ADR_END where the addition began or at an EOD that was written in
   the session; or it is refused with 12, as no end is found, and then what was
   delivered is as good as before ADR_END. How many elements of the session come
   is not promised, not even of those known to be on tape: where the write at the
   old end failed and the old EOD still reads, the reading ends there. So
   record again all that was accepted, or what is missing of it. All this needs
   what a reading after ADR_DONE needs, too: that the session was opened as WRITE
   PASSES and adr_record_open_at_end want it, and that the window was lent each
   time as it was last left.

   What can be done next is told by the newest header. Its update count (bytes
   32,780 to 32,783, the high byte first) is one above that of the header that
   the session was opened on if it is an opening header of the session, and two
   above if a closing one; where there was no header these counts are 0 and 1. So
   note that count before an opening, and before the first WRITE to a user frame
   that it goes out, where a power cut does not reach the notes. Without them
   take it that there was such a WRITE, and add nothing.
     - An opening header: its EOD address (bytes 32 to 35) is 0, and nothing can
       be added. adr_record_open_at_end refuses it, with 13, or with 7 where the
       reading was refused with 12. Read what is to be kept, then record afresh,
       here or on another cartridge.
     - A closing header: EOD and all that was accepted and not given up are on
       tape, and a reading comes to its end. The cartridge may be added to as if
       the session had come to ADR_DONE.
     - The header that the session was opened on, or none where there was none,
       and none of the commands was a WRITE to a user frame: the cartridge is as
       it was but for copies of its header, and may be added to as before.
     - That header though there was such a WRITE, or an older one, or none any
       more: the headers of the session are lost, and its frames may not be. Add
       nothing, and see WRITE PASSES before anything is recorded.
   c/record.c cuts an addition short behind each of its frames and reads it.

   WRITE PASSES. A reading knows the frames of a recording by their write pass:
   that of the header it was opened on, + 1, or 1 without a header. If a user
   frame already bears that pass, the recording may read back wrong, and no call
   notices. None does on a new cartridge, nor on one whose every recording was
   opened on the newest header and left a header of its own pass that reads. So
   the newest header is not enough on a cartridge
     - of which a recording was closed and did not come to ADR_DONE. Closing
       headers replace the opening ones; if all fail (12), or the session is cut
       short there, an older header may be the newest again, a closed one even,
       and the next recording takes the lost one's pass;
     - that was recorded before and has no valid header any more.
   That a reading comes to its end on such a header shows that its recording is
   still there, not that no frame bears the next pass. What helps is a higher
   pass: a recording without elements, opened on the newest header, closed and
   brought to ADR_DONE, raises it by 1. Make as many as it takes for the newest
   header to have the highest pass on the cartridge, which the host has noted
   when it opened recordings, or finds by reading every user frame; or use
   another cartridge. The pass is in bytes 22 and 23 of a header, and in bytes
   32,790 and 32,791 of a user frame, the high byte first.

   What is added keeps the pass of what is there. So it may read back wrong if
   there are frames of that pass above the old end, and again no call notices.
   There are none where the last session on the cartridge came to ADR_DONE and
   met none itself: a recording of a pass that no user frame bore, or an
   addition above whose old end there were none. The same holds where it left a
   closing header and met none. Where it had written to no user frame, what held
   before it still holds (see CUT SHORT). Else add nothing before the cartridge
   has been recorded afresh, as is said here. */
#ifndef ADR_H
#define ADR_H

#include <stddef.h>
#include <stdint.h>

#ifdef __cplusplus
extern "C" {
#endif

/* The version of this header and of the library that it belongs to. */
#define ADR_VERSION "0.1.0"
#define ADR_VERSION_MAJOR 0
#define ADR_VERSION_MINOR 1
#define ADR_VERSION_PATCH 0

/* Lengths in bytes. A frame has as many data bytes as a block, then 512 of AUX. A window
   of W blocks is W times a block. A line of a shelf sheet has 27 characters and a line
   feed. */
#define ADR_BLOCK_LENGTH 32768
#define ADR_AUX_LENGTH 512
#define ADR_FRAME_LENGTH 33280
#define ADR_LINE_LENGTH 28
#define ADR_WINDOW_LENGTH(blocks) ((size_t)(blocks) * ADR_BLOCK_LENGTH)

/* Refusals: the member 'number', 0 where nothing is refused. */
#define ADR_WRONG_LENGTH 1   /* a lent length is wrong */
#define ADR_NO_CARTRIDGE 2   /* a geometry with fewer than 3,001 frames, or no geometry */
#define ADR_BAD_HEADER 3     /* a header is not valid, or two of equal count differ */
#define ADR_BAD_SIZE 4       /* D is not 1 to 255, W not 1 to 64, or T not 0 to 255 */
#define ADR_EXHAUSTED 5      /* the cartridge's passes or update counts are used up */
#define ADR_WINDOW_FULL 6    /* W elements are not yet on tape: fetch and reply first */
#define ADR_WRONG_PHASE 7    /* the call does not fit here, or no session or sheet was given */
#define ADR_BAD_REPLY 8      /* the drive's reply is unlawful for its command */
#define ADR_TAPE_FULL 9      /* no room is left on tape; close may be (see THE TAIL) */
#define ADR_MISSING 10       /* an element is missing on tape */
#define ADR_FOREIGN 11       /* a frame was not written in this format */
#define ADR_NOT_FOUND 12     /* no header copy could be written; no end was found */
#define ADR_END_ELSEWHERE 13 /* the header does not name the end at which the reading is */

/* Answers of fetches, of a reading's replies and of a sheet's calls: the member
   'answer'. */
#define ADR_REFUSED 0  /* 'number' says why */
#define ADR_COMMAND 1  /* send 'command' to the drive and bring its reply */
#define ADR_IDLE 2     /* nothing to do: accept an element, or close */
#define ADR_DONE 3     /* the recording is closed, and whole but for what was given up */
#define ADR_END 4      /* everything was read */
#define ADR_NOTHING 5  /* the reply delivers nothing, or nothing is to be printed */
#define ADR_BLOCK 6    /* the first 32,768 bytes of the lent frame are the next block */
#define ADR_FILEMARK 7 /* the next element is a filemark */
#define ADR_LINE 8     /* the lent line is to be printed */

/* Commands, by operation code. */
#define ADR_READ 0x08          /* read the frame where the drive stands */
#define ADR_WRITE 0x0A         /* take the frame of adr_record_fetch, all of it */
#define ADR_LOCATE 0x2B        /* go to the address and forget what is buffered */
#define ADR_READ_POSITION 0x34 /* tell how many frames are still buffered */

/* Load points. */
#define ADR_BEGINNING 0
#define ADR_CENTRE 1

/* The size of a cartridge, as the drive tells it. */
struct adr_geometry {
    uint32_t segtrk; /* frames on a track, at most 65,535 */
    uint32_t trks;   /* tracks, at most 65,535 */
    uint32_t load;   /* ADR_BEGINNING or ADR_CENTRE */
};

/* The drive's reply to a command: its sense triple as the drive gave it, and
   the numbers that belong to it. Other numbers are not looked at. A write
   error's skip above 255 is refused with 8.

       every command
         00/00/00  good; on READ POSITION with 'buffered', on READ with a frame
         02/04/01, 02/04/08  busy: the same command comes again
       WRITE and READ POSITION
         03/0C/00  write error, with 'position' and 'skip'
       WRITE, but not of a header
         0D/00/02  not executed: the tape ends before this address
       READ
         01/17/01  a frame read after a correction
         03/11/00  this address can't be read
         08/00/05  nothing readable on the next 32 addresses
         00/00/02  nothing readable from here on: refused with 12

   Any other triple, and one that is not listed for its command, is refused
   with 8. A frame is outstanding from the WRITE answered good until it is known
   to be on tape: a 'buffered' above the number of those and a 'position' that
   is not the address of one are refused with 8. */
struct adr_reply {
    uint32_t buffered; /* frames still buffered */
    uint32_t position; /* the address of the failed frame */
    uint32_t skip;     /* the skip that the drive advises, 0 to 255 */
    uint8_t key;
    uint8_t asc;
    uint8_t ascq;
};

/* An address, or 0 and the refusal. */
struct adr_place {
    uint32_t address;
    uint8_t number;
};

/* Which of two headers is the newer: 1 the first, 2 the second, 0 refused. */
struct adr_choice {
    uint8_t which;
    uint8_t number;
};

/* A command. The address is 0 for READ POSITION. READ and WRITE name the
   address at which the drive stands; it is not part of what the drive is
   sent. */
struct adr_command {
    uint8_t code;
    uint32_t address;
};

/* The structs from here to adr_reading are what sessions consist of. Their
   members are named for debuggers; a host sets none of them, and needs
   elements.first of a recording alone, where elements were given up (see THE
   TAIL above). Flags are 0 or 1. */
struct adr_exchange {
    struct adr_command command; /* the command last given; nothing before the first */
    uint8_t awaiting;           /* its reply is awaited */
    uint8_t again;              /* it was answered busy and comes again */
};

struct adr_setup {
    uint8_t depth;   /* D */
    uint8_t highest; /* W - 1 */
    uint8_t tail;    /* T */
};

struct adr_header {
    uint32_t last;   /* LAST */
    uint32_t eod;    /* the address of EOD, 0 for none */
    uint32_t old;    /* of an opening header: the old end that is added at, 0 for none */
    uint32_t update; /* update count */
    uint16_t pass;   /* write pass */
};

struct adr_copies {
    struct adr_header header; /* what the copies say */
    uint8_t group;            /* the group of the next copy, 0 or 1 */
    uint8_t copy;             /* its number in the group; 5 behind the last */
    uint8_t outstanding;      /* of this group: taken by the drive and not confirmed */
    uint8_t confirmed;        /* of both groups: known on tape */
    uint8_t locate;           /* a LOCATE of the next copy's address comes first */
};

/* Filemarks: in a recording those before the element 'first', in a reading
   those delivered. */
struct adr_trail {
    uint32_t filemarks; /* how many */
    uint32_t marker;    /* the address of the latest, FFFFFFFF where there is none */
};

struct adr_elements {
    uint32_t first;  /* number of the oldest element not known on tape */
    uint32_t next;   /* where the next frame goes, unless a LOCATE comes first */
    uint32_t limit;  /* one past the highest address that EOD may have */
    uint32_t target; /* the address of the LOCATE that 'locate' asks for */
    struct adr_trail trail;
    uint16_t pending;     /* accepted, or EOD, and not known on tape */
    uint16_t outstanding; /* of these: taken by the drive */
    uint8_t locate;       /* a LOCATE of 'target' comes first */
    uint8_t eod;          /* EOD became due */
    uint8_t marks[64];    /* at i % 64: the pending element i is a filemark */
};

/* A recording session. */
struct adr_recording {
    struct adr_setup setup;
    uint8_t stage;  /* 0 opening headers, 1 elements, 2 closing headers, 3 done */
    uint8_t closed; /* adr_record_close was called */
    uint8_t ended;  /* by a refusal of 8 or more, or by a refused opening */
    uint8_t spent;  /* and that was 9 for an element, with a tail: close is left */
    struct adr_exchange exchange;
    struct adr_copies copies;
    struct adr_elements elements;
};

/* What the header of a reading says; as in adr_header. */
struct adr_told {
    uint32_t last;
    uint32_t eod;
    uint32_t old;
    uint32_t update;
    uint16_t pass;
};

struct adr_position {
    uint32_t next;  /* the address read next, unless a LOCATE comes first */
    uint8_t locate; /* a LOCATE of 'next' comes first */
};

/* A reading session. */
struct adr_reading {
    struct adr_told told;
    struct adr_position position;
    uint32_t expected; /* number of the next element */
    struct adr_trail trail;
    struct adr_exchange exchange;
    uint8_t finished; /* EOD was read */
    uint8_t ended;    /* by a refusal of 8 or more, or by a refused opening */
};

/* A shelf sheet. A host sets none of its members. */
struct adr_sheet {
    uint64_t first; /* number of the open job's first element */
    uint64_t next;  /* the number that comes next, up to 4,294,967,296 */
    uint32_t job;   /* the open job, from 1 */
    uint8_t ended;  /* by EOD, by asterisks or by a refused opening; 0 or 1 */
};

/* What the calls return: the session after the call, and what is answered. */
struct adr_record_outcome {
    struct adr_recording session;
    uint8_t number;
};

struct adr_record_fetched {
    struct adr_recording session;
    struct adr_command command; /* zeros unless the answer is ADR_COMMAND */
    uint8_t answer;             /* ADR_COMMAND, ADR_IDLE, ADR_DONE or ADR_REFUSED */
    uint8_t number;
};

struct adr_read_opened {
    struct adr_reading session;
    uint8_t number;
};

struct adr_read_fetched {
    struct adr_reading session;
    struct adr_command command; /* zeros unless the answer is ADR_COMMAND */
    uint8_t answer;             /* ADR_COMMAND, ADR_END or ADR_REFUSED */
    uint8_t number;
};

struct adr_read_replied {
    struct adr_reading session;
    uint8_t answer; /* ADR_NOTHING, ADR_BLOCK, ADR_FILEMARK, ADR_END or ADR_REFUSED */
    uint8_t number;
};

/* The name that this struct had before, for programs that use it. */
#define adr_read_taken adr_read_replied

struct adr_sheet_entered {
    struct adr_sheet sheet;
    uint8_t answer; /* ADR_LINE, ADR_NOTHING or ADR_REFUSED */
    uint8_t number;
};

/* THE CARTRIDGE */

/* The frames on tape; 0 for numbers that are no geometry. */
uint32_t adr_frames(struct adr_geometry g);

/* LAST, the highest address, frames - 1. Refused with 2. */
struct adr_place adr_last(struct adr_geometry g);

/* 1 where 'address' is one that elements are recorded at, on a cartridge with
   this LAST: 10 to 2,989 and 3,000 to LAST. Else 0. */
uint8_t adr_is_user(uint32_t last, uint32_t address);

/* The address of a header copy, 0 to 4, of a group, 0 or 1. Copies count
   modulo 5, groups modulo 2. */
uint32_t adr_header_address(uint32_t group, uint32_t copy);

/* The newer of two header frames, each of ADR_FRAME_LENGTH bytes. If one is
   not valid the other is the newer; of equal ones the first is. A header
   given twice is refused with 3 only if it is not valid. Refused with 1, 2,
   or 3 where neither is valid or both have the same update count and unlike
   data.

   The newest header of a cartridge is found by reading all ten copies. For
   each address that adr_header_address gives, send LOCATE and then READ, each
   again while its reply is busy. 00/00/00 and 01/17/01 bring a frame, and
   03/11/00, 08/00/05 and 00/00/02 none; on any other reply give up, for a copy
   that is left out may be the newest, and the write pass of the next recording
   would then be one that is on tape already. Choose pairwise among the valid
   frames. Two that are refused with 3 leave it undecided: give up unless a
   later copy is newer than both. If no copy is valid, record with
   adr_record_open_blank (on a cartridge that was recorded before see WRITE
   PASSES above). */
struct adr_choice adr_choose(struct adr_geometry g,
                             const uint8_t *first, size_t first_length,
                             const uint8_t *second, size_t second_length);

/* A RECORDING */

/* Opens a recording on a cartridge whose newest header is 'header',
   ADR_FRAME_LENGTH bytes. 'depth' is D, the frames that the drive buffers, 1
   to 255; 'blocks' is W, the blocks of the window, 1 to 64; 'tail' is T, the
   frames at the end that elements don't go to, 0 to 255. Refused with 1 to 5;
   the session returned is then an ended one. What was on the cartridge is
   replaced: elements go to address 10 and on (adr_record_open_at_end adds to
   it). The write pass is the header's + 1; a recording reads back as accepted
   if no user frame on the cartridge bears that pass, so always give the newest
   header (and see WRITE PASSES above). */
struct adr_record_outcome adr_record_open(struct adr_geometry g, uint32_t depth, uint32_t blocks,
                                          uint32_t tail, const uint8_t *header,
                                          size_t header_length);

/* The same on a cartridge without a valid header, with write pass 1. Refused
   with 2 or 4. */
struct adr_record_outcome adr_record_open_blank(struct adr_geometry g, uint32_t depth,
                                                uint32_t blocks, uint32_t tail);

/* Opens a recording that adds to what a cartridge holds, at the end that
   'reading' found: a reading session that has answered ADR_END. It is taken by
   value and not used up. 'depth' is D, 'blocks' is W and 'tail' is T, of this
   session alone. Refused, in this order, with
     7   if the reading is not at its end: EOD was not read, or it was refused
         with 8 or more, or it awaits a reply or has a busy command to give
         again. So are numbers that stand for no session;
     4   if D is not 1 to 255, W is not 1 to 64, or T is not 0 to 255;
     5   if the update count is above 4,294,967,293. Any pass will do;
     13  unless the reading ended at the EOD address of its header, which is 0
         where a recording was not closed.
   The session returned is then an ended one.

   The recording goes on as any other, with block, filemark, close, fetch and
   reply. Its headers keep the pass, and the opening ones, whose EOD address is
   0, name the old end in AUX 224 to 227. Its first element, or EOD if there is
   none, goes to the address of the old EOD. Numbers, filemarks before a frame
   and the latest marker's address go on from what the reading delivered; so
   element i, at block i modulo W of the window, counts from the first on the
   cartridge. Where elements of the last session were given up, that is what was
   read and not what was known on tape: the numbers go on behind the last
   delivery. After ADR_DONE a reading delivers what was there, then what was
   added, but for what was given up of it (see THE TAIL). Where the old EOD could
   not be overwritten it may still read: a reading passes over an EOD below the
   address that its header gives for EOD or, where that is 0, for the old end. (A
   program that knows of no additions may end there.)

   This needs what no call can check:
     - The cartridge is the one that was read and has not changed since, and its
       newest header was the one to read on.
     - There are no frames of the pass above the old end. There are none if the
       last session on the cartridge came to ADR_DONE and met none itself (see
       WRITE PASSES above, and CUT SHORT for one that did not): add to no other. A
       left-over frame that still reads behind a write error may be read as one of
       the addition's, or make its reading be refused with 10.
   After a session that was cut short the newest header has, as a rule, EOD
   address 0. Every addition is then refused with 13, or with 7 where the
   reading finds no end, and the cartridge can only be recorded afresh; read
   first what is to be kept. But it may be that an older header is the newest
   again (see WRITE PASSES above), and then nothing is refused: the host has to
   know how the last session ended.

   Filemarks alone tell jobs apart. Where the last element is a block, the next
   blocks added continue its job, so end each job with a filemark. */
struct adr_record_outcome adr_record_open_at_end(struct adr_reading reading, uint32_t depth,
                                                 uint32_t blocks, uint32_t tail);

/* Accepts a block, ADR_BLOCK_LENGTH bytes, which is copied to its place in the
   window, ADR_WINDOW_LENGTH(W) bytes. The window is lent to every
   adr_record_block and adr_record_fetch of the session, as the last
   adr_record_block left it. May also be called while a reply is awaited.
   Refused with 7 (after close), 1 or 6. */
struct adr_record_outcome adr_record_block(struct adr_recording s,
                                           const uint8_t *block, size_t block_length,
                                           uint8_t *window, size_t window_length);

/* Accepts a filemark. Refused with 7 or 6. */
struct adr_record_outcome adr_record_filemark(struct adr_recording s);

/* Asks for the recording to be ended. It is whole when adr_record_fetch
   answers ADR_DONE, and not before. After 9 for an element, where T is above 0,
   it is accepted once more and gives up the elements that are not known to be
   on tape (see THE TAIL above). Refused with 7. */
struct adr_record_outcome adr_record_close(struct adr_recording s);

/* The next command. The window is lent at every fetch, also before the first
   block, when its bytes mean nothing. A WRITE fills the lent frame,
   ADR_FRAME_LENGTH bytes; no other answer writes to it. After ADR_COMMAND a
   reply is awaited; after ADR_IDLE and ADR_DONE none is. Refused with 7 (a
   reply is awaited), 1 or 9. */
struct adr_record_fetched adr_record_fetch(struct adr_recording s,
                                           const uint8_t *window, size_t window_length,
                                           uint8_t *frame, size_t frame_length);

/* Brings the drive's reply to the command fetched. Refused with 7 (none is
   awaited), 8, 9 or 12. */
struct adr_record_outcome adr_record_reply(struct adr_recording s, struct adr_reply reply);

/* FRAMES SENT

   For planning: the most frames that the drive takes in one session, however
   bad the cartridge is. A frame is taken where its WRITE is answered good, so
   this is what is sent, and it exceeds what ends on tape by what write errors
   make the layer send again. An error is each 03/0C/00, the answer to a WRITE or
   a READ POSITION; it is met by whatever was to go to its 'position'. Frames and
   errors of headers (adr_header_address gives their addresses) are counted apart
   from those of elements and EOD.

   Before a session the two calls tell what to reckon with, for as many errors as
   are feared. In a session, and behind it, the host's counts, of elements accepted
   and of errors met in it so far, give the bound of the frames sent so far.
   Elements that were given up (see THE TAIL) stay counted. An addition is a
   session of its own: what was there before does not count. 'depth' is D and
   'blocks' is W, as at the opening; T changes nothing. Any numbers may be given:
   no sum is too large for what is returned. c/record.c counts its frames so. */

/* Elements and EOD: elements + 1 + errors * m, m the smaller of D and W. With m
   or more elements, and enough tape, there are replies that make it just so
   many; an addition less than m addresses before 2,990 may not come to it. */
uint64_t adr_frames_sent_at_most(uint32_t elements, uint32_t errors, uint32_t depth,
                                 uint32_t blocks);

/* Headers: 20, ten copies at the opening and ten at the close, and errors *
   (k - 1), k the smaller of D and 5. A copy that failed is not sent again, and
   those behind it that the drive held are. With D 0 it is 20. */
uint64_t adr_header_frames_sent_at_most(uint32_t errors, uint32_t depth);

/* A READING */

/* Opens a reading of a cartridge whose newest header is 'header',
   ADR_FRAME_LENGTH bytes. Refused with 1 to 3; the session returned is then an
   ended one. */
struct adr_read_opened adr_read_open(struct adr_geometry g,
                                     const uint8_t *header, size_t header_length);

/* The next command, or ADR_END once everything was read. Refused with 7 (a
   reply is awaited) or 12. */
struct adr_read_fetched adr_read_fetch(struct adr_reading s);

/* Brings the drive's reply to the command fetched, and the frame read,
   ADR_FRAME_LENGTH bytes. A reply that brings no frame is lent a buffer of
   that length all the same, whose bytes are not looked at. Refused with 7
   (none is awaited), 1, 8, 10, 11 or 12. */
struct adr_read_replied adr_read_reply(struct adr_reading s, struct adr_reply reply,
                                       const uint8_t *frame, size_t frame_length);

/* A SHELF SHEET */

/* A new sheet. Its header line is to be printed: 'line', ADR_LINE_LENGTH bytes.
   Refused with 1; the sheet returned is then an ended one. */
struct adr_sheet_entered adr_sheet_open(uint8_t *line, size_t line_length);

/* Enters the AUX field, ADR_AUX_LENGTH bytes, of the next frame that a reading
   delivers, or of EOD. A filemark closes the open job, and EOD does if the job has
   blocks: its line is to be printed. Of the field only the type (bytes 16 and 17:
   80 00 data, 02 00 marker, 01 00 EOD) and the number (44 to 47, the high byte
   first) are looked at. The number has to be the next, from 0 on; EOD's may be one
   below it, as where elements were given up (see THE TAIL above). Any other field
   ends the sheet with a line of asterisks, which also comes in place of the line of
   job 100,000. Once the sheet has ended, fields print nothing. Refused with 7, for
   numbers that stand for no sheet, or 1. */
struct adr_sheet_entered adr_sheet_enter(struct adr_sheet s,
                                         const uint8_t *aux, size_t aux_length,
                                         uint8_t *line, size_t line_length);

/* No further field comes: a line of asterisks unless the sheet has ended. Blocks
   that neither a filemark nor EOD followed have no line. Refused with 7 or 1. */
struct adr_sheet_entered adr_sheet_finish(struct adr_sheet s, uint8_t *line, size_t line_length);

/* IN WORDS. Constant strings, for messages and logs. */

/* What a refusal means and what to do about it, without a full stop. */
static inline const char *adr_refusal_text(uint8_t number)
{
    switch (number) {
    case 0:
        return "nothing was refused";
    case ADR_WRONG_LENGTH:
        return "a buffer has the wrong length: lend 32,768 bytes for a block, "
               "33,280 for a frame or header, 32,768 for each block of the window";
    case ADR_NO_CARTRIDGE:
        return "the geometry is no cartridge's, or has fewer than 3,001 frames: "
               "check frames per track, tracks and load point";
    case ADR_BAD_HEADER:
        return "the header is not valid, or two headers of the same age differ: "
               "read the ten copies again, or use another cartridge";
    case ADR_BAD_SIZE:
        return "give 1 to 255 frames for the drive's buffer and 1 to 64 blocks for the window";
    case ADR_EXHAUSTED:
        return "the cartridge was recorded as often as its format can count: use another";
    case ADR_WINDOW_FULL:
        return "the window is full: fetch and reply until an element is on tape, then try again";
    case ADR_WRONG_PHASE:
        return "the call does not fit here: bring a reply once after each command, "
               "accept nothing after close, and open anew after a session has ended";
    case ADR_BAD_REPLY:
        return "the drive's reply is unlawful for its command: check the transport and the drive";
    case ADR_TAPE_FULL:
        return "the tape is full: record on another cartridge";
    case ADR_MISSING:
        return "an element is missing on tape: "
               "what was delivered so far is whole, the rest is not";
    case ADR_FOREIGN:
        return "a frame on tape was not written in this format: "
               "what was delivered so far is whole, the rest is not";
    case ADR_NOT_FOUND:
        return "no header copy could be written, or no end of data was found: "
               "clean the drive and read again, or record on another cartridge";
    case ADR_END_ELSEWHERE:
        return "the header does not name the end that was read to, as after a recording "
               "that was not closed: read again on the newest header, "
               "or record on another cartridge";
    default:
        return "no refusal has this number";
    }
}

/* The name of an answer. */
static inline const char *adr_answer_name(uint8_t answer)
{
    switch (answer) {
    case ADR_REFUSED: return "refused";
    case ADR_COMMAND: return "command";
    case ADR_IDLE: return "idle";
    case ADR_DONE: return "done";
    case ADR_END: return "end";
    case ADR_NOTHING: return "nothing";
    case ADR_BLOCK: return "block";
    case ADR_FILEMARK: return "filemark";
    case ADR_LINE: return "line";
    default: return "unknown answer";
    }
}

/* The name of a command, by its operation code. */
static inline const char *adr_command_name(uint8_t code)
{
    switch (code) {
    case ADR_READ: return "READ";
    case ADR_WRITE: return "WRITE";
    case ADR_LOCATE: return "LOCATE";
    case ADR_READ_POSITION: return "READ POSITION";
    default: return "unknown command";
    }
}

/* The layout that the library was compiled for. */
#ifdef __cplusplus
#define ADR_ASSERT(truth, text) static_assert(truth, text)
#else
#define ADR_ASSERT(truth, text) _Static_assert(truth, text)
#endif
#define ADR_SIZE(type, size) ADR_ASSERT(sizeof(struct type) == (size), #type)
#define ADR_OFFSET(type, member, offset) \
    ADR_ASSERT(offsetof(struct type, member) == (offset), #type "." #member)

ADR_SIZE(adr_geometry, 12);
ADR_OFFSET(adr_geometry, segtrk, 0);
ADR_OFFSET(adr_geometry, trks, 4);
ADR_OFFSET(adr_geometry, load, 8);

ADR_SIZE(adr_reply, 16);
ADR_OFFSET(adr_reply, buffered, 0);
ADR_OFFSET(adr_reply, position, 4);
ADR_OFFSET(adr_reply, skip, 8);
ADR_OFFSET(adr_reply, key, 12);
ADR_OFFSET(adr_reply, asc, 13);
ADR_OFFSET(adr_reply, ascq, 14);

ADR_SIZE(adr_place, 8);
ADR_OFFSET(adr_place, address, 0);
ADR_OFFSET(adr_place, number, 4);

ADR_SIZE(adr_choice, 2);
ADR_OFFSET(adr_choice, which, 0);
ADR_OFFSET(adr_choice, number, 1);

ADR_SIZE(adr_command, 8);
ADR_OFFSET(adr_command, code, 0);
ADR_OFFSET(adr_command, address, 4);

ADR_SIZE(adr_exchange, 12);
ADR_OFFSET(adr_exchange, command, 0);
ADR_OFFSET(adr_exchange, awaiting, 8);
ADR_OFFSET(adr_exchange, again, 9);

ADR_SIZE(adr_setup, 3);
ADR_OFFSET(adr_setup, depth, 0);
ADR_OFFSET(adr_setup, highest, 1);
ADR_OFFSET(adr_setup, tail, 2);

ADR_SIZE(adr_header, 20);
ADR_OFFSET(adr_header, last, 0);
ADR_OFFSET(adr_header, eod, 4);
ADR_OFFSET(adr_header, old, 8);
ADR_OFFSET(adr_header, update, 12);
ADR_OFFSET(adr_header, pass, 16);

ADR_SIZE(adr_copies, 28);
ADR_OFFSET(adr_copies, header, 0);
ADR_OFFSET(adr_copies, group, 20);
ADR_OFFSET(adr_copies, copy, 21);
ADR_OFFSET(adr_copies, outstanding, 22);
ADR_OFFSET(adr_copies, confirmed, 23);
ADR_OFFSET(adr_copies, locate, 24);

ADR_SIZE(adr_trail, 8);
ADR_OFFSET(adr_trail, filemarks, 0);
ADR_OFFSET(adr_trail, marker, 4);

ADR_SIZE(adr_elements, 96);
ADR_OFFSET(adr_elements, first, 0);
ADR_OFFSET(adr_elements, next, 4);
ADR_OFFSET(adr_elements, limit, 8);
ADR_OFFSET(adr_elements, target, 12);
ADR_OFFSET(adr_elements, trail, 16);
ADR_OFFSET(adr_elements, pending, 24);
ADR_OFFSET(adr_elements, outstanding, 26);
ADR_OFFSET(adr_elements, locate, 28);
ADR_OFFSET(adr_elements, eod, 29);
ADR_OFFSET(adr_elements, marks, 30);

ADR_SIZE(adr_recording, 144);
ADR_OFFSET(adr_recording, setup, 0);
ADR_OFFSET(adr_recording, stage, 3);
ADR_OFFSET(adr_recording, closed, 4);
ADR_OFFSET(adr_recording, ended, 5);
ADR_OFFSET(adr_recording, spent, 6);
ADR_OFFSET(adr_recording, exchange, 8);
ADR_OFFSET(adr_recording, copies, 20);
ADR_OFFSET(adr_recording, elements, 48);

ADR_SIZE(adr_told, 20);
ADR_OFFSET(adr_told, last, 0);
ADR_OFFSET(adr_told, eod, 4);
ADR_OFFSET(adr_told, old, 8);
ADR_OFFSET(adr_told, update, 12);
ADR_OFFSET(adr_told, pass, 16);

ADR_SIZE(adr_position, 8);
ADR_OFFSET(adr_position, next, 0);
ADR_OFFSET(adr_position, locate, 4);

ADR_SIZE(adr_reading, 56);
ADR_OFFSET(adr_reading, told, 0);
ADR_OFFSET(adr_reading, position, 20);
ADR_OFFSET(adr_reading, expected, 28);
ADR_OFFSET(adr_reading, trail, 32);
ADR_OFFSET(adr_reading, exchange, 40);
ADR_OFFSET(adr_reading, finished, 52);
ADR_OFFSET(adr_reading, ended, 53);

ADR_SIZE(adr_sheet, 24);
ADR_OFFSET(adr_sheet, first, 0);
ADR_OFFSET(adr_sheet, next, 8);
ADR_OFFSET(adr_sheet, job, 16);
ADR_OFFSET(adr_sheet, ended, 20);

ADR_SIZE(adr_record_outcome, 148);
ADR_OFFSET(adr_record_outcome, session, 0);
ADR_OFFSET(adr_record_outcome, number, 144);

ADR_SIZE(adr_record_fetched, 156);
ADR_OFFSET(adr_record_fetched, session, 0);
ADR_OFFSET(adr_record_fetched, command, 144);
ADR_OFFSET(adr_record_fetched, answer, 152);
ADR_OFFSET(adr_record_fetched, number, 153);

ADR_SIZE(adr_read_opened, 60);
ADR_OFFSET(adr_read_opened, session, 0);
ADR_OFFSET(adr_read_opened, number, 56);

ADR_SIZE(adr_read_fetched, 68);
ADR_OFFSET(adr_read_fetched, session, 0);
ADR_OFFSET(adr_read_fetched, command, 56);
ADR_OFFSET(adr_read_fetched, answer, 64);
ADR_OFFSET(adr_read_fetched, number, 65);

ADR_SIZE(adr_read_replied, 60);
ADR_OFFSET(adr_read_replied, session, 0);
ADR_OFFSET(adr_read_replied, answer, 56);
ADR_OFFSET(adr_read_replied, number, 57);

ADR_SIZE(adr_sheet_entered, 32);
ADR_OFFSET(adr_sheet_entered, sheet, 0);
ADR_OFFSET(adr_sheet_entered, answer, 24);
ADR_OFFSET(adr_sheet_entered, number, 25);

#undef ADR_OFFSET
#undef ADR_SIZE
#undef ADR_ASSERT

#ifdef __cplusplus
}
#endif

#endif
