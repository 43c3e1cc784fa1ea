//! What `--help` prints.

/// The help of the whole tool.
pub const WHOLE: &str = "\
usage: adr COMMAND [OPTION...] IMAGE [OPERAND...]

Records files on ADR cartridges and reads them back. A cartridge is an image
file in a simulated drive; what goes to the drive and what comes back passes
through the layer that an archive program links.

commands:
  format   make an image of an empty cartridge
  record   record files, each as a job
  list     list the jobs
  restore  write jobs back to files or standard output
  check    read everything and verify it
  salvage  restore what can still be had of a damaged cartridge
  map      show the cartridge as a picture
  plan     tell the most frames that a recording sends, and the time for them
  sheet    print the shelf sheet: a line for each job
  dump     write the AUX fields that a shelf sheet is made from
  demo     record on a faulty drive, read back, compare and show the map

  adr COMMAND --help tells more about a command, adr --version the version.

examples:
  adr format parts.adr
  tar c parts | adr record parts.adr -
  adr record --append parts.adr more.tar
  adr restore parts.adr 1 | tar x

exit status: 0 done, 1 failed, 2 wrong command line
";

/// The help of `format`.
pub const FORMAT: &str = "\
usage: adr format [OPTION...] IMAGE

Makes an image of an empty cartridge. The file takes room only for what is
recorded, whatever the size of the cartridge. An image that exists is not
replaced without --overwrite, any other file never unless it is empty. What is
replaced keeps its mode.

  --segtrk N    frames per track (19239)
  --trks N      tracks (24)
  --centre      a cartridge loaded at its centre, not at its beginning
  --overwrite   replace an image, and all it holds
";

/// The help of `record`.
pub const RECORD: &str = "\
usage: adr record [OPTION...] IMAGE FILE...

Records files, each as a job under its name without directories; '-' is
standard input. A recording starts at the beginning of the cartridge: one that
holds jobs is not recorded without --overwrite, which replaces all of them, or
--append, which adds to them.

The old content stays in force until the new is whole, or closed on a full tape:
after a power cut, on a full disk or when this is interrupted, the image holds
what it held before. Room in the file that the cartridge does not need is then
given back.

With --append the cartridge is read to its end, and the files are recorded
behind its jobs, with the numbers that follow. It is refused, and nothing is
changed, where there is no recording, where the last one was not closed, where
a reading does not come to the end that the header names, and where there is no
room. A last job without a filemark, which another program or a full tape
leaves, gets one first.

A tape that is full before all is recorded is closed behind what it could take,
and that is in force. Told are the jobs that are whole on it, how far the next
one got, and which files are not on it; standard output has two commands that
make another cartridge and record the rest there, the job that was cut off from
its beginning. A job that had a whole tape and found no room is not among the
rest: it needs a larger cartridge. The exit status is then 1. With --tail 0,
where the end of data finds no place either, and with --overwrite where no new
job is whole, nothing is recorded instead.

At the end standard error tells the frames that were sent and the write errors
that they met, with the most frames that so many elements and errors can take;
those of headers apart. What was given up on a full tape counts. 'adr plan'
tells the most beforehand.

Files that cannot fit are told before anything is written. A file that changes
while it is recorded is told, and the exit status is then 1: the recording is
in force, its other jobs are whole. Names that come again are told.

--cut-after N is for trying out what a power cut leaves: N frames of this
session reach the tape, header copies among them, and then the drive is silent.
Unlike after a power cut of this computer, the image then holds what the tape
holds: with --overwrite the jobs that were there are lost, and with --append
nothing can be added behind them any more, as a rule. The exit status is 1. A
session that is done with fewer frames is not cut, and that is told.

  --append        record behind the jobs on the cartridge
  --overwrite     replace the jobs on the cartridge
  --allow-empty   record standard input or a pipe even if there is nothing to
                  read, which otherwise is an error, and nothing is replaced
  --name NAME     the name of the job from standard input (stdin); it is that
                  of a file, without directories
  --faults SEED   let the drive have faults, picked by this number
  --cut-after N   let the drive's mains go behind N frames of this session
  --depth N       frames that the drive buffers, 1 to 255 (32)
  --window N      blocks that may wait for the drive, 1 to 64 (64)
  --tail N        frames at the end of the tape that are kept for the end of
                  data, 0 to 255 (8)
  --quiet         no progress and no summary on a terminal, and nothing about
                  capacity and frames sent
";

/// The help of `list`.
pub const LIST: &str = "\
usage: adr list [OPTION...] IMAGE

Lists the jobs: number, bytes, when the file was last changed (UTC), name. A
job whose file shrank or grew while it was recorded is marked. Standard error
tells the capacity and what is free; bad spots make both less. A new recording
has all of the capacity, for it replaces the jobs; --append has what is free.
A job that a full tape cut off is marked too, and the exit status is then 1.
So it is where the last session was not closed, as after a power cut: told are
what stood before it, what stands of it, and what can be done.

A tape has no directory: the whole recording is read, to the end of data. A
drive would take 8 minutes for each GB, 2 hours for a full cartridge of 15 GB,
at the 2,097,000 bytes a second that these drives sustain at most (Maximum
Speed Supported in ADR Commands and Logical Tape Format 1.3, 4.3.2.4).

  --checksums     the SHA-256 of each job too, as sha256sum prints it
  --faults SEED   let the drive have faults, picked by this number
  --quiet         no progress on a terminal, and nothing about capacity
";

/// The help of `restore`.
pub const RESTORE: &str = "\
usage: adr restore [OPTION...] IMAGE JOB...
       adr restore [OPTION...] --into DIRECTORY IMAGE [JOB...]

Writes jobs to standard output, one behind the other in the order of the tape,
or to files, with the time when they were last changed. A JOB is a number or a
name. A word of digits is a number, never a name; a name stands for the first
job that has it, and others are told. Reading ends behind the last job asked
for, but a name is looked for to the end of data.

A file gets its name when it is whole; on standard output only the exit status
tells. What cannot be restored is told and passed over, and the exit status is
then 1: jobs that are not there, jobs of another program and, with --into,
files that exist, jobs that are not whole and jobs with the name of an earlier
one. Files get the mode that was recorded, under the umask. A job whose file
shrank or grew while it was recorded is restored and told; the exit status is
then 1 too. So it is where a reading comes to the end of a session that was not
closed, as after a power cut: what is whole is restored, the rest is told.

  --into DIRECTORY        write the jobs, or all jobs, under their own names;
                          a name that leads out of the directory is refused
  -o, --output FILE       write one job to this file; '-' is standard output
  --overwrite             replace files that exist
  --faults SEED           let the drive have faults, picked by this number
  --quiet                 no progress on a terminal
";

/// The help of `check`.
pub const CHECK: &str = "\
usage: adr check [OPTION...] IMAGE

Reads every job and every frame and verifies their checksums. The exit status
is 1 if anything is wrong, also if a file shrank or grew while it was recorded
or the last session was not closed; the image is never changed.

  --faults SEED   let the drive have faults, picked by this number
  --quiet         no progress on a terminal
";

/// The help of `salvage`.
pub const SALVAGE: &str = "\
usage: adr salvage [OPTION...] --into DIRECTORY IMAGE

Restores the jobs of a damaged cartridge that are whole. 'adr restore' stops
where an element is missing, for the layer tells so; this reads every frame by
itself, puts the elements of the newest recording together by their numbers,
and restores each job whose blocks are all there and whose checksum holds. An
image whose index is damaged or that is cut off is salvaged too. What is
missing is told job by job, and the exit status is then 1. The image is never
changed.

This is outside what is proved: it does not pass through the layer, and only a
job's own checksum tells that it is what was recorded.

  --into DIRECTORY   write the jobs under their own names; a name that leads
                     out of the directory is refused, and a later job of the
                     same name gets its number behind it, as 'parts.tar.job-3'
  --overwrite        replace files that exist
  --quiet            no progress on a terminal
";

/// The help of `map`.
pub const MAP: &str = "\
usage: adr map [OPTION...] IMAGE

Shows what stands where on the cartridge: copies of the header, blocks,
filemarks, the end of data, bad spots, damaged frames, frames that are passed
over, and what is unused. The checksum of every frame is tested. If one is
damaged, a reading would stop or the last session was not closed, the exit
status is 1 after the map was shown.

  --svg FILE    write a picture to this file instead, which gets its name when
                it is whole; '-' is standard output
  --overwrite   replace a file that exists, never an image or a link
  --quiet       no progress on a terminal
";

/// The help of `plan`.
pub const PLAN: &str = "\
usage: adr plan --blocks N --errors N [OPTION...]

Tells the most frames that one recording sends to the drive, fresh or with
--append, however bad the cartridge is, and the time to write them. Each block,
each filemark and the end of data is sent once, and at each write error up to
as many frames again as the smaller of the drive's buffer and the window holds.
Frames of headers are told apart, as if none of them failed; an error there
takes at most 4 more.
'adr record' tells at its end what was sent, and the errors.

The time is that of writing alone, a minute begun counted as one: busy times,
LOCATEs and what --append reads first come on top. 2,097,000 bytes a second is
the most that the drives sustain; a frame is 33,280 bytes.

A job takes a block for each 32 KiB begun, two blocks more, and a filemark.

  --blocks N      blocks to be recorded
  --errors N      write errors to allow for, of blocks, filemarks and the end of
                  data
  --filemarks N   filemarks to be recorded, one for each job (1)
  --depth N       frames that the drive buffers, 1 to 255 (32)
  --window N      blocks that may wait for the drive, 1 to 64 (64)
  --rate N        the drive's rate, in units of 1,000 bytes a second (2097)
";

/// The help of `sheet`.
pub const SHEET: &str = "\
usage: adr sheet [OPTION...] IMAGE

Prints a list of the jobs, for the cartridge's box: under JOB their numbers,
under FIRST the number of the element that each begins with, under BLOCKS how
many blocks it has. Elements are blocks and filemarks, counted from 0; a job
ends with a filemark, whichever program recorded it. The two blocks around a
file's bytes count.

A line of 27 asterisks ends a sheet that may lack jobs: the reading stopped
before the end of data, there is no recording, or there are more than 99,999
jobs. Standard error tells which, and the exit status is then 1. It is 1
as well where the last session was not closed, as after a power cut.

The sheet is the one that 'adr dump IMAGE | shelf_sheet' prints.

  --faults SEED   let the drive have faults, picked by this number
  --quiet         no progress on a terminal
";

/// The help of `dump`.
pub const DUMP: &str = "\
usage: adr dump [OPTION...] IMAGE

Writes the AUX fields of all that a reading delivers, blocks and filemarks in
order, and then of the end of data, to standard output: 512 bytes each. The
program shelf_sheet prints the shelf sheet from them.

Where a reading stops the dump ends, so that a sheet made from it ends with
asterisks; standard error tells why, and the exit status is 1. So it is for a
cartridge without a recording, which gives no field, and where the last session
was not closed, as after a power cut, though the dump may then be whole.

  --faults SEED   let the drive have faults, picked by this number
  --quiet         no progress on a terminal
";

/// The help of `demo`.
pub const DEMO: &str = "\
usage: adr demo [OPTION...]

Records generated files on a drive with write errors, over an earlier
recording, reads them back, compares them and shows the map. It is the same
every time. The image is in a directory for temporary files. Before the map
comes the shelf sheet.

  --faults SEED   other faults
  --svg FILE      write the map as a picture too; '-' is standard output
  --overwrite     replace that file if it exists, never an image or a link
  --keep          keep the image and tell where it is
";
