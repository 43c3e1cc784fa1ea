//! Faults that can be planted in the shelf sheet, for comparisons to find.

/// A planted fault; [`SheetFault::None`] is the sound model.
#[derive(Clone, Copy, Debug, Default, PartialEq, Eq, Hash)]
pub enum SheetFault {
    /// No fault.
    #[default]
    None,
    /// There is no header line.
    HeaderLineMissing,
    /// The numbers are left-aligned.
    LeftAligned,
    /// The numbers have leading zeros.
    LeadingZeros,
    /// The column of first elements is 9 wide.
    ColumnOfNine,
    /// Nothing stands between the columns.
    BlankMissing,
    /// The last line has no line feed.
    LineFeedMissing,
    /// The last line has 26 asterisks.
    AsteriskMissing,
    /// Jobs count from 0.
    JobsFromZero,
    /// The first element is that of the next run.
    FirstOfNextRun,
    /// The first element is the closing filemark, whether there are blocks or not.
    FirstIsFilemark,
    /// A job without blocks gives 0 as its first element.
    FilemarkNotGiven,
    /// The closing filemark counts as a block.
    FilemarkCounted,
    /// Blocks are counted from the first job on.
    BlocksOfAllJobs,
    /// Two filemarks in a row enclose no job.
    EmptyJobPassedOver,
    /// A run that EOD ends has no line.
    UnclosedWithoutLine,
    /// An empty run before EOD has a line.
    EmptyRunWithLine,
    /// A run that no filemark has closed has a line where the sheet breaks off.
    UnclosedLineAtBreak,
    /// Every job has a line.
    LastJobNotCompared,
    /// A job that EOD ends has a line, whatever its number.
    LastJobNotComparedAtEod,
    /// The last job that has a line is 99,998.
    AsterisksAtLastJob,
    /// The sheet breaks off behind job 99,999, be there another or not.
    AsterisksBehindLastJob,
    /// A dump that is cut short ends without asterisks.
    CutUnnoticed,
    /// A field that is cut short is taken as if zeros followed.
    PartTaken,
    /// A dump without bytes is none that is cut short.
    EmptyDumpWhole,
    /// A field of another type ends without asterisks, as EOD does.
    OtherTypeEnds,
    /// A field of another type is taken as data.
    OtherTypeTaken,
    /// The second byte of the type is not looked at.
    SecondTypeByteIgnored,
    /// One bit of the type decides.
    TypeBitDecides,
    /// Bytes 0 to 3 are looked at, which a reading looks at.
    OtherBytesCompared,
    /// A delivery's number is not compared.
    NumberNotCompared,
    /// A filemark's number is not compared.
    FilemarkNumberNotCompared,
    /// The lower 16 bits of a number are compared.
    SixteenBitsCompared,
    /// Numbers are read with the lowest byte first.
    LowestByteFirst,
    /// A delivery may be one below the next number, as EOD may.
    DeliveryOneBelowTaken,
    /// Behind 4,294,967,295 comes 0.
    NumberWrapped,
    /// No delivery is numbered 4,294,967,295.
    HighestRefused,
    /// EOD's number is not compared.
    EodNumberNotCompared,
    /// EOD of the next number breaks the sheet off.
    EodOfNextRefused,
    /// EOD one below the next number breaks the sheet off.
    OneBelowRefused,
    /// EOD may be two below the next number.
    TwoBelowTaken,
    /// EOD may be one above the next number.
    OneAboveTaken,
    /// 4,294,967,295 is one below 0.
    WrappedBelowZero,
    /// EOD behind 4,294,967,295 breaks the sheet off.
    EodBehindHighestRefused,
    /// Fields behind EOD are read on.
    ReadBehindEod,
    /// Bytes behind EOD break the sheet off.
    EndWantedBehindEod,
}

/// The faults that dumps of a few fields show.
pub const PLANTED: [SheetFault; 38] = [
    SheetFault::HeaderLineMissing,
    SheetFault::LeftAligned,
    SheetFault::LeadingZeros,
    SheetFault::ColumnOfNine,
    SheetFault::BlankMissing,
    SheetFault::LineFeedMissing,
    SheetFault::AsteriskMissing,
    SheetFault::JobsFromZero,
    SheetFault::FirstOfNextRun,
    SheetFault::FirstIsFilemark,
    SheetFault::FilemarkNotGiven,
    SheetFault::FilemarkCounted,
    SheetFault::BlocksOfAllJobs,
    SheetFault::EmptyJobPassedOver,
    SheetFault::UnclosedWithoutLine,
    SheetFault::EmptyRunWithLine,
    SheetFault::UnclosedLineAtBreak,
    SheetFault::CutUnnoticed,
    SheetFault::PartTaken,
    SheetFault::EmptyDumpWhole,
    SheetFault::OtherTypeEnds,
    SheetFault::OtherTypeTaken,
    SheetFault::SecondTypeByteIgnored,
    SheetFault::TypeBitDecides,
    SheetFault::OtherBytesCompared,
    SheetFault::NumberNotCompared,
    SheetFault::FilemarkNumberNotCompared,
    SheetFault::SixteenBitsCompared,
    SheetFault::LowestByteFirst,
    SheetFault::DeliveryOneBelowTaken,
    SheetFault::EodNumberNotCompared,
    SheetFault::EodOfNextRefused,
    SheetFault::OneBelowRefused,
    SheetFault::TwoBelowTaken,
    SheetFault::OneAboveTaken,
    SheetFault::WrappedBelowZero,
    SheetFault::ReadBehindEod,
    SheetFault::EndWantedBehindEod,
];

/// The faults that show where jobs have no line any more.
pub const PLANTED_AT_LAST_JOB: [SheetFault; 4] = [
    SheetFault::LastJobNotCompared,
    SheetFault::LastJobNotComparedAtEod,
    SheetFault::AsterisksAtLastJob,
    SheetFault::AsterisksBehindLastJob,
];

/// The faults that the highest numbers show, to which no dump of a usual length
/// comes.
pub const PLANTED_AT_HIGHEST: [SheetFault; 3] = [
    SheetFault::NumberWrapped,
    SheetFault::HighestRefused,
    SheetFault::EodBehindHighestRefused,
];
