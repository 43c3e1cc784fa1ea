//! Faults that can be planted in a session, for the checks to find.

/// A planted fault; [`Fault::None`] is the sound model.
#[derive(Clone, Copy, Debug, Default, PartialEq, Eq, Hash)]
pub enum Fault {
    /// No fault.
    #[default]
    None,
    /// Frames are sent again with the marker address of their first sending.
    OldMarkerAddress,
    /// Frames name one filemark before them where there are more.
    FilemarkCountStuck,
    /// LOCATE 3,000 goes out while frames are buffered.
    LocateWhileBuffered,
    /// READ POSITION confirms the frames the drive still holds.
    BufferedConfirmed,
    /// A reading takes every frame of its pass, whatever its number.
    NumberIgnored,
    /// A reading takes frames of every pass.
    PassIgnored,
    /// A reading compares AUX bytes 4 to 11.
    DriveBytesCompared,
    /// The target of a write error may lie in the defect map.
    JumpIntoDefectMap,
    /// EOD is sent while the last element is still due.
    EodBeforeLastElement,
    /// A WRITE answered busy counts as taken.
    BusyTaken,
    /// After a write error only the first frame is sent again.
    FirstResentOnly,
    /// The closing headers keep the update count of the opening ones.
    UpdateCountKept,
    /// A window block serves again as soon as the drive took it.
    WindowReusedEarly,
    /// One more element than D is outstanding.
    ElementAboveDepth,
    /// One more header copy than D is outstanding.
    HeaderAboveDepth,
    /// What is added is numbered from 0 again.
    NumberRestarted,
    /// What is added counts filemarks and names markers from none on.
    TrailRestarted,
    /// The opening headers of what is added keep the update count.
    CountNotRaised,
    /// The opening headers of what is added do not name the old end.
    OldEndNotNamed,
    /// A reading ends at an EOD below the address at which it is to end.
    EarlierEndTaken,
    /// Elements go up to END, as if nothing were kept for EOD.
    ElementsUpToEnd,
    /// EOD may not go into the tail either.
    EodOutOfTail,
    /// After giving up, EOD is numbered behind the elements given up.
    EodBehindGivenUp,
    /// After giving up, EOD goes to the target of a write error long past.
    StaleTarget,
    /// Close is accepted after 9 though nothing is kept for EOD.
    SpentWithoutTail,
    /// Close is accepted after a 9 for EOD.
    EodGivenUp,
    /// A reading ends at the header's EOD address two below the expected
    /// number, too.
    TwoBelowTaken,
    /// A reading ends one below the expected number without a look at the
    /// other fields.
    ForeignOneBelowTaken,
    /// The opening headers of what is added go on naming the old EOD, and no
    /// old end.
    OldEodNamed,
    /// The closing headers are begun when the drive took EOD, be it on tape or
    /// not.
    ClosedBeforeEod,
    /// Elements follow the opening headers that the drive took, be one on tape
    /// or not.
    ElementsBeforeHeaders,
    /// The opening headers of a recording of its own keep the update count.
    FreshCountNotRaised,
}

/// The faults that recordings of their own show.
pub const PLANTED: [Fault; 15] = [
    Fault::OldMarkerAddress,
    Fault::FilemarkCountStuck,
    Fault::LocateWhileBuffered,
    Fault::BufferedConfirmed,
    Fault::NumberIgnored,
    Fault::PassIgnored,
    Fault::DriveBytesCompared,
    Fault::JumpIntoDefectMap,
    Fault::EodBeforeLastElement,
    Fault::BusyTaken,
    Fault::FirstResentOnly,
    Fault::UpdateCountKept,
    Fault::WindowReusedEarly,
    Fault::ElementAboveDepth,
    Fault::HeaderAboveDepth,
];

/// The faults in adding to a cartridge and in reading one that was added to.
pub const PLANTED_IN_ADDING: [Fault; 5] = [
    Fault::NumberRestarted,
    Fault::TrailRestarted,
    Fault::CountNotRaised,
    Fault::OldEndNotNamed,
    Fault::EarlierEndTaken,
];

/// The faults in what is kept for EOD, and in giving up.
pub const PLANTED_IN_TAIL: [Fault; 6] = [
    Fault::ElementsUpToEnd,
    Fault::EodOutOfTail,
    Fault::EodBehindGivenUp,
    Fault::StaleTarget,
    Fault::SpentWithoutTail,
    Fault::EodGivenUp,
];

/// The faults in where a reading ends that no recording brings to light: they
/// need frames of another making.
pub const PLANTED_IN_ENDING: [Fault; 2] = [Fault::TwoBelowTaken, Fault::ForeignOneBelowTaken];

/// The faults that a power cut brings to light. Without one, a look at every
/// frame and command sent shows each; what a recording that reported done reads
/// back as shows [`Fault::ClosedBeforeEod`] and no other. At a cut, that one and
/// [`Fault::OldEodNamed`] show by a header that names an EOD which is no end, for
/// no element is lost; the others by what is lost.
pub const PLANTED_IN_CUTS: [Fault; 4] = [
    Fault::OldEodNamed,
    Fault::ClosedBeforeEod,
    Fault::ElementsBeforeHeaders,
    Fault::FreshCountNotRaised,
];
