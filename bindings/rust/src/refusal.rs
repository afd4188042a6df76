use core::fmt;

/// Why a call is refused.
///
/// Later versions may add numbers: end a `match` with an arm for the rest.
#[derive(Clone, Copy, Debug, PartialEq, Eq, PartialOrd, Ord, Hash)]
#[repr(u8)]
#[non_exhaustive]
pub enum Refusal {
    /// A text is too long or breaks the line form.
    BrokenForm = 1,
    /// There are too many records, or a lent buffer is too short.
    TooMany = 2,
    /// A setting is not finite or above 1e9 in magnitude, or the rounds are not allowed.
    SettingOutOfRange = 3,
    /// A number in a record, a coordinate or a time is out of range, or a table is not sorted.
    RecordOutOfRange = 4,
    /// The interval is not above 0 and at most 604,800 s.
    BadInterval = 5,
    /// A track has no epochs or no anchor, a sigma not above 0 or an index beyond its epochs.
    BadTrack = 6,
    /// There are fewer than six carrier pairs before screening.
    TooFewPairs = 7,
    /// Fewer rows are kept than 4 plus the clock slots.
    TooFewRows = 8,
    /// There are more than six clock slots.
    TooManySlots = 9,
    /// The fit fails.
    FitFailed = 10,
    /// The corrections of the epoch do not all fit in the table.
    TableFull = 11,
    /// The table gives no correction for the query.
    NoCorrection = 12,
    /// A week is above 15,000, a time of week not in 0 to below 604,800, or a time past the start of
    /// week 15,001.
    BadTime = 13,
    /// `chi` or `pdop` is not finite.
    QualityNotFinite = 14,
    /// The range of a satellite is zero or not finite.
    OnReceiver = 15,
    /// A trip or mileage, its pulse rate or a displacement added to it is out of its limits.
    BadTrip = 16,
    /// No distance was measured.
    NoDistance = 17,
    /// The time before which samples are dropped is not finite.
    BadDropTime = 18,
    /// A coordinate or the result of north, east, down is not finite, or a coordinate is above 1e9.
    NotTurned = 19,
    /// The kept pairs of a city displacement lack GPS or Galileo.
    NotCertified = 20,
    /// The length of the carrier records is not a multiple of 59.
    BrokenRecords = 21,
}

impl Refusal {
    /// Every refusal, in the order of its number.
    pub const ALL: &'static [Self] = &[
        Self::BrokenForm,
        Self::TooMany,
        Self::SettingOutOfRange,
        Self::RecordOutOfRange,
        Self::BadInterval,
        Self::BadTrack,
        Self::TooFewPairs,
        Self::TooFewRows,
        Self::TooManySlots,
        Self::FitFailed,
        Self::TableFull,
        Self::NoCorrection,
        Self::BadTime,
        Self::QualityNotFinite,
        Self::OnReceiver,
        Self::BadTrip,
        Self::NoDistance,
        Self::BadDropTime,
        Self::NotTurned,
        Self::NotCertified,
        Self::BrokenRecords,
    ];

    /// Returns its number, from 1 up.
    pub const fn number(self) -> u8 {
        self as u8
    }

    /// Returns the refusal with this number, if there is one.
    pub fn of(number: u8) -> Option<Self> {
        Self::ALL.get(usize::from(number).wrapping_sub(1)).copied()
    }
}

impl Refusal {
    /// Returns the reason in words, the text of `packaging/refusals.txt`.
    pub const fn why(self) -> &'static str {
        match self {
            Self::BrokenForm => "the text is longer than 32,768 bytes, or a line breaks the form",
            Self::TooMany => "there are too many records, or a buffer is too short",
            Self::SettingOutOfRange => "a setting is not finite or above 1e9 in magnitude, or the rounds are not allowed",
            Self::RecordOutOfRange => "a number in a record, a coordinate or a time is out of range, or a table is not sorted",
            Self::BadInterval => "the interval is not above 0 and at most 604,800 s",
            Self::BadTrack => "the track has no epochs or no anchor, a sigma not above 0, or an index beyond its epochs",
            Self::TooFewPairs => "there are fewer than six carrier pairs",
            Self::TooFewRows => "there are fewer rows than 4 plus the clock slots",
            Self::TooManySlots => "there are more than six clock slots",
            Self::FitFailed => "the fit fails",
            Self::TableFull => "the epoch's corrections do not all fit in the table",
            Self::NoCorrection => "the table gives no correction for the signal and time",
            Self::BadTime => "a week is above 15,000, a time of week is not in 0 to below 604,800 s, or a time is past the start of week 15,001",
            Self::QualityNotFinite => "chi or pdop is not finite",
            Self::OnReceiver => "the range of a satellite is zero or not finite",
            Self::BadTrip => "a displacement is not finite or longer than 1,000 m, the trip is full, its pulse rate is 0, or it is out of its limits",
            Self::NoDistance => "no distance was measured",
            Self::BadDropTime => "the time to drop samples before is not finite",
            Self::NotTurned => "a coordinate or the result is not finite, or a coordinate is above 1e9 in magnitude",
            Self::NotCertified => "the kept pairs lack GPS or Galileo",
            Self::BrokenRecords => "the length of the carrier records is not a multiple of 59",
        }
    }
}

impl fmt::Display for Refusal {
    fn fmt(&self, f: &mut fmt::Formatter<'_>) -> fmt::Result {
        write!(f, "{} ({})", self.why(), self.number())
    }
}

impl core::error::Error for Refusal {}

/// Turns the number that an entry point returned into a result.
pub(crate) fn answered(number: u8) -> Result<(), Refusal> {
    match number {
        0 => Ok(()),
        other => Err(Refusal::of(other).expect("the library gives 0 or the number of a refusal")),
    }
}
