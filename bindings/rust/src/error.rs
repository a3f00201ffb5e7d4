//! The refusals of document 01.

use std::fmt;

/// A refusal, with its number and its name in document 01.
///
/// ```
/// use thermal::Error;
/// assert_eq!(Error::TooLarge.number(), 2);
/// assert_eq!(Error::TooLarge.name(), "TOO_LARGE");
/// assert_eq!(Error::of(2), Some(Error::TooLarge));
/// assert_eq!(Error::of(0), None);
/// ```
#[repr(u8)]
#[derive(Clone, Copy, Debug, PartialEq, Eq, PartialOrd, Ord, Hash)]
pub enum Error {
    NoRoom = 1,
    TooLarge = 2,
    WrongLength = 3,
    NoLayers = 4,
    OffPaper = 5,
    TooMany = 6,
    Short = 7,
    TooTall = 8,
    BadCanvas = 9,
    EmptyArea = 10,
    BadJob = 11,
    TooLong = 12,
    NotTranslated = 13,
    BadPlan = 14,
    NoRow = 15,
    LayerSize = 16,
}

impl Error {
    /// All of them, by their numbers.
    pub const ALL: [Error; 16] = [
        Error::NoRoom,
        Error::TooLarge,
        Error::WrongLength,
        Error::NoLayers,
        Error::OffPaper,
        Error::TooMany,
        Error::Short,
        Error::TooTall,
        Error::BadCanvas,
        Error::EmptyArea,
        Error::BadJob,
        Error::TooLong,
        Error::NotTranslated,
        Error::BadPlan,
        Error::NoRow,
        Error::LayerSize,
    ];

    pub fn number(self) -> u8 {
        self as u8
    }

    /// The refusal of a number; 0, which is done, and numbers past the table are none.
    pub fn of(number: u8) -> Option<Error> {
        Error::ALL.into_iter().find(|e| e.number() == number)
    }

    pub fn name(self) -> &'static str {
        self.words().0
    }

    /// When it is given.
    pub fn reason(self) -> &'static str {
        self.words().1
    }

    fn words(self) -> (&'static str, &'static str) {
        match self {
            Error::NoRoom => ("NO_ROOM", "a lent output or canvas buffer is too short"),
            Error::TooLarge => (
                "TOO_LARGE",
                "a given or stretched side, or a new width, is above 16,384",
            ),
            Error::WrongLength => ("WRONG_LENGTH", "the data's length is not the one required"),
            Error::NoLayers => ("NO_LAYERS", "no colours and no data"),
            Error::OffPaper => ("OFF_PAPER", "it begins or ends beside the paper"),
            Error::TooMany => ("TOO_MANY", "more pixels than the area has dots"),
            Error::Short => ("SHORT", "cropping would read a pixel that is not given"),
            Error::TooTall => (
                "TOO_TALL",
                "the height that results or is asked for is above 16,384",
            ),
            Error::BadCanvas => (
                "BAD_CANVAS",
                "a side above 16,384, rows without a width, or a short buffer",
            ),
            Error::EmptyArea => ("EMPTY_AREA", "a flip or a border without width or height"),
            Error::BadJob => ("BAD_JOB", "the bytes break the rules of jobs"),
            Error::TooLong => ("TOO_LONG", "more than 64 commands"),
            Error::NotTranslated => ("NOT_TRANSLATED", "a job to be translated holds a flip"),
            Error::BadPlan => ("BAD_PLAN", "a plan breaks the rules of plans"),
            Error::NoRow => ("NO_ROW", "a row at or past the plan's height"),
            Error::LayerSize => (
                "LAYER_SIZE",
                "a later layer is wider or taller than the first",
            ),
        }
    }
}

/// ```
/// let error = thermal::Canvas::new(16_385).err().unwrap();
/// let text = "2 TOO_LARGE: a given or stretched side, or a new width, is above 16,384";
/// assert_eq!(error.to_string(), text);
/// ```
impl fmt::Display for Error {
    fn fmt(&self, f: &mut fmt::Formatter) -> fmt::Result {
        let (name, reason) = self.words();
        write!(f, "{} {name}: {reason}", self.number())
    }
}

impl std::error::Error for Error {}

/// What an operation answers besides its number, if that is 0.
pub(crate) fn done<T>(number: u8, answer: T) -> Result<T, Error> {
    match Error::of(number) {
        None if number == 0 => Ok(answer),
        None => unreachable!("the library gives no number {number}"),
        Some(error) => Err(error),
    }
}
