//! The checker: does a capture keep the rules?

use core::fmt;

use crate::connection::State;
use crate::raw;
use crate::refusal::{impossible, Refusal};

/// Checks a whole capture: what went over one connection, the packets of both directions back to back, in the order in
/// which they were seen at the server's end.
///
/// The leading bytes of a packet tell its direction; those of neither direction are refused with
/// [`LeadingWrong`](Refusal::LeadingWrong). The packets step one connection, which is fresh at first, and each is
/// judged as the end that it goes to judges it. The checker stops at the first fault.
///
/// A capture has at most [`MAX_CAPTURE`](crate::MAX_CAPTURE) bytes. Of a longer one only so many are judged. Where a
/// packet among them is refused, that is the fault; else it is [`CaptureTooLong`](Refusal::CaptureTooLong).
///
/// A capture that is not in memory as a whole is checked in parts, by [`Checking`].
///
/// ```
/// use ajp13::{check, Refusal, State};
///
/// // CPing and CPong.
/// let capture = b"\x12\x34\x00\x01\x0A\x41\x42\x00\x01\x09";
/// let checked = check(capture);
/// assert!(checked.passes());
/// assert_eq!(checked.packets, 2);
/// assert_eq!(checked.state, State::Idle);
/// assert_eq!(checked.place, 10);
///
/// // The last byte of the CPong is not there.
/// let checked = check(&capture[..9]);
/// assert_eq!(checked.refusal, Some(Refusal::UnfinishedPacket));
/// assert_eq!(checked.packets, 1);
/// assert_eq!(checked.state, State::Pinged);
/// assert_eq!(checked.place, 5);
/// ```
#[inline]
pub fn check(capture: &[u8]) -> Checked {
    let mut words = [0; raw::SIZE_CHECKED];
    done(raw::check(capture, &mut words));
    Checked::new(&words)
}

/// The checker's answer. The figures are those of the packets that were accepted.
///
/// It is written as six lines, the last one without a line feed, so that `println!` prints just these lines:
///
/// ```
/// let checked = ajp13::check(b"\x12\x34\x00\x01\x0A\x41\x42\x00\x01\x09");
/// println!("{checked}");
/// # assert_eq!(checked.to_string(), "packets=2\nrequests=0\nbody=0\nstate=idle\nrefusal=0\nplace=10");
/// ```
///
/// ```text
/// packets=2
/// requests=0
/// body=0
/// state=idle
/// refusal=0
/// place=10
/// ```
#[derive(Clone, Copy, Debug, PartialEq, Eq, Hash)]
#[must_use]
// A later version has a figure more.
#[non_exhaustive]
pub struct Checked {
    /// How many packets were accepted.
    pub packets: u32,
    /// How many of them are Forward Requests.
    pub requests: u32,
    /// How many bytes of requests' bodies they hold, in body packets.
    pub body: u32,
    /// The connection's state after them.
    pub state: State,
    /// The first fault; none where the capture passes.
    pub refusal: Option<Refusal>,
    /// Where the refused or unfinished packet starts; the capture's size where it passes;
    /// [`MAX_CAPTURE`](crate::MAX_CAPTURE) where it is too long.
    pub place: u32,
}

impl Checked {
    /// Whether the capture keeps the rules: nothing in it is refused, and its last packet is whole. It may end in any
    /// state.
    #[inline]
    pub fn passes(&self) -> bool {
        self.refusal.is_none()
    }

    /// The answer in the words of the library.
    #[inline]
    fn new(words: &[u32; raw::SIZE_CHECKED]) -> Checked {
        Checked {
            packets: words[raw::CHECKED_PACKETS],
            requests: words[raw::CHECKED_REQUESTS],
            body: words[raw::CHECKED_BODY],
            state: State::from_word(words[raw::CHECKED_STATE]),
            refusal: refusal_in(words[raw::CHECKED_REFUSAL]),
            place: words[raw::CHECKED_PLACE],
        }
    }
}

impl fmt::Display for Checked {
    fn fmt(&self, f: &mut fmt::Formatter<'_>) -> fmt::Result {
        writeln!(f, "packets={}", self.packets)?;
        writeln!(f, "requests={}", self.requests)?;
        writeln!(f, "body={}", self.body)?;
        writeln!(f, "state={}", self.state)?;
        writeln!(f, "refusal={}", self.refusal.map_or(0, Refusal::number))?;
        write!(f, "place={}", self.place)
    }
}

/// A check of a capture in parts. However the capture is cut into parts, the answer is the one of [`check`].
///
/// What [`go_on`](Self::go_on) does not take is to be given again, with more behind it. It is less than
/// [`MAX_PACKET`](crate::MAX_PACKET) bytes, but where something was refused, and where it reaches past
/// [`MAX_CAPTURE`](crate::MAX_CAPTURE). So a window of that size is enough for a capture of any size:
///
/// ```
/// use ajp13::{Checked, Checking, Refusal};
/// use std::io::{self, Read};
///
/// fn check(mut source: impl Read) -> io::Result<Checked> {
///     let mut checking = Checking::begin();
///     // The bytes of the capture from the check's place on that are there.
///     let mut window = [0; ajp13::MAX_PACKET];
///     let mut there = 0;
///     // Where the window stays full and nothing was refused, the capture is too long: what is behind does not count.
///     while checking.refusal().is_none() && there < window.len() {
///         let came = source.read(&mut window[there..])?;
///         if came == 0 {
///             break;
///         }
///         there += came;
///         let taken = checking.go_on(&window[..there]);
///         window.copy_within(taken..there, 0);
///         there -= taken;
///     }
///     Ok(checking.finish(u64::from(checking.place()) + there as u64))
/// }
///
/// let capture = b"\x12\x34\x00\x01\x0A\x41\x42\x00\x01\x09";
/// assert_eq!(check(&capture[..])?, ajp13::check(capture));
/// // A CPing and then another one, where a CPong is awaited.
/// let checked = check(capture[..5].chain(&capture[..5]))?;
/// assert_eq!(checked.refusal, Some(Refusal::NotNow));
/// assert_eq!(checked.place, 5);
/// # Ok::<(), std::io::Error>(())
/// ```
///
/// It is not `Copy`, so that no copy goes on in its place by mistake.
#[derive(Clone, PartialEq, Eq, Hash)]
pub struct Checking {
    // Words in range, always: only the library writes them.
    words: [u32; raw::SIZE_CHECKING],
}

impl Checking {
    /// A check before the capture's first byte.
    #[inline]
    pub fn begin() -> Checking {
        let mut words = [0; raw::SIZE_CHECKING];
        done(raw::check_begin(&mut words));
        Checking { words }
    }

    /// Goes on with the bytes of the capture that start at the check's [`place`](Self::place), and tells how many of
    /// them it took. It takes whole packets, as many as are there; the others are to be given again, with more behind
    /// them. A packet that is refused is not taken, and from then on nothing is.
    ///
    /// ```
    /// use ajp13::Checking;
    ///
    /// let mut checking = Checking::begin();
    /// // A CPing, and the first byte of a CPong.
    /// assert_eq!(checking.go_on(b"\x12\x34\x00\x01\x0A\x41"), 5);
    /// assert_eq!(checking.go_on(b"\x41\x42\x00\x01\x09"), 5);
    /// assert!(checking.finish(10).passes());
    /// ```
    #[inline]
    #[must_use = "the bytes that were not taken are to be given again"]
    pub fn go_on(&mut self, bytes: &[u8]) -> usize {
        let before = self.place();
        done(raw::check_go_on(&mut self.words, bytes));
        (self.place() - before) as usize
    }

    /// How many bytes of the capture were taken: where the next packet starts, or the refused one.
    #[inline]
    pub fn place(&self) -> u32 {
        self.words[raw::CHECKING_PLACE]
    }

    /// The fault that was found so far. A program may stop reading then: no more bytes are taken.
    #[inline]
    pub fn refusal(&self) -> Option<Refusal> {
        refusal_in(self.words[raw::CHECKING_REFUSAL])
    }

    /// The answer where the capture ends here and has `size` bytes in all: the check's [`place`](Self::place) and those
    /// that were not taken. Where there are more than [`MAX_CAPTURE`](crate::MAX_CAPTURE), any number above it will do,
    /// and where something was refused any number. The check may go on after it.
    #[inline]
    pub fn finish(&self, size: u64) -> Checked {
        let mut words = [0; raw::SIZE_CHECKED];
        done(raw::check_finish(&self.words, size, &mut words));
        Checked::new(&words)
    }
}

impl Default for Checking {
    /// A check before the capture's first byte.
    #[inline]
    fn default() -> Checking {
        Checking::begin()
    }
}

impl fmt::Debug for Checking {
    fn fmt(&self, f: &mut fmt::Formatter<'_>) -> fmt::Result {
        let state = State::from_word(self.words[raw::CONNECTION_STATE]);
        f.debug_struct("Checking")
            .field("state", &state)
            .field("packets", &self.words[raw::CHECKING_PACKETS])
            .field("requests", &self.words[raw::CHECKING_REQUESTS])
            .field("body", &self.words[raw::CHECKING_BODY])
            .field("place", &self.place())
            .field("refusal", &self.refusal())
            .finish()
    }
}

/// The checker's calls answer nothing else to arrays of the right lengths with words in range.
#[inline]
fn done(status: u32) {
    if status != raw::DONE {
        impossible(status);
    }
}

/// The refusal that a word says, 0 for none.
#[inline]
fn refusal_in(word: u32) -> Option<Refusal> {
    if word == 0 {
        None
    } else {
        Some(Refusal::from_status(word))
    }
}
