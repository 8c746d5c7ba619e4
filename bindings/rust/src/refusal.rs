//! The ways to say no.

use std::{error::Error, fmt};

/// Why a call was refused: the first of these that applies, in this order.
///
/// A refused call has written nothing to the buffers that it was lent.
#[derive(Clone, Copy, Debug, PartialEq, Eq, Hash)]
#[repr(u32)]
pub enum Refusal {
    /// The bytes are no file that [`npy::read`](crate::npy::read) takes.
    NotNpy = 10,
    /// The order is above 5; for `spline_filter` also 0 or 1.
    Order = 1,
    /// `spline_filter1d` was given an axis above 2.
    Axis = 2,
    /// An input axis has length 0, or is longer than 4,096.
    Length = 3,
    /// A shift is not finite, or its size is 2^20 or more; a zoom factor is not finite, not above 0,
    /// or above 4,096.
    Factor = 4,
    /// An axis of length 1 has a shift other than 0, or a zoom to a length other than 1: a factor of 0.5
    /// or less, or of 1.5 or more. The filters never give it.
    Slice = 12,
    /// `zoom` would give an axis longer than 1 an output shorter than 2 or longer than 4,096.
    OutputLength = 5,
    /// Input, output or needed work has more than 2^27 places.
    Count = 6,
    /// A buffer has the wrong number of places.
    Buffer = 7,
    /// The fill or a voxel is not finite, or its size exceeds 2^100.
    Value = 8,
    /// At order 0 a coordinate is kept, but its nearest voxel lies outside. Never in Replicate, and never
    /// of an axis of length 1.
    Beside = 9,
    /// The output index lies outside the output.
    Index = 11,
}

impl Refusal {
    /// All of them, in the order in which they are looked for.
    pub const ALL: [Refusal; 12] = [
        Refusal::NotNpy,
        Refusal::Order,
        Refusal::Axis,
        Refusal::Length,
        Refusal::Factor,
        Refusal::Slice,
        Refusal::OutputLength,
        Refusal::Count,
        Refusal::Buffer,
        Refusal::Value,
        Refusal::Beside,
        Refusal::Index,
    ];

    /// The refusal's number, as document 01 and its change requests count them.
    ///
    /// ```
    /// assert_eq!(vurelika::Refusal::Beside.number(), 9);
    /// ```
    pub fn number(self) -> u32 {
        self as u32
    }

    /// What the library's answer says: 0 is success.
    pub(crate) fn check(status: u32) -> Result<(), Refusal> {
        match status {
            0 => Ok(()),
            // To a mode that there is the library answers 0 or one of these.
            n => Err(Refusal::ALL
                .into_iter()
                .find(|refusal| refusal.number() == n)
                .expect("a refusal's number")),
        }
    }

    /// The refusal of a call that was lent nothing, if it would be the same whatever were lent.
    pub(crate) fn before_buffers<T>(answer: Result<T, Refusal>) -> Result<(), Refusal> {
        match answer {
            Err(refusal) if refusal != Refusal::Buffer => Err(refusal),
            _ => Ok(()),
        }
    }
}

impl fmt::Display for Refusal {
    fn fmt(&self, f: &mut fmt::Formatter<'_>) -> fmt::Result {
        let why = match self {
            Refusal::NotNpy => {
                "the bytes are no whole .npy file of version 1.0, '<f8', C order and three axes"
            }
            Refusal::Order => "the order is not one that this function has",
            Refusal::Axis => "the axis number is above 2",
            Refusal::Length => "an input axis has length 0, or is longer than 4,096",
            Refusal::Factor => "a shift or a zoom factor is not finite or out of range",
            Refusal::Slice => {
                "an axis of length 1 has a shift other than 0, or a zoom to a length other than 1"
            }
            Refusal::OutputLength => {
                "an axis longer than 1 would come out shorter than 2 or longer than 4,096"
            }
            Refusal::Count => "input, output or work would have more than 2^27 places",
            Refusal::Buffer => "a buffer has the wrong number of places",
            Refusal::Value => "the fill or a voxel is not finite, or its size exceeds 2^100",
            Refusal::Beside => {
                "at order 0 a coordinate is kept, but its nearest voxel lies outside"
            }
            Refusal::Index => "the output index lies outside the output",
        };
        write!(f, "refusal {}: {why}", self.number())
    }
}

impl Error for Refusal {}
