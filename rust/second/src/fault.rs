//! The clauses of "Well-formed state", as a state fails them.

use crate::named::named;

named! {
    /// A clause of the section that a state fails.
    Fault {
        /// not 1 to 4 tracks
        TrackCount,
        /// unknown kind
        Kind,
        /// the three of a track neither all set nor all unset
        PartlySet,
        /// an unset number of a track not zero
        TrackUnset,
        /// last decode time outside the limits
        LastDecode,
        /// last duration outside the limits
        LastDuration,
        /// highest end outside the limits
        HighestEnd,
        /// a track place past the count not zero
        TrackPlace,
        /// group start unset and not zero
        GroupStartUnset,
        /// group start outside the limits
        GroupStart,
        /// group end outside the limits
        GroupEnd,
        /// offset outside the limits
        Offset,
        /// offset's double neither converts to it nor is the quotient
        OffsetDouble,
        /// window start below 0
        WindowStart,
        /// window start's double does not convert to it
        WindowStartDouble,
        /// window end unset and not zero
        WindowEndUnset,
        /// window end's double does not convert to it
        WindowEndDouble,
        /// window start not below window end
        WindowOrder,
        /// more than 1,024 frames
        FrameCount,
        /// frame of a track that the buffer does not have
        FrameTrack,
        /// frame number 0 or above the last given
        FrameNumber,
        /// frame of a group above the current one
        FrameGroup,
        /// presentation time below 0 or outside the limits
        FramePresentation,
        /// decode time outside the limits
        FrameDecode,
        /// duration outside the limits
        FrameDuration,
        /// frame end outside the limits
        FrameEnd,
        /// frames not sorted
        FrameOrder,
        /// frame number given twice
        FrameTwice,
        /// a frame place past the count not zero
        FramePlace,
    }
}
