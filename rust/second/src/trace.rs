//! The branches of append, batch, remove, seek, feed, the reader of segments and that of their lumps,
//! told to whoever wants to count them.

use crate::fault::Fault;
use crate::named::named;

/// Hears which branches a call takes. The trace `()` hears nothing and costs nothing.
pub trait Trace {
    /// A branch is taken.
    fn reach(&mut self, _branch: Branch) {}

    /// The state failed a clause of the well-formed test.
    fn fault(&mut self, _fault: Fault) {}

    /// A branch of a batch is taken. The branches of its appends are told as those of any append.
    fn batch(&mut self, _branch: BatchBranch) {}

    /// A branch of a seek is taken.
    fn seek(&mut self, _branch: SeekBranch) {}

    /// A branch of what to feed is taken.
    fn feed(&mut self, _branch: FeedBranch) {}

    /// A box is read, or malformed, in its parent.
    fn framed(&mut self, _parent: Parent, _framing: Framing) {}

    /// A branch of the reader of segments is taken.
    fn segment(&mut self, _branch: SegmentBranch) {}

    /// A branch of the reader of lumps is taken. Those of the listing at the end are told as those of
    /// any segment.
    fn lump(&mut self, _branch: LumpBranch) {}
}

impl Trace for () {}

named! {
    /// A branch of the paper's steps.
    Branch {
        /// append: refusals before 7 passed
        AppendBegins,
        /// step 1 passed over, segments mode
        Step1Segments,
        /// step 1 passed over, group start unset
        Step1Unset,
        /// step 1 moves the offset
        Step1Moves,
        /// step 1 sets the offset to the microsecond it was
        Step1Same,
        /// refusal 7, offset leaves the limits
        OffsetLeaves,
        /// refusal 7, P leaves the limits
        PresentationLeaves,
        /// refusal 7, D leaves the limits
        DecodeLeaves,
        /// refusal 7, frame end leaves the limits
        EndLeaves,
        /// step 3 last decode time unset
        Step3Unset,
        /// step 3 no break, D equal to the last
        Step3Equal,
        /// step 3 no break, D above the last
        Step3Within,
        /// step 3 no break, D above by exactly twice the last duration
        Step3Twice,
        /// step 3 break, D below the last
        Step3Below,
        /// step 3 break, D above by more than twice the last duration
        Step3Beyond,
        /// break in segments mode, group end moves
        BreakInSegments,
        /// break in sequence mode, group start set
        BreakInSequence,
        /// refusal 9, a break in the last group
        GroupsGone,
        /// step 4 drop, before the window
        Step4Drop,
        /// step 5 drop, after the window
        Step5Drop,
        /// step 6 drop by need-random-access
        Step6Drop,
        /// step 6 turns need-random-access off
        Step6Off,
        /// step 6 need-random-access was off
        Step6Clear,
        /// step 7 highest end unset
        Step7Unset,
        /// step 7 highest end below P
        Step7Below,
        /// step 7 highest end at P
        Step7At,
        /// step 7 highest end above P
        Step7Above,
        /// refusal 8, full store and none taken
        Full,
        /// full store, the same append frees room
        RoomFreed,
        /// step 7 takes a frame at or after P
        Step7Takes,
        /// step 7 takes a frame in the gap before P
        Step7Gap,
        /// step 7 takes none
        Step7None,
        /// step 8 takes a frame that follows
        Step8Takes,
        /// step 8 stops at a flagged frame
        Step8Stops,
        /// step 8 goes past a flagged frame of another group
        Step8PastPoint,
        /// step 8 leaves a frame to which only another group's would lead
        Step8NotCarried,
        /// step 9 stores as the last of the track
        Step9Last,
        /// step 9 stores before others of the track
        Step9Before,
        /// step 9 stores after an equal decode time
        Step9Equal,
        /// step 9 stores in the last group
        Step9LastGroup,
        /// step 9 sets highest end
        Step9HighestSet,
        /// step 9 raises highest end
        Step9HighestRaised,
        /// step 9 leaves highest end
        Step9HighestKept,
        /// step 9 raises group end
        Step9GroupRaised,
        /// step 9 leaves group end
        Step9GroupKept,
        /// remove: refusals before 9 passed
        RemoveBegins,
        /// refusal 9, a removal of the last decode time in the last group
        RemoveGroupsGone,
        /// removal end unbounded
        RemoveUnbounded,
        /// removal far edge at a flagged frame
        RemoveEdge,
        /// removal without a far edge
        RemoveNoEdge,
        /// removal takes none
        RemoveNone,
        /// removal loses the last decode time by cause 6
        RemoveLosesTaken,
        /// removal loses the last decode time by cause 5
        RemoveLosesFollowing,
    }
}

named! {
    /// A branch of a batch.
    BatchBranch {
        /// refusals 1, 13, 2 passed
        Begins,
        /// a row's track that no buffer can have
        RowTrack,
        /// a row's duration that no frame can have
        RowDuration,
        /// a row's flag that is neither 0 nor 1
        RowFlag,
        /// a frame beyond all of its track, which are not searched
        Beyond,
        /// all frames accepted
        Whole,
        /// stopped at a refused frame
        Stopped,
    }
}

named! {
    /// A branch of a seek. Of frames that cover the instant two are compared at a time, in store order.
    SeekBranch {
        /// 15, no frame covers the instant
        NoneCovers,
        /// two cover, the next is presented later
        NextPresentedLater,
        /// two cover, the former is presented later
        FormerPresentedLater,
        /// two cover from one time on, the next has the greater number
        NextNumberedHigher,
        /// two cover from one time on, the former has the greater number
        FormerNumberedHigher,
        /// the target is flagged
        TargetFlagged,
        /// the walk leads back to a flagged frame
        WalksBack,
        /// the walk goes past an unflagged frame of another group
        PastOther,
        /// the walk goes past a flagged frame of another group
        PastPoint,
        /// 15, no flagged frame of the group at or before the target
        NoPoint,
    }
}

named! {
    /// A branch of what to feed.
    FeedBranch {
        /// the initialization
        Initialization,
        /// a part of the segment
        Part,
        /// a part of no bytes
        EmptyPart,
        /// a place that overruns the segment
        Overruns,
        /// a place whose start is above its end
        StartAboveEnd,
    }
}

named! {
    /// What holds boxes that are read.
    Parent {
        /// the segment
        Segment,
        /// the movie fragment
        MovieFragment,
        /// a track fragment
        TrackFragment,
    }
}

named! {
    /// How a box's size stands to its header and its parent. All but the first two are refused 12.
    Framing {
        /// a 32-bit size that fits
        Size,
        /// a 64-bit size that fits
        LargeSize,
        /// under 8 stray bytes
        Stray,
        /// size 0
        SizeZero,
        /// a size under its header's 8
        SizeUnderHeader,
        /// a size that overruns
        Overruns,
        /// a 64-bit size that is cut off
        LargeSizeCut,
        /// a 64-bit size under its header's 16
        LargeSizeUnderHeader,
        /// a 64-bit size that overruns
        LargeOverruns,
    }
}

named! {
    /// A branch of the reader of segments.
    SegmentBranch {
        /// another box skipped in the segment
        SkippedInSegment,
        /// another box skipped in the movie fragment
        SkippedInMovieFragment,
        /// another box skipped in a track fragment
        SkippedInTrackFragment,
        /// 12, no movie fragment
        MovieFragmentMissing,
        /// 12, a second movie fragment
        MovieFragmentDoubled,
        /// header of its very length
        HeaderExact,
        /// header longer than its fields
        HeaderLonger,
        /// default duration of the header
        DurationOfHeader,
        /// default duration of the call
        DurationOfCall,
        /// default size of the header
        SizeOfHeader,
        /// default size of the call
        SizeOfCall,
        /// default flags of the header
        FlagsOfHeader,
        /// default flags of the call
        FlagsOfCall,
        /// 12, header short of version, flags and ID
        HeaderShort,
        /// 12, header short of an optional field
        HeaderShortOfOptional,
        /// 12, header of an unknown version
        HeaderVersion,
        /// 12, no header
        HeaderMissing,
        /// 12, a second header
        HeaderDoubled,
        /// 12, a run before the header
        RunBeforeHeader,
        /// another track's fragment
        OthersFragment,
        /// another track's fragment with several decode times
        OthersDecodeTimeDoubled,
        /// another track's run
        OthersRun,
        /// a decode time before the header
        DecodeTimeBeforeHeader,
        /// decode time of 32 bits
        DecodeTime32,
        /// decode time of 64 bits
        DecodeTime64,
        /// 12, decode time short of version and flags
        DecodeTimeShort,
        /// 12, decode time short of its 32 bits
        DecodeTimeShortOf32,
        /// 12, decode time short of its 64 bits
        DecodeTimeShortOf64,
        /// 12, decode time of an unknown version
        DecodeTimeVersion,
        /// 12, no decode time
        DecodeTimeMissing,
        /// 12, a second decode time
        DecodeTimeDoubled,
        /// 12, a run before the decode time
        RunBeforeDecodeTime,
        /// a fragment of this track without runs
        NoRuns,
        /// run of its very length
        RunExact,
        /// run longer than its columns
        RunLonger,
        /// 12, run short of version, flags and count
        RunShort,
        /// 12, run short of an optional field
        RunShortOfOptional,
        /// 12, run short of its columns
        RunShortOfColumns,
        /// 12, run of an unknown version
        RunVersion,
        /// 4, timescale 0
        TimescaleZero,
        /// 4, timescale above 1,000,000
        TimescaleAbove,
        /// a sample's own duration
        DurationOwn,
        /// a sample's duration by default
        DurationDefault,
        /// a sample's own size
        SizeOwn,
        /// a sample's size by default
        SizeDefault,
        /// a sample's own flags
        FlagsOwn,
        /// a sample's flags by default
        FlagsDefault,
        /// first flags over the sample's own
        FirstFlagsOverOwn,
        /// first flags over the default
        FirstFlagsOverDefault,
        /// no composition offset
        OffsetNone,
        /// composition offset of version 0
        OffsetUnsigned,
        /// composition offset of version 1, not below zero
        OffsetSigned,
        /// composition offset of version 1, below zero
        OffsetBelow,
        /// frame within its limits
        Frame,
        /// frame within its limits, shown below zero
        FrameBelowZero,
        /// 4, a decode time beyond the limit at any timescale
        DecodeBeyondAll,
        /// 4, a decode time beyond the limit
        DecodeBeyond,
        /// 4, a presentation time beyond the limit
        PresentationBeyond,
        /// 4, a presentation time below the limit
        PresentationBelow,
        /// 4, a frame that lasts nothing
        DurationNone,
        /// 4, a frame that lasts too long
        DurationBeyond,
        /// list short, a run without columns judged by its first frame and its last
        Even,
        /// list short, 4, a run without columns that leads beyond the limit at any timescale
        EvenBeyondAll,
        /// 10
        ListShort,
        /// lists none
        ListsNone,
        /// lists some
        ListsSome,
    }
}

named! {
    /// A branch of the reader of lumps.
    LumpBranch {
        /// 1, a cut header of 16 bytes or more
        HeaderOver,
        /// 1, a cut header that is whole
        HeaderWhole,
        /// 1, bytes past those of a cut header
        HeaderPast,
        /// 1, a body of which nothing is to come
        BodyOver,
        /// 1, a body kept that is not the one movie fragment's
        KeptOfNone,
        /// 1, a movie fragment beyond the buffer
        KeptBeyond,
        /// 13, a lump of over 65,536 bytes
        LumpLong,
        /// 13, a buffer of under 65,536 bytes
        BufferShort,
        /// 14, by a 32-bit size
        Large,
        /// 14, by a 64-bit size
        LargeBy64,
        /// 14, for a second movie fragment
        LargeSecond,
        /// 14, after other bytes of the same lump
        LargeAfterOthers,
        /// 14, by a header that began in an earlier lump
        LargeCut,
        /// a lump of 65,536 bytes
        LumpLongest,
        /// a buffer of over 65,536 bytes
        BufferLonger,
        /// no bytes, and no end told
        Nothing,
        /// a header in one lump
        HeaderAtOnce,
        /// a header that began in an earlier lump
        HeaderJoined,
        /// a header with a 64-bit size in one lump
        LargeHeaderAtOnce,
        /// a header with a 64-bit size that began in an earlier lump
        LargeHeaderJoined,
        /// framing stopped by size 0
        StoppedByZero,
        /// framing stopped by a size under its header's 8
        StoppedBySize,
        /// framing stopped by a 64-bit size under its header's 16
        StoppedByLargeSize,
        /// a movie fragment, kept
        Fragment,
        /// a movie fragment of 65,536 bytes, kept
        FragmentLargest,
        /// a movie fragment that is its header alone
        FragmentEmpty,
        /// a second movie fragment, passed over
        FragmentSecond,
        /// another box, passed over
        Other,
        /// another box of over 32 bits, passed over
        OtherHuge,
        /// a lump that is all of the movie fragment's body
        AllKept,
        /// a lump that is all of another box's body
        AllPassed,
        /// a lump after the framing stopped
        AllLost,
        /// cut between two boxes
        CutBetween,
        /// cut in a header's first 8 bytes
        CutInHeader,
        /// cut before a 64-bit size
        CutBeforeLargeSize,
        /// cut in a 64-bit size
        CutInLargeSize,
        /// cut in the movie fragment's body
        CutInKept,
        /// cut in the body of another box
        CutInPassed,
        /// cut after the framing stopped
        CutLost,
        /// the end, told with no lump
        EndAlone,
        /// the end, told with a lump
        EndWithLump,
        /// 12, the end in a header's first 8 bytes
        EndInHeader,
        /// 12, the end in a 64-bit size
        EndInLargeSize,
        /// 12, the end in the movie fragment's body
        EndInKept,
        /// 12, the end in the body of another box
        EndInPassed,
        /// 12, the end after the framing stopped
        EndLost,
        /// 12, the end without a movie fragment
        EndMissing,
        /// 12, the end after several movie fragments
        EndDoubled,
        /// the movie fragment's body wholly in earlier lumps
        BodyEarlier,
        /// the movie fragment's body wholly in the last lump
        BodyLast,
        /// the movie fragment's body in earlier lumps and the last
        BodyAstride,
        /// 12 by the movie fragment
        ListMalformed,
        /// 4
        ListLimits,
        /// 10
        ListShort,
        /// listed, and the reader fresh
        Listed,
    }
}
