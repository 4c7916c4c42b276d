/* Galumper: the frame buffer of the review console, for C11 and C++17. Link target/staticlib/libgalumper.a, which is for x86-64
 * Linux (docs/EMBEDDING.md).
 *
 * The program owns a buffer, a galumper_buffer of 37 KB, and lends it to each call by its address; the call works in place. The
 * library keeps nothing and allocates nothing.
 *
 * Any bits may be handed in. A buffer or a lump reader that is not well-formed has the call refused 1; an offered frame whose flag
 * is neither 0 nor 1 has it refused 4; a segment that is not well-formed has it refused 12. What the caller owes is that each list, each
 * segment, each lump, each lump buffer and all initialization bytes have the places that their length says, that a list lies outside
 * the buffer, the segment and any other list, that lump, lump buffer and list lie outside each other, and that nothing else touches what
 * is lent during the call. What has length 0 may be a null pointer.
 *
 * The library has no state of its own: different buffers may be used by different threads at once; one buffer is changed by one
 * thread at a time, and calls that take it as const may run side by side.
 *
 * Times are whole microseconds, and doubles are seconds, which are rounded to the nearest microsecond. Half a microsecond goes towards
 * plus infinity, also below zero: 0.0078125 is 7,813 microseconds, and -0.0078125 is -7,812.
 */
#ifndef GALUMPER_H
#define GALUMPER_H

#include <stddef.h>
#include <stdint.h>

#ifdef __cplusplus
extern "C" {
#else
#include <stdbool.h>
#endif

/* The version of this header, of its library and of the Rust crate. */
#define GALUMPER_VERSION "0.9.0"

/* By these two a library belongs to this header: the number of its layout and functions, and the bytes of a galumper_buffer. */
#define GALUMPER_ABI 8
#define GALUMPER_SIZE 37064

/* The places of the store over all tracks. */
#define GALUMPER_PLACES 1024

/* The most tracks of a buffer. */
#define GALUMPER_TRACKS 4

/* The lines that the fate list of an append or a removal needs. */
#define GALUMPER_FATES 1024

/* The most frames of a batch, and the lines that its fate list needs: a store's and one for each of its frames. */
#define GALUMPER_BATCH 64
#define GALUMPER_BATCH_FATES 1088

/* So many places of a range list are always enough, for a track's ranges (never more than its stored frames) and for the common
 * ranges. */
#define GALUMPER_RANGES 1024

/* The most bytes of a lump, the most of a movie fragment box in a segment that comes in lumps, and the fewest of a lump buffer. */
#define GALUMPER_LUMP 65536

/* What a track carries. */
enum galumper_kind {
    GALUMPER_VIDEO = 0,
    GALUMPER_AUDIO = 1
};

/* How appended frames find their place in time: as their timestamps say, or each group after the one before. */
enum galumper_mode {
    GALUMPER_SEGMENTS = 0,
    GALUMPER_SEQUENCE = 1
};

/* Why a call is refused. A refused call changes nothing: buffer, reader and lists stay as they were, bit for bit. Where several
 * apply, the first in the order of the call's own list below is given. */
enum galumper_refusal {
    GALUMPER_DONE = 0,            /* not refused */
    GALUMPER_ILL_FORMED = 1,      /* the buffer is not well-formed, or the lump reader is none to which bytes lead */
    GALUMPER_SHORT_FATES = 2,     /* a fate list of fewer than 1,024 lines, or 1,088 for a batch */
    GALUMPER_NO_TRACK = 3,        /* a track that the buffer does not have */
    GALUMPER_FRAME_LIMITS = 4,    /* a field of a frame, offered or read from a segment, outside its limit, or such a timescale */
    GALUMPER_SECONDS = 5,         /* a double that is NaN, infinite where it may not be, or beyond 1,000,000 either way */
    GALUMPER_ORDER = 6,           /* a window or a removal whose start does not come before its end, or is negative: in microseconds */
    GALUMPER_RESULT_LIMITS = 7,   /* a time that would lie beyond 4,000,000,000,000 either way, with the timestamp offset added */
    GALUMPER_FULL = 8,            /* no place for the frame, counting those that its append frees; a dropped frame needs none */
    GALUMPER_LAST_NUMBER = 9,     /* no frame number left to give, or no group number where the call would begin a group: the last of
                                   * either is 4,294,967,295 */
    GALUMPER_SHORT_LIST = 10,     /* more ranges or frames than the lent list has places */
    GALUMPER_KINDS = 11,          /* creation with no track, more than four, or an unknown kind */
    GALUMPER_MALFORMED = 12,      /* a segment with a box that overruns, is too short, has size 0 or an unknown version; or with a movie
                                   * fragment, a track fragment's header or a decode time missing, doubled or after a run */
    GALUMPER_LENT_SIZE = 13,      /* what is lent has a size that the call does not take: a batch of more than 64 frames, a lump of more than
                                   * 65,536 bytes, or a lump buffer of fewer */
    GALUMPER_LARGE_FRAGMENT = 14, /* a movie fragment box of more than 65,536 bytes in a segment that comes in lumps */
    GALUMPER_NO_START = 15,       /* no frame of the track covers the instant, or no random access point leads to the one that does */
    /* This header's own answer to a creation, and none of the library's: header and library do not belong together. */
    GALUMPER_OTHER_LAYOUT = 255
};

/* Why a frame is on a fate line. */
enum galumper_cause {
    GALUMPER_BEFORE_WINDOW = 1, /* dropped: it begins before the append window */
    GALUMPER_AFTER_WINDOW = 2,  /* dropped: it ends after the append window */
    GALUMPER_NEEDS_POINT = 3,   /* dropped: its track waits for a random access point */
    GALUMPER_OVERLAPPED = 4,    /* removed: the appended frame took its place */
    GALUMPER_DEPENDED = 5,      /* removed: it depended on a frame of its group that was removed */
    GALUMPER_REMOVED = 6        /* removed: by a removal, as it begins in the stretch that goes */
};

/* ---- what a buffer holds */

/* A track. The last decode time, the last duration and the highest end are set together, where `known`. */
typedef struct galumper_track {
    uint8_t kind;            /* an enum galumper_kind */
    uint8_t known;
    uint16_t need;           /* 1: it waits for a random access point */
    uint32_t duration;
    int64_t dts;
    int64_t end;
} galumper_track;

/* Where the next group of frames starts, if `begun`, the number of the group, and its end so far. The number is 0 at first, and one
 * more after each break, each abort, and each removal that takes a frame with its track's last decode timestamp. */
typedef struct galumper_group {
    uint32_t begun;
    uint32_t number;
    int64_t start;
    int64_t end;
} galumper_group;

/* A setting: the 64 bits of the double as it was given, beside its microseconds. A NaN's bits are not well-formed, nor is a double beside
 * microseconds that are not its own. */
typedef struct galumper_setting {
    uint64_t bits;
    int64_t micros;
} galumper_setting;

typedef struct galumper_settings {
    galumper_setting offset; /* timestamp offset */
    galumper_setting start;  /* append window start */
    uint64_t bounded;        /* 1: there is an append window end */
    uint64_t end;            /* the bits of the double given for it; 0 where there is none */
    int64_t limit;           /* its microseconds; 0 where there is none */
} galumper_settings;

/* Everything but the frames. */
typedef struct galumper_head {
    galumper_track tracks[GALUMPER_TRACKS]; /* track n stands at n - 1; zeros past the count */
    size_t ntracks;
    size_t nframes;
    uint32_t mode;           /* an enum galumper_mode */
    uint32_t last;           /* the last frame number given: that of the frame last appended, dropped or not */
    galumper_group group;
    galumper_settings settings;
} galumper_head;

/* A buffer. A stored coded frame has a row in `times` and one in `tags`, at the same place: `head.nframes` of them, sorted by
 * track, decode time and number, and zeros after them. The flag is 1 for a random access point; numbers are given from 1 in the
 * order of the appends; the group is the one in which the frame was stored, and none is above `head.group.number`. A buffer may be
 * read, copied and kept as any struct. No byte of it is padding: two buffers are the same exactly when memcmp says so, and its bytes
 * may be saved and loaded (ask galumper_matches before a loaded one is used; docs/EMBEDDING.md has those of former versions). */
typedef struct galumper_buffer {
    galumper_head head;
    int64_t times[GALUMPER_PLACES][2]; /* presentation and decode timestamp, with the timestamp offset added */
    uint32_t tags[GALUMPER_PLACES][5]; /* track, flag, duration, number, group */
} galumper_buffer;

/* ---- what a call takes and answers */

/* A coded frame as offered to an append. Its timestamps are at most 1,000,000,000,000 either way. */
typedef struct galumper_offered {
    uint32_t track;          /* from 1 */
    uint8_t flagged;         /* 1: a random access point */
    uint32_t duration;       /* from 1 to 10,000,000 */
    int64_t pts;             /* presentation timestamp */
    int64_t dts;             /* decode timestamp */
} galumper_offered;

/* A line of a fate list: a frame that is dropped or removed. */
typedef struct galumper_fate {
    uint32_t number;
    uint32_t cause;          /* an enum galumper_cause */
} galumper_fate;

/* A range of instants, from `start` up to `end`, which is outside. */
typedef struct galumper_range {
    int64_t start;
    int64_t end;
} galumper_range;

/* The track of a segment that is read. All but `track` stands in the initialization segment, in its boxes tkhd, mdhd and trex. */
typedef struct galumper_segment_track {
    uint32_t id;             /* the track's ID in the segment */
    uint32_t track;          /* the track number that its frames shall carry; it is not judged here */
    uint32_t timescale;      /* units of its media times in a second, from 1 to 1,000,000 */
    uint32_t duration;       /* of a sample for which the segment names none, in these units */
    uint32_t size;           /* likewise, in bytes */
    uint32_t flags;          /* likewise */
} galumper_segment_track;

/* A coded frame with its size, as one row of numbers. The times of a row that was listed are within the limits of an append. */
typedef struct galumper_listed_frame {
    int64_t track;           /* the track number that was asked for */
    int64_t pts;
    int64_t dts;
    int64_t duration;
    int64_t flagged;         /* 1: a random access point; else 0 */
    int64_t size;            /* bytes of the frame */
} galumper_listed_frame;

/* The reader of a segment that comes in lumps: how far it has come. All zeros is a fresh one. It belongs with what is kept of the segment
 * in the lump buffer: both together may be copied and kept, and gone on with later. No byte of it is padding. */
typedef struct galumper_lump_reader {
    uint8_t head[16];        /* the bytes met of a box's header, then zeros */
    uint64_t left;           /* the bytes of a box's body still to come */
    size_t kept;             /* the bytes of the movie fragment's body that stand in the lump buffer, from its start */
    size_t seen;             /* how many bytes of the header were met */
    uint32_t phase;          /* 0: in a header, or between two boxes; 1: in a body that is passed over; 2: in the body that is kept;
                              * 3: past a size under its header, where no box can be told any more */
    uint32_t fragments;      /* the movie fragments met, two for more */
} galumper_lump_reader;

/* What a call answers: an enum galumper_refusal, and how many lines, ranges or frames it wrote to the lent list, whose places past
 * these are not touched; of galumper_walked, which is lent none, the frames that it counts. */
typedef struct galumper_answer {
    uint32_t refusal;
    size_t count;
} galumper_answer;

/* What appending a batch answers: an enum galumper_refusal for the call, one for the frame that stopped it (GALUMPER_DONE where none
 * did), how many frames were accepted, and how many lines were written to the fate list. Lines past these are not touched. */
typedef struct galumper_batch {
    uint32_t refusal;
    uint32_t stop;
    size_t accepted;
    size_t count;
} galumper_batch;

/* What a seek answers: an enum galumper_refusal, the number of the frame that the track shows at the instant, the number of the random
 * access point from which it is decoded, and how many frames that takes, both of these counted. After a refusal the three are 0. */
typedef struct galumper_start {
    uint32_t refusal;
    uint32_t target;
    uint32_t flagged;
    size_t count;
} galumper_start;

/* Bytes to feed a decoder: they stand in what was lent. */
typedef struct galumper_bytes {
    const uint8_t *bytes;
    size_t length;
} galumper_bytes;

/* What reading the settings answers. `end` is 0.0 where `bounded` is 0. */
typedef struct galumper_reading {
    uint32_t refusal;
    uint8_t bounded;
    double offset;
    double start;
    double end;
} galumper_reading;

/* ---- the library's functions, on a head by value and arrays that are lent; a program uses the calls below */

typedef struct galumper_answered {
    galumper_head head;
    galumper_answer answer;
} galumper_answered;

typedef struct galumper_batched {
    galumper_head head;
    galumper_batch answer;
} galumper_batched;

typedef struct galumper_lumped {
    galumper_lump_reader reader;
    galumper_answer answer;
} galumper_lumped;

/* Where such bytes start in the initialization bytes or the segment, and how many they are. */
typedef struct galumper_part {
    size_t start;
    size_t length;
} galumper_part;

uint32_t galumper_abi(void);
size_t galumper_size(void);
galumper_answered galumper_lent_create(const uint8_t *kinds, size_t ntracks, int64_t times[GALUMPER_PLACES][2],
                                       uint32_t tags[GALUMPER_PLACES][5]);
galumper_answered galumper_lent_append(galumper_head head, galumper_offered frame, int64_t times[GALUMPER_PLACES][2],
                                       uint32_t tags[GALUMPER_PLACES][5], galumper_fate *fates, size_t lines);
galumper_batched galumper_lent_append_batch(galumper_head head, const galumper_listed_frame *frames, size_t nframes,
                                            int64_t times[GALUMPER_PLACES][2], uint32_t tags[GALUMPER_PLACES][5],
                                            galumper_fate *fates, size_t lines);
galumper_answered galumper_lent_remove(galumper_head head, double start, double end, int64_t times[GALUMPER_PLACES][2],
                                       uint32_t tags[GALUMPER_PLACES][5], galumper_fate *fates, size_t lines);
galumper_answered galumper_lent_abort(galumper_head head, const int64_t times[GALUMPER_PLACES][2],
                                      const uint32_t tags[GALUMPER_PLACES][5]);
galumper_answered galumper_lent_set_segments(galumper_head head, const int64_t times[GALUMPER_PLACES][2],
                                             const uint32_t tags[GALUMPER_PLACES][5]);
galumper_answered galumper_lent_set_sequence(galumper_head head, const int64_t times[GALUMPER_PLACES][2],
                                             const uint32_t tags[GALUMPER_PLACES][5]);
galumper_answered galumper_lent_set_offset(galumper_head head, const int64_t times[GALUMPER_PLACES][2],
                                           const uint32_t tags[GALUMPER_PLACES][5], double seconds);
galumper_answered galumper_lent_set_window_start(galumper_head head, const int64_t times[GALUMPER_PLACES][2],
                                                 const uint32_t tags[GALUMPER_PLACES][5], double seconds);
galumper_answered galumper_lent_set_window_end(galumper_head head, const int64_t times[GALUMPER_PLACES][2],
                                               const uint32_t tags[GALUMPER_PLACES][5], double seconds);
galumper_reading galumper_lent_read_settings(galumper_head head, const int64_t times[GALUMPER_PLACES][2],
                                             const uint32_t tags[GALUMPER_PLACES][5]);
galumper_answer galumper_lent_track_ranges(galumper_head head, const int64_t times[GALUMPER_PLACES][2],
                                           const uint32_t tags[GALUMPER_PLACES][5], uint32_t track, galumper_range *ranges,
                                           size_t places);
galumper_answer galumper_lent_common_ranges(galumper_head head, const int64_t times[GALUMPER_PLACES][2],
                                            const uint32_t tags[GALUMPER_PLACES][5], galumper_range *ranges, size_t places);
galumper_answer galumper_lent_walked(galumper_head head, const int64_t times[GALUMPER_PLACES][2],
                                     const uint32_t tags[GALUMPER_PLACES][5], uint32_t track, size_t places);
galumper_start galumper_lent_seek(galumper_head head, const int64_t times[GALUMPER_PLACES][2],
                                  const uint32_t tags[GALUMPER_PLACES][5], uint32_t track, int64_t instant);
galumper_part galumper_lent_feed(const uint8_t *initialization, size_t initialization_length, const uint8_t *segment,
                                 size_t segment_length, uint32_t whole, size_t start, size_t end);
galumper_answer galumper_lent_list_segment(galumper_segment_track of, const uint8_t *segment, size_t length,
                                           galumper_listed_frame *frames, size_t places);
galumper_lumped galumper_lent_take_lump(galumper_lump_reader reader, uint8_t *buffer, size_t size, const uint8_t *lump, size_t length);
galumper_lumped galumper_lent_take_last(galumper_lump_reader reader, galumper_segment_track of, const uint8_t *buffer, size_t size,
                                        const uint8_t *lump, size_t length, galumper_listed_frame *frames, size_t places);

/* A compiler that lays a struct out otherwise than the library reads it does not take this header. */
#ifdef __cplusplus
#define GALUMPER_LAID_OUT(as) static_assert(as, "galumper.h: a layout that is not the library's")
#else
#define GALUMPER_LAID_OUT(as) _Static_assert(as, "galumper.h: a layout that is not the library's")
#endif
GALUMPER_LAID_OUT(sizeof(galumper_buffer) == GALUMPER_SIZE);
GALUMPER_LAID_OUT(offsetof(galumper_buffer, times) == 200);
GALUMPER_LAID_OUT(offsetof(galumper_buffer, tags) == 200 + 16 * GALUMPER_PLACES);
GALUMPER_LAID_OUT(sizeof(galumper_head) == 200 && offsetof(galumper_head, mode) == 112 && offsetof(galumper_head, settings) == 144);
GALUMPER_LAID_OUT(sizeof(galumper_track) == 24 && offsetof(galumper_track, need) == 2 && offsetof(galumper_track, duration) == 4);
GALUMPER_LAID_OUT(sizeof(galumper_group) == 24 && offsetof(galumper_group, number) == 4 && offsetof(galumper_group, start) == 8);
GALUMPER_LAID_OUT(sizeof(galumper_setting) == 16);
GALUMPER_LAID_OUT(sizeof(galumper_settings) == 56 && offsetof(galumper_settings, end) == 40);
GALUMPER_LAID_OUT(sizeof(galumper_offered) == 32 && offsetof(galumper_offered, duration) == 8);
GALUMPER_LAID_OUT(sizeof(galumper_fate) == 8 && sizeof(galumper_range) == 16);
GALUMPER_LAID_OUT(sizeof(galumper_segment_track) == 24 && sizeof(galumper_listed_frame) == 48);
GALUMPER_LAID_OUT(sizeof(galumper_answer) == 16 && offsetof(galumper_answer, count) == 8);
GALUMPER_LAID_OUT(sizeof(galumper_answered) == 216);
GALUMPER_LAID_OUT(sizeof(galumper_batch) == 24 && offsetof(galumper_batch, stop) == 4 && offsetof(galumper_batch, accepted) == 8);
GALUMPER_LAID_OUT(sizeof(galumper_batched) == 224);
GALUMPER_LAID_OUT(sizeof(galumper_start) == 24 && offsetof(galumper_start, target) == 4 && offsetof(galumper_start, flagged) == 8);
GALUMPER_LAID_OUT(offsetof(galumper_start, count) == 16);
GALUMPER_LAID_OUT(sizeof(galumper_part) == 16 && offsetof(galumper_part, length) == 8);
GALUMPER_LAID_OUT(sizeof(galumper_lump_reader) == 48 && offsetof(galumper_lump_reader, left) == 16);
GALUMPER_LAID_OUT(offsetof(galumper_lump_reader, kept) == 24 && offsetof(galumper_lump_reader, phase) == 40);
GALUMPER_LAID_OUT(sizeof(galumper_lumped) == 64);
GALUMPER_LAID_OUT(sizeof(galumper_reading) == 32 && offsetof(galumper_reading, offset) == 8);
#undef GALUMPER_LAID_OUT

/* Keeps the head that a function answered, unless it refused, and hands on its answer. */
static inline galumper_answer galumper_kept(galumper_buffer *buffer, galumper_answered answered) {
    if (answered.answer.refusal == GALUMPER_DONE) {
        buffer->head = answered.head;
    }
    return answered.answer;
}

/* ---- the calls */

/* Whether the library that is linked belongs to this header. A creation asks it too; a program that loads buffers, or lists a segment,
 * takes a lump or feeds a decoder before it creates one, asks it first. */
static inline bool galumper_matches(void) {
    return galumper_abi() == GALUMPER_ABI && galumper_size() == GALUMPER_SIZE;
}

/* Makes `buffer`, whatever it holds, an empty one with a track for each kind, an enum galumper_kind. Refused 255, 11. */
static inline galumper_answer galumper_create(galumper_buffer *buffer, const uint8_t *kinds, size_t ntracks) {
    const uint8_t none = 0; /* what stands for a list of no places, here and below */
    if (!galumper_matches()) {
        galumper_answer answer = {GALUMPER_OTHER_LAYOUT, 0};
        return answer;
    }
    return galumper_kept(buffer, galumper_lent_create(ntracks ? kinds : &none, ntracks, buffer->times, buffer->tags));
}

/* Appends a frame. A frame that is dropped, and each stored frame that is lost, is told on a line of `fates`, and `count` says how
 * many lines there are; `lines` is at least GALUMPER_FATES. The first 9 is for the frame's number; the second is for the group that a
 * frame begins which breaks off from its track, be it then dropped or not. Refused 1, 2, 3, 4, 9, 7, 9, 8. */
static inline galumper_answer galumper_append(galumper_buffer *buffer, galumper_offered frame, galumper_fate *fates, size_t lines) {
    galumper_fate none;
    return galumper_kept(buffer, galumper_lent_append(buffer->head, frame, buffer->times, buffer->tags, lines ? fates : &none, lines));
}

/* Appends the frames of a list in its order, at most GALUMPER_BATCH rows as galumper_list_segment writes them, each as galumper_append
 * does; their fate lines follow each other in `fates`, and `lines` is at least GALUMPER_BATCH_FATES. It stops at the first frame that an
 * append refuses (3, 4, 9, 7, 9, 8): that is no refusal of the call, the frame alone changes nothing, and the frames accepted before it stay.
 * A track that no uint32_t holds is one that the buffer does not have, and such a duration is outside its limit, as is a flag that is
 * neither 0 nor 1; the size is not looked at. Refused 1, 13, 2, also for an empty list, which else changes nothing. */
static inline galumper_batch galumper_append_batch(galumper_buffer *buffer, const galumper_listed_frame *frames, size_t nframes,
                                                   galumper_fate *fates, size_t lines) {
    const galumper_listed_frame empty = {0, 0, 0, 0, 0, 0};
    galumper_fate none;
    const galumper_batched batched = galumper_lent_append_batch(buffer->head, nframes ? frames : &empty, nframes, buffer->times,
                                                                buffer->tags, lines ? fates : &none, lines);
    if (batched.answer.refusal == GALUMPER_DONE) {
        buffer->head = batched.head;
    }
    return batched.answer;
}

/* Removes, on each track, the frames that begin from `start` up to the first random access point at or after `end` (in seconds), and
 * the frames that depend on them; where there is no such point, or `end` is plus infinity, all from `start` on. Fate lines are written as
 * by an append. Where a frame with its track's last decode timestamp goes, the next group begins, and every track waits for a random
 * access point. Refused 1, 2, 5, 6, 9. */
static inline galumper_answer galumper_remove(galumper_buffer *buffer, double start, double end, galumper_fate *fates, size_t lines) {
    galumper_fate none;
    return galumper_kept(buffer, galumper_lent_remove(buffer->head, start, end, buffer->times, buffer->tags, lines ? fates : &none, lines));
}

/* Aborts: the next group begins, also where nothing was appended to this one, every track waits for a random access point, the append
 * window is from 0 on without an end, the timestamp offset stays. Refused 1, 9. */
static inline galumper_answer galumper_abort(galumper_buffer *buffer) {
    const galumper_buffer *lent = buffer;
    return galumper_kept(buffer, galumper_lent_abort(lent->head, lent->times, lent->tags));
}

/* Sets segments mode. Refused 1. */
static inline galumper_answer galumper_set_segments(galumper_buffer *buffer) {
    const galumper_buffer *lent = buffer;
    return galumper_kept(buffer, galumper_lent_set_segments(lent->head, lent->times, lent->tags));
}

/* Sets sequence mode. Refused 1. */
static inline galumper_answer galumper_set_sequence(galumper_buffer *buffer) {
    const galumper_buffer *lent = buffer;
    return galumper_kept(buffer, galumper_lent_set_sequence(lent->head, lent->times, lent->tags));
}

/* Sets the timestamp offset. Refused 1, 5. */
static inline galumper_answer galumper_set_offset(galumper_buffer *buffer, double seconds) {
    const galumper_buffer *lent = buffer;
    return galumper_kept(buffer, galumper_lent_set_offset(lent->head, lent->times, lent->tags, seconds));
}

/* Sets the append window start, which is 0 in a fresh buffer. Refused 1, 5, 6. */
static inline galumper_answer galumper_set_window_start(galumper_buffer *buffer, double seconds) {
    const galumper_buffer *lent = buffer;
    return galumper_kept(buffer, galumper_lent_set_window_start(lent->head, lent->times, lent->tags, seconds));
}

/* Sets the append window end; plus infinity makes it unbounded. Refused 1, 5, 6. */
static inline galumper_answer galumper_set_window_end(galumper_buffer *buffer, double seconds) {
    const galumper_buffer *lent = buffer;
    return galumper_kept(buffer, galumper_lent_set_window_end(lent->head, lent->times, lent->tags, seconds));
}

/* Reads the three settings, each double as it was given. Where an append in sequence mode has set the timestamp offset, it is its
 * microseconds divided by 1,000,000. Refused 1. */
static inline galumper_reading galumper_read_settings(const galumper_buffer *buffer) {
    return galumper_lent_read_settings(buffer->head, buffer->times, buffer->tags);
}

/* Writes the ranges that a track's frames cover, in rising order. An instant is in one of them exactly when a stored frame covers
 * it. Refused 1, 3, 10. */
static inline galumper_answer galumper_track_ranges(const galumper_buffer *buffer, uint32_t track, galumper_range *ranges,
                                                    size_t places) {
    galumper_range none;
    return galumper_lent_track_ranges(buffer->head, buffer->times, buffer->tags, track, places ? ranges : &none, places);
}

/* Writes the ranges that are covered on every track, in rising order. Refused 1, 10. */
static inline galumper_answer galumper_common_ranges(const galumper_buffer *buffer, galumper_range *ranges, size_t places) {
    galumper_range none;
    return galumper_lent_common_ranges(buffer->head, buffer->times, buffer->tags, places ? ranges : &none, places);
}

/* How many of a track's frames galumper_track_ranges takes, in presentation order, into a list of so many places. It takes all of them,
 * or where there is one range too many, those up to and with the first frame of that range; `count` says how many also where the report
 * itself is refused 10. No list is lent. Refused 1, 3. */
static inline galumper_answer galumper_walked(const galumper_buffer *buffer, uint32_t track, size_t places) {
    return galumper_lent_walked(buffer->head, buffer->times, buffer->tags, track, places);
}

/* Where to start decoding, so that a track shows what it has at an instant in microseconds, which may be any. The target is the frame of
 * the track that covers the instant; of several the one with the greatest presentation timestamp, then with the greatest number. It is
 * decoded from the nearest random access point of its group and track at or before it in store order, which may be itself. The frames to
 * decode are those of its group in the rows of the buffer from the one to the other: `count` of them, never more than the track has stored.
 * On a buffer that only these calls made, 15 says that no frame of the track covers the instant; on any other it may also say that the
 * target has no such random access point. Refused 1, 3, 15. */
static inline galumper_start galumper_seek(const galumper_buffer *buffer, uint32_t track, int64_t instant) {
    return galumper_lent_seek(buffer->head, buffer->times, buffer->tags, track, instant);
}

/* What to feed a decoder: where `whole`, the initialization bytes, all of them; else the part of the segment from `start` up to `end`,
 * which is outside. Nothing is copied: the bytes stand in what was lent, and stay good as long as that does. A place that overruns the
 * segment, or starts above its end, gives the empty part at the segment's start, and never the rest that is there. Never refused. */
static inline galumper_bytes galumper_feed(const uint8_t *initialization, size_t initialization_length, const uint8_t *segment,
                                           size_t segment_length, bool whole, size_t start, size_t end) {
    const uint8_t empty = 0;
    const galumper_part part = galumper_lent_feed(initialization_length ? initialization : &empty, initialization_length,
                                                  segment_length ? segment : &empty, segment_length, whole, start, end);
    galumper_bytes fed = {whole ? initialization : segment, part.length};
    if (part.start > 0) { /* which nothing null has */
        fed.bytes += part.start;
    }
    return fed;
}

/* Lists a track's frames with their sizes, in file order, from the one movie fragment of a segment, fragmented MP4 by ISO/IEC 14496-12;
 * a segment that has none of this track lists nothing. A media time is converted to microseconds and rounded down, also below zero; a
 * frame's end is converted the same way, and its duration is the difference. Refused 12, 4, 10. */
static inline galumper_answer galumper_list_segment(galumper_segment_track of, const uint8_t *segment, size_t length,
                                                    galumper_listed_frame *frames, size_t places) {
    const uint8_t empty = 0;
    galumper_listed_frame none;
    return galumper_lent_list_segment(of, length ? segment : &empty, length, places ? frames : &none, places);
}

/* A fresh reader: all zeros. */
galumper_lump_reader galumper_fresh_reader(void);

/* Takes a lump of a segment that comes cut anywhere: at most GALUMPER_LUMP bytes, or none. `reader` and `buffer` are as the call before
 * left them, at first a fresh reader and any bytes. The buffer has at least GALUMPER_LUMP bytes; those past the first so many are never
 * touched. With `last` it is told that no more comes: the frames are listed as galumper_list_segment lists those of the whole segment,
 * the reader is fresh, and the buffer is not written to. Until then nothing is listed, and neither `of` nor the list is looked at. A call
 * that is refused has taken no byte of its lump. 14 is given for a movie fragment box of more than GALUMPER_LUMP bytes, with the lump that
 * has the last byte of its size; 12, 4 and 10 are given with the end alone. Refused 1, 13, 14, 12, 4, 10. */
static inline galumper_answer galumper_take_lump(galumper_lump_reader *reader, galumper_segment_track of, uint8_t *buffer, size_t size,
                                                 const uint8_t *lump, size_t length, bool last, galumper_listed_frame *frames,
                                                 size_t places) {
    const uint8_t empty = 0;
    uint8_t unkept = 0;
    galumper_listed_frame none;
    uint8_t *kept = size ? buffer : &unkept;
    const uint8_t *bytes = length ? lump : &empty;
    const galumper_lumped lumped = last ? galumper_lent_take_last(*reader, of, kept, size, bytes, length, places ? frames : &none, places)
                                        : galumper_lent_take_lump(*reader, kept, size, bytes, length);
    if (lumped.answer.refusal == GALUMPER_DONE) {
        *reader = lumped.reader;
    }
    return lumped.answer;
}

/* ---- what was answered, read */

/* Whether an instant is in one of the first `count` ranges of a list. */
static inline bool galumper_held(const galumper_range *ranges, size_t count, int64_t instant) {
    for (size_t i = 0; i < count; i++) {
        if (ranges[i].start <= instant && instant < ranges[i].end) {
            return true;
        }
    }
    return false;
}

/* A refusal in words. */
static inline const char *galumper_refusal_name(uint32_t refusal) {
    switch (refusal) {
    case GALUMPER_DONE: return "done";
    case GALUMPER_ILL_FORMED: return "the buffer or lump reader is not well-formed";
    case GALUMPER_SHORT_FATES: return "the fate list has too few lines";
    case GALUMPER_NO_TRACK: return "the buffer has no such track";
    case GALUMPER_FRAME_LIMITS: return "a frame or timescale is outside the limits";
    case GALUMPER_SECONDS: return "the seconds do not convert to microseconds";
    case GALUMPER_ORDER: return "the start is negative or not before the end";
    case GALUMPER_RESULT_LIMITS: return "a time would leave the limits";
    case GALUMPER_FULL: return "the store is full";
    case GALUMPER_LAST_NUMBER: return "the last frame or group number is given";
    case GALUMPER_SHORT_LIST: return "the list has too few places";
    case GALUMPER_KINDS: return "no track, more than four, or an unknown kind";
    case GALUMPER_MALFORMED: return "the segment is not well-formed";
    case GALUMPER_LENT_SIZE: return "what is lent has a size that the call does not take";
    case GALUMPER_LARGE_FRAGMENT: return "a movie fragment is too large for lumps";
    case GALUMPER_NO_START: return "nowhere to start decoding";
    case GALUMPER_OTHER_LAYOUT: return "header and library do not belong together";
    default: return "unknown refusal";
    }
}

/* A cause in words. */
static inline const char *galumper_cause_name(uint32_t cause) {
    switch (cause) {
    case GALUMPER_BEFORE_WINDOW: return "begins before the append window";
    case GALUMPER_AFTER_WINDOW: return "ends after the append window";
    case GALUMPER_NEEDS_POINT: return "its track waits for a random access point";
    case GALUMPER_OVERLAPPED: return "overlapped by an appended frame";
    case GALUMPER_DEPENDED: return "depended on a frame that is gone";
    case GALUMPER_REMOVED: return "begins in a removed stretch";
    default: return "unknown cause";
    }
}

#ifdef __cplusplus
}
#endif

#endif
