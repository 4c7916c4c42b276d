// Writes where each field of each struct stands, and how many bytes the struct has.
#include "galumper.h"

#include <stdio.h>

#define NAME(type) printf(#type ": ")
#define AT(type, field) printf(#field " %zu, ", offsetof(galumper_##type, field))
#define BYTES(type) printf("%zu bytes\n", sizeof(galumper_##type))

int main(void) {
    NAME(track), AT(track, kind), AT(track, known), AT(track, need), AT(track, duration), AT(track, dts), AT(track, end);
    BYTES(track);
    NAME(group), AT(group, begun), AT(group, number), AT(group, start), AT(group, end), BYTES(group);
    NAME(setting), AT(setting, bits), AT(setting, micros), BYTES(setting);
    NAME(settings), AT(settings, offset), AT(settings, start), AT(settings, bounded), AT(settings, end), AT(settings, limit);
    BYTES(settings);
    NAME(head), AT(head, tracks), AT(head, ntracks), AT(head, nframes), AT(head, mode), AT(head, last), AT(head, group);
    AT(head, settings), BYTES(head);
    NAME(buffer), AT(buffer, head), AT(buffer, times), AT(buffer, tags), BYTES(buffer);
    NAME(offered), AT(offered, track), AT(offered, flagged), AT(offered, duration), AT(offered, pts), AT(offered, dts);
    BYTES(offered);
    NAME(fate), AT(fate, number), AT(fate, cause), BYTES(fate);
    NAME(range), AT(range, start), AT(range, end), BYTES(range);
    NAME(segment_track), AT(segment_track, id), AT(segment_track, track), AT(segment_track, timescale);
    AT(segment_track, duration), AT(segment_track, size), AT(segment_track, flags), BYTES(segment_track);
    NAME(listed_frame), AT(listed_frame, track), AT(listed_frame, pts), AT(listed_frame, dts), AT(listed_frame, duration);
    AT(listed_frame, flagged), AT(listed_frame, size), BYTES(listed_frame);
    NAME(lump_reader), AT(lump_reader, head), AT(lump_reader, left), AT(lump_reader, kept), AT(lump_reader, seen);
    AT(lump_reader, phase), AT(lump_reader, fragments), BYTES(lump_reader);
    NAME(start), AT(start, refusal), AT(start, target), AT(start, flagged), AT(start, count), BYTES(start);
    NAME(part), AT(part, start), AT(part, length), BYTES(part);
    return 0;
}
