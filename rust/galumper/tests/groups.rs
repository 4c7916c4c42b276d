//! Groups as a program meets them: which frames a walk takes, refusal 9 in the last group, and buffers
//! that were saved before there were any.

use galumper::{
    Batch, Buffer, Cause, Fate, Kind, ListedFrame, Mode, Offered, Refusal, BATCH_FATES, FATES,
    FORMER_SIZE, PLACES,
};

/// What no call writes.
const FATE: Fate = Fate {
    number: 7,
    cause: Cause(7),
};

/// A frame of 100 microseconds.
fn frame(pts: i64, dts: i64, flagged: bool) -> Offered {
    Offered {
        track: 1,
        flagged,
        duration: 100,
        pts,
        dts,
    }
}

fn fresh() -> Box<Buffer> {
    galumper::create(&[Kind::VIDEO]).expect("a track")
}

/// The fate lines of an append.
fn appended(buffer: &mut Buffer, frame: Offered) -> Vec<Fate> {
    let mut fates = [FATE; FATES];
    let count = buffer.append(frame, &mut fates).expect("accepted");
    fates[..count].to_vec()
}

/// The stored frames: number and group of each.
fn groups(buffer: &Buffer) -> Vec<(u32, u32)> {
    let rows = buffer.tags[..buffer.head.nframes].iter();
    rows.map(|&[_, _, _, number, group]| (number, group))
        .collect()
}

/// A buffer whose group 0 has frame 1 and frame 2, which is shown at 400.
fn before_the_abort() -> Box<Buffer> {
    let mut buffer = fresh();
    assert_eq!(appended(&mut buffer, frame(0, 0, true)), []);
    assert_eq!(appended(&mut buffer, frame(400, 150, false)), []);
    buffer
}

#[test]
fn a_good_frame_stays_after_an_overlap() {
    let mut buffer = before_the_abort();
    assert_eq!(buffer.abort(), Ok(()));
    assert_eq!(buffer.head.group.number, 1);
    assert_eq!(appended(&mut buffer, frame(200, 100, true)), []);
    assert_eq!(appended(&mut buffer, frame(300, 200, false)), []);
    let second = Fate {
        number: 2,
        cause: Cause::OVERLAPPED,
    };
    assert_eq!(appended(&mut buffer, frame(400, 250, false)), [second]);
    assert_eq!(groups(&buffer), [(1, 0), (3, 1), (4, 1), (5, 1)]);
}

/// A call is refused by the last group, and changes nothing.
fn refused<A>(buffer: &Buffer, call: impl FnOnce(&mut Buffer, &mut [Fate]) -> Result<A, Refusal>) {
    let mut after = Box::new(buffer.clone());
    let mut fates = [FATE; FATES];
    assert_eq!(
        call(&mut after, &mut fates).err(),
        Some(Refusal::LastNumber)
    );
    assert_eq!(*after, *buffer);
    assert_eq!(fates, [FATE; FATES]);
}

#[test]
fn the_last_group() {
    let mut buffer = fresh();
    buffer.head.group.number = u32::MAX;
    refused(&buffer, |buffer, _| buffer.abort());
    // It is used as any other, as long as no call would begin the next.
    assert_eq!(appended(&mut buffer, frame(0, 0, true)), []);
    assert_eq!(appended(&mut buffer, frame(100, 100, true)), []);
    assert_eq!(groups(&buffer), [(1, u32::MAX), (2, u32::MAX)]);
    refused(&buffer, |buffer, _| buffer.abort());
    refused(&buffer, |buffer, fates| {
        buffer.append(frame(0, 0, true), fates)
    });
    let dropped = frame(500, 500, false);
    refused(&buffer, |buffer, fates| buffer.append(dropped, fates));
    refused(&buffer, |buffer, fates| buffer.remove(0.0, 1.0, fates));
    assert_eq!(buffer.remove(0.0, 0.0001, &mut [FATE; FATES]), Ok(1));

    let row = |time: i64| ListedFrame {
        track: 1,
        pts: time,
        dts: time,
        duration: 100,
        flagged: 1,
        size: 0,
    };
    let rows = [200, 0, 300].map(row);
    let batch = Batch {
        accepted: 1,
        stop: Some(Refusal::LastNumber),
        lines: 0,
    };
    let said = buffer.append_batch(&rows, &mut [FATE; BATCH_FATES]);
    assert_eq!(said, Ok(batch));
    assert_eq!(groups(&buffer), [(2, u32::MAX), (3, u32::MAX)]);
}

/// The bytes of a buffer as they were saved before version 0.6.0: rows of four tags, and the group's
/// number in the upper half of what says that its start is set.
fn former(buffer: &Buffer) -> Vec<u8> {
    let bytes = buffer.as_bytes();
    let (before, tags) = bytes.split_at(bytes.len() - PLACES * 20);
    let rows = tags.chunks_exact(20).flat_map(|row| &row[..16]);
    before.iter().chain(rows).copied().collect()
}

/// The buffer that former bytes are.
fn loaded(former: &[u8]) -> Box<Buffer> {
    let bytes: &[u8; FORMER_SIZE] = former.try_into().expect("as many bytes");
    Buffer::from_former_bytes(bytes)
}

#[test]
fn a_buffer_of_the_former_layout() {
    assert_eq!(FORMER_SIZE, 32_968);
    for saved in [fresh(), before_the_abort(), full()] {
        let mut buffer = loaded(&former(&saved));
        assert_eq!(buffer, saved);
        assert_eq!(buffer.abort(), Ok(()));
        assert_eq!(buffer.head.group.number, 1);
    }
}

/// A full store in group 0, with a group start.
fn full() -> Box<Buffer> {
    let mut buffer = fresh();
    for place in 0..PLACES as i64 {
        let offered = frame(100 * place, 100 * place, place % 25 == 0);
        assert_eq!(appended(&mut buffer, offered), []);
    }
    buffer.set_mode(Mode::Sequence).expect("a mode");
    buffer
}

#[test]
fn what_was_not_well_formed_before_is_not_now() {
    let begun = 120; // after tracks, counts, mode and last number
    for place in begun..begun + 8 {
        let mut bytes = former(&before_the_abort());
        assert_eq!(bytes[place], 0);
        bytes[place] = 2;
        let mut buffer = loaded(&bytes);
        assert_eq!(buffer.abort(), Err(Refusal::IllFormed), "byte {place}");
    }
}
