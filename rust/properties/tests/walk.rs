//! The walk through a frame: `ether_peel`.

use etherpeel::err::{Layer, LenError, SliceWriteSpaceError};
use etherpeel::ether_peel::{
    Feed, Peel, PeelError, PeelFault, PeelUnit, Summary, completion, completion_limited, feed, feed_limited, snap,
    snap_limited, summary, summary_limited, write_back, write_back_limited,
};
use etherpeel::{EtherPayloadSlice, LenSource, MacsecPayloadSlice};
use properties::cases::{Checked, check};
use properties::frames::{Frame, frame, frame_without_fcs, limit};
use properties::observed;
use properties::stream;
use properties::walk::{Start, Unit, Walk};
use properties::wire::{Ethernet, Header, Source};
use proptest::collection::vec;
use proptest::prelude::{Just, Strategy, any, prop_assert, prop_assert_eq, prop_oneof};
use proptest::strategy::ValueTree;

fn peel(frame: &Frame, limit: Option<usize>) -> Peel<'_> {
    let start = observed::start(frame.start);
    match limit {
        None => Peel::new(start, &frame.bytes),
        Some(limit) => Peel::with_limit(start, &frame.bytes, limit),
    }
}

fn summarized(start: Start, limit: Option<usize>, bytes: &[u8]) -> Summary {
    let start = observed::start(start);
    limit.map_or_else(|| summary(start, bytes), |limit| summary_limited(start, bytes, limit))
}

fn snapped(frame: &Frame, limit: Option<usize>, len: usize) -> Summary {
    let start = observed::start(frame.start);
    match limit {
        None => snap(start, &frame.bytes, len),
        Some(limit) => snap_limited(start, &frame.bytes, len, limit),
    }
}

fn fed(frame: &Frame, limit: Option<usize>) -> Feed {
    let start = observed::start(frame.start);
    limit.map_or_else(|| feed(start, &frame.bytes), |limit| feed_limited(start, &frame.bytes, limit))
}

fn completed(start: Start, limit: Option<usize>, bytes: &[u8]) -> Option<Vec<u8>> {
    let start = observed::start(start);
    let fill = match limit {
        None => completion(start, bytes),
        Some(limit) => completion_limited(start, bytes, limit),
    };
    fill.map(|fill| fill.to_vec())
}

fn written(frame: &Frame, limit: Option<usize>, target: &mut [u8]) -> Result<usize, SliceWriteSpaceError> {
    let start = observed::start(frame.start);
    match limit {
        None => write_back(start, &frame.bytes, target),
        Some(limit) => write_back_limited(start, &frame.bytes, target, limit),
    }
}

/// The bytes of a unit's payload window, and the view itself, are those of the model's unit.
fn shows(unit: &PeelUnit<'_>, wanted: &Unit, bytes: &[u8]) -> Checked {
    prop_assert_eq!(observed::header(unit), wanted.header.clone());
    let window = &bytes[wanted.window.start..wanted.window.end];
    let payload = &bytes[wanted.payload.start..wanted.payload.end];
    match unit {
        PeelUnit::Ethernet2(slice) => {
            prop_assert_eq!((slice.slice(), slice.payload_slice()), (window, payload));
        }
        PeelUnit::LinuxSll(slice) => prop_assert_eq!((slice.slice(), slice.payload_slice()), (window, payload)),
        PeelUnit::Vlan(slice) => prop_assert_eq!((slice.slice(), slice.payload_slice()), (window, payload)),
        PeelUnit::Macsec(slice) => {
            prop_assert_eq!(slice.header.slice(), &window[..wanted.header.header_len()]);
            secured(&slice.payload, wanted, payload)?;
        }
        PeelUnit::Arp(slice) => prop_assert_eq!(slice.slice(), &window[..wanted.header.header_len()]),
    }
    Ok(())
}

/// The payload of a SecTag has its ether type exactly if that can be read, and says what named its length.
fn secured(payload: &MacsecPayloadSlice<'_>, wanted: &Unit, bytes: &[u8]) -> Checked {
    let len_source = match wanted.header.named_payload() {
        Some(_) => LenSource::MacsecShortLength,
        None => LenSource::Slice,
    };
    let wanted = match wanted.next.ether_type() {
        Some(number) => {
            MacsecPayloadSlice::Unmodified(EtherPayloadSlice { ether_type: number.into(), len_source, payload: bytes })
        }
        None => MacsecPayloadSlice::Modified(bytes),
    };
    prop_assert_eq!(payload, &wanted);
    Ok(())
}

/// A walk finds exactly the units of the grammar, each in its window with its payload's, and then the first breach
/// with all its fields, or nothing; after a fault its window is that of the refused unit, and nothing follows.
///
/// Holds: `Peel::new`, `Peel::with_limit`, `Peel::rest`, `Peel::offset`, `Peel::kind`, `Peel::closed`, `Peel::bound`
#[test]
fn a_walk_finds_the_units_and_the_first_breach() {
    check((frame(), limit()), |(frame, limit)| {
        let walk = Walk::of(frame.start, limit, &frame.bytes);
        let mut peel = peel(&frame, limit);
        for wanted in &walk.units {
            prop_assert_eq!(observed::window(&peel), wanted.window);
            let Some(Ok(unit)) = peel.next() else { panic!("a unit is missing: {wanted:?}") };
            shows(&unit, wanted, &frame.bytes)?;
            prop_assert_eq!(observed::next(frame.start, peel.kind()), wanted.next);
            prop_assert_eq!(observed::window(&peel), wanted.payload);
        }
        let fault = peel.next().map(|ending| observed::fault(&ending.expect_err("the walk is over")));
        prop_assert_eq!(fault, observed::fault_of(&walk));
        prop_assert!(peel.next().is_none());
        prop_assert_eq!(observed::next(frame.start, peel.kind()), walk.next);
        prop_assert_eq!(observed::window(&peel), walk.rest);
        prop_assert_eq!(peel.rest(), &frame.bytes[walk.rest.start..walk.rest.end]);
        Ok(())
    });
}

/// A walker is cloned with what it has left to read, and a frame of n bytes has at most n / 4 units and a fault.
///
/// Holds: `Peel::new`, `Peel::with_limit`
#[test]
fn a_clone_reads_on_from_the_same_place() {
    check((frame(), limit(), 0..4usize), |(frame, limit, steps)| {
        let mut peel = peel(&frame, limit);
        let before = peel.by_ref().take(steps).count();
        let rest: Vec<_> = peel.clone().collect();
        prop_assert_eq!(&peel.collect::<Vec<_>>(), &rest);
        prop_assert!(before + rest.len() <= frame.bytes.len() / 4 + 1);
        Ok(())
    });
}

/// A summary has the number of units, the last window with what announces it, and the fault of the one walk. A walk
/// with a limit finds the first units of the one without, and a limit that is not reached changes nothing.
///
/// Holds: `summary`, `summary_limited`
#[test]
fn a_summary_is_the_result_of_the_walk() {
    check((frame(), limit()), |(frame, limit)| {
        let walk = Walk::of(frame.start, limit, &frame.bytes);
        let found = summarized(frame.start, limit, &frame.bytes);
        prop_assert_eq!(observed::outcome(frame.start, &found), observed::outcome_of(&walk));
        let unlimited = summarized(frame.start, None, &frame.bytes);
        prop_assert!(found.units <= unlimited.units);
        if limit.is_none_or(|limit| limit > frame.bytes.len() / 4) {
            prop_assert_eq!(found, unlimited);
        }
        let whole = Walk::of(frame.start, None, &frame.bytes);
        prop_assert!(whole.units.starts_with(&walk.units));
        Ok(())
    });
}

/// The summary of each cut of a frame is that of the walk of the bytes which are left.
///
/// Holds: `snap`, `snap_limited`
#[test]
fn a_cut_is_walked_like_a_frame_of_its_own() {
    check((frame(), limit()), |(frame, limit)| {
        for len in 0..=frame.bytes.len() {
            let cut = snapped(&frame, limit, len);
            let walk = Walk::of(frame.start, limit, &frame.bytes[..len]);
            prop_assert_eq!(observed::outcome(frame.start, &cut), observed::outcome_of(&walk));
        }
        Ok(())
    });
}

/// Without a frame check sequence, a cut has a front of the frame's units. If the frame is accepted, a cut that has all
/// its units is accepted with the same rest; any other cut has exactly the units before the first one that ends past
/// it, and an open refusal of that one, which names a length past the cut and not past the end of the unit.
///
/// Holds: `snap`, `snap_limited`
#[test]
fn cuts_keep_the_units_before_them() {
    check((frame_without_fcs(), limit()), |(frame, limit)| {
        let whole = Walk::of(frame.start, limit, &frame.bytes);
        for len in 0..=frame.bytes.len() {
            kept_by_cut(&whole, len, &snapped(&frame, limit, len))?;
        }
        Ok(())
    });
}

fn kept_by_cut(whole: &Walk, len: usize, cut: &Summary) -> Checked {
    prop_assert!(cut.units <= whole.units.len());
    if whole.breach.is_some() {
        return Ok(());
    }
    let Some(ended) = whole.units.iter().position(|unit| unit.end() > len) else {
        prop_assert_eq!((cut.units, cut.rest_start, cut.fault), (whole.units.len(), whole.rest.start, None));
        return Ok(());
    };
    let fault = cut.fault.expect("a unit is cut off");
    prop_assert_eq!((cut.units, fault.offset, fault.closed), (ended, whole.units[ended].window.start, false));
    let PeelError::Len(error) = fault.error else { panic!("not a length: {fault:?}") };
    let named = fault.offset + error.required_len;
    prop_assert!(len < named && named <= whole.units[ended].end());
    Ok(())
}

/// Without a frame check sequence, bytes appended to a frame keep what was found: an accepted frame has the same units
/// and is accepted; a fault of content or in a closed window is the same; an open refusal is the same until the length
/// that it names is there, with the added bytes in its `len`.
///
/// Holds: `summary`, `summary_limited`
#[test]
fn extensions_keep_what_was_found() {
    let more = prop_oneof![vec(any::<u8>(), 1..4), vec(any::<u8>(), 0..30)];
    check((frame_without_fcs(), limit(), more), |(frame, limit, more)| {
        let longer = [frame.bytes.as_slice(), &more].concat();
        let before = summarized(frame.start, limit, &frame.bytes);
        let after = summarized(frame.start, limit, &longer);
        prop_assert!(before.units <= after.units);
        if let Some(missing) = before.fault.and_then(|fault| fault.missing()) {
            if more.len() >= missing {
                return Ok(()); // nothing is said once the missing bytes are there
            }
        }
        let lengthened = before.fault.map(|fault| lengthened(fault, more.len()));
        prop_assert_eq!((after.units, after.rest_start, after.kind), (before.units, before.rest_start, before.kind));
        prop_assert_eq!(after.fault, lengthened);
        Ok(())
    });
}

/// A fault after bytes were added to the frame: those in an open window are counted.
fn lengthened(fault: PeelFault, added: usize) -> PeelFault {
    match fault.error {
        PeelError::Len(error) if !fault.closed => {
            PeelFault { error: PeelError::Len(LenError { len: error.len + added, ..error }), ..fault }
        }
        _ => fault,
    }
}

/// The missing bytes are those between the length that is there and the one that is required, of a length in an open
/// window alone, and if there are any.
///
/// Holds: `PeelFault::missing`
#[test]
fn missing_bytes_are_those_of_open_windows() {
    let lengths = (0..20usize, 0..20usize, any::<bool>(), 0..100usize);
    check((frame(), limit(), lengths), |(frame, limit, (required_len, len, closed, offset))| {
        let walk = Walk::of(frame.start, limit, &frame.bytes);
        let found = summarized(frame.start, limit, &frame.bytes);
        let missing = walk.demand().map(|(_, named)| named - walk.rest.end);
        prop_assert_eq!(found.fault.and_then(|fault| fault.missing()), missing);

        let layer = Layer::Arp;
        let error = LenError { required_len, len, len_source: LenSource::Slice, layer, layer_start_offset: offset };
        let fault = PeelFault { offset, error: PeelError::Len(error), closed };
        let is_missing = !closed && len < required_len;
        prop_assert_eq!(fault.missing(), is_missing.then(|| required_len - len));
        Ok(())
    });
}

/// The headers written back before the rest are the front of the frame, but the two reserved bits of each SecTag are 0.
/// What the target has after them is unchanged. A target that is too short is refused, and unchanged.
///
/// Holds: `write_back`, `write_back_limited`
#[test]
fn headers_go_back() {
    check((frame(), limit(), any::<u8>(), 0..8usize), |(frame, limit, byte, spare)| {
        let walk = Walk::of(frame.start, limit, &frame.bytes);
        let end = walk.rest.end;
        let front = walk.cleared(&frame.bytes);
        prop_assert_eq!(&walk.written_back(&frame.bytes), &front);

        let mut target = vec![byte; end + spare];
        prop_assert_eq!(written(&frame, limit, &mut target), Ok(end));
        prop_assert_eq!(target, [front, vec![byte; spare]].concat());

        let Some(len) = end.checked_sub(1 + spare) else { return Ok(()) };
        let mut target = vec![byte; len];
        let layer = Layer::EtherPayload;
        let error = SliceWriteSpaceError { required_len: end, len, layer, layer_start_offset: 0 };
        prop_assert_eq!(written(&frame, limit, &mut target), Err(error));
        prop_assert_eq!(target, vec![byte; len]);
        Ok(())
    });
}

/// A walk that is fed asks for exactly the lengths that its fronts name, takes the greatest of them, and ends as the
/// walk of the bytes taken. A SecTag asks at most three times, an ARP packet twice, another unit once, and none in a
/// closed window. If the frame is accepted and has no frame check sequence, exactly its units are taken.
///
/// Holds: `feed`, `feed_limited`
#[test]
fn feeding_takes_the_bytes_that_are_asked_for() {
    check((frame(), limit()), |(frame, limit)| {
        let demands = stream::demands(frame.start, limit, &frame.bytes);
        let taken = demands.last().copied().unwrap_or(0);
        let walk = Walk::of(frame.start, limit, &frame.bytes[..taken]);
        let fed = fed(&frame, limit);
        prop_assert_eq!((fed.refusals, fed.taken), (demands.len(), taken));
        prop_assert_eq!(fed.fault.as_ref().map(observed::fault), observed::fault_of(&walk));

        let whole = Walk::of(frame.start, limit, &frame.bytes);
        prop_assert!(fed.refusals <= stream::most_demands(&walk));
        if whole.breach.is_none() && frame.start != Start::EthernetFcs {
            prop_assert_eq!((fed.taken, fed.fault), (whole.reach(), None));
        }
        Ok(())
    });
}

/// The bytes that complete a cut of a frame are those of the unit in which it ends. With them it is accepted, with
/// exactly one further unit; with fewer bytes, whatever they are, it is not.
///
/// Holds: `completion`, `completion_limited`
#[test]
fn a_completion_adds_one_unit() {
    let others = prop_oneof![Just(Vec::new()), vec(any::<u8>(), 0..30)];
    check((frame(), limit(), others), |(frame, limit, others)| {
        for len in 0..=frame.bytes.len() {
            completes(frame.start, limit, &frame.bytes[..len], &others)?;
        }
        Ok(())
    });
}

fn completes(start: Start, limit: Option<usize>, cut: &[u8], others: &[u8]) -> Checked {
    let completion = completed(start, limit, cut);
    prop_assert_eq!(&completion, &stream::completion(start, limit, cut));
    let Some(completion) = completion else { return Ok(()) };
    let before = summarized(start, limit, cut);
    let after = summarized(start, limit, &[cut, &completion].concat());
    prop_assert_eq!((after.units, after.fault), (before.units + 1, None));
    let fewer = &others[..others.len().min(completion.len() - 1)];
    prop_assert!(summarized(start, limit, &[cut, fewer].concat()).fault.is_some());
    Ok(())
}

/// A frame that is drawn often has each kind of header, each way to end, and a completion: the properties above are
/// about something.
#[test]
fn drawn_frames_are_of_every_kind() {
    let mut seen = [0; 9];
    let runner = &mut proptest::test_runner::TestRunner::deterministic();
    for _ in 0..1000 {
        let frame = frame().new_tree(runner).expect("a frame is drawn").current();
        let walk = Walk::of(frame.start, None, &frame.bytes);
        let has = |test: fn(&Header) -> bool| walk.headers().any(test);
        let kinds = [
            has(|header| matches!(header, Header::Ethernet(_))),
            has(|header| matches!(header, Header::EthernetFcs(Ethernet { .. }))),
            has(|header| matches!(header, Header::Cooked(_))),
            has(|header| matches!(header, Header::Vlan(_))),
            has(|header| matches!(header, Header::SecTag(_))),
            has(|header| matches!(header, Header::Arp(_))),
            walk.breach.is_some() && walk.rest.closed && walk.rest.bound == Source::ShortLength,
            walk.demand().is_some(),
            stream::completion(frame.start, None, &frame.bytes).is_some(),
        ];
        seen.iter_mut().zip(kinds).for_each(|(count, kind)| *count += usize::from(kind));
    }
    assert!(seen.iter().all(|&count| count >= 20), "{seen:?}");
}
