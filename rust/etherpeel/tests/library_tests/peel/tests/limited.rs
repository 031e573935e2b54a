//! For each call, the form with a limit on VLAN tags and SecTags if there is a limit, otherwise the plain one.

use arrayvec::ArrayVec;
use etherpeel::ether_peel::{
    Feed, Peel, Start, Summary, completion, completion_limited, feed, feed_limited, snap,
    snap_limited, summary, summary_limited, write_back, write_back_limited,
};
use etherpeel::err::SliceWriteSpaceError;

/// The walk with a limit if there is one, otherwise the plain walk.
pub(crate) fn walker<'a>(start: Start, frame: &'a [u8], limit: Option<usize>) -> Peel<'a> {
    match limit {
        Some(limit) => Peel::with_limit(start, frame, limit),
        None => Peel::new(start, frame),
    }
}

pub(crate) fn summed(start: Start, frame: &[u8], limit: Option<usize>) -> Summary {
    match limit {
        Some(limit) => summary_limited(start, frame, limit),
        None => summary(start, frame),
    }
}

pub(crate) fn snapped(start: Start, frame: &[u8], n: usize, limit: Option<usize>) -> Summary {
    match limit {
        Some(limit) => snap_limited(start, frame, n, limit),
        None => snap(start, frame, n),
    }
}

pub(crate) fn fed(start: Start, frame: &[u8], limit: Option<usize>) -> Feed {
    match limit {
        Some(limit) => feed_limited(start, frame, limit),
        None => feed(start, frame),
    }
}

pub(crate) fn written(
    start: Start,
    frame: &[u8],
    target: &mut [u8],
    limit: Option<usize>,
) -> Result<usize, SliceWriteSpaceError> {
    match limit {
        Some(limit) => write_back_limited(start, frame, target, limit),
        None => write_back(start, frame, target),
    }
}

pub(crate) fn completed(
    start: Start,
    frame: &[u8],
    limit: Option<usize>,
) -> Option<ArrayVec<u8, 1028>> {
    match limit {
        Some(limit) => completion_limited(start, frame, limit),
        None => completion(start, frame),
    }
}
