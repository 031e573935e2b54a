//! The frames of a line, written one after another.

use crate::ether_make::check_sequence::check_sequence;
use crate::ether_make::frame::{Frame, padded};
use crate::ether_make::output::{finished, has_sequence, write_frame};
use crate::ether_make::progress::{Progress, paced, time_at};
use crate::ether_make::settings::Settings;
use crate::ether_make::slot::Slot;
use crate::ether_make::template::{Template, number_ranges};
use crate::ether_make::time_text::Time;
use crate::ether_make::random::SplitMix64;
use crate::ether_make::memory::AllocError;
use std::io;
use std::io::Write;

/// The frames of a line.
#[derive(Debug)]
pub struct Series {
    /// The first frame, as it is written.
    pub frame: Frame,
    /// How many bytes it has without its check sequence.
    pub len: usize,
    /// The places of ranges.
    pub slots: Vec<Slot>,
}

/// The frames of an object, which are padded and get their check sequences if that is asked for.
///
/// <details><summary>Contract</summary>
///
/// ```text
/// ensures { IfOk result (IsSeries settings.now (template_view template)) }
/// ```
///
/// </details>
pub fn series_of(settings: &Settings, template: Template) -> Result<Series, AllocError> {
    let frame = padded(template.frame, settings.pad)?;
    let len = frame.bytes.len();
    Ok(Series {
        frame: finished(settings, frame)?,
        len,
        slots: template.found.slots,
    })
}

/// Writes so many frames.
///
/// # Panics
///
/// The call may panic, or return something else, if a `requires` of its contract is not met.
///
/// <details><summary>Contract</summary>
///
/// ```text
/// requires finished { IsFinished settings.now series }
/// requires whole { length series.frame.bytes.items ≡ series.len + sequence_len settings.now series.frame.link }
/// requires fits { series.len ≤ longest }
/// requires timely { is_timely_at settings.now.rate progress.old.pace series.frame.time count ≡ true }
/// ensures grows { OnOk result (Grows (IsBegunAs settings.now.form settings.now.fcs) progress.old.link
///     (all_linked progress.old.link (series_frames settings.now (progress_view progress.old) count series))
///     (map (finished_in settings.now) (series_frames settings.now (progress_view progress.old) count series))
///     (W.contents writer.old) (W.contents writer.new)) }
/// ensures progress { OnOk result (progress_view progress.new
///     ≡ after_series settings.now (progress_view progress.old) count series) }
/// ```
///
/// </details>
pub fn write_series<W: Write>(
    settings: &Settings,
    series: Series,
    count: u64,
    writer: &mut W,
    progress: &mut Progress,
) -> io::Result<()> {
    let Series { frame, len, slots } = series;
    let mut frame = frame;
    let start = frame.time;
    let pace = progress.pace;
    for index in 0..count {
        let time = time_at(settings.rate, pace, start, index);
        renew(
            settings,
            &mut frame,
            len,
            time,
            &slots,
            index,
            &mut progress.generator,
        );
        write_frame(settings, writer, &mut progress.link, &frame)?;
    }
    progress.pace = paced(settings.rate, count, start, pace);
    Ok(())
}

/// Gives a frame its time, the numbers of its ranges and its check sequence.
fn renew(
    settings: &Settings,
    frame: &mut Frame,
    len: usize,
    time: Time,
    slots: &[Slot],
    index: u64,
    generator: &mut SplitMix64,
) {
    let has_sequence = has_sequence(settings, frame);
    frame.time = time;
    renew_bytes(
        frame.bytes.as_mut_slice(),
        len,
        has_sequence,
        slots,
        index,
        generator,
    );
}

/// Gives a frame the numbers of its ranges and its check sequence.
fn renew_bytes(
    bytes: &mut [u8],
    len: usize,
    has_sequence: bool,
    slots: &[Slot],
    index: u64,
    generator: &mut SplitMix64,
) {
    let (packet, sequence) = bytes.split_at_mut(len);
    number_ranges(packet, slots, index, generator);
    if has_sequence {
        sequence.copy_from_slice(&check_sequence(packet));
    }
}
