//! Bytes that are written to the front of a slice.
use super::equal;
use etherpeel::err::{Layer, SliceWriteSpaceError};
use etherpeel::write_front;
use crate::kit::Fail;

#[test]
fn bytes_are_put_to_the_front_and_the_rest_is_lent() -> Result<(), Fail> {
    let rt = crate::kit::HostRuntime;
    let mut target = [0x55; 5];
    let whole = write_front::put([1, 2, 3], &mut target);
    let len = whole.len();
    let rest = write_front::rest_from(whole, 3, Layer::VlanHeader)?;
    let rest_len = rest.len();
    for byte in rest {
        *byte = 0xAA;
    }
    equal!(rt, "the front, and the rest lent";
        len => 5,
        rest_len => 2,
        target => [1, 2, 3, 0xAA, 0xAA],
    );
    Ok(())
}

#[test]
fn a_target_without_room_is_unchanged() {
    let rt = crate::kit::HostRuntime;
    let mut target = [0x55; 2];
    let whole = write_front::put([1, 2, 3], &mut target);
    let error = write_front::rest_from(whole, 3, Layer::VlanHeader).err();
    let refused = SliceWriteSpaceError {
        required_len: 3,
        len: 2,
        layer: Layer::VlanHeader,
        layer_start_offset: 0,
    };
    equal!(rt, "two bytes";
        error => Some(refused),
        target => [0x55; 2],
    );
}
