//! The example beside this display: what `examples/river.c` gave the entry is painted here too, and
//! `examples/river.png` has to show what the entry painted.
//!
//!   SPOONWING_RIVER    the folder that `tools/picture` leaves, ../../target/river unless set

use second::answers::DONE;
use second::beside::{picture, program};
use second::host::host_frame;
use std::fs;

/// The bytes of a file that `tools/picture` leaves.
fn left(name: &str) -> Vec<u8> {
    let path = program("SPOONWING_RIVER", "../../target/river").join(name);
    fs::read(&path).unwrap_or_else(|error| panic!("{} is not read: {error}", path.display()))
}

#[test]
fn the_example_is_painted_alike() {
    let frame = u32::from_le_bytes(left("frame.bin").try_into().expect("four bytes"));
    let (image, tables, pictures) = (left("image.bin"), left("tables.bin"), left("pictures.bin"));
    let theirs = left("output.bin");
    // What the output held does not count, so ours does not begin as the example's zeros do.
    let mut ours = vec![0xA5; theirs.len()];
    assert_eq!(host_frame(&image, frame, &tables, &pictures, &mut ours), DONE);
    if let Some(at) = (0..ours.len()).find(|&at| theirs[at] != ours[at]) {
        panic!("byte {at} is {}, and {} with us", theirs[at], ours[at]);
    }
}

#[test]
fn the_picture_is_the_example() {
    let mut painted = b"P6\n640 360\n255\n".to_vec();
    painted.extend(left("output.bin").chunks(4).flat_map(|pixel| &pixel[..3]));
    let is_same = picture("river.png") == painted;
    assert!(is_same, "`tools/picture examples/river.png` makes another picture");
}
