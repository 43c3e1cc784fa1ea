//! The checksums of an image's frames.

use adr_model::tape::Storage;

use crate::failure::Failure;
use crate::image::Image;
use crate::progress::Progress;
use crate::size::bytes_in_frames;

/// Tests every frame, also those that no recording in force needs, and tells
/// how many there are. The image then knows which of them are damaged.
pub fn test_all(image: &mut Image, quiet: bool) -> Result<u64, Failure> {
    let mut progress = Progress::new("checking", quiet);
    let addresses: Vec<u32> = image
        .known()
        .filter(|(_, reads, _)| *reads)
        .map(|(address, _, _)| address)
        .collect();
    let all = u64::try_from(addresses.len()).unwrap_or(u64::MAX);
    let mut done = 0u64;
    for address in addresses {
        // Damage is noted by the image.
        let _ = image.frame(adr_model::Address(address));
        if let Some(failure) = image.take_error() {
            return Err(failure);
        }
        done += 1;
        progress.update(bytes_in_frames(done), done, Some(all));
    }
    Ok(all)
}
