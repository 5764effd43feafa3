//! Opens images over raw disks, writes into each, and prints its disk before and after that, and then the bytes of the image, as a line of
//! hexadecimal digits each.
#![tactic(auto)]

use guide::overlays::open_over;
use image_access::{MemBacking, Storage, WrappedFormat};
use qcow2_image::{ImageError, Qcow2};
use qcow2_session::{read, write};
use std::alloc::Global;
use std::io;
use std::io::{BufWriter, Write};
use std::process::ExitCode;

// The files of images, and of the disks below them.
const FILES: [(&str, &str); 4] = [
    ("overlay0", "below0"),
    ("overlay1", "below1"),
    ("overlay2", "below2"),
    ("overlay3", "below3"),
];

// What is written: at an offset, so many bytes of this value.
const WRITES: [(u64, usize, u8); 4] = [
    (700, 10, 0x66),
    (12188, 9000, 0x77),
    (30000, 1, 0x88),
    (32767, 1, 0x99),
];

// All bytes of a storage.
fn bytes_of<S: Storage>(alloc: Global, storage: &mut S) -> Result<Vec<u8>, ImageError> {
    let size = storage.size()?;
    let mut bytes = vec![in alloc; 0; size as usize]?;
    storage.read(0, &mut bytes)?;
    Ok(bytes)
}

fn write_all<S: Storage, F: WrappedFormat<S>>(
    alloc: Global,
    image: &mut Qcow2<S, F>,
) -> Result<(), ImageError> {
    for (offset, count, value) in WRITES {
        let bytes = vec![in alloc; value; count]?;
        if let Err((refusal, _done)) = write(image, offset, &bytes) {
            return Err(refusal);
        }
    }
    image.flush()
}

// The disk before and after the writes, and the image then.
fn told<S: Storage>(
    alloc: Global,
    overlay: S,
    below: &mut S,
) -> Result<(Vec<u8>, Vec<u8>, Vec<u8>), ImageError> {
    let below = MemBacking::new(bytes_of(alloc, below)?);
    let mut image = open_over(alloc, overlay, 1, below)?;
    let size = image.size();
    let before = read(alloc, &mut image, 0, size)?;
    write_all(alloc, &mut image)?;
    let after = read(alloc, &mut image, 0, size)?;
    let file = bytes_of(alloc, &mut image.into_storage())?;
    Ok((before, after, file))
}

fn print(output: &mut impl Write, bytes: &[u8]) -> io::Result<()> {
    for byte in bytes {
        write!(output, "{byte:02x}")?;
    }
    writeln!(output)
}

fn run(rt: &HostRuntime, overlay: &str, below: &str, output: &mut impl Write) -> u8 {
    let (Ok(overlay), Ok(mut below)) = (
        file_storage::open(rt, overlay),
        file_storage::open_read_only(rt, below),
    ) else {
        return 2;
    };
    match told(rt.alloc(), overlay, &mut below) {
        Ok((before, after, file)) => {
            for bytes in [before, after, file] {
                if print(output, &bytes).is_err() {
                    return 3;
                }
            }
            0
        }
        Err(refusal) => {
            let _ = writeln!(output, "refused {}", refusal.number());
            1
        }
    }
}

fn main(rt: HostRuntime) -> ExitCode {
    match BufWriter::new(rt.alloc(), io::writer(&rt)) {
        Ok(mut output) => {
            let mut status = 0;
            for (overlay, below) in FILES {
                status = status.max(run(&rt, overlay, below, &mut output));
            }
            let _ = output.flush();
            ExitCode::from(status)
        }
        Err(_) => ExitCode::from(4),
    }
}
