//! Opens images with their data files, and creates some. Each disk is printed, then written and printed, then cleared, resized and printed, with the
//! image and the data file after both rounds: a line of runs of equal bytes each. With the word `read` the disks alone are printed.
#![tactic(auto)]

use file_storage::FileStorage;
use image_access::{MemBacking, PreallocateMode, Storage};
use qcow2_image::{ImageError, Qcow2, Qcow2CreateBuilder};
use qcow2_session::{read, write};
use std::alloc::Global;
use std::io;
use std::io::{BufWriter, Write};
use std::process::ExitCode;

type Image = Qcow2<FileStorage, MemBacking>;

// The size of each disk at first.
const SIZE: u64 = 70144;

// How many images there are, and how many are created with clusters of these sizes. The latter come after the former.
const GIVEN: u64 = 9;

const CREATED: [(u64, PreallocateMode); 4] = [
    (512, PreallocateMode::None),
    (4096, PreallocateMode::Zero),
    (65536, PreallocateMode::FormatAllocate),
    (4096, PreallocateMode::WriteData),
];

// What is written first: at an offset, so many bytes of this value.
const WRITES: [(u64, usize, u8); 5] = [
    (0, 3, 0x11),
    (700, 10, 0x66),
    (12188, 9000, 0x77),
    (65000, 1000, 0x88),
    (70143, 1, 0x99),
];

// What is written behind the clearing, and behind the resizing.
const SECOND_WRITES: [(u64, usize, u8); 2] = [(5000, 100, 0x22), (17000, 50, 0x23)];

const LAST_WRITES: [(u64, usize, u8); 2] = [(80000, 384, 0x31), (100000, 5000, 0x32)];

// How a range is cleared.
#[derive(Clone, Copy)]
enum Way {
    Zero,
    DiscardToZero,
    DiscardToBacking,
}

// The ranges that are cleared: an offset and a length.
const CLEARED: [(u64, u64, Way); 3] = [
    (4000, 9000, Way::Zero),
    (16384, 8192, Way::DiscardToZero),
    (30000, 10000, Way::DiscardToBacking),
];

// The sizes to which a disk grows, and in which modes. Over a disk below those that take clusters are left out.
const SIZES: [(u64, PreallocateMode); 5] = [
    (80384, PreallocateMode::None),
    (90112, PreallocateMode::Zero),
    (100352, PreallocateMode::FormatAllocate),
    (110080, PreallocateMode::FullAllocate),
    (112128, PreallocateMode::WriteData),
];

// The size to which it shrinks then.
const LAST_SIZE: u64 = 105472;

fn allocates(mode: PreallocateMode) -> bool {
    match mode {
        PreallocateMode::None | PreallocateMode::Zero => false,
        _ => true,
    }
}

fn write_all(
    alloc: Global,
    image: &mut Image,
    writes: &[(u64, usize, u8)],
) -> Result<(), ImageError> {
    for (offset, count, value) in writes {
        let bytes = vec![in alloc; *value; *count]?;
        if let Err((refusal, _done)) = write(image, *offset, &bytes) {
            return Err(refusal);
        }
    }
    Ok(())
}

// Clears what is whole of a range, table by table.
fn clear(image: &mut Image, offset: u64, length: u64, way: Way) -> Result<(), ImageError> {
    let end = offset + length;
    let mut at = offset;
    while at < end {
        let (from, count) = match way {
            Way::Zero => image.ensure_zero_mapping(at, end - at)?,
            Way::DiscardToZero => image.discard_to_zero_unsafe(at, end - at)?,
            Way::DiscardToBacking => image.discard_to_backing_unsafe(at, end - at)?,
        };
        if count == 0 {
            break;
        }
        at = from + count;
    }
    Ok(())
}

fn disk(alloc: Global, image: &mut Image) -> Result<Vec<u8>, ImageError> {
    let size = image.size();
    read(alloc, image, 0, size)
}

// The changes of the second round.
fn change(alloc: Global, image: &mut Image, is_over: bool) -> Result<(), ImageError> {
    for (offset, length, way) in CLEARED {
        clear(image, offset, length, way)?;
    }
    write_all(alloc, image, &SECOND_WRITES)?;
    for (size, mode) in SIZES {
        if is_over && allocates(mode) {
            image.resize_grow(size, PreallocateMode::None)?;
        } else {
            image.resize_grow(size, mode)?;
        }
    }
    image.resize_shrink(LAST_SIZE)?;
    write_all(alloc, image, &LAST_WRITES)?;
    image.flush()?;
    image.sync()
}

// All bytes of a storage.
fn bytes_of<S: Storage>(alloc: Global, storage: &mut S) -> Result<Vec<u8>, ImageError> {
    let size = storage.size()?;
    let mut bytes = vec![in alloc; 0; size as usize]?;
    storage.read(0, &mut bytes)?;
    Ok(bytes)
}

// Prints how many equal bytes follow each other, and their value, one such run after the other.
fn print_runs(output: &mut impl Write, bytes: &[u8]) -> io::Result<()> {
    let mut at = 0;
    while at < bytes.len() {
        let value = bytes[at];
        let mut count = 1;
        while at + count < bytes.len() && bytes[at + count] == value {
            count += 1;
        }
        write!(output, "{count}x{value:02x} ")?;
        at += count;
    }
    writeln!(output)
}

fn print(output: &mut impl Write, bytes: &[u8]) -> Result<(), ImageError> {
    match print_runs(output, bytes) {
        Ok(()) => Ok(()),
        Err(_) => Err(ImageError::Storage),
    }
}

fn file(done: io::Result<FileStorage>) -> Result<FileStorage, ImageError> {
    match done {
        Ok(file) => Ok(file),
        Err(_) => Err(ImageError::Storage),
    }
}

// The bytes of the disk below an image of this number, if there is one.
fn below(rt: &HostRuntime, number: u64) -> Result<Option<Vec<u8>>, ImageError> {
    let alloc = rt.alloc();
    match file_storage::open_read_only(rt, &format!(in alloc; "below{number}")?) {
        Ok(mut storage) => Ok(Some(bytes_of(alloc, &mut storage)?)),
        Err(_) => Ok(None),
    }
}

// Opens an image of this number with its data file.
fn opened(rt: &HostRuntime, number: u64) -> Result<(Image, bool), ImageError> {
    let alloc = rt.alloc();
    let image = file(file_storage::open(rt, &format!(in alloc; "image{number}")?))?;
    let data = file(file_storage::open(rt, &format!(in alloc; "data{number}")?))?;
    let below = below(rt, number)?;
    let is_over = below.is_some();
    let builder = Qcow2::builder(image, 1)
        .write(true)
        .data_file(Some(data))
        .backing(below.map(MemBacking::new));
    match builder.open(alloc) {
        Ok(image) => Ok((image, is_over)),
        Err((_storage, refusal)) => Err(refusal),
    }
}

// Creates an image of this number, with its data file.
fn created(
    rt: &HostRuntime,
    number: u64,
    cluster: u64,
    mode: PreallocateMode,
) -> Result<Image, ImageError> {
    let alloc = rt.alloc();
    let image = file(file_storage::create(rt, &format!(in alloc; "image{number}")?))?;
    let name = format!(in alloc; "data{number}")?;
    let data = file(file_storage::create(rt, &name))?;
    let builder = Qcow2CreateBuilder::new(image)
        .size(SIZE)
        .cluster_size(cluster)
        .preallocate(mode)
        .data_file(name, data);
    match builder.create_open(alloc, |made| Ok(Qcow2::builder(made, 1))) {
        Ok(image) => Ok(image),
        Err((_storage, refusal)) => Err(refusal),
    }
}

// Closes an image, and prints it and its data file.
fn close_and_print(
    rt: &HostRuntime,
    number: u64,
    image: Image,
    output: &mut impl Write,
) -> Result<(), ImageError> {
    let alloc = rt.alloc();
    print(output, &bytes_of(alloc, &mut image.into_storage())?)?;
    let mut data = file(file_storage::open_read_only(rt, &format!(in alloc; "data{number}")?))?;
    print(output, &bytes_of(alloc, &mut data)?)
}

// Both rounds of changes.
fn work(
    rt: &HostRuntime,
    number: u64,
    image: Image,
    output: &mut impl Write,
) -> Result<(), ImageError> {
    let alloc = rt.alloc();
    let mut image = image;
    print(output, &disk(alloc, &mut image)?)?;
    write_all(alloc, &mut image, &WRITES)?;
    image.flush()?;
    print(output, &disk(alloc, &mut image)?)?;
    close_and_print(rt, number, image, output)?;
    let (mut image, is_over) = opened(rt, number)?;
    change(alloc, &mut image, is_over)?;
    print(output, &disk(alloc, &mut image)?)?;
    close_and_print(rt, number, image, output)
}

fn work_on_all(rt: &HostRuntime, output: &mut impl Write) -> Result<(), ImageError> {
    for number in 0..GIVEN {
        let (image, _is_over) = opened(rt, number)?;
        work(rt, number, image, output)?;
    }
    let mut number = GIVEN;
    for (cluster, mode) in CREATED {
        let image = created(rt, number, cluster, mode)?;
        work(rt, number, image, output)?;
        number += 1;
    }
    Ok(())
}

fn read_all(rt: &HostRuntime, output: &mut impl Write) -> Result<(), ImageError> {
    for number in 0..GIVEN + CREATED.len() as u64 {
        let (mut image, _is_over) = opened(rt, number)?;
        print(output, &disk(rt.alloc(), &mut image)?)?;
    }
    Ok(())
}

// Whether the disks alone are to be read.
fn is_told_to_read(rt: &HostRuntime) -> bool {
    match std::env::args(rt) {
        Ok(mut words) => words.any(|word| word.as_str() == "read"),
        Err(_) => false,
    }
}

fn main(rt: HostRuntime) -> ExitCode {
    let Ok(mut output) = BufWriter::new(rt.alloc(), io::writer(&rt)) else {
        return ExitCode::from(4);
    };
    let done = if is_told_to_read(&rt) {
        read_all(&rt, &mut output)
    } else {
        work_on_all(&rt, &mut output)
    };
    let status = match done {
        Ok(()) => 0,
        Err(refusal) => {
            let _ = writeln!(output, "refused {}", refusal.number());
            1
        }
    };
    let _ = output.flush();
    ExitCode::from(status)
}
