//! Images whose guests' data are in a data file: where they stand, and what is counted.
mod clearing;
mod creating;
mod failures;
mod limits;
mod opening;
mod replacing;
mod resizes;
mod steps;
mod storages;

use super::{copied, number_at};
use crate::session::{read, write};
use image_access::{MemBacking, TraceStorage};
use qcow2_image::{ImageError, MappingKind, Place, Qcow2, Qcow2CreateBuilder};
use std::alloc::{AllocError, Global};
use std::test::Fail;

type Image = Qcow2<TraceStorage, MemBacking>;

// A storage without bytes.
fn empty(alloc: Global) -> Result<TraceStorage, AllocError> {
    TraceStorage::new(alloc, Vec::new(alloc))
}

// What is to be made: an image with clusters of 512 bytes that asks for this data file.
fn asked(
    alloc: Global,
    size: u64,
    file: TraceStorage,
) -> Result<Qcow2CreateBuilder<TraceStorage>, AllocError> {
    let builder = Qcow2CreateBuilder::new(empty(alloc)?)
        .size(size)
        .cluster_size(512);
    Ok(builder.data_file("data.raw".to_string(alloc)?, file))
}

// A new image that asks for a data file, with nothing traced yet.
fn asking(alloc: Global, size: u64) -> Result<TraceStorage, Fail> {
    let (storage, done) = asked(alloc, size, empty(alloc)?)?.create(alloc);
    done?;
    Ok(copied(alloc, &storage)?)
}

// Opens an image for writing, with this data file, over the disk below if there is one.
fn opened_with(
    alloc: Global,
    storage: TraceStorage,
    file: TraceStorage,
    below: Option<MemBacking>,
) -> Result<Image, ImageError> {
    let builder = Qcow2::builder(storage, 1).write(true).backing(below);
    match builder.data_file(Some(file)).open(alloc) {
        Ok(image) => Ok(image),
        Err((_storage, refusal)) => Err(refusal),
    }
}

// A new image of so many bytes, open with an empty data file that it asks for.
fn fresh_with_file(alloc: Global, size: u64) -> Result<Image, Fail> {
    Ok(opened_with(alloc, asking(alloc, size)?, empty(alloc)?, None)?)
}

// Flushes an image and opens it again, with all that its two files hold.
fn reopened(alloc: Global, mut image: Image) -> Result<Image, Fail> {
    image.flush()?;
    let file = data_file_of(alloc, &image)?;
    let storage = copied(alloc, &image.into_storage())?;
    Ok(opened_with(alloc, storage, file, None)?)
}

// A copy of one of an image's storages, with nothing traced yet.
fn storage_of(alloc: Global, image: &Image, index: usize) -> Result<TraceStorage, Fail> {
    let storages = image.collect_storage_dependencies(alloc)?;
    match storages.get(index) {
        Some(storage) => Ok(copied(alloc, *storage)?),
        None => Err("there is no such storage")?,
    }
}

fn own_file_of(alloc: Global, image: &Image) -> Result<TraceStorage, Fail> {
    storage_of(alloc, image, 0)
}

fn data_file_of(alloc: Global, image: &Image) -> Result<TraceStorage, Fail> {
    storage_of(alloc, image, 1)
}

// Bytes of the data file, with zeros past its end.
fn data_at(alloc: Global, image: &Image, from: usize, to: usize) -> Result<Vec<u8>, Fail> {
    let file = data_file_of(alloc, image)?;
    let mut bytes = vec![in alloc; 0; to - from]?;
    for (at, byte) in bytes.iter_mut().enumerate() {
        *byte = file.as_slice().get(from + at).copied().unwrap_or(0);
    }
    Ok(bytes)
}

fn put(image: &mut Image, offset: u64, bytes: &[u8]) -> Result<(), ImageError> {
    match write(image, offset, bytes) {
        Ok(()) => Ok(()),
        Err((refusal, _done)) => Err(refusal),
    }
}

// Bytes that rise, from 1 on.
fn rising(alloc: Global, count: usize) -> Result<Vec<u8>, AllocError> {
    let mut bytes = vec![in alloc; 0; count]?;
    for (at, byte) in bytes.iter_mut().enumerate() {
        *byte = (at % 251 + 1) as u8;
    }
    Ok(bytes)
}

fn in_data_file(offset: u64) -> MappingKind {
    MappingKind::Raw {
        place: Place::DataFile,
        offset,
        writable: true,
    }
}

// What an image says of a range, and how long that is.
fn mapped_in(image: &mut Image, offset: u64, max: u64) -> Result<(MappingKind, u64), ImageError> {
    let (mapping, length) = image.get_mapping(offset, max)?;
    Ok((mapping.kind, length))
}

// How often the clusters of an image's own file are counted in all, after a flush.
fn counted(alloc: Global, image: &mut Image) -> Result<u64, Fail> {
    image.flush()?;
    let own = own_file_of(alloc, image)?;
    let mut sum = 0;
    for at in 1024..1536 {
        let byte = own.as_slice().get(at).copied().unwrap_or(0);
        sum += if at % 2 == 0 { 256 } else { 1 } * u64::from(byte);
    }
    Ok(sum)
}

// The entry of a guest cluster in the first L2 table, after a flush.
fn entry_of(alloc: Global, image: &mut Image, table: u64, cluster: u64) -> Result<u64, Fail> {
    image.flush()?;
    let mut own = own_file_of(alloc, image)?;
    Ok(number_at(&mut own, table + 8 * cluster)?)
}

#[test]
fn data_stand_at_their_guest_offset_uncounted(rt: HostRuntime) -> Result<(), Fail> {
    let alloc = rt.alloc();
    let mut image = fresh_with_file(alloc, 65536)?;
    put(&mut image, 512, &[0x11; 512])?;
    image.flush()?;
    assert_eq!(rt; mapped_in(&mut image, 512, 512)?, (in_data_file(512), 512));
    let mut own = own_file_of(alloc, &image)?;
    assert_eq!(rt; number_at(&mut own, 2056)?, 0x8000_0000_0000_0200);
    assert_eq!(rt; number_at(&mut own, 1024)?, 0x0001_0001_0001_0001);
    assert_eq!(rt; number_at(&mut own, 1032)?, 0x0001_0000_0000_0000);
    assert_eq!(rt; own.as_slice().len(), 2560);
    let mut whole = [0; 1024];
    whole[512..].fill(0x11);
    assert_eq!(rt; data_file_of(alloc, &image)?.as_slice(), whole.as_slice());
    Ok(())
}

#[test]
fn the_first_and_the_last_cluster_have_places(rt: HostRuntime) -> Result<(), Fail> {
    let alloc = rt.alloc();
    let mut image = fresh_with_file(alloc, 1000)?;
    put(&mut image, 0, &[0x33; 3])?;
    put(&mut image, 990, &[0x22; 10])?;
    assert_eq!(rt;
        entry_of(alloc, &mut image, 2048, 0)?,
        0x8000_0000_0000_0000
    );
    assert_eq!(rt;
        entry_of(alloc, &mut image, 2048, 1)?,
        0x8000_0000_0000_0200
    );
    let mut disk = [0; 1000];
    disk[..3].fill(0x33);
    disk[990..].fill(0x22);
    let mut image = reopened(alloc, image)?;
    assert_eq!(rt; mapped_in(&mut image, 0, 1000)?, (in_data_file(0), 1000));
    assert_eq!(rt;
        read(alloc, &mut image, 0, 1000)?.as_slice(),
        disk.as_slice()
    );
    assert_eq!(rt;
        data_at(alloc, &image, 0, 1000)?.as_slice(),
        disk.as_slice()
    );
    assert_eq!(rt; counted(alloc, &mut image)?, 5);
    // a write in place, which is existing
    put(&mut image, 1, &[0x44; 2])?;
    disk[1..3].fill(0x44);
    assert_eq!(rt;
        read(alloc, &mut image, 0, 1000)?.as_slice(),
        disk.as_slice()
    );
    assert_eq!(rt;
        data_at(alloc, &image, 0, 1000)?.as_slice(),
        disk.as_slice()
    );
    Ok(())
}

// The write begins 700 bytes before the end of the first L2 table, and passes two edges of clusters on each side.
#[test]
fn a_write_passes_edges_of_clusters_and_tables(rt: HostRuntime) -> Result<(), Fail> {
    let alloc = rt.alloc();
    let mut image = fresh_with_file(alloc, 65536)?;
    let bytes = rising(alloc, 1500)?;
    put(&mut image, 32068, &bytes)?;
    let mut image = reopened(alloc, image)?;
    assert_eq!(rt;
        data_at(alloc, &image, 32068, 33568)?.as_slice(),
        bytes.as_slice()
    );
    for (offset, length) in [(32068, 1500), (32255, 2), (32767, 2), (33279, 3)] {
        let from = offset as usize - 32068;
        assert_eq!(rt;
            read(alloc, &mut image, offset, length)?.as_slice(),
            &bytes[from..from + length as usize],
            "{length} bytes at {offset}"
        );
    }
    assert_eq!(rt;
        read(alloc, &mut image, 32067, 2)?.as_slice(),
        [0, 1].as_slice()
    );
    assert_eq!(rt;
        mapped_in(&mut image, 32068, 4096)?,
        (in_data_file(32068), 700)
    );
    // header, reftable, refblock, L1 table, and two L2 tables
    assert_eq!(rt; counted(alloc, &mut image)?, 6);
    Ok(())
}

// The image was made without a data file: its header doesn't ask for one.
#[test]
fn without_the_bit_clusters_are_placed_and_counted_as_ever(rt: HostRuntime) -> Result<(), Fail> {
    let alloc = rt.alloc();
    let mut image = opened_with(alloc, super::fresh(alloc)?, empty(alloc)?, None)?;
    assert!(rt; !image.requires_external_data_file());
    put(&mut image, 510, &[0x11; 4])?;
    assert_eq!(rt; mapped_in(&mut image, 510, 4)?, (in_data_file(3070), 4));
    assert_eq!(rt;
        entry_of(alloc, &mut image, 2048, 0)?,
        0x8000_0000_0000_0a00
    );
    assert_eq!(rt;
        entry_of(alloc, &mut image, 2048, 1)?,
        0x8000_0000_0000_0c00
    );
    assert_eq!(rt; counted(alloc, &mut image)?, 7);
    let mut at_hosts = [0; 1024];
    at_hosts[510..514].fill(0x11);
    assert_eq!(rt;
        data_at(alloc, &image, 2560, 3584)?.as_slice(),
        at_hosts.as_slice()
    );
    // no byte of the guest is in the image's own file
    assert_eq!(rt; own_file_of(alloc, &image)?.as_slice().len(), 2560);
    let mut image = reopened(alloc, image)?;
    assert_eq!(rt;
        read(alloc, &mut image, 0, 1024)?.as_slice(),
        at_hosts.as_slice()
    );
    assert_eq!(rt; image.discard_to_zero_unsafe(0, 512)?, (0, 512));
    assert_eq!(rt; counted(alloc, &mut image)?, 6);
    assert_eq!(rt; image.leaked_clusters(), 0);
    put(&mut image, 2048, &[0x77])?;
    assert_eq!(rt; mapped_in(&mut image, 2048, 1)?, (in_data_file(2560), 1));
    assert_eq!(rt;
        read(alloc, &mut image, 2047, 3)?.as_slice(),
        [0, 0x77, 0].as_slice()
    );
    Ok(())
}

// The disk below has 700 bytes. The write passes the edge of two clusters, of which the rest is copied.
#[test]
fn the_disk_below_is_copied_into_the_data_file(rt: HostRuntime) -> Result<(), Fail> {
    let alloc = rt.alloc();
    let below = MemBacking::new(vec![in alloc; 0x55; 700]?);
    let mut image = opened_with(alloc, asking(alloc, 65536)?, empty(alloc)?, Some(below))?;
    assert_eq!(rt;
        mapped_in(&mut image, 100, 100)?,
        (MappingKind::Indirect { offset: 100 }, 100)
    );
    put(&mut image, 510, &[0x33; 4])?;
    let mut shown = [0; 1024];
    shown[..700].fill(0x55);
    shown[510..514].fill(0x33);
    assert_eq!(rt;
        read(alloc, &mut image, 0, 1024)?.as_slice(),
        shown.as_slice()
    );
    assert_eq!(rt;
        data_at(alloc, &image, 0, 1024)?.as_slice(),
        shown.as_slice()
    );
    assert_eq!(rt; counted(alloc, &mut image)?, 5);
    // the disk below shows again behind a discard, and not once it is gone
    assert_eq!(rt; image.discard_to_backing_unsafe(0, 512)?, (0, 512));
    assert_eq!(rt;
        read(alloc, &mut image, 510, 3)?.as_slice(),
        [0x55, 0x55, 0x33].as_slice()
    );
    let mut image = reopened(alloc, image)?;
    assert_eq!(rt;
        read(alloc, &mut image, 510, 3)?.as_slice(),
        [0, 0, 0x33].as_slice()
    );
    assert_eq!(rt;
        read(alloc, &mut image, 698, 3)?.as_slice(),
        [0x55, 0x55, 0].as_slice()
    );
    Ok(())
}
