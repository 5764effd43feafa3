//! A reftable that grows: where it comes to lie, in which order it is written, and what a refusal leaves.
use crate::test_files::file_of;
use crate::{Allocator, ImageError, ImageFile};
use image_access::{MemStorage, Storage, StorageError, TraceStorage};
use qcow2_metadata::{Header, HostCluster, HostOffset};
use std::alloc::Global;
use std::test::*;

// Clusters of 512 bytes and counts of 64 bits: a refblock counts 64 clusters. The reftable lies from cluster 1 on.
fn opened<S: Storage>(
    alloc: Global,
    storage: S,
    clusters: u32,
) -> Result<ImageFile<S>, ImageError> {
    let mut header = Header::new(9, 6, None, None, None);
    header.set_reftable(HostOffset::new(512), clusters)?;
    Ok(file_of(alloc, storage, header)?)
}

// A refblock that counts its first clusters once.
fn refblock(ones: usize) -> [u8; 512] {
    let mut bytes = [0u8; 512];
    for i in 0..64usize {
        if i < ones {
            bytes[8 * i + 7] = 1;
        }
    }
    bytes
}

// Writes a refblock to its place, and the entry that names it.
fn name_refblock<S: Storage>(
    storage: &mut S,
    entry: u64,
    at: u64,
    ones: usize,
) -> Result<(), StorageError> {
    storage.write(at, &refblock(ones))?;
    storage.write(entry, &at.to_be_bytes())
}

// What a file has from a place on: a refblock's bytes.
fn refblock_at<S: Storage>(file: &mut ImageFile<S>, at: u64) -> Result<[u8; 512], StorageError> {
    let mut bytes = [0u8; 512];
    file.storage.read(at, &mut bytes)?;
    Ok(bytes)
}

fn entry_at<S: Storage>(file: &mut ImageFile<S>, at: u64) -> Result<u64, StorageError> {
    let mut bytes = [0u8; 8];
    file.storage.read(at, &mut bytes)?;
    Ok(u64::from_be_bytes(bytes))
}

// A reftable of 4,096 entries, of which the last but two has a full refblock, the last but one none, and the last one with two clusters in use.
fn wide<S: Storage>(alloc: Global, mut storage: S) -> Result<ImageFile<S>, ImageError> {
    name_refblock(&mut storage, 33256, 33280, 64)?;
    name_refblock(&mut storage, 33272, 33792, 2)?;
    opened(alloc, storage, 64)
}

fn grown<S: Storage>(
    file: &mut ImageFile<S>,
    first: u64,
    index: usize,
) -> Result<Allocator, ImageError> {
    let mut allocator = Allocator::new(file)?;
    allocator.first_free_cluster = first;
    allocator.grow_reftable(file, index)?;
    Ok(allocator)
}

#[test]
fn a_full_reftable_grows_behind_its_refblocks(rt: HostRuntime) -> Result<(), Fail> {
    let alloc = rt.alloc();
    let storage = MemStorage::new(Vec::new(alloc));
    let mut file = wide(alloc, storage)?;
    let allocator = grown(&mut file, 261_952, 4096)?;
    assert_eq!(rt; allocator.reftable.len(), 4160);
    assert_eq!(rt; file.header.reftable_offset().value(), 262_083 * 512);
    assert_eq!(rt; file.header.reftable_clusters(), 65);
    assert_eq!(rt;
        entry_at(&mut file, 262_083 * 512 + 8 * 4096)?,
        262_082 * 512
    );
    assert_eq!(rt; entry_at(&mut file, 262_083 * 512 + 8 * 4095)?, 33792);
    assert_eq!(rt; entry_at(&mut file, 262_083 * 512 + 8 * 4094)?, 0);
    assert_eq!(rt; refblock_at(&mut file, 33792)?, refblock(64));
    assert_eq!(rt; refblock_at(&mut file, 262_082 * 512)?, refblock(4));
    assert_eq!(rt; file.free_list.is_empty(), false);
    Ok(())
}

// A reftable of 64 entries, whose last refblock has its last cluster free: the search begins at the one before.
fn narrow(alloc: Global) -> Result<TraceStorage, ImageError> {
    let mut storage = TraceStorage::new(alloc, Vec::new(alloc))?;
    name_refblock(&mut storage, 1016, 1024, 63)?;
    let mut start = Vec::with_capacity(alloc, storage.as_slice().len())?;
    start.extend_from_slice(storage.as_slice())?;
    Ok(TraceStorage::new(alloc, start)?)
}

fn grown_storage<S: Storage>(alloc: Global, storage: S) -> Result<(S, u64), ImageError> {
    let mut file = opened(alloc, storage, 1)?;
    let _allocator = grown(&mut file, 4094, 64)?;
    let offset = file.header.reftable_offset().value();
    Ok((file.into_storage(), offset))
}

#[test]
fn the_pointer_is_written_last(rt: HostRuntime) -> Result<(), Fail> {
    let alloc = rt.alloc();
    let (storage, offset) = grown_storage(alloc, narrow(alloc)?)?;
    assert_eq!(rt; offset, 2_097_152);
    assert_eq!(rt;
        storage.writes(alloc)?.as_slice(),
        [2_096_640, 1024, 2_097_152, 48].as_slice()
    );
    Ok(())
}

// A reftable of 64 entries without refblocks, from the last cluster of a range on: the run enters two ranges, which lack a refblock each.
#[test]
fn new_refblocks_are_written_last_range_first(rt: HostRuntime) -> Result<(), Fail> {
    let alloc = rt.alloc();
    let mut start = Vec::with_capacity(alloc, 1024)?;
    start.extend_from_slice(&[0u8; 1024])?;
    let mut file = opened(alloc, TraceStorage::new(alloc, start)?, 1)?;
    let _allocator = grown(&mut file, 4031, 64)?;
    assert_eq!(rt;
        file.into_storage().writes(alloc)?.as_slice(),
        [4032 * 512, 4031 * 512, 4033 * 512, 48].as_slice()
    );
    Ok(())
}

// The same, with a refblock for the second range, whose refcounts rise: it is the later one, and written first.
#[test]
fn a_new_refblock_is_written_behind_that_of_a_later_range(rt: HostRuntime) -> Result<(), Fail> {
    let alloc = rt.alloc();
    let mut storage = TraceStorage::new(alloc, Vec::new(alloc))?;
    name_refblock(&mut storage, 1016, 1024, 0)?;
    let mut start = Vec::with_capacity(alloc, storage.as_slice().len())?;
    start.extend_from_slice(storage.as_slice())?;
    let mut file = opened(alloc, TraceStorage::new(alloc, start)?, 1)?;
    let _allocator = grown(&mut file, 4031, 64)?;
    assert_eq!(rt;
        file.into_storage().writes(alloc)?.as_slice(),
        [1024, 4031 * 512, 4032 * 512, 48].as_slice()
    );
    Ok(())
}

// Whether a growth is refused, whether its new refblock is cached then, and what the header says on the storage.
fn refused<S: Storage>(alloc: Global, storage: S) -> Result<(bool, bool, u64), ImageError> {
    let mut file = opened(alloc, storage, 1)?;
    let done = grown(&mut file, 4094, 64);
    let cached = file.caches.rb_peek(HostCluster::new(4095)).is_some();
    let named = entry_at(&mut file, 48)?;
    Ok((done.is_err(), cached, named))
}

// The call of the storage that is refused, by a fault or for want of memory.
fn refused_at(alloc: Global, call: u64, for_memory: bool) -> Result<(bool, bool, u64), Fail> {
    let mut storage = narrow(alloc)?;
    if for_memory {
        storage.refuse_memory_at(call);
    } else {
        storage.fail_at(call);
    }
    Ok(refused(alloc, storage)?)
}

#[test]
fn a_refused_growth_leaves_no_refblock_in_the_cache(rt: HostRuntime) -> Result<(), Fail> {
    let alloc = rt.alloc();
    for call in 1..7u64 {
        assert_eq!(rt; refused_at(alloc, call, false)?, (true, false, 0));
        assert_eq!(rt; refused_at(alloc, call, true)?, (true, false, 0));
    }
    assert_eq!(rt; refused_at(alloc, 100, false)?, (false, false, 2_097_152));
    Ok(())
}

// If an allocation of the test itself is refused, nothing is reported about the growth.
#[test]
fn a_growth_without_memory_leaves_no_refblock_in_the_cache(rt: HostRuntime) -> Result<(), Fail> {
    let alloc = rt.alloc();
    let Ok(storage) = narrow(alloc) else {
        return Ok(());
    };
    let Ok((is_refused, cached, named)) = refused(alloc, storage) else {
        return Ok(());
    };
    assert_eq!(rt; (is_refused, named == 0), (is_refused, is_refused));
    assert!(rt; !(is_refused && cached));
    Ok(())
}
