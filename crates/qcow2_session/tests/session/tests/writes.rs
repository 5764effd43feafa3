//! What is written, and in which order.
use super::{
    copied, created, fresh, guest_bytes, mapped, number_at, opened, refusal, stopped, write_all,
    written,
};
use crate::session::{fill, read};
use image_access::{Storage, StorageError, TraceStorage};
use qcow2_image::{ImageError, MappingKind, Place, Qcow2};
use std::alloc::Global;
use std::test::Fail;

#[test]
fn a_write_and_a_flush_write_in_order(rt: HostRuntime) -> Result<(), Fail> {
    let alloc = rt.alloc();
    let storage = written(alloc, fresh(alloc)?, 0, &[0x11; 512])?;
    assert_eq!(rt;
        storage.writes(alloc)?.as_slice(),
        [1024, 2048, 1536, 2560, 1024, 2048].as_slice()
    );
    Ok(())
}

// Four numbers of the file.
fn numbers<S: Storage>(storage: &mut S, at: [u64; 4]) -> Result<[u64; 4], StorageError> {
    let [first, second, third, fourth] = at;
    Ok([
        number_at(storage, first)?,
        number_at(storage, second)?,
        number_at(storage, third)?,
        number_at(storage, fourth)?,
    ])
}

#[test]
fn a_write_leaves_its_entries_and_counts(rt: HostRuntime) -> Result<(), Fail> {
    let alloc = rt.alloc();
    let mut storage = written(alloc, fresh(alloc)?, 0, &[0x11; 512])?;
    assert_eq!(rt;
        numbers(&mut storage, [1536, 2048, 1024, 1032])?,
        [
            0x8000_0000_0000_0800,
            0x8000_0000_0000_0a00,
            0x0001_0001_0001_0001,
            0x0001_0001_0000_0000
        ]
    );
    assert_eq!(rt; mapped(alloc, storage, 0, 512)?, (raw(2560), 512));
    Ok(())
}

fn raw(offset: u64) -> MappingKind {
    MappingKind::Raw {
        place: Place::Image,
        offset,
        writable: true,
    }
}

// The counts of clusters 4 to 7, the L1 entry, the L2 entry and the guest's first byte.
fn stop<S: Storage>(
    alloc: Global,
    mut storage: S,
) -> Result<(u64, u64, u64, Option<u8>), ImageError> {
    let counts = number_at(&mut storage, 1032)?;
    let l1_entry = number_at(&mut storage, 1536)?;
    let l2_entry = number_at(&mut storage, 2048)?;
    let bytes = guest_bytes(alloc, storage, 0, 1)?;
    Ok((counts, l1_entry, l2_entry, bytes.first().copied()))
}

// The same of the file after so many writes.
fn stop_after(
    alloc: Global,
    storage: &TraceStorage,
    writes: usize,
) -> Result<(u64, u64, u64, Option<u8>), ImageError> {
    stop(alloc, stopped(alloc, storage, writes)?)
}

#[test]
fn a_write_is_seen_once_its_entry_is_there(rt: HostRuntime) -> Result<(), Fail> {
    let alloc = rt.alloc();
    let storage = written(alloc, fresh(alloc)?, 0, &[0x11; 512])?;
    let l1 = 0x8000_0000_0000_0800;
    let l2 = 0x8000_0000_0000_0a00;
    for (writes, counts, l1_entry, l2_entry, guest) in [
        (0, 0, 0, 0, 0),
        (1, 0x0001_0000_0000_0000, 0, 0, 0),
        (2, 0x0001_0000_0000_0000, 0, 0, 0),
        (3, 0x0001_0000_0000_0000, l1, 0, 0),
        (4, 0x0001_0000_0000_0000, l1, 0, 0),
        (5, 0x0001_0001_0000_0000, l1, 0, 0),
        (6, 0x0001_0001_0000_0000, l1, l2, 0x11),
    ] {
        assert_eq!(rt;
            stop_after(alloc, &storage, writes)?,
            (counts, l1_entry, l2_entry, Some(guest)),
            "after {writes} writes"
        );
    }
    Ok(())
}

// Fills a range of an image that is opened for writing or not, and flushes it.
fn filled<S: Storage>(
    alloc: Global,
    storage: S,
    writable: bool,
    range: (u64, u64),
    byte: u8,
) -> Result<S, ImageError> {
    let mut image = opened(alloc, storage, writable)?;
    match fill(alloc, &mut image, range.0, range.1, byte) {
        Ok(()) => {}
        Err((refusal, _done)) => return Err(refusal),
    }
    image.flush()?;
    Ok(image.into_storage())
}

#[test]
fn a_fill_is_a_write_of_one_byte(rt: HostRuntime) -> Result<(), Fail> {
    let alloc = rt.alloc();
    let bytes = vec![in alloc; 0x22; 1500]?;
    let by_write = written(alloc, fresh(alloc)?, 300, &bytes)?;
    let by_fill = filled(alloc, fresh(alloc)?, true, (300, 1500), 0x22)?;
    assert_eq!(rt; by_fill.as_slice(), by_write.as_slice());
    assert_eq!(rt;
        by_fill.writes(alloc)?.as_slice(),
        by_write.writes(alloc)?.as_slice()
    );
    Ok(())
}

// More bytes than there is memory for are refused as any others.
#[test]
fn a_fill_is_refused_before_its_bytes_are_made(rt: HostRuntime) -> Result<(), Fail> {
    let alloc = rt.alloc();
    for (writable, range, number) in [
        (true, (0, u64::MAX), 2),
        (true, (1, 65536), 2),
        (true, (65536, 0), 0),
        (false, (0, u64::MAX), 2),
        (false, (0, 65536), 1),
        (false, (65536, 0), 0),
    ] {
        assert_eq!(rt;
            refusal(filled(alloc, fresh(alloc)?, writable, range, 0x22)),
            number,
            "{range:?}"
        );
    }
    Ok(())
}

// Writes bytes, and reads a range of the same image.
fn write_and_read<S: Storage>(
    alloc: Global,
    storage: S,
    at: u64,
    bytes: &[u8],
    range: (u64, u64),
) -> Result<Vec<u8>, ImageError> {
    let mut image = opened(alloc, storage, true)?;
    write_all(&mut image, at, bytes)?;
    read(alloc, &mut image, range.0, range.1)
}

#[test]
fn what_is_written_is_read(rt: HostRuntime) -> Result<(), Fail> {
    let alloc = rt.alloc();
    let bytes = [0x11; 512];
    assert_eq!(rt;
        write_and_read(alloc, fresh(alloc)?, 0, &bytes, (0, 512))?.as_slice(),
        bytes.as_slice()
    );
    Ok(())
}

#[test]
fn what_is_written_across_clusters_is_read(rt: HostRuntime) -> Result<(), Fail> {
    let alloc = rt.alloc();
    assert_eq!(rt;
        write_and_read(alloc, fresh(alloc)?, 510, &[1, 2, 3, 4], (508, 8))?.as_slice(),
        [0, 0, 1, 2, 3, 4, 0, 0].as_slice()
    );
    Ok(())
}

#[test]
fn what_was_flushed_is_read(rt: HostRuntime) -> Result<(), Fail> {
    let alloc = rt.alloc();
    let storage = written(alloc, fresh(alloc)?, 32766, &[5, 6, 7, 8])?;
    assert_eq!(rt;
        guest_bytes(alloc, storage, 32764, 8)?.as_slice(),
        [0, 0, 5, 6, 7, 8, 0, 0].as_slice()
    );
    Ok(())
}

// Writes the first 60 clusters, one by one, and flushes.
fn write_sixty<S: Storage>(image: &mut Qcow2<S>) -> Result<(), ImageError> {
    for cluster in 0..60u64 {
        write_all(image, cluster * 512, &[0x44; 512])?;
    }
    image.flush()
}

fn sixty_clusters<S: Storage>(alloc: Global, storage: S) -> Result<S, ImageError> {
    let mut image = opened(alloc, storage, true)?;
    write_sixty(&mut image)?;
    Ok(image.into_storage())
}

#[test]
fn refblocks_are_made_on_the_way(rt: HostRuntime) -> Result<(), Fail> {
    let alloc = rt.alloc();
    let mut storage = sixty_clusters(alloc, created(alloc, 65536, 64)?)?;
    assert_eq!(rt;
        numbers(&mut storage, [520, 32768, 32776, 32784])?,
        [32768, 1, 1, 0]
    );
    assert_eq!(rt;
        mapped(alloc, copied(alloc, &storage)?, 29696, 512)?,
        (raw(32256), 512)
    );
    assert_eq!(rt; mapped(alloc, storage, 30208, 512)?, (raw(33280), 512));
    Ok(())
}

// Writes the first 59 clusters, one by one, and flushes: with counts of 64 bits the first refblock is full then.
fn full_refblock<S: Storage>(alloc: Global, storage: S) -> Result<S, ImageError> {
    let mut image = opened(alloc, storage, true)?;
    for cluster in 0..59u64 {
        write_all(&mut image, cluster * 512, &[0x44; 512])?;
    }
    image.flush()?;
    Ok(image.into_storage())
}

// Then the next cluster is written; what was written for it.
fn behind_a_full_refblock(alloc: Global) -> Result<TraceStorage, Fail> {
    let storage = full_refblock(alloc, created(alloc, 65536, 64)?)?;
    Ok(written(alloc, copied(alloc, &storage)?, 30208, &[0x55; 512])?)
}

#[test]
fn a_refblock_is_named_before_its_clusters_are_used(rt: HostRuntime) -> Result<(), Fail> {
    let alloc = rt.alloc();
    let storage = behind_a_full_refblock(alloc)?;
    assert_eq!(rt;
        storage.writes(alloc)?.as_slice(),
        [32768, 520, 33280, 32768, 2048].as_slice()
    );
    for stop in 0..5usize {
        assert_eq!(rt;
            guest_bytes(alloc, stopped(alloc, &storage, stop)?, 30208, 1)?.as_slice(),
            [0].as_slice()
        );
    }
    assert_eq!(rt;
        guest_bytes(alloc, copied(alloc, &storage)?, 30208, 1)?.as_slice(),
        [0x55].as_slice()
    );
    Ok(())
}

#[test]
fn a_new_refblock_counts_itself_first(rt: HostRuntime) -> Result<(), Fail> {
    let alloc = rt.alloc();
    let storage = behind_a_full_refblock(alloc)?;
    assert_eq!(rt;
        numbers(&mut stopped(alloc, &storage, 2)?, [520, 32768, 32776, 2520])?,
        [32768, 1, 0, 0]
    );
    assert_eq!(rt;
        numbers(&mut stopped(alloc, &storage, 4)?, [520, 32768, 32776, 2520])?,
        [32768, 1, 1, 0]
    );
    Ok(())
}

// Writes a cluster that the first L2 table has already, and one that a second table covers, and flushes after each.
fn two_tables<S: Storage>(alloc: Global, storage: S) -> Result<S, ImageError> {
    let mut image = opened(alloc, storage, true)?;
    write_all(&mut image, 0, &[0x22; 512])?;
    image.flush()?;
    write_all(&mut image, 32768, &[0x33; 512])?;
    image.flush()?;
    Ok(image.into_storage())
}

#[test]
fn a_former_tables_cluster_takes_a_new_table(rt: HostRuntime) -> Result<(), Fail> {
    let alloc = rt.alloc();
    let mut storage = written(alloc, fresh(alloc)?, 0, &[0x11; 512])?;
    // The L1 entry isn't marked copied any more: its table is replaced.
    storage.write(1536, &[0])?;
    let mut storage = two_tables(alloc, storage)?;
    assert_eq!(rt;
        numbers(&mut storage, [1536, 1544, 1032, 1040])?,
        [
            0x8000_0000_0000_0c00,
            0x8000_0000_0000_0800,
            0x0001_0001_0001_0001,
            0
        ]
    );
    assert_eq!(rt;
        guest_bytes(alloc, copied(alloc, &storage)?, 32768, 1)?.as_slice(),
        [0x33].as_slice()
    );
    assert_eq!(rt;
        guest_bytes(alloc, storage, 0, 1)?.as_slice(),
        [0x22].as_slice()
    );
    Ok(())
}

// A new image whose L1 table has one entry, for half of its disk.
fn with_a_short_table(alloc: Global) -> Result<TraceStorage, Fail> {
    let mut storage = fresh(alloc)?;
    storage.write(36, &[0, 0, 0, 1])?;
    Ok(copied(alloc, &storage)?)
}

#[test]
fn a_longer_l1_table_is_named_after_its_bytes(rt: HostRuntime) -> Result<(), Fail> {
    let alloc = rt.alloc();
    let storage = written(alloc, with_a_short_table(alloc)?, 32768, &[0x11; 512])?;
    // The former table's cluster takes the L2 table.
    assert_eq!(rt;
        storage.writes(alloc)?.as_slice(),
        [1024, 2048, 36, 1024, 1536, 2056, 2560, 1024, 1536].as_slice()
    );
    for stop in 0..9usize {
        assert_eq!(rt;
            guest_bytes(alloc, stopped(alloc, &storage, stop)?, 32768, 1)?.as_slice(),
            [0].as_slice(),
            "after {stop} writes"
        );
    }
    assert_eq!(rt;
        guest_bytes(alloc, copied(alloc, &storage)?, 32768, 1)?.as_slice(),
        [0x11].as_slice()
    );
    Ok(())
}

#[test]
fn a_longer_l1_table_ends_with_the_entry_needed(rt: HostRuntime) -> Result<(), Fail> {
    let alloc = rt.alloc();
    let mut storage = written(alloc, with_a_short_table(alloc)?, 32768, &[0x11; 512])?;
    assert_eq!(rt;
        numbers(&mut storage, [36, 2048, 2056, 1032])?,
        [
            0x0000_0002_0000_0000,
            0,
            0x8000_0000_0000_0600,
            0x0001_0001_0000_0000
        ]
    );
    assert_eq!(rt; number_at(&mut storage, 40)?, 2048);
    Ok(())
}

// Makes a range past the L1 table zero, and flushes.
fn zeroed<S: Storage>(alloc: Global, storage: S) -> Result<S, ImageError> {
    let mut image = opened(alloc, storage, true)?;
    image.ensure_zero_mapping(32768, 512)?;
    image.flush()?;
    Ok(image.into_storage())
}

// Drops a range past the L1 table, and flushes.
fn dropped<S: Storage>(alloc: Global, storage: S) -> Result<S, ImageError> {
    let mut image = opened(alloc, storage, true)?;
    image.discard_to_backing_unsafe(32768, 512)?;
    image.flush()?;
    Ok(image.into_storage())
}

#[test]
fn an_l1_table_grows_for_zeros(rt: HostRuntime) -> Result<(), Fail> {
    let alloc = rt.alloc();
    let storage = zeroed(alloc, with_a_short_table(alloc)?)?;
    assert_eq!(rt;
        storage.writes(alloc)?.as_slice(),
        [1024, 2048, 36, 1024, 1536, 2056, 1536].as_slice()
    );
    assert_eq!(rt;
        mapped(alloc, copied(alloc, &storage)?, 32768, 1024)?,
        (MappingKind::Zero { explicit: true }, 512)
    );
    Ok(())
}

#[test]
fn an_l1_table_grows_for_a_discard(rt: HostRuntime) -> Result<(), Fail> {
    let alloc = rt.alloc();
    let storage = dropped(alloc, with_a_short_table(alloc)?)?;
    assert_eq!(rt;
        storage.writes(alloc)?.as_slice(),
        [1024, 2048, 36, 1024, 1536, 2056, 1536].as_slice()
    );
    assert_eq!(rt;
        mapped(alloc, copied(alloc, &storage)?, 32768, 512)?,
        (MappingKind::Zero { explicit: false }, 512)
    );
    Ok(())
}

#[test]
fn an_l1_table_has_its_limit(rt: HostRuntime) -> Result<(), Fail> {
    let alloc = rt.alloc();
    let mut storage = fresh(alloc)?;
    storage.write(24, &[0xff; 8])?;
    let storage = copied(alloc, &storage)?;
    assert_eq!(rt;
        refusal(written(alloc, storage, 18446744073709551614, &[0])),
        13
    );
    Ok(())
}
