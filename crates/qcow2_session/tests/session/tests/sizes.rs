//! A smaller or a larger disk.
use super::{copied, created, fresh, guest_bytes, number_at, opened, refusal, write_all, written};
use crate::session::{read, release};
use image_access::{PreallocateMode, Storage, TraceStorage};
use qcow2_image::ImageError;
use std::alloc::Global;
use std::test::Fail;

// Makes the disk smaller and flushes: the answer, the size then, and the storage.
fn shrunk<S: Storage>(alloc: Global, storage: S, size: u64) -> Result<(u64, u64, S), ImageError> {
    let mut image = opened(alloc, storage, true)?;
    let end = image.resize_shrink(size)?;
    let now = image.size();
    image.flush()?;
    Ok((end, now, image.into_storage()))
}

#[test]
fn a_disk_ends_within_a_cluster(rt: HostRuntime) -> Result<(), Fail> {
    let alloc = rt.alloc();
    let storage = written(alloc, fresh(alloc)?, 0, &[0xaa; 512])?;
    let (end, size, storage) = shrunk(alloc, storage, 100)?;
    assert_eq!(rt; (end, size), (65536, 100));
    assert_eq!(rt;
        guest_bytes(alloc, storage, 98, 2)?.as_slice(),
        [0xaa, 0xaa].as_slice()
    );
    Ok(())
}

#[test]
fn clusters_behind_the_end_are_freed(rt: HostRuntime) -> Result<(), Fail> {
    let alloc = rt.alloc();
    let storage = written(alloc, created(alloc, 1024, 16)?, 512, &[0xaa; 512])?;
    let (end, size, mut storage) = shrunk(alloc, storage, 512)?;
    assert_eq!(rt; (end, size), (1024, 512));
    assert_eq!(rt; number_at(&mut storage, 1032)?, 0x0001_0000_0000_0000);
    assert_eq!(rt; number_at(&mut storage, 24)?, 512);
    Ok(())
}

// The second half has no L2 table before, and gets the cluster that the first one dropped.
#[test]
fn a_disk_of_no_bytes_keeps_its_tables(rt: HostRuntime) -> Result<(), Fail> {
    let alloc = rt.alloc();
    let storage = written(alloc, fresh(alloc)?, 0, &[0x11; 512])?;
    let (end, size, mut storage) = shrunk(alloc, storage, 0)?;
    assert_eq!(rt; (end, size), (65536, 0));
    assert_eq!(rt; number_at(&mut storage, 2048)?, 0);
    assert_eq!(rt; number_at(&mut storage, 1544)?, 0x8000_0000_0000_0a00);
    Ok(())
}

// The same without a flush: the answer, and what was written.
fn shrunk_alone(
    alloc: Global,
    storage: TraceStorage,
    size: u64,
) -> Result<(u64, TraceStorage), ImageError> {
    let mut image = opened(alloc, storage, true)?;
    let end = image.resize_shrink(size)?;
    Ok((end, image.into_storage()))
}

#[test]
fn within_the_last_cluster_the_size_alone_is_written(rt: HostRuntime) -> Result<(), Fail> {
    let alloc = rt.alloc();
    let storage = created(alloc, 1000, 16)?;
    let (end, storage) = shrunk_alone(alloc, copied(alloc, &storage)?, 600)?;
    assert_eq!(rt; end, 1000);
    assert_eq!(rt; storage.writes(alloc)?.as_slice(), [24].as_slice());
    Ok(())
}

#[test]
fn the_size_is_written_last(rt: HostRuntime) -> Result<(), Fail> {
    let alloc = rt.alloc();
    let storage = written(alloc, fresh(alloc)?, 512, &[0x11; 512])?;
    let (end, storage) = shrunk_alone(alloc, copied(alloc, &storage)?, 512)?;
    assert_eq!(rt; end, 65536);
    assert_eq!(rt; storage.writes(alloc)?.last().copied(), Some(24));
    Ok(())
}

// While a mapping is prepared: two sizes that aren't smaller, one that is, and that one once the mapping is let go.
fn around_a_mapping<S: Storage>(
    alloc: Global,
    storage: S,
) -> Result<([u64; 2], u8, u64, u64), ImageError> {
    let mut image = opened(alloc, storage, true)?;
    let prepared = image.prepare_data_mapping(0, 512, true)?;
    let same = image.resize_shrink(65536);
    let larger = image.resize_shrink(70000);
    let refused = refusal(image.resize_shrink(500));
    let size = image.size();
    release(&mut image, prepared);
    let end = image.resize_shrink(500)?;
    Ok(([same?, larger?], refused, size, end))
}

#[test]
fn a_prepared_mapping_keeps_the_size(rt: HostRuntime) -> Result<(), Fail> {
    let alloc = rt.alloc();
    assert_eq!(rt;
        around_a_mapping(alloc, fresh(alloc)?)?,
        ([65536, 65536], 17, 65536, 65536)
    );
    Ok(())
}

// The size's write finds no memory, where nothing was changed before: the refusal and the size, and the answer of another try.
fn refused_once(alloc: Global, storage: &TraceStorage) -> Result<(u8, u64, u64, u64), ImageError> {
    let calls = opened(alloc, copied(alloc, storage)?, true)?
        .into_storage()
        .calls();
    let mut second = copied(alloc, storage)?;
    second.refuse_memory_at(calls + 1);
    let mut image = opened(alloc, second, true)?;
    let refused = refusal(image.resize_shrink(600));
    let size = image.size();
    let end = image.resize_shrink(600)?;
    Ok((refused, size, end, image.size()))
}

#[test]
fn a_refused_size_is_the_old_one(rt: HostRuntime) -> Result<(), Fail> {
    let alloc = rt.alloc();
    assert_eq!(rt;
        refused_once(alloc, &created(alloc, 1000, 16)?)?,
        (14, 1000, 1000, 600)
    );
    Ok(())
}

// Makes the disk smaller and then larger, in one or two steps: its bytes of a range then.
fn shrunk_and_grown<S: Storage>(
    alloc: Global,
    storage: S,
    size: u64,
    steps: &[(u64, PreallocateMode)],
    offset: u64,
) -> Result<Vec<u8>, ImageError> {
    let mut image = opened(alloc, storage, true)?;
    image.resize_shrink(size)?;
    for (larger, mode) in steps {
        image.resize_grow(*larger, *mode)?;
    }
    read(alloc, &mut image, offset, 4)
}

#[test]
fn a_grown_disk_shows_old_bytes_or_zeros(rt: HostRuntime) -> Result<(), Fail> {
    let alloc = rt.alloc();
    let storage = written(alloc, fresh(alloc)?, 0, &[0xaa; 512])?;
    let old = shrunk_and_grown(
        alloc,
        copied(alloc, &storage)?,
        100,
        &[(512, PreallocateMode::None)],
        98,
    )?;
    let zeros = shrunk_and_grown(
        alloc,
        storage,
        100,
        &[(512, PreallocateMode::FormatAllocate)],
        98,
    )?;
    assert_eq!(rt; old.as_slice(), [0xaa; 4].as_slice());
    assert_eq!(rt; zeros.as_slice(), [0xaa, 0xaa, 0, 0].as_slice());
    Ok(())
}

#[test]
fn what_was_dropped_stays_away(rt: HostRuntime) -> Result<(), Fail> {
    let alloc = rt.alloc();
    let storage = written(alloc, created(alloc, 1024, 16)?, 512, &[0xaa; 512])?;
    let steps = [
        (600, PreallocateMode::FormatAllocate),
        (1024, PreallocateMode::None),
    ];
    let bytes = shrunk_and_grown(alloc, storage, 512, &steps, 1000)?;
    assert_eq!(rt; bytes.as_slice(), [0; 4].as_slice());
    Ok(())
}

// A disk of three L2 tables, with a cluster of data.
fn grown_and_written<S: Storage>(alloc: Global, storage: S) -> Result<S, ImageError> {
    let mut image = opened(alloc, storage, true)?;
    image.resize_grow(98304, PreallocateMode::None)?;
    write_all(&mut image, 0, &[0x11; 512])?;
    image.flush()?;
    Ok(image.into_storage())
}

#[test]
fn the_former_l1_table_makes_room(rt: HostRuntime) -> Result<(), Fail> {
    let alloc = rt.alloc();
    let mut storage = grown_and_written(alloc, fresh(alloc)?)?;
    assert_eq!(rt; number_at(&mut storage, 40)?, 2048);
    assert_eq!(rt; number_at(&mut storage, 2048)?, 0x8000_0000_0000_0600);
    assert_eq!(rt; number_at(&mut storage, 1536)?, 0x8000_0000_0000_0a00);
    Ok(())
}
