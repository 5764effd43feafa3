//! Creating, probing and opening.
use super::{
    copied, created, fresh, guest_bytes, mapped, number_at, opened, refusal, stopped, written,
};
use image_access::{Format, PreallocateMode, Storage, TraceStorage};
use qcow2_image::{ImageError, MappingKind, Place, Qcow2, Qcow2CreateBuilder};
use std::alloc::{AllocError, Global};
use std::test::Fail;

// The size of the image that a storage is probed to hold.
fn probed_size<S: Storage>(alloc: Global, mut storage: S) -> Result<Option<u64>, ImageError> {
    if !Qcow2::<S>::probe(&mut storage)? {
        return Ok(None);
    }
    Ok(Some(opened(alloc, storage, true)?.size()))
}

// The same after so many writes.
fn size_after(
    alloc: Global,
    storage: &TraceStorage,
    writes: usize,
) -> Result<Option<u64>, ImageError> {
    probed_size(alloc, stopped(alloc, storage, writes)?)
}

#[test]
fn a_new_image_is_written_in_order(rt: HostRuntime) -> Result<(), Fail> {
    let alloc = rt.alloc();
    let storage = created(alloc, 65536, 16)?;
    assert_eq!(rt;
        storage.writes(alloc)?.as_slice(),
        [1024, 512, 0, 1024, 1536, 36, 24].as_slice()
    );
    Ok(())
}

#[test]
fn a_new_image_is_there_once_its_header_is(rt: HostRuntime) -> Result<(), Fail> {
    let alloc = rt.alloc();
    let storage = created(alloc, 65536, 16)?;
    for (writes, size) in [
        (0, None),
        (1, None),
        (2, None),
        (3, Some(0)),
        (4, Some(0)),
        (5, Some(0)),
        (6, Some(0)),
        (7, Some(65536)),
    ] {
        assert_eq!(rt;
            size_after(alloc, &storage, writes)?,
            size,
            "after {writes} writes"
        );
    }
    Ok(())
}

#[test]
fn a_new_image_maps_zeros(rt: HostRuntime) -> Result<(), Fail> {
    let alloc = rt.alloc();
    let storage = fresh(alloc)?;
    assert_eq!(rt;
        mapped(alloc, copied(alloc, &storage)?, 0, 65536)?,
        (MappingKind::Zero { explicit: false }, 32768)
    );
    assert_eq!(rt; mapped(alloc, storage, 65536, 1)?, (MappingKind::Eof, 0));
    Ok(())
}

#[test]
fn a_disk_of_no_bytes(rt: HostRuntime) -> Result<(), Fail> {
    let alloc = rt.alloc();
    let storage = created(alloc, 0, 16)?;
    assert_eq!(rt;
        mapped(alloc, copied(alloc, &storage)?, 0, 1)?,
        (MappingKind::Eof, 0)
    );
    assert_eq!(rt;
        guest_bytes(alloc, copied(alloc, &storage)?, 0, 0)?.len(),
        0
    );
    assert_eq!(rt; refusal(written(alloc, storage, 0, &[1])), 2);
    Ok(())
}

// The number of a refused creation, and the storage that it hands back.
fn creation_refusal<S: Storage>(alloc: Global, storage: S, cluster: u64, width: u64) -> (S, u8) {
    let (storage, done) = Qcow2CreateBuilder::new(storage)
        .cluster_size(cluster)
        .refcount_width(width)
        .create(alloc);
    (storage, refusal(done))
}

// The same, and how often the storage was called.
fn refused_options(alloc: Global, cluster: u64, width: u64) -> Result<(u8, u64), AllocError> {
    let storage = TraceStorage::new(alloc, Vec::new(alloc))?;
    let (storage, number) = creation_refusal(alloc, storage, cluster, width);
    Ok((number, storage.calls()))
}

#[test]
fn options_that_are_not_allowed(rt: HostRuntime) -> Result<(), Fail> {
    let alloc = rt.alloc();
    for (cluster, width) in [(513, 16), (256, 16), (65536, 128)] {
        assert_eq!(rt;
            refused_options(alloc, cluster, width)?,
            (5, 0),
            "{cluster} {width}"
        );
    }
    Ok(())
}

#[test]
fn a_builder_says_its_size(rt: HostRuntime) -> Result<(), Fail> {
    let alloc = rt.alloc();
    let storage = TraceStorage::new(alloc, Vec::new(alloc))?;
    let builder = Qcow2CreateBuilder::new(storage).size(1024);
    assert_eq!(rt; builder.get_size(), 1024);
    assert_eq!(rt; builder.get_preallocate(), PreallocateMode::None);
    let builder = builder.preallocate(PreallocateMode::Zero);
    assert_eq!(rt; builder.get_preallocate(), PreallocateMode::Zero);
    Ok(())
}

// Makes an image in clusters of 512 bytes that takes place in a mode.
fn preallocated<S: Storage>(
    alloc: Global,
    storage: S,
    size: u64,
    mode: PreallocateMode,
) -> Result<S, ImageError> {
    let builder = Qcow2CreateBuilder::new(storage)
        .size(size)
        .preallocate(mode)
        .cluster_size(512);
    let (storage, done) = builder.create(alloc);
    done?;
    Ok(storage)
}

// Data in a cluster of their own.
fn data_at(offset: u64) -> MappingKind {
    MappingKind::Raw {
        place: Place::Image,
        offset,
        writable: true,
    }
}

#[test]
fn a_new_disk_of_explicit_zeros(rt: HostRuntime) -> Result<(), Fail> {
    let alloc = rt.alloc();
    let storage = TraceStorage::new(alloc, Vec::new(alloc))?;
    let storage = preallocated(alloc, storage, 65536, PreallocateMode::Zero)?;
    assert_eq!(rt;
        mapped(alloc, copied(alloc, &storage)?, 0, 65536)?,
        (MappingKind::Zero { explicit: true }, 32768)
    );
    let storage = written(alloc, storage, 0, &[0x11; 512])?;
    assert_eq!(rt; mapped(alloc, storage, 0, 512)?, (data_at(3072), 512));
    Ok(())
}

#[test]
fn a_new_disk_with_clusters(rt: HostRuntime) -> Result<(), Fail> {
    let alloc = rt.alloc();
    for mode in [
        PreallocateMode::FormatAllocate,
        PreallocateMode::FullAllocate,
        PreallocateMode::WriteData,
    ] {
        let storage = TraceStorage::new(alloc, Vec::new(alloc))?;
        let storage = preallocated(alloc, storage, 1024, mode)?;
        assert_eq!(rt;
            mapped(alloc, copied(alloc, &storage)?, 0, 1024)?,
            (data_at(2560), 1024)
        );
        assert_eq!(rt;
            guest_bytes(alloc, storage, 0, 1024)?.as_slice(),
            [0; 1024].as_slice()
        );
    }
    Ok(())
}

// The number of a refused opening, and the storage that it hands back.
fn opening_refusal<S: Storage>(alloc: Global, storage: S) -> Option<(S, u8)> {
    match Qcow2::<S>::open_image(alloc, storage, true, 1) {
        Ok(_image) => None,
        Err((storage, refusal)) => Some((storage, refusal.number())),
    }
}

#[test]
fn a_storage_of_three_bytes_is_no_image(rt: HostRuntime) -> Result<(), Fail> {
    let alloc = rt.alloc();
    let storage = TraceStorage::new(alloc, vec![in alloc; 1, 2, 3]?)?;
    assert_eq!(rt; probed_size(alloc, copied(alloc, &storage)?)?, None);
    let Some((storage, number)) = opening_refusal(alloc, storage) else {
        return Err("it opens")?;
    };
    assert_eq!(rt; number, 19);
    assert_eq!(rt; storage.as_slice(), [1, 2, 3].as_slice());
    Ok(())
}

// Opens and closes.
fn reopened<S: Storage>(alloc: Global, storage: S, writable: bool) -> Result<S, ImageError> {
    Ok(opened(alloc, storage, writable)?.into_storage())
}

#[test]
fn autoclear_bits_are_cleared_for_writing(rt: HostRuntime) -> Result<(), Fail> {
    let alloc = rt.alloc();
    let mut storage = fresh(alloc)?;
    storage.write(88, &[0xff; 8])?;
    let kept = reopened(alloc, copied(alloc, &storage)?, false)?;
    assert_eq!(rt; kept.writes(alloc)?.len(), 0);
    let mut cleared = reopened(alloc, copied(alloc, &storage)?, true)?;
    assert_eq!(rt; cleared.writes(alloc)?.as_slice(), [88].as_slice());
    assert_eq!(rt; number_at(&mut cleared, 88)?, 0);
    Ok(())
}

// Whether it is a qcow2 image that names no other file.
fn stands_alone<S: Storage>(image: &Qcow2<S>) -> bool {
    image.format() == Format::Qcow2
        && !image.requires_external_data_file()
        && image.implicit_external_data_file().is_none()
        && image.implicit_backing_file().is_none()
        && image.implicit_backing_format().is_none()
}

// The image's number, size, smallest zeroing and leaked clusters, whether it is writable, and whether it needs no other file.
fn described<S: Storage>(
    alloc: Global,
    storage: S,
    writable: bool,
) -> Result<(u64, u64, Option<u64>, u64, bool, bool), ImageError> {
    let image = opened(alloc, storage, writable)?;
    Ok((
        image.number(),
        image.size(),
        image.zero_granularity(),
        image.leaked_clusters(),
        image.writable(),
        stands_alone(&image),
    ))
}

#[test]
fn an_image_describes_itself(rt: HostRuntime) -> Result<(), Fail> {
    let alloc = rt.alloc();
    for writable in [false, true] {
        assert_eq!(rt;
            described(alloc, fresh(alloc)?, writable)?,
            (1, 65536, Some(512), 0, writable, true)
        );
    }
    Ok(())
}
