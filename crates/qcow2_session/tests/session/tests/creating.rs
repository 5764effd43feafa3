//! Images that are made and handed over open, and makings that are refused.
use super::{copied, created, opened, refusal, write_all};
use crate::check;
use crate::session::read;
use image_access::{BackingDisk, PreallocateMode, Storage, TraceStorage};
use qcow2_image::{ImageError, Qcow2, Qcow2CreateBuilder};
use qcow2_metadata::MetadataError;
use std::alloc::{AllocError, Global};
use std::test::Fail;

const SIZE: u64 = 65536;

// What is to be made on a storage.
fn asked<S: Storage>(storage: S, cluster: u64, width: u64) -> Qcow2CreateBuilder<S> {
    Qcow2::<S>::create_builder(storage)
        .size(SIZE)
        .cluster_size(cluster)
        .refcount_width(width)
}

// Makes an image and opens it under the number 7. A refusal hands the storage back.
fn made_open<S: Storage>(
    alloc: Global,
    storage: S,
    cluster: u64,
    width: u64,
) -> Result<Qcow2<S>, (Option<S>, ImageError)> {
    asked(storage, cluster, width).create_open(alloc, |made| Ok(Qcow2::<S>::builder(made, 7)))
}

// A storage that has three bytes, which are no image.
fn used(alloc: Global) -> Result<TraceStorage, AllocError> {
    TraceStorage::new(alloc, vec![in alloc; 1, 2, 3]?)
}

// A new image that is open, with counts of so many bits.
fn open_with(alloc: Global, width: u64) -> Result<Qcow2<TraceStorage>, Fail> {
    match made_open(alloc, used(alloc)?, 512, width) {
        Ok(image) => Ok(image),
        Err((_storage, refusal)) => Err(refusal)?,
    }
}

// How many breaches and leaks the checker finds.
fn reported<S: Storage>(alloc: Global, storage: &mut S) -> Result<(usize, usize), MetadataError> {
    let report = check(alloc, storage)?;
    Ok((report.breaches.len(), report.leaks.len()))
}

// Its number, size and leaked clusters, and whether it is to be written.
fn described<S: Storage>(image: &Qcow2<S>) -> (u64, u64, u64, bool) {
    (
        image.number(),
        image.size(),
        image.leaked_clusters(),
        image.writable(),
    )
}

// Whether the whole disk of an image, of its size, reads as zeros.
fn shows_zeros<S: Storage>(alloc: Global, image: &mut Qcow2<S>) -> Result<bool, ImageError> {
    let size = image.size();
    let bytes = read(alloc, image, 0, size)?;
    Ok(bytes.len() as u64 == size && bytes.iter().all(|byte| *byte == 0))
}

#[test]
fn a_new_image_is_handed_over_open(rt: HostRuntime) -> Result<(), Fail> {
    let alloc = rt.alloc();
    for width in [1, 16, 64] {
        let mut image = open_with(alloc, width)?;
        assert_eq!(rt; described(&image), (7, SIZE, 0, true), "width {width}");
        assert!(rt; shows_zeros(alloc, &mut image)?);
        let mut storage = image.into_storage();
        assert_eq!(rt; reported(alloc, &mut storage)?, (0, 0), "width {width}");
        assert_eq!(rt;
            storage.as_slice(),
            created(alloc, SIZE, width)?.as_slice(),
            "width {width}"
        );
    }
    Ok(())
}

#[test]
fn an_image_that_was_made_open_is_written(rt: HostRuntime) -> Result<(), Fail> {
    let alloc = rt.alloc();
    for (width, order) in [(1, 0), (16, 4), (64, 6)] {
        let mut image = open_with(alloc, width)?;
        write_all(&mut image, 32767, &[0x22; 2])?;
        assert_eq!(rt;
            read(alloc, &mut image, 32766, 4)?.as_slice(),
            [0, 0x22, 0x22, 0].as_slice()
        );
        image.flush()?;
        let mut storage = image.into_storage();
        assert_eq!(rt; reported(alloc, &mut storage)?, (0, 0), "width {width}");
        assert_eq!(rt; storage.as_slice().get(99), Some(&order));
        let mut again = opened(alloc, storage, false)?;
        assert_eq!(rt;
            read(alloc, &mut again, 32766, 4)?.as_slice(),
            [0, 0x22, 0x22, 0].as_slice()
        );
    }
    Ok(())
}

#[test]
fn options_that_are_not_allowed_hand_the_storage_back(rt: HostRuntime) -> Result<(), Fail> {
    let alloc = rt.alloc();
    for (cluster, width) in [
        (513, 16),
        (256, 16),
        (4_194_304, 16),
        (0, 16),
        (512, 0),
        (512, 3),
        (512, 128),
    ] {
        let Err((Some(storage), refusal)) = made_open(alloc, used(alloc)?, cluster, width) else {
            return Err("it is made")?;
        };
        assert_eq!(rt; refusal.number(), 5, "{cluster} {width}");
        assert_eq!(rt; storage.calls(), 0, "{cluster} {width}");
        assert_eq!(rt; storage.as_slice(), [1, 2, 3].as_slice());
    }
    Ok(())
}

// Makes an image, open or not, and answers the storage, and the number of a refusal.
fn made_by<S: Storage>(alloc: Global, storage: S, opens: bool) -> (S, u8) {
    if !opens {
        let (storage, done) = asked(storage, 512, 16).create(alloc);
        return (storage, refusal(done));
    }
    match made_open(alloc, storage, 512, 16) {
        Ok(image) => (image.into_storage(), 0),
        Err((Some(storage), refusal)) => (storage, refusal.number()),
        Err((None, _refusal)) => unreachable!(),
    }
}

// Makes an image on a storage that refuses its call of that number, by a fault or for want of memory.
fn made_without(
    alloc: Global,
    opens: bool,
    call: u64,
    for_memory: bool,
) -> Result<(TraceStorage, u8), AllocError> {
    let mut storage = used(alloc)?;
    if for_memory {
        storage.refuse_memory_at(call);
    } else {
        storage.fail_at(call);
    }
    Ok(made_by(alloc, storage, opens))
}

// Whether a refused making may leave this: no image, or a consistent one of no bytes or of the size asked for, which shows zeros.
fn may_be_left<S: Storage>(alloc: Global, mut storage: S) -> Result<bool, Fail> {
    if !Qcow2::<S>::probe(&mut storage)? {
        return Ok(true);
    }
    let (breaches, _leaks) = reported(alloc, &mut storage)?;
    let mut image = opened(alloc, storage, false)?;
    let is_new = image.size() == 0 || image.size() == SIZE;
    Ok(breaches == 0 && is_new && shows_zeros(alloc, &mut image)?)
}

#[test]
fn each_call_of_a_making_is_refused(rt: HostRuntime) -> Result<(), Fail> {
    let alloc = rt.alloc();
    for (opens, for_memory, number) in [
        (false, false, 15),
        (false, true, 14),
        (true, false, 15),
        (true, true, 14),
    ] {
        let (storage, done) = made_by(alloc, used(alloc)?, opens);
        assert_eq!(rt; done, 0);
        let calls = storage.calls();
        for call in 1..=calls {
            let (storage, refused) = made_without(alloc, opens, call, for_memory)?;
            assert_eq!(rt; refused, number, "call {call}");
            assert!(rt; may_be_left(alloc, storage)?, "call {call}");
        }
        let (_storage, refused) = made_without(alloc, opens, calls + 1, for_memory)?;
        assert_eq!(rt; refused, 0);
    }
    Ok(())
}

// Makes an image that names a backing file of the raw format.
fn named(
    alloc: Global,
    name: String,
    mode: PreallocateMode,
) -> Result<(TraceStorage, u8), AllocError> {
    let builder = asked(used(alloc)?, 512, 16)
        .preallocate(mode)
        .backing(name, "raw".to_string(alloc)?);
    let (storage, done) = builder.create(alloc);
    Ok((storage, refusal(done)))
}

// Opens an image by the builder, under the number 3, over no disk. Where its backing file isn't waived, none is spoken of.
fn built<S: Storage>(
    alloc: Global,
    storage: S,
    writable: bool,
    waives: bool,
) -> Result<Qcow2<S>, (S, ImageError)> {
    let mut builder = Qcow2::<S>::builder(storage, 3).write(writable);
    if waives {
        builder = builder.backing(None);
    }
    builder.open(alloc)
}

// Whether an image names this backing file.
fn names<S: Storage>(image: &Qcow2<S>, name: &str, format: &str) -> bool {
    let file = image.implicit_backing_file();
    let form = image.implicit_backing_format();
    file.is_some_and(|it| it.as_str() == name) && form.is_some_and(|it| it.as_str() == format)
}

#[test]
fn a_named_backing_file_is_given_or_waived(rt: HostRuntime) -> Result<(), Fail> {
    let alloc = rt.alloc();
    let (storage, done) = named(alloc, "base.raw".to_string(alloc)?, PreallocateMode::None)?;
    assert_eq!(rt; done, 0);
    let storage = copied(alloc, &storage)?;
    let Err((storage, refusal)) = built(alloc, storage, true, false) else {
        return Err("it opens alone")?;
    };
    assert_eq!(rt; refusal.number(), 12);
    assert_eq!(rt; storage.changes().len(), 0);
    let Ok(image) = built(alloc, storage, true, true) else {
        return Err("it doesn't open")?;
    };
    assert!(rt; names(&image, "base.raw", "raw"));
    assert_eq!(rt; described(&image), (3, SIZE, 0, true));
    Ok(())
}

#[test]
fn no_clusters_are_taken_over_a_backing_file(rt: HostRuntime) -> Result<(), Fail> {
    let alloc = rt.alloc();
    for (mode, number) in [
        (PreallocateMode::None, 0),
        (PreallocateMode::Zero, 0),
        (PreallocateMode::FormatAllocate, 6),
        (PreallocateMode::FullAllocate, 6),
        (PreallocateMode::WriteData, 6),
    ] {
        let (storage, done) = named(alloc, "base.raw".to_string(alloc)?, mode)?;
        assert_eq!(rt; done, number);
        assert_eq!(rt; storage.calls() == 0, number == 6);
    }
    Ok(())
}

// With the format's name the header takes 128 bytes, and the name has the rest of the cluster.
#[test]
fn the_longest_name_ends_with_the_cluster(rt: HostRuntime) -> Result<(), Fail> {
    let alloc = rt.alloc();
    for (length, number) in [(384, 0), (385, 5)] {
        let mut name = String::new(alloc);
        for _ in 0..length {
            name.push('n')?;
        }
        let (storage, done) = named(
            alloc,
            name.as_str().to_string(alloc)?,
            PreallocateMode::None,
        )?;
        assert_eq!(rt; done, number, "{length}");
        assert_eq!(rt; storage.calls() == 0, number == 5, "{length}");
        if number == 0 {
            let Ok(image) = built(alloc, storage, false, true) else {
                return Err("it doesn't open")?;
            };
            assert!(rt; names(&image, &name, "raw"));
        }
    }
    Ok(())
}

#[test]
fn a_builder_opens_for_reading_unless_it_is_told(rt: HostRuntime) -> Result<(), Fail> {
    let alloc = rt.alloc();
    for writable in [false, true] {
        let storage = created(alloc, SIZE, 16)?;
        let builder = Qcow2::<TraceStorage>::builder(storage, 3);
        assert!(rt; !builder.get_writable());
        let builder = builder.write(writable);
        assert_eq!(rt; builder.get_writable(), writable);
        let Ok(image) = builder.open(alloc) else {
            return Err("it doesn't open")?;
        };
        assert_eq!(rt; image.writable(), writable);
    }
    Ok(())
}

#[test]
fn an_image_is_made_open_over_no_disk(rt: HostRuntime) -> Result<(), Fail> {
    let alloc = rt.alloc();
    let named = asked(used(alloc)?, 512, 16).backing(
        "base.raw".to_string(alloc)?,
        "raw".to_string(alloc)?,
    );
    let made = named.create_open(alloc, |made| {
        Ok(Qcow2::<TraceStorage>::builder(made, 1).backing(None))
    });
    let Ok(image) = made else {
        return Err("it isn't made")?;
    };
    assert_eq!(rt; described(&image), (1, SIZE, 0, true));
    assert!(rt; names(&image, "base.raw", "raw"));
    assert_eq!(rt; image.collect_storage_dependencies(alloc)?.len(), 1);
    Ok(())
}

// What a closure refuses, it keeps. An image that needs its backing file is handed back by a builder to which none is given.
#[test]
fn a_storage_is_handed_back_unless_the_closure_refuses(rt: HostRuntime) -> Result<(), Fail> {
    let alloc = rt.alloc();
    let refused = asked(used(alloc)?, 512, 16).create_open::<Box<dyn BackingDisk>, _>(
        alloc,
        |_made| { Err(ImageError::ReadOnly) },
    );
    let Err((None, refusal)) = refused else {
        return Err("it is made, or handed back")?;
    };
    assert_eq!(rt; refusal.number(), 1);
    let named = asked(used(alloc)?, 512, 16).backing(
        "base.raw".to_string(alloc)?,
        "raw".to_string(alloc)?,
    );
    let unopened = named.create_open(alloc, |made| Ok(Qcow2::<TraceStorage>::builder(made, 1)));
    let Err((Some(storage), refusal)) = unopened else {
        return Err("it is opened, or not handed back")?;
    };
    assert_eq!(rt; refusal.number(), 12);
    assert!(rt; may_be_left(alloc, storage)?);
    Ok(())
}
