//! Which files an image must be opened with.
use super::super::{copied, number_at, refusal};
use super::{Image, asked, asking, empty, mapped_in, opened_with, own_file_of, put};
use crate::boxes::{AnyStorage, create_in_boxes, open_in_boxes, read_in_boxes, write_in_boxes};
use crate::headline::open_and_run;
use crate::session::read;
use image_access::{MemBacking, MemStorage, PreallocateMode, Storage, TraceStorage};
use qcow2_image::{MappingKind, Qcow2, Qcow2CreateBuilder, Qcow2OpenBuilder};
use std::alloc::Global;
use std::test::Fail;

fn builder(storage: TraceStorage) -> Qcow2OpenBuilder<TraceStorage, MemBacking> {
    Qcow2::builder(storage, 1).write(true)
}

// The number of a refusal to open, 0 where there is none, and whether the storage is unchanged.
fn answer(alloc: Global, builder: Qcow2OpenBuilder<TraceStorage, MemBacking>) -> (u8, bool) {
    match builder.open(alloc) {
        Ok(image) => (0, image.into_storage().changes().is_empty()),
        Err((storage, refusal)) => (refusal.number(), storage.changes().is_empty()),
    }
}

// An image that asks for a data file and names a backing file.
fn asking_for_both(alloc: Global) -> Result<TraceStorage, Fail> {
    let builder = asked(alloc, 65536, empty(alloc)?)?.backing(
        "base.raw".to_string(alloc)?,
        "raw".to_string(alloc)?,
    );
    let (storage, done) = builder.create(alloc);
    done?;
    Ok(copied(alloc, &storage)?)
}

#[test]
fn each_file_that_the_header_needs_is_spoken_of(rt: HostRuntime) -> Result<(), Fail> {
    let alloc = rt.alloc();
    for writable in [false, true] {
        let one = asking(alloc, 65536)?;
        let both = asking_for_both(alloc)?;
        let none = super::super::fresh(alloc)?;
        for (storage, numbers) in [
            (one, [12, 0, 12, 0]),
            (both, [12, 12, 12, 0]),
            (none, [0, 0, 0, 0]),
        ] {
            let bare = builder(copied(alloc, &storage)?).write(writable);
            assert_eq!(rt; answer(alloc, bare), (numbers[0], true), "bare");
            let bare = builder(copied(alloc, &storage)?).write(writable);
            let data = bare.data_file(Some(empty(alloc)?));
            assert_eq!(rt; answer(alloc, data), (numbers[1], true), "data file");
            let bare = builder(copied(alloc, &storage)?).write(writable);
            assert_eq!(rt;
                answer(alloc, bare.backing(None)),
                (numbers[2], true),
                "backing"
            );
            let waived = builder(copied(alloc, &storage)?).write(writable);
            let waived = waived.data_file(None).backing(None);
            assert_eq!(rt; answer(alloc, waived), (numbers[3], true), "both waived");
        }
    }
    Ok(())
}

// What a waived data file refuses: reads, writes, lookups, clearing and resizing.
fn refused_without(image: &mut Image) -> [u8; 11] {
    let prepared = match image.prepare_data_mapping(0, 1, true) {
        Ok(prepared) => match image.discard_data_mapping(prepared) {
            Ok(()) => 0,
            Err((_refusal, _prepared)) => unreachable!(),
        },
        Err(refusal) => refusal.number(),
    };
    let mut bytes = [0; 4];
    [
        refusal(image.check_read(0, 1)),
        refusal(image.get_mapping(0, 1)),
        refusal(image.try_readv_special(&mut bytes, 0)),
        refusal(put(image, 0, &[1])),
        refusal(image.ensure_zero_mapping(0, 512)),
        refusal(image.discard_to_zero_unsafe(0, 512)),
        refusal(image.discard_to_any_unsafe(0, 512)),
        refusal(image.discard_to_backing_unsafe(0, 512)),
        refusal(image.resize_grow(70000, PreallocateMode::None)),
        refusal(image.resize_shrink(1)),
        prepared,
    ]
}

#[test]
fn a_waived_data_file_refuses_calls_on_guest_data(rt: HostRuntime) -> Result<(), Fail> {
    let alloc = rt.alloc();
    let builder = builder(asking(alloc, 65536)?).data_file(None);
    let Ok(mut image) = builder.open(alloc) else {
        return Err("it doesn't open")?;
    };
    assert_eq!(rt; refused_without(&mut image), [12; 11]);
    assert!(rt; image.requires_external_data_file());
    let name = image.implicit_external_data_file();
    assert!(rt; name.is_some_and(|it| it.as_str() == "data.raw"));
    assert_eq!(rt; image.size(), 65536);
    assert_eq!(rt; image.collect_storage_dependencies(alloc)?.len(), 1);
    // what concerns the image's own file alone is done
    image.flush()?;
    image.sync()?;
    image.invalidate_cache()?;
    // a data file that is set later makes up for it
    assert!(rt; image.set_data_file(Some(empty(alloc)?)).is_ok());
    put(&mut image, 511, &[0x11; 2])?;
    assert_eq!(rt;
        read(alloc, &mut image, 510, 4)?.as_slice(),
        [0, 0x11, 0x11, 0].as_slice()
    );
    Ok(())
}

// The header's bit of a data file is taken back, and its name stays.
#[test]
fn a_name_alone_needs_no_data_file(rt: HostRuntime) -> Result<(), Fail> {
    let alloc = rt.alloc();
    let mut storage = asking(alloc, 65536)?;
    assert_eq!(rt; number_at(&mut storage, 72)?, 4);
    storage.write(79, &[0])?;
    let Ok(mut image) = builder(storage).open(alloc) else {
        return Err("it doesn't open")?;
    };
    assert!(rt; !image.requires_external_data_file());
    let name = image.implicit_external_data_file();
    assert!(rt; name.is_some_and(|it| it.as_str() == "data.raw"));
    put(&mut image, 0, &[0x11; 512])?;
    image.flush()?;
    assert_eq!(rt;
        &own_file_of(alloc, &image)?.as_slice()[2560..],
        [0x11; 512].as_slice()
    );
    Ok(())
}

// An image that is open for reading reads its data file, and changes neither file.
#[test]
fn an_image_for_reading_reads_its_data_file(rt: HostRuntime) -> Result<(), Fail> {
    let alloc = rt.alloc();
    let mut image = opened_with(alloc, asking(alloc, 65536)?, empty(alloc)?, None)?;
    put(&mut image, 500, &[0x66; 30])?;
    image.flush()?;
    let file = super::data_file_of(alloc, &image)?;
    let storage = copied(alloc, &image.into_storage())?;
    let Ok(mut image) = builder(storage)
        .write(false)
        .data_file(Some(file))
        .open(alloc)
    else {
        return Err("it doesn't open")?;
    };
    let mut shown = [0; 40];
    shown[4..34].fill(0x66);
    assert_eq!(rt;
        read(alloc, &mut image, 496, 40)?.as_slice(),
        shown.as_slice()
    );
    assert_eq!(rt; refusal(put(&mut image, 0, &[1])), 1);
    assert_eq!(rt; refusal(image.resize_grow(70000, PreallocateMode::None)), 1);
    assert_eq!(rt; refusal(image.resize_shrink(0)), 1);
    image.flush()?;
    image.sync()?;
    for storage in image.collect_storage_dependencies(alloc)? {
        assert!(rt; storage.changes().is_empty());
    }
    Ok(())
}

#[test]
fn an_unmapped_range_has_no_place(rt: HostRuntime) -> Result<(), Fail> {
    let alloc = rt.alloc();
    let mut file = empty(alloc)?;
    file.write(0, &[0x99; 2048])?;
    let mut image = opened_with(alloc, asking(alloc, 65536)?, file, None)?;
    assert_eq!(rt;
        mapped_in(&mut image, 0, 512)?,
        (MappingKind::Zero { explicit: false }, 512)
    );
    assert_eq!(rt;
        read(alloc, &mut image, 0, 4)?.as_slice(),
        [0; 4].as_slice()
    );
    assert_eq!(rt; mapped_in(&mut image, 65536, 1)?, (MappingKind::Eof, 0));
    // a part of a cluster is written, and what the data file held around it is gone
    put(&mut image, 600, &[0x11; 2])?;
    assert_eq!(rt;
        read(alloc, &mut image, 599, 4)?.as_slice(),
        [0, 0x11, 0x11, 0].as_slice()
    );
    let mut cluster = [0; 512];
    cluster[88..90].fill(0x11);
    assert_eq!(rt;
        super::data_at(alloc, &image, 512, 1024)?.as_slice(),
        cluster.as_slice()
    );
    Ok(())
}

// A run of commands has no data file to give.
#[test]
fn a_run_is_refused_where_the_header_asks(rt: HostRuntime) -> Result<(), Fail> {
    let alloc = rt.alloc();
    for below in [None, Some(MemBacking::new(Vec::new(alloc)))] {
        let Err((storage, refusal)) = open_and_run(alloc, asking(alloc, 65536)?, below, 1, &[])
        else {
            return Err("it runs")?;
        };
        assert_eq!(rt; refusal.number(), 12);
        assert!(rt; storage.changes().is_empty());
    }
    Ok(())
}

// The image's own file is in memory, and its data file keeps its changes.
#[test]
fn both_files_are_in_boxes(rt: HostRuntime) -> Result<(), Fail> {
    let alloc = rt.alloc();
    let own: AnyStorage = Box::new(alloc, MemStorage::new(Vec::new(alloc)))?;
    let file: AnyStorage = Box::new(alloc, empty(alloc)?)?;
    let builder = Qcow2CreateBuilder::new(own).size(65536);
    let builder = builder.data_file("data.raw".to_string(alloc)?, file);
    let (own, done) = create_in_boxes(alloc, builder);
    done?;
    let file: AnyStorage = Box::new(alloc, empty(alloc)?)?;
    let builder = Qcow2::builder(own, 1).write(true).data_file(Some(file));
    let mut image = match open_in_boxes(alloc, builder) {
        Ok(image) => image,
        Err((_storage, refusal)) => return Err(refusal)?,
    };
    assert!(rt; write_in_boxes(&mut image, 65534, &[0x77]).is_ok());
    let bytes = read_in_boxes(alloc, &mut image, 65533, 3)?;
    assert_eq!(rt; bytes.as_slice(), [0, 0x77, 0].as_slice());
    let mut names = Vec::new(alloc);
    for storage in image.collect_storage_dependencies(alloc)? {
        names.push(storage.name())?;
    }
    assert_eq!(rt; names.as_slice(), ["mem", "trace"].as_slice());
    Ok(())
}
