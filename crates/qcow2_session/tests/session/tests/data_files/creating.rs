//! New images that ask for a data file.
use super::super::{copied, number_at, refusal};
use super::{
    Image, asked, counted, data_file_of, empty, in_data_file, mapped_in, opened_with, own_file_of,
    put, reopened,
};
use crate::session::read;
use image_access::{PreallocateMode, TraceStorage};
use qcow2_image::{ImageError, MappingKind, Qcow2, Qcow2CreateBuilder};
use std::alloc::Global;
use std::test::Fail;

// A file of 4,096 bytes that isn't zero anywhere.
fn used(alloc: Global) -> Result<TraceStorage, Fail> {
    Ok(TraceStorage::new(alloc, vec![in alloc; 0x99; 4096]?)?)
}

fn made_open(
    alloc: Global,
    builder: Qcow2CreateBuilder<TraceStorage>,
) -> Result<Image, (Option<TraceStorage>, ImageError)> {
    builder.create_open(alloc, |made| Ok(Qcow2::builder(made, 7)))
}

#[test]
fn the_header_has_the_bit_and_the_name(rt: HostRuntime) -> Result<(), Fail> {
    let alloc = rt.alloc();
    let (mut storage, done) = asked(alloc, 65536, empty(alloc)?)?.create(alloc);
    done?;
    assert_eq!(rt; number_at(&mut storage, 72)?, 4);
    // the extension's type and length, its text, and the end of the extensions
    assert_eq!(rt; number_at(&mut storage, 104)?, 0x4441_5441_0000_0008);
    assert_eq!(rt; &storage.as_slice()[112..120], b"data.raw".as_slice());
    assert_eq!(rt; number_at(&mut storage, 120)?, 0);
    // the three clusters of a new image, and its L1 table
    assert_eq!(rt; number_at(&mut storage, 1024)?, 0x0001_0001_0001_0001);
    assert_eq!(rt; storage.as_slice().len(), 1536 + 16);
    let image = opened_with(alloc, storage, empty(alloc)?, None)?;
    assert!(rt; image.requires_external_data_file());
    let name = image.implicit_external_data_file();
    assert!(rt; name.is_some_and(|it| it.as_str() == "data.raw"));
    assert!(rt; image.implicit_backing_file().is_none());
    Ok(())
}

// A name of so many letters.
fn name_of(alloc: Global, length: usize) -> Result<String, Fail> {
    let mut name = String::new(alloc);
    for _ in 0..length {
        name.push('n')?;
    }
    Ok(name)
}

// Beside the header, the name's extension takes 8 bytes more than the name's whole words, and its end takes 8.
#[test]
fn the_longest_name_ends_with_the_cluster(rt: HostRuntime) -> Result<(), Fail> {
    let alloc = rt.alloc();
    for (length, backing, number) in [
        (392, 0, 0),
        (393, 0, 5),
        (368, 8, 0),
        (368, 9, 5),
        (369, 8, 5),
    ] {
        let mut builder = Qcow2CreateBuilder::new(empty(alloc)?)
            .cluster_size(512)
            .data_file(name_of(alloc, length)?, empty(alloc)?);
        if backing > 0 {
            builder = builder.backing(name_of(alloc, backing)?, "raw".to_string(alloc)?);
        }
        let (storage, done) = builder.create(alloc);
        assert_eq!(rt; refusal(done), number, "{length} and {backing}");
        assert_eq!(rt; storage.calls() == 0, number == 5, "{length} and {backing}");
        if number == 0 {
            let image = opened_with(alloc, storage, empty(alloc)?, None)?;
            let name = image.implicit_external_data_file();
            assert!(rt; name.is_some_and(|it| it.len() == length));
        }
    }
    Ok(())
}

const MODES: [PreallocateMode; 5] = [
    PreallocateMode::None,
    PreallocateMode::Zero,
    PreallocateMode::FormatAllocate,
    PreallocateMode::FullAllocate,
    PreallocateMode::WriteData,
];

// What the disk is mapped as in a mode.
fn wanted(mode: PreallocateMode) -> MappingKind {
    match mode {
        PreallocateMode::None => MappingKind::Zero { explicit: false },
        PreallocateMode::Zero => MappingKind::Zero { explicit: true },
        _ => in_data_file(0),
    }
}

// The data file isn't empty before, and nothing of it shows.
#[test]
fn a_new_disk_shows_zeros_in_each_mode(rt: HostRuntime) -> Result<(), Fail> {
    let alloc = rt.alloc();
    for mode in MODES {
        for size in [1536, 1000] {
            let builder = asked(alloc, size, used(alloc)?)?.preallocate(mode);
            let Ok(mut image) = made_open(alloc, builder) else {
                return Err("it isn't made")?;
            };
            assert_eq!(rt; (image.number(), image.size()), (7, size), "{mode:?}");
            assert_eq!(rt;
                mapped_in(&mut image, 0, size)?,
                (wanted(mode), size),
                "{mode:?}"
            );
            let zeros = vec![in alloc; 0; size as usize]?;
            assert_eq!(rt; read(alloc, &mut image, 0, size)?, zeros, "{mode:?}");
            let tables = if mode == PreallocateMode::None { 4 } else { 5 };
            assert_eq!(rt; counted(alloc, &mut image)?, tables, "{mode:?}");
            let file = data_file_of(alloc, &image)?;
            if size == 1536 {
                assert_eq!(rt; file.as_slice().len(), 1536, "{mode:?}");
            }
            // whole clusters alone are taken behind the end of the disk
            assert!(rt; file.as_slice().len() as u64 >= size);
            assert!(rt; file.as_slice().len() <= 1536);
            let mut image = reopened(alloc, image)?;
            put(&mut image, 600, &[0x11; 2])?;
            let mut shown = zeros.to_vec(alloc)?;
            shown[600..602].fill(0x11);
            assert_eq!(rt; read(alloc, &mut image, 0, size)?, shown, "{mode:?}");
        }
    }
    Ok(())
}

// Creating without opening drops the data file, and what it makes opens with another one.
#[test]
fn a_made_image_opens_with_a_data_file(rt: HostRuntime) -> Result<(), Fail> {
    let alloc = rt.alloc();
    for mode in MODES {
        let builder = asked(alloc, 1536, used(alloc)?)?.preallocate(mode);
        let (storage, done) = builder.create(alloc);
        done?;
        let mut image = opened_with(alloc, copied(alloc, &storage)?, empty(alloc)?, None)?;
        assert_eq!(rt; image.size(), 1536);
        assert_eq!(rt;
            mapped_in(&mut image, 0, 1536)?,
            (wanted(mode), 1536),
            "{mode:?}"
        );
        assert_eq!(rt;
            read(alloc, &mut image, 0, 1536)?.as_slice(),
            [0; 1536].as_slice()
        );
    }
    Ok(())
}

#[test]
fn no_bytes_are_made_with_a_data_file(rt: HostRuntime) -> Result<(), Fail> {
    let alloc = rt.alloc();
    let (storage, done) = asked(alloc, 0, used(alloc)?)?.create(alloc);
    done?;
    let mut image = opened_with(alloc, storage, used(alloc)?, None)?;
    assert_eq!(rt; image.size(), 0);
    assert_eq!(rt; mapped_in(&mut image, 0, 1)?, (MappingKind::Eof, 0));
    image.resize_grow(512, PreallocateMode::None)?;
    assert_eq!(rt;
        read(alloc, &mut image, 0, 512)?.as_slice(),
        [0; 512].as_slice()
    );
    assert_eq!(rt; data_file_of(alloc, &image)?.as_slice().len(), 512);
    Ok(())
}

// The closure waives the data file, and the new image has the one that the creation was given.
#[test]
fn the_given_data_file_goes_to_the_new_image(rt: HostRuntime) -> Result<(), Fail> {
    let alloc = rt.alloc();
    let builder = asked(alloc, 65536, used(alloc)?)?;
    let made = builder.create_open(alloc, |made| Ok(Qcow2::builder(made, 7).data_file(None)));
    let Ok(mut image) = made else {
        return Err("it isn't made")?;
    };
    let image: &mut Image = &mut image;
    assert_eq!(rt; image.collect_storage_dependencies(alloc)?.len(), 2);
    let file = data_file_of(alloc, image)?;
    assert_eq!(rt; file.as_slice().len(), 65536);
    assert_eq!(rt; file.as_slice()[4095], 0x99);
    put(image, 1, &[0x11])?;
    assert_eq!(rt;
        read(alloc, image, 0, 3)?.as_slice(),
        [0, 0x11, 0].as_slice()
    );
    Ok(())
}

// Without a name in the header the closure's own data file holds the clusters that the allocator places.
#[test]
fn the_closure_may_give_a_data_file(rt: HostRuntime) -> Result<(), Fail> {
    let alloc = rt.alloc();
    let builder = Qcow2CreateBuilder::new(empty(alloc)?)
        .size(1024)
        .cluster_size(512)
        .preallocate(PreallocateMode::FormatAllocate);
    let file = empty(alloc)?;
    let made = builder.create_open(alloc, |made| {
        Ok(Qcow2::builder(made, 7).data_file(Some(file)))
    });
    let Ok(mut image) = made else {
        return Err("it isn't made")?;
    };
    let image: &mut Image = &mut image;
    assert!(rt; !image.requires_external_data_file());
    assert_eq!(rt; mapped_in(image, 0, 1024)?, (in_data_file(2560), 1024));
    assert_eq!(rt; counted(alloc, image)?, 7);
    assert_eq!(rt; own_file_of(alloc, image)?.as_slice().len(), 2560);
    assert_eq!(rt;
        read(alloc, image, 0, 1024)?.as_slice(),
        [0; 1024].as_slice()
    );
    Ok(())
}

#[test]
fn refused_settings_call_no_storage(rt: HostRuntime) -> Result<(), Fail> {
    let alloc = rt.alloc();
    for (mode, size, number) in [
        (PreallocateMode::FormatAllocate, 65536, 6),
        (PreallocateMode::WriteData, 65536, 6),
        (PreallocateMode::None, 1 << 40, 13),
    ] {
        let builder = asked(alloc, size, empty(alloc)?)?
            .preallocate(mode)
            .backing("base.raw".to_string(alloc)?, "raw".to_string(alloc)?);
        let (storage, done) = builder.create(alloc);
        assert_eq!(rt; refusal(done), number);
        assert_eq!(rt; storage.calls(), 0);
    }
    Ok(())
}

// Makes an image, open or not, with this data file, and answers the storage and the number of a refusal.
fn made_by(
    alloc: Global,
    file: TraceStorage,
    opens: bool,
    mode: PreallocateMode,
) -> Result<(TraceStorage, u8, u64), Fail> {
    let builder = asked(alloc, 1000, file)?.preallocate(mode);
    if !opens {
        let (storage, done) = builder.create(alloc);
        return Ok((storage, refusal(done), 0));
    }
    match made_open(alloc, builder) {
        Ok(image) => {
            let calls = match image.collect_storage_dependencies(alloc)?.last() {
                Some(file) => file.calls(),
                None => 0,
            };
            Ok((image.into_storage(), 0, calls))
        }
        Err((Some(storage), refusal)) => Ok((storage, refusal.number(), 0)),
        Err((None, _refusal)) => Err("no storage comes back")?,
    }
}

// Each call of the data file is refused in turn. What is left opens, with a disk of no bytes or of the size asked for. A making
// that doesn't open the image flushes the data file besides.
#[test]
fn each_call_of_a_data_file_in_a_making_is_refused(rt: HostRuntime) -> Result<(), Fail> {
    let alloc = rt.alloc();
    for mode in MODES {
        let (_storage, done, calls) = made_by(alloc, empty(alloc)?, true, mode)?;
        assert_eq!(rt; done, 0);
        assert!(rt; calls > 0);
        for (opens, calls) in [(false, calls + 1), (true, calls)] {
            for call in 1..=calls + 1 {
                for for_memory in [false, true] {
                    let mut file = empty(alloc)?;
                    if for_memory {
                        file.refuse_memory_at(call);
                    } else {
                        file.fail_at(call);
                    }
                    let (storage, done, _calls) = made_by(alloc, file, opens, mode)?;
                    let number = if call > calls {
                        0
                    } else if for_memory {
                        14
                    } else {
                        15
                    };
                    assert_eq!(rt; done, number, "{mode:?}, call {call} of {calls}");
                    let image = opened_with(alloc, storage, empty(alloc)?, None)?;
                    let is_whole = image.size() == 1000;
                    assert!(rt; is_whole || number != 0 && image.size() == 0);
                }
            }
        }
    }
    Ok(())
}
