//! Smaller and larger disks whose data are in a data file.
use super::super::{copied, fresh, refusal};
use super::{
    Image, asking, counted, data_file_of, empty, fresh_with_file, in_data_file, mapped_in,
    opened_with, put, reopened, rising,
};
use crate::session::{read, release};
use image_access::{Change, MemBacking, PreallocateMode, Storage};
use qcow2_image::MappingKind;
use std::alloc::Global;
use std::test::Fail;

const ALL: [PreallocateMode; 5] = [
    PreallocateMode::None,
    PreallocateMode::Zero,
    PreallocateMode::FormatAllocate,
    PreallocateMode::FullAllocate,
    PreallocateMode::WriteData,
];

// The size of a change that resizes.
fn resized_to(change: &Change) -> Option<u64> {
    match change {
        Change::Resize { size } => Some(*size),
        Change::Write { at: _, bytes: _ } | Change::Zeroes { at: _, length: _ } => None,
    }
}

// The sizes that a data file was given since it was opened, and whether the first of its changes was such a one.
fn sizes_given(alloc: Global, image: &Image) -> Result<(Vec<u64>, bool), Fail> {
    let mut sizes = Vec::new(alloc);
    let mut is_first = false;
    if let Some(file) = image.collect_storage_dependencies(alloc)?.last() {
        is_first = file
            .changes()
            .first()
            .is_some_and(|it| resized_to(it).is_some());
        for change in file.changes() {
            if let Some(size) = resized_to(change) {
                sizes.push(size)?;
            }
        }
    }
    Ok((sizes, is_first))
}

// An image of 1,000 bytes that are all written. Its data file has other bytes behind them.
fn of_thousand(alloc: Global) -> Result<Image, Fail> {
    let mut image = fresh_with_file(alloc, 1000)?;
    put(&mut image, 0, &[0x11; 1000])?;
    image.flush()?;
    let mut file = data_file_of(alloc, &image)?;
    file.write(1000, &[0x99; 3000])?;
    let file = copied(alloc, &file)?;
    Ok(opened_with(alloc, copied(alloc, &image.into_storage())?, file, None)?)
}

// What a mode shows behind the last old cluster, which ends at 1,024.
fn grown_kind(mode: PreallocateMode) -> MappingKind {
    match mode {
        PreallocateMode::None => MappingKind::Zero { explicit: false },
        PreallocateMode::Zero => MappingKind::Zero { explicit: true },
        _ => in_data_file(1024),
    }
}

#[test]
fn a_disk_grows_in_each_mode(rt: HostRuntime) -> Result<(), Fail> {
    let alloc = rt.alloc();
    for mode in ALL {
        let mut image = of_thousand(alloc)?;
        image.resize_grow(2500, mode)?;
        assert_eq!(rt; image.size(), 2500);
        assert_eq!(rt;
            sizes_given(alloc, &image)?,
            (vec![in alloc; 2500]?, true),
            "{mode:?}"
        );
        let mut shown = [0; 2500];
        shown[..1000].fill(0x11);
        if mode == PreallocateMode::None {
            // the rest of the last cluster stays as it was
            shown[1000..1024].fill(0x99);
        }
        assert_eq!(rt;
            read(alloc, &mut image, 0, 2500)?.as_slice(),
            shown.as_slice(),
            "{mode:?}"
        );
        assert_eq!(rt;
            mapped_in(&mut image, 1024, 4096)?,
            (grown_kind(mode), 1476),
            "{mode:?}"
        );
        assert_eq!(rt; counted(alloc, &mut image)?, 5, "{mode:?}");
        assert_eq!(rt; image.leaked_clusters(), 0);
        let mut image = reopened(alloc, image)?;
        put(&mut image, 1100, &[0x22; 1400])?;
        shown[1100..].fill(0x22);
        assert_eq!(rt;
            read(alloc, &mut image, 0, 2500)?.as_slice(),
            shown.as_slice(),
            "{mode:?}"
        );
        assert_eq!(rt;
            mapped_in(&mut image, 1024, 4096)?,
            (in_data_file(1024), 1476),
            "{mode:?}"
        );
        assert_eq!(rt; counted(alloc, &mut image)?, 5, "{mode:?}");
    }
    Ok(())
}

// The L1 table gets five entries more, and in all modes but the first one five L2 tables.
#[test]
fn a_disk_grows_over_tables(rt: HostRuntime) -> Result<(), Fail> {
    let alloc = rt.alloc();
    for mode in ALL {
        let mut image = fresh_with_file(alloc, 65536)?;
        put(&mut image, 65530, &[0x11; 6])?;
        image.resize_grow(200_000, mode)?;
        let mut image = reopened(alloc, image)?;
        assert_eq!(rt; image.size(), 200_000);
        let mut shown = vec![in alloc; 0; 200_000]?;
        shown[65530..65536].fill(0x11);
        assert_eq!(rt; read(alloc, &mut image, 0, 200_000)?, shown, "{mode:?}");
        let tables = if mode == PreallocateMode::None { 5 } else { 10 };
        assert_eq!(rt; counted(alloc, &mut image)?, tables, "{mode:?}");
        let kind = match mode {
            PreallocateMode::None | PreallocateMode::Zero => grown_kind(mode),
            _ => in_data_file(65536),
        };
        assert_eq!(rt;
            mapped_in(&mut image, 65536, 40000)?,
            (kind, 32768),
            "{mode:?}"
        );
        let bytes = rising(alloc, 1000)?;
        put(&mut image, 199_000, &bytes)?;
        assert_eq!(rt; read(alloc, &mut image, 199_000, 1000)?, bytes, "{mode:?}");
        assert_eq!(rt;
            super::data_at(alloc, &image, 199_000, 200_000)?,
            bytes,
            "{mode:?}"
        );
    }
    Ok(())
}

#[test]
fn a_smaller_disk_has_a_smaller_data_file(rt: HostRuntime) -> Result<(), Fail> {
    let alloc = rt.alloc();
    let mut image = fresh_with_file(alloc, 65536)?;
    put(&mut image, 0, &[0x11; 2048])?;
    put(&mut image, 40000, &[0x22; 100])?;
    let mut image = reopened(alloc, image)?;
    assert_eq!(rt; image.resize_shrink(700)?, 65536);
    assert_eq!(rt; image.size(), 700);
    assert_eq!(rt; sizes_given(alloc, &image)?, (vec![in alloc; 700]?, true));
    assert_eq!(rt;
        data_file_of(alloc, &image)?.as_slice(),
        [0x11; 700].as_slice()
    );
    assert_eq!(rt;
        read(alloc, &mut image, 0, 700)?.as_slice(),
        [0x11; 700].as_slice()
    );
    assert_eq!(rt; refusal(read(alloc, &mut image, 700, 1)), 2);
    // header, reftable, refblock, L1 table, and the two L2 tables, which stay
    assert_eq!(rt; counted(alloc, &mut image)?, 6);
    assert_eq!(rt; image.leaked_clusters(), 0);
    let mut image = reopened(alloc, image)?;
    image.resize_grow(65536, PreallocateMode::None)?;
    let mut shown = vec![in alloc; 0; 65536]?;
    shown[..700].fill(0x11);
    assert_eq!(rt; read(alloc, &mut image, 0, 65536)?, shown);
    assert_eq!(rt; mapped_in(&mut image, 0, 65536)?, (in_data_file(0), 1024));
    Ok(())
}

#[test]
fn a_size_that_is_not_smaller_or_larger_changes_nothing(rt: HostRuntime) -> Result<(), Fail> {
    let alloc = rt.alloc();
    let mut image = fresh_with_file(alloc, 1000)?;
    for size in [1000, 1001] {
        assert_eq!(rt; image.resize_shrink(size)?, 1000);
    }
    for size in [1000, 999, 0] {
        for mode in ALL {
            image.resize_grow(size, mode)?;
        }
    }
    assert_eq!(rt; image.size(), 1000);
    for storage in image.collect_storage_dependencies(alloc)? {
        assert!(rt; storage.changes().is_empty());
    }
    Ok(())
}

#[test]
fn a_prepared_range_keeps_the_data_file_whole(rt: HostRuntime) -> Result<(), Fail> {
    let alloc = rt.alloc();
    let mut image = fresh_with_file(alloc, 65536)?;
    put(&mut image, 0, &[0x11; 1024])?;
    let prepared = image.prepare_data_mapping(1024, 512, true)?;
    let refused = refusal(image.resize_shrink(512));
    release(&mut image, prepared);
    assert_eq!(rt; refused, 17);
    assert_eq!(rt; sizes_given(alloc, &image)?, (Vec::new(alloc), false));
    assert_eq!(rt;
        read(alloc, &mut image, 0, 1024)?.as_slice(),
        [0x11; 1024].as_slice()
    );
    assert_eq!(rt; image.resize_shrink(512)?, 65536);
    assert_eq!(rt; sizes_given(alloc, &image)?, (vec![in alloc; 512]?, false));
    Ok(())
}

// Over a disk below clusters are not taken, and the disk below shows in what is not.
#[test]
fn a_disk_grows_over_the_one_below(rt: HostRuntime) -> Result<(), Fail> {
    let alloc = rt.alloc();
    for mode in ALL {
        let below = MemBacking::new(vec![in alloc; 0x55; 3000]?);
        let mut image = opened_with(alloc, asking(alloc, 1000)?, empty(alloc)?, Some(below))?;
        let number = refusal(image.resize_grow(2500, mode));
        let (size, byte) = match mode {
            PreallocateMode::None => (2500, 0x55),
            PreallocateMode::Zero => (2500, 0),
            _ => (1000, 0),
        };
        assert_eq!(rt; number, if size == 1000 { 6 } else { 0 }, "{mode:?}");
        assert_eq!(rt; image.size(), size, "{mode:?}");
        let mut shown = vec![in alloc; byte; size as usize]?;
        shown[..1000].fill(0x55);
        assert_eq!(rt; read(alloc, &mut image, 0, size)?, shown, "{mode:?}");
        let sizes = if size == 1000 {
            Vec::new(alloc)
        } else {
            vec![in alloc; 2500]?
        };
        assert_eq!(rt;
            sizes_given(alloc, &image)?,
            (sizes, size != 1000),
            "{mode:?}"
        );
    }
    Ok(())
}

// A size that no L1 table covers is refused before the data file is told of it.
#[test]
fn a_size_past_the_limit_leaves_the_data_file(rt: HostRuntime) -> Result<(), Fail> {
    let alloc = rt.alloc();
    for mode in ALL {
        let mut image = fresh_with_file(alloc, 1000)?;
        assert_eq!(rt;
            refusal(image.resize_grow((1 << 37) + 1, mode)),
            13,
            "{mode:?}"
        );
        assert_eq!(rt;
            sizes_given(alloc, &image)?,
            (Vec::new(alloc), false),
            "{mode:?}"
        );
        assert_eq!(rt; image.size(), 1000);
        put(&mut image, 0, &[0x11])?;
    }
    Ok(())
}

// How many changes the image's own file has.
fn own_changes(alloc: Global, image: &Image) -> Result<usize, Fail> {
    match image.collect_storage_dependencies(alloc)?.first() {
        Some(storage) => Ok(storage.changes().len()),
        None => Err("there is no storage")?,
    }
}

// An image of 1,000 bytes whose data file, or whose own file, refuses its next call.
fn failing_next(alloc: Global, fails_own: bool) -> Result<Image, Fail> {
    let mut storage = asking(alloc, 1000)?;
    let mut file = empty(alloc)?;
    if fails_own {
        let opened = opened_with(alloc, copied(alloc, &storage)?, empty(alloc)?, None)?;
        storage.fail_at(opened.into_storage().calls() + 1);
    } else {
        file.fail_at(1);
    }
    Ok(opened_with(alloc, storage, file, None)?)
}

#[test]
fn the_data_file_is_resized_first(rt: HostRuntime) -> Result<(), Fail> {
    let alloc = rt.alloc();
    for mode in [PreallocateMode::None, PreallocateMode::Zero] {
        let mut image = failing_next(alloc, false)?;
        assert_eq!(rt; refusal(image.resize_grow(70000, mode)), 15);
        assert_eq!(rt; own_changes(alloc, &image)?, 0);
        assert_eq!(rt; (image.size(), refusal(image.flush())), (1000, 16));
        let mut image = failing_next(alloc, true)?;
        assert_eq!(rt; refusal(image.resize_grow(70000, mode)), 15);
        assert_eq!(rt; sizes_given(alloc, &image)?, (vec![in alloc; 70000]?, true));
        assert_eq!(rt; (image.size(), refusal(image.flush())), (1000, 16));
    }
    let mut image = failing_next(alloc, false)?;
    assert_eq!(rt; refusal(image.resize_shrink(100)), 15);
    assert_eq!(rt; own_changes(alloc, &image)?, 0);
    assert_eq!(rt; (image.size(), refusal(image.flush())), (1000, 16));
    let mut image = failing_next(alloc, true)?;
    assert_eq!(rt; refusal(image.resize_shrink(100)), 15);
    assert_eq!(rt; sizes_given(alloc, &image)?, (vec![in alloc; 100]?, true));
    assert_eq!(rt; (image.size(), refusal(image.flush())), (1000, 16));
    Ok(())
}

// An image that doesn't ask for its data file, and has its data there at the hosts' offsets, behind those of the guest.
fn unasking(alloc: Global) -> Result<Image, Fail> {
    let mut image = opened_with(alloc, fresh(alloc)?, empty(alloc)?, None)?;
    put(&mut image, 0, &[0x11; 1024])?;
    put(&mut image, 40000, &[0x22; 100])?;
    reopened(alloc, image)
}

#[test]
fn without_the_bit_a_smaller_disk_keeps_its_bytes(rt: HostRuntime) -> Result<(), Fail> {
    let alloc = rt.alloc();
    let mut image = unasking(alloc)?;
    assert_eq!(rt; image.resize_shrink(700)?, 65536);
    assert_eq!(rt;
        read(alloc, &mut image, 0, 700)?.as_slice(),
        [0x11; 700].as_slice()
    );
    // two clusters of data are left, at 2,560 and 3,072
    assert_eq!(rt; counted(alloc, &mut image)?, 8);
    let mut image = reopened(alloc, image)?;
    assert_eq!(rt;
        read(alloc, &mut image, 0, 700)?.as_slice(),
        [0x11; 700].as_slice()
    );
    Ok(())
}

#[test]
fn without_the_bit_a_larger_disk_keeps_its_bytes(rt: HostRuntime) -> Result<(), Fail> {
    let alloc = rt.alloc();
    for mode in ALL {
        let mut image = unasking(alloc)?;
        image.resize_shrink(1024)?;
        image.resize_grow(2048, mode)?;
        let mut shown = [0; 2048];
        shown[..1024].fill(0x11);
        assert_eq!(rt;
            read(alloc, &mut image, 0, 2048)?.as_slice(),
            shown.as_slice(),
            "{mode:?}"
        );
        let mut image = reopened(alloc, image)?;
        assert_eq!(rt;
            read(alloc, &mut image, 0, 2048)?.as_slice(),
            shown.as_slice(),
            "{mode:?}"
        );
        assert_eq!(rt; image.leaked_clusters(), 0);
    }
    Ok(())
}
