//! Zeroing and discarding clusters of a data file, and preparing ranges of it.
use super::super::refusal;
use super::{
    Image, asking, counted, data_at, empty, entry_of, fresh_with_file, in_data_file, mapped_in,
    opened_with, put, reopened,
};
use crate::session::{read, release};
use image_access::Storage;
use qcow2_image::{CommitRefused, ImageError, MappingKind};
use std::alloc::Global;
use std::test::Fail;

const ZEROS: MappingKind = MappingKind::Zero { explicit: true };

// An image whose first four clusters are written.
fn with_four(alloc: Global) -> Result<Image, Fail> {
    let mut image = fresh_with_file(alloc, 65536)?;
    put(&mut image, 0, &[0xaa; 2048])?;
    Ok(image)
}

#[test]
fn a_zeroed_cluster_keeps_its_place(rt: HostRuntime) -> Result<(), Fail> {
    let alloc = rt.alloc();
    let mut image = with_four(alloc)?;
    assert_eq!(rt; image.ensure_zero_mapping(0, 1024)?, (0, 1024));
    assert_eq!(rt;
        entry_of(alloc, &mut image, 2048, 0)?,
        0x8000_0000_0000_0001
    );
    assert_eq!(rt;
        entry_of(alloc, &mut image, 2048, 1)?,
        0x8000_0000_0000_0201
    );
    assert_eq!(rt; mapped_in(&mut image, 0, 2048)?, (ZEROS, 1024));
    assert_eq!(rt; counted(alloc, &mut image)?, 5);
    let mut image = reopened(alloc, image)?;
    let mut shown = [0; 2048];
    shown[1024..].fill(0xaa);
    assert_eq!(rt;
        read(alloc, &mut image, 0, 2048)?.as_slice(),
        shown.as_slice()
    );
    // parts of both are written again, in their places, with zeros around them
    put(&mut image, 500, &[0x22; 100])?;
    shown[500..600].fill(0x22);
    assert_eq!(rt;
        read(alloc, &mut image, 0, 2048)?.as_slice(),
        shown.as_slice()
    );
    assert_eq!(rt;
        data_at(alloc, &image, 0, 2048)?.as_slice(),
        shown.as_slice()
    );
    assert_eq!(rt;
        entry_of(alloc, &mut image, 2048, 0)?,
        0x8000_0000_0000_0000
    );
    assert_eq!(rt; counted(alloc, &mut image)?, 5);
    assert_eq!(rt; image.leaked_clusters(), 0);
    Ok(())
}

// How clusters are discarded: to zeros, to anything, or to the disk below.
fn discard(image: &mut Image, way: usize) -> Result<(u64, u64), ImageError> {
    match way {
        0 => image.discard_to_zero_unsafe(512, 1024),
        1 => image.discard_to_any_unsafe(512, 1024),
        _ => image.discard_to_backing_unsafe(512, 1024),
    }
}

#[test]
fn a_discarded_cluster_has_no_place(rt: HostRuntime) -> Result<(), Fail> {
    let alloc = rt.alloc();
    for (way, entry) in [1, 1, 0].into_iter().enumerate() {
        let mut image = with_four(alloc)?;
        assert_eq!(rt; discard(&mut image, way)?, (512, 1024), "way {way}");
        for cluster in [1, 2] {
            assert_eq!(rt;
                entry_of(alloc, &mut image, 2048, cluster)?,
                entry,
                "way {way}"
            );
        }
        assert_eq!(rt; counted(alloc, &mut image)?, 5, "way {way}");
        assert_eq!(rt; image.leaked_clusters(), 0, "way {way}");
        let mut image = reopened(alloc, image)?;
        let mut shown = [0xaa; 2048];
        shown[512..1536].fill(0);
        assert_eq!(rt;
            read(alloc, &mut image, 0, 2048)?.as_slice(),
            shown.as_slice()
        );
        // the data file still holds the old bytes, which don't come back
        put(&mut image, 1000, &[0x22; 30])?;
        shown[1000..1030].fill(0x22);
        assert_eq!(rt;
            read(alloc, &mut image, 0, 2048)?.as_slice(),
            shown.as_slice()
        );
        assert_eq!(rt; mapped_in(&mut image, 0, 2048)?, (in_data_file(0), 2048));
        assert_eq!(rt; counted(alloc, &mut image)?, 5, "way {way}");
    }
    Ok(())
}

// An image whose zero entry keeps a place, over which another discard drops it.
#[test]
fn a_kept_place_is_dropped_uncounted(rt: HostRuntime) -> Result<(), Fail> {
    let alloc = rt.alloc();
    for (way, entry) in [1, 1, 0].into_iter().enumerate() {
        let mut image = with_four(alloc)?;
        assert_eq!(rt; image.ensure_zero_mapping(0, 2048)?, (0, 2048));
        assert_eq!(rt; discard(&mut image, way)?, (512, 1024));
        assert_eq!(rt; entry_of(alloc, &mut image, 2048, 1)?, entry, "way {way}");
        assert_eq!(rt; counted(alloc, &mut image)?, 5, "way {way}");
        assert_eq!(rt; image.leaked_clusters(), 0, "way {way}");
        assert_eq!(rt;
            read(alloc, &mut image, 0, 2048)?.as_slice(),
            [0; 2048].as_slice()
        );
    }
    Ok(())
}

// A range is prepared, and dropped again: its place, its length and whether it is existing.
fn prepared(
    image: &mut Image,
    offset: u64,
    length: u64,
    overwrite: bool,
) -> Result<(u64, u64, bool), ImageError> {
    let prepared = image.prepare_data_mapping(offset, length, overwrite)?;
    let shown = (
        prepared.offset(),
        prepared.length(),
        prepared.is_nonblocking(),
    );
    release(image, prepared);
    Ok(shown)
}

// Clusters 1 and 3 of five are written, and cluster 4 is a zero cluster with a place.
#[test]
fn a_range_is_prepared_at_its_guest_offset(rt: HostRuntime) -> Result<(), Fail> {
    let alloc = rt.alloc();
    let mut image = fresh_with_file(alloc, 65536)?;
    put(&mut image, 512, &[0x11; 512])?;
    put(&mut image, 1536, &[0x11; 1024])?;
    assert_eq!(rt; image.ensure_zero_mapping(2048, 512)?, (2048, 512));
    for (offset, length, existing) in [
        (0, 2560, false),
        (100, 1000, false),
        (512, 512, true),
        (600, 1, true),
        (600, 1000, false),
        (2048, 1, false),
        (32700, 68, false),
    ] {
        let (at, found, is_existing) = prepared(&mut image, offset, length, true)?;
        assert_eq!(rt; (at, is_existing), (offset, existing), "at {offset}");
        assert!(rt; found >= length, "at {offset}");
    }
    // what was dropped is as it was, and nothing of it is counted
    assert_eq!(rt; entry_of(alloc, &mut image, 2048, 0)?, 0);
    assert_eq!(rt;
        entry_of(alloc, &mut image, 2048, 4)?,
        0x8000_0000_0000_0801
    );
    assert_eq!(rt; counted(alloc, &mut image)?, 5);
    assert_eq!(rt; image.leaked_clusters(), 0);
    Ok(())
}

// Writes two bytes into a prepared part of two clusters, and commits it.
fn committed(image: &mut Image, overwrite: bool) -> Result<(), ImageError> {
    let prepared = image.prepare_data_mapping(500, 100, overwrite)?;
    let written = image.write_mapped(&prepared, 11, &[0x22; 2]);
    match image.commit_data_mapping(prepared) {
        Ok(()) => written,
        Err(CommitRefused::Spent(refusal)) => Err(refusal),
        Err(CommitRefused::Kept(refusal, prepared)) => {
            release(image, prepared);
            Err(refusal)
        }
    }
}

// Without a promise to overwrite, all that the data file held there before is replaced.
#[test]
fn a_commit_shows_a_prepared_range(rt: HostRuntime) -> Result<(), Fail> {
    let alloc = rt.alloc();
    let mut file = empty(alloc)?;
    file.write(0, &[0x99; 2048])?;
    let mut image = opened_with(alloc, asking(alloc, 65536)?, file, None)?;
    committed(&mut image, false)?;
    let mut shown = [0; 1024];
    shown[511..513].fill(0x22);
    assert_eq!(rt;
        read(alloc, &mut image, 0, 1024)?.as_slice(),
        shown.as_slice()
    );
    assert_eq!(rt;
        data_at(alloc, &image, 0, 1024)?.as_slice(),
        shown.as_slice()
    );
    assert_eq!(rt;
        data_at(alloc, &image, 1024, 2048)?.as_slice(),
        [0x99; 1024].as_slice()
    );
    // the whole range is in place by now, and is written so
    assert_eq!(rt; prepared(&mut image, 0, 1024, true)?, (0, 1024, true));
    committed(&mut image, false)?;
    assert_eq!(rt;
        read(alloc, &mut image, 0, 1024)?.as_slice(),
        shown.as_slice()
    );
    assert_eq!(rt; counted(alloc, &mut image)?, 5);
    Ok(())
}

// A prepared range that is dropped isn't shown, though its bytes are in the data file.
#[test]
fn a_dropped_range_is_not_shown(rt: HostRuntime) -> Result<(), Fail> {
    let alloc = rt.alloc();
    let mut image = fresh_with_file(alloc, 65536)?;
    let prepared = image.prepare_data_mapping(512, 1024, true)?;
    let written = refusal(image.write_mapped(&prepared, 0, &[0x22; 1024]));
    let beside = refusal(image.ensure_zero_mapping(4096, 512));
    release(&mut image, prepared);
    assert_eq!(rt; (written, beside), (0, 9));
    assert_eq!(rt;
        read(alloc, &mut image, 0, 2048)?.as_slice(),
        [0; 2048].as_slice()
    );
    assert_eq!(rt;
        data_at(alloc, &image, 512, 1536)?.as_slice(),
        [0x22; 1024].as_slice()
    );
    assert_eq!(rt; counted(alloc, &mut image)?, 5);
    assert_eq!(rt; image.leaked_clusters(), 0);
    let mut image = reopened(alloc, image)?;
    assert_eq!(rt;
        read(alloc, &mut image, 0, 2048)?.as_slice(),
        [0; 2048].as_slice()
    );
    Ok(())
}
