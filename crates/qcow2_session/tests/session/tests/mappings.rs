//! Prepared mappings.
ghost use Rattle.std.specs.Prelude.{◌≡◌};
ghost use Rattle.qcow2_image.specs.Image.{number_of};
ghost use Rattle.qcow2_image.specs.Prepared.{image_of};

use super::{copied, fresh, number_at, opened, refusal, written};
use crate::session::{read, release};
use image_access::Storage;
use qcow2_image::{CommitRefused, ImageError, MappingKind, Prepared, Qcow2};
use std::alloc::Global;
use std::test::Fail;

// Where a prepared mapping is, how long, whether it exists, and whether it is the image's.
fn shown<S: Storage>(image: &Qcow2<S>, prepared: &Prepared) -> (u64, u64, bool, bool) {
    (
        prepared.offset(),
        prepared.length(),
        prepared.is_nonblocking(),
        prepared.belongs_to(image),
    )
}

// Prepares a range and discards it.
fn prepare_and_release<S: Storage>(
    image: &mut Qcow2<S>,
    offset: u64,
    length: u64,
) -> Result<(u64, u64, bool, bool), ImageError> {
    let prepared = image.prepare_data_mapping(offset, length, true)?;
    let shown = shown(image, &prepared);
    release(image, prepared);
    Ok(shown)
}

fn prepared_and_released<S: Storage>(
    alloc: Global,
    storage: S,
    writable: bool,
    offset: u64,
    length: u64,
) -> Result<(u64, u64, bool, bool), ImageError> {
    let mut image = opened(alloc, storage, writable)?;
    prepare_and_release(&mut image, offset, length)
}

#[test]
fn a_prepared_range_ends_with_its_cluster(rt: HostRuntime) -> Result<(), Fail> {
    let alloc = rt.alloc();
    assert_eq!(rt;
        prepared_and_released(alloc, fresh(alloc)?, true, 100, 100)?,
        (2660, 412, false, true)
    );
    Ok(())
}

// Where a range lies that is prepared, discarded and flushed.
fn prepare_and_flush<S: Storage>(image: &mut Qcow2<S>, offset: u64) -> Result<u64, ImageError> {
    let (at, _length, _existing, _own) = prepare_and_release(image, offset, 512)?;
    image.flush()?;
    Ok(at)
}

// The same for two ranges, and the storage afterwards.
fn prepare_two<S: Storage>(alloc: Global, storage: S) -> Result<(u64, u64, S), ImageError> {
    let mut image = opened(alloc, storage, true)?;
    let first = prepare_and_flush(&mut image, 0)?;
    let second = prepare_and_flush(&mut image, 512)?;
    Ok((first, second, image.into_storage()))
}

#[test]
fn a_discarded_cluster_is_free_after_a_flush(rt: HostRuntime) -> Result<(), Fail> {
    let alloc = rt.alloc();
    let (first, second, mut storage) = prepare_two(alloc, fresh(alloc)?)?;
    assert_eq!(rt; [first, second], [2560, 2560]);
    assert_eq!(rt; number_at(&mut storage, 1032)?, 0x0001_0000_0000_0000);
    Ok(())
}

#[test]
fn no_bytes_are_prepared_anywhere(rt: HostRuntime) -> Result<(), Fail> {
    let alloc = rt.alloc();
    assert_eq!(rt;
        prepared_and_released(alloc, fresh(alloc)?, false, 1_000_000_000, 0)?,
        (0, 0, true, true)
    );
    Ok(())
}

#[test]
fn an_image_opened_for_reading_is_not_written(rt: HostRuntime) -> Result<(), Fail> {
    let alloc = rt.alloc();
    assert_eq!(rt;
        refusal(prepared_and_released(alloc, fresh(alloc)?, false, 0, 1)),
        1
    );
    Ok(())
}

// Writes four bytes at the start of a mapping that has room for them.
fn write_four<S: Storage>(image: &mut Qcow2<S>, prepared: &Prepared) -> Result<(), ImageError>
    ensures { number_of image.new ≡ number_of image.old }
{
    if prepared.length() < 4 {
        return Err(ImageError::Limit);
    }
    image.write_mapped(prepared, 0, &[0x22; 4])
}

// Commits a mapping of the image.
fn commit_own<S: Storage>(image: &mut Qcow2<S>, prepared: Prepared) -> Result<(), ImageError>
    requires { image_of prepared ≡ number_of image.old }
{
    match image.commit_data_mapping(prepared) {
        Ok(()) => Ok(()),
        Err(CommitRefused::Spent(refusal)) => Err(refusal),
        Err(CommitRefused::Kept(refusal, prepared)) => {
            release(image, prepared);
            Err(refusal)
        }
    }
}

// Writes into a part of a cluster, and reads around it before and after the commit.
fn part_of_a_cluster<S: Storage>(
    alloc: Global,
    image: &mut Qcow2<S>,
) -> Result<(Vec<u8>, Vec<u8>), ImageError> {
    let prepared = image.prepare_data_mapping(100, 100, true)?;
    let written = write_four(image, &prepared);
    let before = read(alloc, image, 98, 8);
    commit_own(image, prepared)?;
    written?;
    let after = read(alloc, image, 98, 8)?;
    Ok((before?, after))
}

// The bytes before and after the commit, and the flushed storage.
fn committed<S: Storage>(alloc: Global, storage: S) -> Result<(Vec<u8>, Vec<u8>, S), ImageError> {
    let mut image = opened(alloc, storage, true)?;
    let (before, after) = part_of_a_cluster(alloc, &mut image)?;
    image.flush()?;
    Ok((before, after, image.into_storage()))
}

#[test]
fn a_part_of_a_cluster_is_zeroed_whole_first(rt: HostRuntime) -> Result<(), Fail> {
    let alloc = rt.alloc();
    let (before, after, storage) = committed(alloc, fresh(alloc)?)?;
    assert_eq!(rt; before.as_slice(), [0; 8].as_slice());
    assert_eq!(rt;
        after.as_slice(),
        [0, 0, 0x22, 0x22, 0x22, 0x22, 0, 0].as_slice()
    );
    assert_eq!(rt;
        storage.writes(alloc)?.as_slice(),
        [1024, 2048, 1536, 2560, 2660, 1024, 2048].as_slice()
    );
    assert_eq!(rt; storage.as_slice().len(), 3072);
    Ok(())
}

// Commits a mapping of one image in another; the refusal's number.
fn commit_elsewhere<S: Storage>(
    first: &mut Qcow2<S>,
    second: &mut Qcow2<S>,
) -> Result<u8, ImageError> {
    let prepared = first.prepare_data_mapping(0, 512, true)?;
    match second.commit_data_mapping(prepared) {
        Ok(()) => Ok(0),
        Err(CommitRefused::Spent(refusal)) => Err(refusal),
        Err(CommitRefused::Kept(refusal, prepared)) => {
            release(first, prepared);
            Ok(refusal.number())
        }
    }
}

// The refusal's number, and what both images say of the range then.
fn foreign_commit<S: Storage>(
    first: &mut Qcow2<S>,
    second: &mut Qcow2<S>,
) -> Result<(u8, MappingKind, MappingKind), ImageError> {
    let number = commit_elsewhere(first, second)?;
    let (mapping, _length) = first.get_mapping(0, 512)?;
    let (other, _length) = second.get_mapping(0, 512)?;
    Ok((number, mapping.kind, other.kind))
}

// The same between image 1 and another one.
fn committed_to<S: Storage>(
    alloc: Global,
    first: &mut Qcow2<S>,
    second: S,
) -> Result<(u8, MappingKind, MappingKind), ImageError> {
    match Qcow2::open_image(alloc, second, true, 2) {
        Ok(mut second) => foreign_commit(first, &mut second),
        Err((_storage, refusal)) => Err(refusal),
    }
}

fn committed_elsewhere<S: Storage>(
    alloc: Global,
    first: S,
    second: S,
) -> Result<(u8, MappingKind, MappingKind), ImageError> {
    let mut first = opened(alloc, first, true)?;
    committed_to(alloc, &mut first, second)
}

#[test]
fn another_images_mapping_comes_back(rt: HostRuntime) -> Result<(), Fail> {
    let alloc = rt.alloc();
    let storage = fresh(alloc)?;
    let zero = MappingKind::Zero { explicit: false };
    assert_eq!(rt;
        committed_elsewhere(alloc, copied(alloc, &storage)?, storage)?,
        (11, zero, zero)
    );
    Ok(())
}

// Prepares a cluster and discards it; where it would be.
fn dropped<S: Storage>(image: &mut Qcow2<S>, offset: u64) -> Result<u64, ImageError> {
    let (at, _length, _existing, _own) = prepare_and_release(image, offset, 512)?;
    Ok(at)
}

// Prepares a cluster and commits it; where it is.
fn entered<S: Storage>(image: &mut Qcow2<S>, offset: u64) -> Result<u64, ImageError> {
    let prepared = image.prepare_data_mapping(offset, 512, true)?;
    let at = prepared.offset();
    commit_own(image, prepared)?;
    Ok(at)
}

fn around_a_commit<S: Storage>(alloc: Global, storage: S) -> Result<[u64; 3], ImageError> {
    let mut image = opened(alloc, storage, true)?;
    let first = dropped(&mut image, 0)?;
    let second = entered(&mut image, 512)?;
    Ok([first, second, dropped(&mut image, 1024)?])
}

#[test]
fn a_discarded_cluster_is_free_after_a_commit(rt: HostRuntime) -> Result<(), Fail> {
    let alloc = rt.alloc();
    assert_eq!(rt; around_a_commit(alloc, fresh(alloc)?)?, [2560, 3072, 2560]);
    Ok(())
}

fn around_a_new_table<S: Storage>(alloc: Global, storage: S) -> Result<[u64; 2], ImageError> {
    let mut image = opened(alloc, storage, true)?;
    let first = dropped(&mut image, 0)?;
    Ok([first, dropped(&mut image, 32768)?])
}

#[test]
fn a_discarded_cluster_is_free_after_a_new_table(rt: HostRuntime) -> Result<(), Fail> {
    let alloc = rt.alloc();
    assert_eq!(rt; around_a_new_table(alloc, fresh(alloc)?)?, [2560, 2560]);
    Ok(())
}

fn around_a_refusal<S: Storage>(alloc: Global, storage: S) -> Result<(u64, u8, u64), ImageError> {
    let mut image = opened(alloc, storage, true)?;
    let first = dropped(&mut image, 512)?;
    let number = refusal(prepare_and_release(&mut image, 100, 100));
    Ok((first, number, dropped(&mut image, 1024)?))
}

#[test]
fn a_discarded_cluster_is_free_after_a_refusal(rt: HostRuntime) -> Result<(), Fail> {
    let alloc = rt.alloc();
    let mut storage = written(alloc, fresh(alloc)?, 0, &[0x11; 512])?;
    // The data are compressed: they can't be copied.
    storage.write(2048, &[0x40])?;
    assert_eq!(rt; around_a_refusal(alloc, storage)?, (3072, 7, 3072));
    Ok(())
}

// What special reads of four bytes return, and what their slice then holds.
fn read_specially<S: Storage>(
    alloc: Global,
    storage: S,
    offset: u64,
) -> Result<(Option<u64>, u8, [u8; 4]), ImageError> {
    let mut image = opened(alloc, storage, false)?;
    let mut bytes = [0x33; 4];
    let plain = image.try_readv_special(&mut bytes, offset)?;
    let refused = refusal(image.readv_special(&mut bytes, offset));
    Ok((plain, refused, bytes))
}

#[test]
fn special_reads_leave_their_slice(rt: HostRuntime) -> Result<(), Fail> {
    let alloc = rt.alloc();
    assert_eq!(rt;
        read_specially(alloc, fresh(alloc)?, 0)?,
        (Some(0), 18, [0x33; 4])
    );
    Ok(())
}

// What is refused beside a prepared range: zeroing in its table, preparing there, and another disk below.
fn refused_beside<S: Storage>(image: &mut Qcow2<S>) -> [u8; 3] {
    let zeroed = refusal(image.ensure_zero_mapping(512, 512));
    let prepared = refusal(prepare_and_release(image, 1024, 512));
    let below = match image.set_backing(None) {
        Ok(()) => 0,
        Err((_disk, refusal)) => refusal.number(),
    };
    [zeroed, prepared, below]
}

// A range is prepared, written and committed, with the refusals beside it; then the range beside it is zeroed.
fn around_a_mapping<S: Storage>(
    alloc: Global,
    storage: S,
) -> Result<([u8; 3], (u64, u64), Vec<u8>), ImageError> {
    let mut image = opened(alloc, storage, true)?;
    let prepared = image.prepare_data_mapping(0, 512, true)?;
    let refused = refused_beside(&mut image);
    let written = image.write_mapped(&prepared, 0, &[0x11; 512]);
    commit_own(&mut image, prepared)?;
    written?;
    let zeroed = image.ensure_zero_mapping(512, 512)?;
    let shown = read(alloc, &mut image, 510, 4)?;
    Ok((refused, zeroed, shown))
}

#[test]
fn a_table_under_a_mapping_stays_as_it_is(rt: HostRuntime) -> Result<(), Fail> {
    let alloc = rt.alloc();
    let (refused, zeroed, shown) = around_a_mapping(alloc, fresh(alloc)?)?;
    assert_eq!(rt; refused, [9, 9, 17]);
    assert_eq!(rt; zeroed, (512, 512));
    assert_eq!(rt; shown.as_slice(), [0x11, 0x11, 0, 0].as_slice());
    Ok(())
}
