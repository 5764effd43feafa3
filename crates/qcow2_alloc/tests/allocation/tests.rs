//! Clusters that are asked for, over an image of a header, a reftable and a refblock.
use super::{Allocator, MAX_HOST_OFFSET};
use crate::free_runs::MOST_KNOWN;
use crate::test_files::{file_of, file_with};
use crate::{ClustersToFreeEntry, ImageError, ImageFile};
use image_access::{Storage, TraceStorage};
use number_runs::NumberRuns;
use qcow2_metadata::{ClusterCount, Header, HostCluster, HostOffset, L1Table};
use std::alloc::{AllocError, Global};
use std::test::*;

// Clusters of 512 bytes and counts of 16 bits: the reftable lies in cluster 1, and names the refblock in cluster 2.
fn three_clusters(alloc: Global) -> Result<TraceStorage, AllocError> {
    let mut bytes = vec![in alloc; 0u8; 1536]?;
    bytes[518] = 4;
    bytes[1025] = 1;
    bytes[1027] = 1;
    bytes[1029] = 1;
    TraceStorage::new(alloc, bytes)
}

// The first cluster that is allocated, and how many are, if one is requested twice.
fn asked_twice<S: Storage>(
    alloc: Global,
    storage: S,
    cluster: u64,
) -> Result<[Option<(u64, u64)>; 2], ImageError> {
    let mut file = file_of(alloc, storage, Header::new(9, 4, None, None, None))?;
    let mut allocator = Allocator::new(&mut file)?;
    let first = asked(&mut allocator, &mut file, cluster)?;
    let second = asked(&mut allocator, &mut file, cluster)?;
    Ok([first, second])
}

fn asked<S: Storage>(
    allocator: &mut Allocator,
    file: &mut ImageFile<S>,
    cluster: u64,
) -> Result<Option<(u64, u64)>, ImageError> {
    match allocator.allocate_data_at(file, HostCluster::new(cluster))? {
        Some(run) => {
            let answer = (run.cluster().value(), run.count().value());
            run.make_persistent();
            Ok(Some(answer))
        }
        None => Ok(None),
    }
}

#[test]
fn a_free_cluster_is_taken_once(rt: HostRuntime) -> Result<(), Fail> {
    let storage = three_clusters(rt.alloc())?;
    let answers = asked_twice(rt.alloc(), storage, 7)?;
    assert_eq!(rt; answers, [Some((7, 1)), None]);
    Ok(())
}

#[test]
fn a_used_cluster_is_not_taken(rt: HostRuntime) -> Result<(), Fail> {
    let storage = three_clusters(rt.alloc())?;
    let answers = asked_twice(rt.alloc(), storage, 2)?;
    assert_eq!(rt; answers, [None, None]);
    Ok(())
}

#[test]
fn none_is_taken_past_the_greatest_offset(rt: HostRuntime) -> Result<(), Fail> {
    let storage = three_clusters(rt.alloc())?;
    let answers = asked_twice(rt.alloc(), storage, MAX_HOST_OFFSET / 512 + 1)?;
    assert_eq!(rt; answers, [None, None]);
    Ok(())
}

// Clusters of 512 bytes and counts of 64 bits: a refblock counts 64 clusters, so a reftable of the greatest length counts 67,108,864.
fn three_wide_counts(alloc: Global) -> Result<TraceStorage, AllocError> {
    let mut bytes = vec![in alloc; 0u8; 1536]?;
    bytes[518] = 4;
    bytes[1031] = 1;
    bytes[1039] = 1;
    bytes[1047] = 1;
    TraceStorage::new(alloc, bytes)
}

#[test]
fn none_is_taken_behind_those_that_a_reftable_can_count(rt: HostRuntime) -> Result<(), Fail> {
    let alloc = rt.alloc();
    let storage = three_wide_counts(alloc)?;
    let mut file = file_of(alloc, storage, Header::new(9, 6, None, None, None))?;
    let mut allocator = Allocator::new(&mut file)?;
    assert_eq!(rt; asked(&mut allocator, &mut file, 1 << 26)?, None);
    assert_eq!(rt; asked(&mut allocator, &mut file, 3)?, Some((3, 1)));
    let last = asked(&mut allocator, &mut file, (1 << 26) - 1);
    assert!(rt; matches!(last, Err(ImageError::Limit)));
    Ok(())
}

// The cluster that is allocated for data, and the one that is allocated after the refblocks were dropped.
fn taken_and_forgotten<S: Storage>(alloc: Global, storage: S) -> Result<[u64; 2], ImageError> {
    let mut file = file_of(alloc, storage, Header::new(9, 4, None, None, None))?;
    let mut allocator = Allocator::new(&mut file)?;
    let first = lowest(&mut allocator, &mut file)?;
    allocator.invalidate_rb_cache(&mut file)?;
    let second = lowest(&mut allocator, &mut file)?;
    Ok([first, second])
}

fn lowest<S: Storage>(
    allocator: &mut Allocator,
    file: &mut ImageFile<S>,
) -> Result<u64, ImageError> {
    let run = allocator.allocate_data(file, ClusterCount::new(1))?;
    let first = run.cluster().value();
    run.make_persistent();
    Ok(first)
}

#[test]
fn counts_that_were_not_written_are_forgotten(rt: HostRuntime) -> Result<(), Fail> {
    let storage = three_clusters(rt.alloc())?;
    assert_eq!(rt; taken_and_forgotten(rt.alloc(), storage)?, [3, 3]);
    Ok(())
}

// Whether the tables in clusters 1 to 3 are all spared, and the cluster that is then allocated for data, if all refcounts are 0.
fn lowest_behind_tables<S: Storage>(alloc: Global, storage: S) -> Result<(bool, u64), ImageError> {
    let mut file = file_of(alloc, storage, Header::new(9, 4, None, None, None))?;
    file.header.set_reftable(HostOffset::new(512), 1)?;
    let mut l1_table = L1Table::new_cleared(alloc, &file.header, 1)?;
    l1_table.enter_l2_table(0, HostCluster::new(3));
    let mut allocator = Allocator::new(&mut file)?;
    let all = allocator.spare_named(&file, &l1_table);
    Ok((all, lowest(&mut allocator, &mut file)?))
}

#[test]
fn tables_are_spared_whatever_their_counts_are(rt: HostRuntime) -> Result<(), Fail> {
    let alloc = rt.alloc();
    let mut bytes = vec![in alloc; 0u8; 1536]?;
    bytes[518] = 4;
    let storage = TraceStorage::new(alloc, bytes)?;
    assert_eq!(rt; lowest_behind_tables(alloc, storage)?, (true, 4));
    Ok(())
}

// 200 refblocks of 64 refcounts, in clusters 5 to 204 after their reftable. All refcounts are 1, except one of 0 in each of the last three.
fn nearly_full(alloc: Global) -> Result<TraceStorage, AllocError> {
    let mut bytes = vec![in alloc; 0u8; 205 * 512]?;
    for range in 0..200 {
        let offset = (5 + range as u64) * 512;
        bytes[512 + 8 * range..520 + 8 * range].copy_from_slice(&offset.to_be_bytes());
        for index in 0..64 {
            let is_free = range >= 197 && index == range - 190;
            bytes[(5 + range) * 512 + 8 * index + 7] = u8::from(!is_free);
        }
    }
    TraceStorage::new(alloc, bytes)
}

// The first clusters that three searches for n of them find.
fn searched<S: Storage>(
    allocator: &mut Allocator,
    file: &mut ImageFile<S>,
    n: u64,
) -> Result<[u64; 3], ImageError> {
    let mut found = [0; 3];
    for place in &mut found {
        let run = allocator.allocate_data(file, ClusterCount::new(n))?;
        *place = run.cluster().value();
        run.make_persistent();
    }
    Ok(found)
}

// What three searches find in a nearly full image where so many runs are kept at most; where it goes on, three low clusters
// are freed, and three more searches find those. How often the storage was read comes last.
fn searched_in(
    alloc: Global,
    most: usize,
    n: u64,
    steps: usize,
) -> Result<([u64; 3], u64), ImageError> {
    let storage = nearly_full(alloc)?;
    let mut header = Header::new(9, 6, None, None, None);
    header.set_reftable(HostOffset::new(512), 4)?;
    let mut file = file_with(alloc, storage, header, 8)?;
    let mut allocator = Allocator::new(&mut file)?;
    allocator.read = NumberRuns::new(alloc, most);
    allocator.free = NumberRuns::new(alloc, most);
    let mut found = [0; 3];
    if steps > 0 {
        found = searched(&mut allocator, &mut file, n)?;
    }
    if steps > 1 {
        for cluster in [1000, 2000, 3000] {
            let run = ClustersToFreeEntry::data(HostCluster::new(cluster), ClusterCount::new(1));
            file.free_list.push(alloc, run)?;
        }
        allocator.free(&mut file)?;
    }
    if steps > 2 {
        found = searched(&mut allocator, &mut file, n)?;
    }
    Ok((found, file.into_storage().reads()))
}

#[test]
fn searches_read_no_range_twice(rt: HostRuntime) -> Result<(), Fail> {
    let alloc = rt.alloc();
    // The last two need a new refblock, which is read once as well.
    for (n, ranges, first, second) in [
        (1, 200, [12615, 12680, 12745], [1000, 2000, 3000]),
        (2, 201, [12800, 12802, 12804], [12806, 12808, 12810]),
        (5, 201, [12800, 12805, 12810], [12815, 12820, 12825]),
    ] {
        let (_, opened) = searched_in(alloc, MOST_KNOWN, n, 0)?;
        let (found, searched) = searched_in(alloc, MOST_KNOWN, n, 1)?;
        let (_, freed) = searched_in(alloc, MOST_KNOWN, n, 2)?;
        let (again, all) = searched_in(alloc, MOST_KNOWN, n, 3)?;
        assert_eq!(rt; found, first);
        assert_eq!(rt; searched - opened, ranges);
        assert_eq!(rt; again, second);
        assert_eq!(rt; all - freed, 0);
    }
    Ok(())
}

#[test]
fn without_room_for_runs_searches_find_the_same(rt: HostRuntime) -> Result<(), Fail> {
    let alloc = rt.alloc();
    for (n, first, second) in [
        (1, [12615, 12680, 12745], [1000, 2000, 3000]),
        (2, [12800, 12802, 12804], [12806, 12808, 12810]),
    ] {
        for most in 0..6 {
            let (found, _) = searched_in(alloc, most, n, 1)?;
            let (again, _) = searched_in(alloc, most, n, 3)?;
            assert_eq!(rt; found, first);
            assert_eq!(rt; again, second);
        }
    }
    Ok(())
}
