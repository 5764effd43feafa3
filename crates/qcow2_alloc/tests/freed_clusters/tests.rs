//! What is leaked where clusters are listed that aren't counted.
use crate::test_files::file_of;
use crate::{Allocator, ClustersToFreeEntry, ImageError, ImageFile};
use image_access::{Storage, TraceStorage};
use qcow2_metadata::{ClusterCount, Header, HostCluster, HostOffset};
use std::alloc::Global;
use std::test::*;

// A file in clusters of 512 bytes, whose refblock counts cluster 3 once and no other one.
fn made<S: Storage>(alloc: Global, mut storage: S) -> Result<ImageFile<S>, ImageError> {
    let mut header = Header::new(9, 4, None, None, None);
    header.set_reftable(HostOffset::new(512), 1)?;
    storage.write(512, &1024u64.to_be_bytes())?;
    storage.write(1030, &1u16.to_be_bytes())?;
    Ok(file_of(alloc, storage, header)?)
}

// How many clusters are leaked where a run is freed.
fn leaked<S: Storage>(
    alloc: Global,
    storage: S,
    first: u64,
    count: u64,
) -> Result<u64, ImageError> {
    let mut file = made(alloc, storage)?;
    let mut allocator = Allocator::new(&mut file)?;
    let run = ClustersToFreeEntry::data(HostCluster::new(first), ClusterCount::new(count));
    file.free_list.push(alloc, run)?;
    allocator.free(&mut file)?;
    Ok(allocator.leaked_clusters())
}

#[test]
fn clusters_that_are_not_counted_are_leaked(rt: HostRuntime) -> Result<(), Fail> {
    let alloc = rt.alloc();
    for (first, count, leaks) in [(3, 1, 0), (3, 3, 2), (4, 1, 1), (1_000_000, 2, 2)] {
        let storage = TraceStorage::new(alloc, Vec::new(alloc))?;
        assert_eq!(rt; leaked(alloc, storage, first, count)?, leaks);
    }
    Ok(())
}
