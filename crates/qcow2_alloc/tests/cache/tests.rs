//! Which table is written before which, over a storage that keeps its writes.
use super::MetadataCaches;
use crate::{ImageError, ImageStorage};
use image_access::{Storage, TraceStorage};
use qcow2_metadata::{Header, HostCluster, L2Table, RefBlock};
use std::alloc::{AllocError, Global};
use std::test::*;

// What calls the caches is generic, and the tests themselves compare plain values.

// The caches of an image in clusters of 512 bytes, and its storage.
#[derive(Drop)]
struct Caches<S: Storage> {
    header: Header,
    caches: MetadataCaches<S>,
    storage: ImageStorage<S>,
}

// What a call left: whether it was refused, and of some tables whether they are modified, where they are held.
#[derive(Drop)]
struct Left {
    refusal: Option<u64>,
    table: Option<bool>,
    other_table: Option<bool>,
    block: Option<bool>,
}

fn made<S: Storage>(
    alloc: Global,
    storage: S,
    tables: usize,
    blocks: usize,
) -> Result<Caches<S>, AllocError> {
    let header = Header::new(9, 4, None, None, None);
    let caches = MetadataCaches::new(alloc, &header, tables, blocks)?;
    let storage = ImageStorage::new(storage);
    Ok(Caches {
        header,
        caches,
        storage,
    })
}

impl<S: Storage> Caches<S> {
    // Puts in a new L2 table of a cluster.
    fn put_table(
        &mut self,
        alloc: Global,
        cluster: u64,
        is_modified: bool,
    ) -> Result<(), ImageError> {
        let cluster = HostCluster::new(cluster);
        let mut table = L2Table::new_cleared(alloc, &self.header)?;
        if cluster.checked_offset(table.cluster_bits()).is_none() {
            return Err(ImageError::Limit);
        }
        table.set_cluster(cluster);
        if !is_modified {
            table.clear_modified();
        }
        self.caches.l2_insert(&mut self.storage, table)
    }

    // Puts in a new refblock of a cluster.
    fn put_block(&mut self, alloc: Global, cluster: u64) -> Result<(), ImageError> {
        let cluster = HostCluster::new(cluster);
        let mut block = RefBlock::new_cleared(alloc, &self.header)?;
        if cluster.checked_offset(block.cluster_bits()).is_none() {
            return Err(ImageError::Limit);
        }
        block.set_cluster(cluster);
        self.caches.rb_insert(&mut self.storage, block)
    }

    // What is held after an answer: L2 tables 4 and 6, and refblock 2.
    fn left(&self, answer: Result<(), ImageError>) -> Left {
        Left {
            refusal: number(answer),
            table: self.table(4),
            other_table: self.table(6),
            block: self.block(2),
        }
    }

    fn table(&self, cluster: u64) -> Option<bool> {
        let table = self.caches.l2_peek(HostCluster::new(cluster))?;
        Some(table.is_modified())
    }

    fn block(&self, cluster: u64) -> Option<bool> {
        let block = self.caches.rb_peek(HostCluster::new(cluster))?;
        Some(block.is_modified())
    }
}

fn number(answer: Result<(), ImageError>) -> Option<u64> {
    match answer {
        Ok(()) => None,
        Err(refusal) => Some(u64::from(refusal.number())),
    }
}

// A third L2 table is loaded into a cache of two, while L2 tables go after refblocks.
fn third_table<S: Storage>(alloc: Global, storage: S) -> Result<(S, Left), ImageError> {
    let mut it = made(alloc, storage, 2, 2)?;
    it.caches.l2_depends_on_rb(&mut it.storage)?;
    it.put_block(alloc, 2)?;
    it.put_table(alloc, 4, true)?;
    it.put_table(alloc, 6, false)?;
    let answer = it
        .caches
        .l2_get_or_insert(&mut it.storage, HostCluster::new(8));
    let left = it.left(answer);
    Ok((it.storage.into_inner(), left))
}

#[test]
fn an_l2_table_goes_after_the_refblocks(rt: HostRuntime) -> Result<(), Fail> {
    let storage = TraceStorage::new(rt.alloc(), Vec::new(rt.alloc()))?;
    let (storage, left) = third_table(rt.alloc(), storage)?;
    let writes = storage.writes(rt.alloc())?;
    assert_eq!(rt; writes.as_slice(), [1024, 2048].as_slice());
    assert_eq!(rt; left.refusal, None);
    assert_eq!(rt; left.table, None);
    assert_eq!(rt; left.other_table, Some(false));
    assert_eq!(rt; left.block, Some(false));
    Ok(())
}

#[test]
fn nothing_goes_where_a_refblock_fails(rt: HostRuntime) -> Result<(), Fail> {
    let mut storage = TraceStorage::new(rt.alloc(), Vec::new(rt.alloc()))?;
    storage.fail_at(1);
    let (storage, left) = third_table(rt.alloc(), storage)?;
    assert_eq!(rt; storage.changes().len(), 0);
    assert_eq!(rt; left.refusal, Some(15));
    assert_eq!(rt; left.table, Some(true));
    assert_eq!(rt; left.other_table, Some(false));
    assert_eq!(rt; left.block, Some(true));
    Ok(())
}

// A second refblock is loaded into a cache of one, while refblocks go after L2 tables.
fn second_block<S: Storage>(alloc: Global, storage: S) -> Result<(S, Left), ImageError> {
    let mut it = made(alloc, storage, 2, 1)?;
    it.caches.rb_depends_on_l2(&mut it.storage)?;
    it.put_block(alloc, 2)?;
    it.put_table(alloc, 4, true)?;
    let answer = it
        .caches
        .rb_get_or_insert(&mut it.storage, HostCluster::new(9));
    let left = it.left(answer);
    Ok((it.storage.into_inner(), left))
}

#[test]
fn a_refblock_goes_after_the_l2_tables(rt: HostRuntime) -> Result<(), Fail> {
    let storage = TraceStorage::new(rt.alloc(), Vec::new(rt.alloc()))?;
    let (storage, left) = second_block(rt.alloc(), storage)?;
    let writes = storage.writes(rt.alloc())?;
    assert_eq!(rt; writes.as_slice(), [2048, 1024].as_slice());
    assert_eq!(rt; left.refusal, None);
    assert_eq!(rt; left.table, Some(false));
    assert_eq!(rt; left.block, None);
    Ok(())
}

// The direction changes while a refblock is modified.
fn turned<S: Storage>(alloc: Global, storage: S) -> Result<(S, Left), ImageError> {
    let mut it = made(alloc, storage, 2, 2)?;
    it.put_block(alloc, 2)?;
    it.caches.l2_depends_on_rb(&mut it.storage)?;
    let answer = it.caches.rb_depends_on_l2(&mut it.storage);
    let left = it.left(answer);
    Ok((it.storage.into_inner(), left))
}

#[test]
fn a_turn_writes_what_goes_first(rt: HostRuntime) -> Result<(), Fail> {
    let storage = TraceStorage::new(rt.alloc(), Vec::new(rt.alloc()))?;
    let (storage, left) = turned(rt.alloc(), storage)?;
    let writes = storage.writes(rt.alloc())?;
    assert_eq!(rt; writes.as_slice(), [1024].as_slice());
    assert_eq!(rt; left.block, Some(false));
    Ok(())
}

// Two L2 tables are put into a cache of one.
fn two_tables<S: Storage>(alloc: Global, storage: S) -> Result<(S, Left), ImageError> {
    let mut it = made(alloc, storage, 1, 2)?;
    it.caches.l2_depends_on_rb(&mut it.storage)?;
    it.put_block(alloc, 2)?;
    it.put_table(alloc, 0, true)?;
    let answer = it.put_table(alloc, 1, true);
    let left = it.left(answer);
    Ok((it.storage.into_inner(), left))
}

#[test]
fn an_insert_writes_the_refblocks_first(rt: HostRuntime) -> Result<(), Fail> {
    let storage = TraceStorage::new(rt.alloc(), Vec::new(rt.alloc()))?;
    let (storage, left) = two_tables(rt.alloc(), storage)?;
    let writes = storage.writes(rt.alloc())?;
    assert_eq!(rt; writes.as_slice(), [1024, 0].as_slice());
    assert_eq!(rt; left.refusal, None);
    assert_eq!(rt; left.block, Some(false));
    Ok(())
}

// A flush writes refblocks first in the one direction, and L2 tables first in the other.
fn flushed<S: Storage>(alloc: Global, storage: S, tables_last: bool) -> Result<S, ImageError> {
    let mut it = made(alloc, storage, 2, 2)?;
    if tables_last {
        it.caches.l2_depends_on_rb(&mut it.storage)?;
    }
    it.put_block(alloc, 2)?;
    it.put_table(alloc, 4, true)?;
    it.caches.flush_all(&mut it.storage)?;
    Ok(it.storage.into_inner())
}

#[test]
fn a_flush_keeps_the_direction(rt: HostRuntime) -> Result<(), Fail> {
    for (tables_last, want) in [(true, [1024, 2048]), (false, [2048, 1024])] {
        let storage = TraceStorage::new(rt.alloc(), Vec::new(rt.alloc()))?;
        let storage = flushed(rt.alloc(), storage, tables_last)?;
        let writes = storage.writes(rt.alloc())?;
        assert_eq!(rt; writes.as_slice(), want.as_slice());
    }
    Ok(())
}

// Tables are dropped unwritten, but for a pinned one.
fn dropped<S: Storage>(alloc: Global, storage: S) -> Result<(S, Left, bool), ImageError> {
    let mut it = made(alloc, storage, 2, 2)?;
    it.put_table(alloc, 4, true)?;
    it.put_table(alloc, 6, true)?;
    it.put_block(alloc, 2)?;
    it.put_block(alloc, 3)?;
    let pinned = it.caches.l2_pin(HostCluster::new(6));
    let removed = it.caches.rb_remove(HostCluster::new(3));
    let again = it.caches.rb_remove(HostCluster::new(3));
    it.caches.invalidate_rb()?;
    let answer = it.caches.invalidate_l2();
    let left = it.left(answer);
    let storage = it.storage.into_inner();
    Ok((storage, left, pinned && removed && !again))
}

#[test]
fn an_invalidation_drops_tables_unwritten(rt: HostRuntime) -> Result<(), Fail> {
    let storage = TraceStorage::new(rt.alloc(), Vec::new(rt.alloc()))?;
    let (storage, left, are_answered) = dropped(rt.alloc(), storage)?;
    assert_eq!(rt; storage.changes().len(), 0);
    assert!(rt; are_answered);
    assert_eq!(rt; left.refusal, Some(21));
    assert_eq!(rt; left.table, None);
    assert_eq!(rt; left.other_table, Some(true));
    assert_eq!(rt; left.block, None);
    Ok(())
}

// The clusters that an entry names no longer, as it is mapped, zeroed and discarded.
fn dropped_clusters<S: Storage>(alloc: Global, storage: S) -> Result<[Option<u64>; 4], ImageError> {
    let mut it = made(alloc, storage, 2, 2)?;
    it.put_table(alloc, 4, false)?;
    let table = HostCluster::new(4);
    let mapped = it.caches.l2_map_cluster(table, 3, HostCluster::new(7));
    let kept = it.caches.l2_zero_cluster(table, 3, true);
    let zeroed = it.caches.l2_zero_cluster(table, 3, false);
    let discarded = it.caches.l2_discard_cluster(table, 3);
    Ok([mapped, kept, zeroed, discarded].map(|run| run.map(|(first, _)| first.value())))
}

#[test]
fn an_entry_is_changed_in_its_table(rt: HostRuntime) -> Result<(), Fail> {
    let storage = TraceStorage::new(rt.alloc(), Vec::new(rt.alloc()))?;
    let runs = dropped_clusters(rt.alloc(), storage)?;
    assert_eq!(rt; runs.as_slice(), [None, None, Some(7), None].as_slice());
    Ok(())
}
