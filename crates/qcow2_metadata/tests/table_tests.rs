//! Worked values of tables, by the format's own words, and a storage that fails.

use crate::{
    ClusterCount, GuestCluster, GuestOffset, Header, HostCluster, HostOffset, L2Mapping, L2Table,
    MetadataError, RefBlock,
};
use image_access::{MemStorage, StorageError, TraceStorage};
use std::alloc::{AllocError, Global};
use std::process::Abort;
use std::test::Fail;

/// The header of an empty image of version 3, and the end of its extensions.
const HEADER: [u8; 112] = [
    0x51, 0x46, 0x49, 0xfb, 0, 0, 0, 3, // magic, version
    0, 0, 0, 0, 0, 0, 0, 0, 0, 0, 0, 0, 0, 0, 0, 9, // no backing name, clusters of 512 bytes
    0, 0, 0, 0, 0, 0, 0, 0, 0, 0, 0, 0, 0, 0, 0, 0, // size, crypt method, L1 entries
    0, 0, 0, 0, 0, 0, 0, 0, 0, 0, 0, 0, 0, 0, 2, 0, // L1 offset, reftable offset
    0, 0, 0, 1, 0, 0, 0, 0, 0, 0, 0, 0, 0, 0, 0, 0, // reftable clusters, snapshots
    0, 0, 0, 0, 0, 0, 0, 0, 0, 0, 0, 0, 0, 0, 0, 0, // incompatible and compatible bits
    0, 0, 0, 0, 0, 0, 0, 0, 0, 0, 0, 4, 0, 0, 0, 104, // autoclear bits, counts of 16 bits, length
    0, 0, 0, 0, 0, 0, 0, 0, // the end of the extensions
];

/// An image with this in its header, and these bytes from the second KiB on.
fn image(
    alloc: Global,
    cluster_bits: u8,
    order: u8,
    data_file: bool,
    table: &[u8],
) -> Result<Vec<u8>, AllocError> {
    let mut header = HEADER;
    header[23] = cluster_bits;
    header[99] = order;
    header[79] = if data_file { 4 } else { 0 };
    let mut bytes = header.to_vec(alloc)?;
    bytes.resize(1024, 0)?;
    bytes.extend_from_slice(table)?;
    bytes.resize(2048, 0)?;
    Ok(bytes)
}

fn entries(alloc: Global, entries: &[u64]) -> Result<Vec<u8>, AllocError> {
    let mut bytes = Vec::new(alloc);
    for entry in entries {
        bytes.extend_from_slice(&entry.to_be_bytes())?;
    }
    Ok(bytes)
}

#[test]
fn counts_of_each_width(rt: HostRuntime) -> Result<(), Fail> {
    let table = [0x1b, 0xe4, 0x01, 0x02, 0x03, 0x04, 0x05, 0x06];
    let want: [(u8, [u64; 4]); 7] = [
        (0, [1, 1, 0, 1]),
        (1, [3, 2, 1, 0]),
        (2, [0xb, 0x1, 0x4, 0xe]),
        (3, [0x1b, 0xe4, 0x01, 0x02]),
        (4, [0x1be4, 0x0102, 0x0304, 0x0506]),
        (5, [0x1be4_0102, 0x0304_0506, 0, 0]),
        (6, [0x1be4_0102_0304_0506, 0, 0, 0]),
    ];
    for (order, counts) in want {
        let mut storage = MemStorage::new(image(rt.alloc(), 9, order, false, &table)?);
        let header = Header::load(rt.alloc(), &mut storage, false)?;
        assert_eq!(rt; header.cluster_bits(), 9);
        let block = RefBlock::load(rt.alloc(), &mut storage, &header, HostCluster::new(2))?;
        for (i, count) in counts.iter().enumerate() {
            assert!(rt; i < header.rb_entries());
            assert_eq!(rt; block.get(i), *count, "count {i} of order {order}");
            assert_eq!(rt; block.is_zero(i), *count == 0);
        }
    }
    Ok(())
}

#[test]
fn counts_rise_and_fall_within_their_width(rt: HostRuntime) -> Result<(), Fail> {
    // The greatest refcount of each width comes first, and 0 after it; then the first bytes after each refcount went the other way.
    let rows: [(u8, [u8; 8], [u8; 16]); 7] = [
        (
            0,
            [1, 0, 0, 0, 0, 0, 0, 0],
            [2, 0, 0, 0, 0, 0, 0, 0, 0, 0, 0, 0, 0, 0, 0, 0],
        ),
        (
            1,
            [3, 0, 0, 0, 0, 0, 0, 0],
            [6, 0, 0, 0, 0, 0, 0, 0, 0, 0, 0, 0, 0, 0, 0, 0],
        ),
        (
            2,
            [15, 0, 0, 0, 0, 0, 0, 0],
            [30, 0, 0, 0, 0, 0, 0, 0, 0, 0, 0, 0, 0, 0, 0, 0],
        ),
        (
            3,
            [255, 0, 0, 0, 0, 0, 0, 0],
            [254, 1, 0, 0, 0, 0, 0, 0, 0, 0, 0, 0, 0, 0, 0, 0],
        ),
        (
            4,
            [255, 255, 0, 0, 0, 0, 0, 0],
            [255, 254, 0, 1, 0, 0, 0, 0, 0, 0, 0, 0, 0, 0, 0, 0],
        ),
        (
            5,
            [255, 255, 255, 255, 0, 0, 0, 0],
            [255, 255, 255, 254, 0, 0, 0, 1, 0, 0, 0, 0, 0, 0, 0, 0],
        ),
        (
            6,
            [255; 8],
            [
                255, 255, 255, 255, 255, 255, 255, 254, 0, 0, 0, 0, 0, 0, 0, 1,
            ],
        ),
    ];
    for (order, before, after) in rows {
        let mut storage = MemStorage::new(image(rt.alloc(), 9, order, false, &before)?);
        let header = Header::load(rt.alloc(), &mut storage, false)?;
        assert_eq!(rt; header.cluster_bits(), 9);
        let cluster = HostCluster::new(2);
        let mut block = RefBlock::load(rt.alloc(), &mut storage, &header, cluster)?;
        assert!(rt; 1 < header.rb_entries());
        assert!(rt; !block.increment(0) && !block.decrement(1));
        assert!(rt; !block.is_modified());
        block.write_if_modified(&mut storage, cluster)?;
        assert!(rt; block.decrement(0) && block.increment(1));
        assert!(rt; block.is_modified());
        block.write_if_modified(&mut storage, cluster)?;
        assert!(rt; !block.is_modified());
        let bytes = storage.as_slice();
        assert_eq!(rt; bytes.len(), 2048);
        assert_eq!(rt; &bytes[1024..1040], after.as_slice(), "order {order}");
    }
    Ok(())
}

#[test]
fn a_new_refblock_counts_nothing(rt: HostRuntime) -> Result<(), Fail> {
    let mut storage = MemStorage::new(image(rt.alloc(), 9, 4, false, &[255; 512])?);
    let header = Header::load(rt.alloc(), &mut storage, false)?;
    assert_eq!(rt; header.cluster_bits(), 9);
    let mut block = RefBlock::new_cleared(rt.alloc(), &header)?;
    assert!(rt; block.is_modified() && block.get_cluster().is_none());
    block.set_cluster(HostCluster::new(2));
    assert_eq!(rt; block.get_cluster(), Some(HostCluster::new(2)));
    block.write(&mut storage)?;
    assert!(rt; block.is_modified());
    block.clear_modified();
    assert!(rt; !block.is_modified());
    block.unset_cluster();
    assert!(rt; block.get_cluster().is_none());
    let bytes = storage.as_slice();
    assert_eq!(rt; bytes.len(), 2048);
    assert!(rt; bytes[1024..1536].iter().all(|b| *b == 0) && bytes[1536] == 0);
    Ok(())
}

fn data(host: u64, copied: bool) -> L2Mapping {
    let host = HostOffset::new(host);
    L2Mapping::Data { host, copied }
}

fn kept(host: u64, copied: bool) -> L2Mapping {
    let kept = Some((HostOffset::new(host), copied));
    L2Mapping::Zero { kept }
}

fn compressed(host: u64, sectors: u64) -> L2Mapping {
    let host = HostOffset::new(host);
    L2Mapping::Compressed { host, sectors }
}

/// A table of these entries says this of the guest clusters under the second L1 entry.
fn assert_mappings(
    rt: &impl Abort,
    alloc: Global,
    data_file: bool,
    rows: &[(u64, L2Mapping)],
) -> Result<(), Fail> {
    let mut table = Vec::new(alloc);
    for (entry, _) in rows {
        table.extend_from_slice(&entry.to_be_bytes())?;
    }
    let mut storage = MemStorage::new(image(alloc, 9, 4, data_file, &table)?);
    let header = Header::load(alloc, &mut storage, false)?;
    assert_eq!(rt; header.cluster_bits(), 9);
    let table = L2Table::load(alloc, &mut storage, &header, HostCluster::new(2))?;
    for (i, (entry, want)) in rows.iter().enumerate() {
        let guest = GuestCluster::new(64 + i as u64);
        assert_eq!(rt; table.get_mapping(guest)?, *want, "{entry:x}");
    }
    Ok(())
}

#[test]
fn entries_of_each_kind(rt: HostRuntime) -> Result<(), Fail> {
    let rows = [
        (0x8000_0000_0000_0a00, data(2560, true)),
        (0x0000_0000_0000_0a00, data(2560, false)),
        (0xbf00_0000_0000_0bfe, data(2560, true)),
        (0x0000_0000_0000_0001, L2Mapping::Zero { kept: None }),
        (0x8000_0000_0000_0a01, kept(2560, true)),
        (0x0000_0000_0000_0a01, kept(2560, false)),
        (0x4000_0000_0000_0a80, compressed(2688, 1)),
        (0xe000_0000_0000_0a80, compressed(2688, 2)),
        (0x8000_0000_0000_0000, L2Mapping::Uncovered),
        (0x0000_0000_0000_0000, L2Mapping::Uncovered),
    ];
    assert_mappings(&rt, rt.alloc(), false, &rows)
}

#[test]
fn entries_of_an_external_data_file(rt: HostRuntime) -> Result<(), Fail> {
    let rows = [
        (0x8000_0000_0000_0000, data(0, true)),
        (0x8000_0000_0000_0001, kept(0, true)),
        (0x0000_0000_0000_0001, L2Mapping::Zero { kept: None }),
        (0x0000_0000_0000_0000, L2Mapping::Uncovered),
    ];
    assert_mappings(&rt, rt.alloc(), true, &rows)
}

#[test]
fn data_off_a_cluster_is_refused(rt: HostRuntime) -> Result<(), Fail> {
    let table = entries(
        rt.alloc(),
        &[
            0x8000_0000_0000_0a00,
            0x8000_0000_0000_0a01,
            0x4000_0000_0000_0a00,
            0x8000_0000_0000_0800,
        ],
    )?;
    let mut storage = MemStorage::new(image(rt.alloc(), 10, 4, false, &table)?);
    let header = Header::load(rt.alloc(), &mut storage, false)?;
    assert_eq!(rt; header.cluster_bits(), 10);
    let table = L2Table::load(rt.alloc(), &mut storage, &header, HostCluster::new(1))?;
    assert_eq!(rt;
        table.get_mapping(GuestCluster::new(0)),
        Err(MetadataError::Unaligned)
    );
    assert_eq!(rt;
        table.get_mapping(GuestCluster::new(129)),
        Err(MetadataError::Unaligned)
    );
    assert!(rt; table.get_mapping(GuestCluster::new(2)).is_ok());
    assert!(rt; table.get_mapping(GuestCluster::new(3)).is_ok());
    Ok(())
}

#[test]
fn what_a_change_of_an_entry_drops(rt: HostRuntime) -> Result<(), Fail> {
    let table = entries(
        rt.alloc(),
        &[
            0,
            0x8000_0000_0000_0a00,
            0x8000_0000_0000_0a00,
            0x8000_0000_0000_0a00,
            0x8000_0000_0000_0c01,
            0x6000_0000_0000_0a80,
            0x0000_0000_0000_0a00,
        ],
    )?;
    let mut storage = MemStorage::new(image(rt.alloc(), 9, 4, false, &table)?);
    let header = Header::load(rt.alloc(), &mut storage, false)?;
    assert_eq!(rt; header.cluster_bits(), 9);
    let cluster = HostCluster::new(2);
    let mut table = L2Table::load(rt.alloc(), &mut storage, &header, cluster)?;
    assert_eq!(rt; table.cluster_bits(), 9);
    let one = |index: u64| Some((HostCluster::new(index), ClusterCount::new(1)));
    assert!(rt; table.map_cluster(0, HostCluster::new(7)).is_none());
    assert_eq!(rt; table.map_cluster(1, HostCluster::new(7)), one(5));
    assert!(rt; table.zero_cluster(2, true).is_none());
    assert_eq!(rt; table.zero_cluster(3, false), one(5));
    assert!(rt; table.map_cluster(4, HostCluster::new(6)).is_none());
    assert_eq!(rt;
        table.discard_cluster(5),
        Some((HostCluster::new(5), ClusterCount::new(2)))
    );
    assert_eq!(rt; table.zero_cluster(6, true), one(5));
    table.write_if_modified(&mut storage, cluster)?;
    let want = entries(
        rt.alloc(),
        &[
            0x8000_0000_0000_0e00,
            0x8000_0000_0000_0e00,
            0x8000_0000_0000_0a01,
            1,
            0x8000_0000_0000_0c00,
            0,
            1,
        ],
    )?;
    let bytes = storage.as_slice();
    assert_eq!(rt; bytes.len(), 2048);
    assert_eq!(rt; &bytes[1024..1080], want.as_slice());
    Ok(())
}

#[test]
fn a_table_stays_modified_where_its_write_failed(rt: HostRuntime) -> Result<(), Fail> {
    let mut storage = TraceStorage::new(rt.alloc(), image(rt.alloc(), 9, 4, false, &[])?)?;
    let header = Header::load(rt.alloc(), &mut storage, false)?;
    assert_eq!(rt; header.cluster_bits(), 9);
    let cluster = HostCluster::new(2);
    let mut table = L2Table::new_cleared(rt.alloc(), &header)?;
    table.set_cluster(cluster);
    storage.fail_at(1);
    assert_eq!(rt;
        table.write_if_modified(&mut storage, cluster),
        Err(StorageError::Fault)
    );
    assert!(rt; table.is_modified());
    assert_eq!(rt; table.write_if_modified(&mut storage, cluster), Ok(()));
    assert!(rt; !table.is_modified());
    assert_eq!(rt; table.write_if_modified(&mut storage, cluster), Ok(()));
    assert_eq!(rt; storage.changes().len(), 1);
    table.write(&mut storage)?;
    let copy = table.clone()?;
    assert!(rt; copy.is_modified() && copy.get_cluster().is_none());
    table.unset_cluster();
    table.clear_modified();
    assert!(rt; table.get_cluster().is_none());
    storage.fail_at(1);
    let loaded = L2Table::load(rt.alloc(), &mut storage, &header, cluster);
    assert_eq!(rt;
        loaded.err(),
        Some(MetadataError::Storage(StorageError::Fault))
    );
    storage.fail_at(1);
    let loaded = RefBlock::load(rt.alloc(), &mut storage, &header, cluster);
    assert_eq!(rt;
        loaded.err(),
        Some(MetadataError::Storage(StorageError::Fault))
    );
    Ok(())
}

#[test]
fn numbers_by_hand(rt: HostRuntime) {
    // Clusters of 64 KiB: 8192 entries a table; refblocks of 32768 counts.
    let guest = GuestOffset::new(0x2_2345_6789);
    assert_eq!(rt; guest.cluster(16), GuestCluster::new(0x2_2345));
    assert_eq!(rt; guest.in_cluster_offset(16), 0x6789);
    assert_eq!(rt; guest.remaining_in_cluster(16), 0x9877);
    assert_eq!(rt; (guest.l1_index(16), guest.l2_index(16)), (17, 0x345));
    assert!(rt; guest.checked_cluster(16).is_none());
    let cluster = guest.cluster(16);
    assert_eq!(rt; cluster.offset(16), GuestOffset::new(0x2_2345_0000));
    assert_eq!(rt; cluster.offset(16).checked_cluster(16), Some(cluster));
    assert_eq!(rt; (cluster.l1_index(16), cluster.l2_index(16)), (17, 0x345));
    assert_eq!(rt; cluster.next_in_l2(16), Some(GuestCluster::new(0x2_2346)));
    assert_eq!(rt; GuestCluster::new(0x2_3fff).next_in_l2(16), None);
    assert_eq!(rt; cluster.first_in_next_l2(16), GuestCluster::new(0x2_4000));
    assert_eq!(rt; cluster + ClusterCount::new(2), GuestCluster::new(0x2_2347));
    let host = HostOffset::new(0x5_0000);
    assert_eq!(rt; host.checked_cluster(16), Some(HostCluster::new(5)));
    assert_eq!(rt; HostOffset::new(0x5_0001).checked_cluster(16), None);
    assert_eq!(rt; HostOffset::new(0x5_0001).in_cluster_offset(16), 1);
    assert_eq!(rt; host.cluster(16).offset(16), host);
    assert_eq!(rt;
        host.cluster(16).relative_offset(guest, 16),
        HostOffset::new(0x5_6789)
    );
    let host = HostCluster::from_ref_indices(3, 7, 15);
    assert_eq!(rt; host, HostCluster::new(98311));
    assert_eq!(rt; (host.rt_index(15), host.rb_index(15)), (3, 7));
    assert_eq!(rt; host.checked_offset(16), Some(HostOffset::new(6442909696)));
    assert_eq!(rt; HostCluster::new(1 << 48).checked_offset(16), None);
    assert_eq!(rt;
        host.checked_add(ClusterCount::new(1)),
        Some(host + ClusterCount::new(1))
    );
    assert_eq!(rt; host.checked_add(ClusterCount::new(u64::MAX)), None);
    assert_eq!(rt;
        HostCluster::new(9) - HostCluster::new(4),
        ClusterCount::new(5)
    );
    assert_eq!(rt;
        ClusterCount::from_byte_size(65537, 16),
        ClusterCount::new(2)
    );
    assert_eq!(rt; ClusterCount::checked_from_byte_size(65537, 16), None);
    assert_eq!(rt;
        ClusterCount::checked_from_byte_size(131072, 16),
        Some(ClusterCount::new(2))
    );
    assert_eq!(rt; ClusterCount::new(2).byte_size(16), 131072);
    assert_eq!(rt;
        ClusterCount::new(2) + ClusterCount::new(3) - ClusterCount::new(1),
        ClusterCount::new(4)
    );
}
