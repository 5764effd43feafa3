//! Reports of images that were written by hand, by the format's own words.

use crate::{Breach, Kind, Leak, Report, check};
use image_access::MemStorage;
use qcow2_metadata::MetadataError;
use std::alloc::{AllocError, Global};
use std::process::Abort;
use std::test::Fail;

/// The header of an image of version 3 with clusters of 512 bytes and one L1 entry, and the end of its extensions.
const HEADER: [u8; 112] = [
    0x51, 0x46, 0x49, 0xfb, 0, 0, 0, 3, // magic, version
    0, 0, 0, 0, 0, 0, 0, 0, 0, 0, 0, 0, 0, 0, 0, 9, // no backing name, clusters of 512 bytes
    0, 0, 0, 0, 0, 0, 0x80, 0, 0, 0, 0, 0, 0, 0, 0, 1, // size, crypt method, L1 entries
    0, 0, 0, 0, 0, 0, 6, 0, 0, 0, 0, 0, 0, 0, 2, 0, // L1 offset, reftable offset
    0, 0, 0, 1, 0, 0, 0, 0, 0, 0, 0, 0, 0, 0, 0, 0, // reftable clusters, snapshots
    0, 0, 0, 0, 0, 0, 0, 0, 0, 0, 0, 0, 0, 0, 0, 0, // incompatible and compatible bits
    0, 0, 0, 0, 0, 0, 0, 0, 0, 0, 0, 4, 0, 0, 0, 104, // autoclear bits, counts of 16 bits, length
    0, 0, 0, 0, 0, 0, 0, 0, // the end of the extensions
];

/// One written cluster of data: the reftable is cluster 1, its refblock 2, the L1 table 3, the L2 table 4, the data 5.
fn image(alloc: Global) -> Result<Vec<u8>, AllocError> {
    let mut bytes = HEADER.to_vec(alloc)?;
    bytes.resize(512, 0)?;
    bytes.extend_from_slice(&1024u64.to_be_bytes())?;
    bytes.resize(1024, 0)?;
    for _ in 0..6 {
        bytes.extend_from_slice(&1u16.to_be_bytes())?;
    }
    bytes.resize(1536, 0)?;
    bytes.extend_from_slice(&(2048u64 | 1 << 63).to_be_bytes())?;
    bytes.resize(2048, 0)?;
    bytes.extend_from_slice(&(2560u64 | 1 << 63).to_be_bytes())?;
    bytes.resize(3072, 0)?;
    Ok(bytes)
}

/// The report of that image with other bytes at some places.
fn report_of(alloc: Global, changed: &[(usize, u8)]) -> Result<Report, MetadataError> {
    let mut bytes = image(alloc)?;
    for (place, byte) in changed {
        if let Some(at) = bytes.get_mut(*place) {
            *at = *byte;
        }
    }
    let mut storage = MemStorage::new(bytes);
    check(alloc, &mut storage)
}

#[test]
fn the_image_is_consistent(rt: HostRuntime) -> Result<(), Fail> {
    let report = report_of(rt.alloc(), &[])?;
    assert_eq!(rt; report.breaches.len(), 0);
    assert_eq!(rt; report.leaks.len(), 0);
    Ok(())
}

#[test]
fn data_that_is_not_counted(rt: HostRuntime) -> Result<(), Fail> {
    let report = report_of(rt.alloc(), &[(1035, 0)])?;
    let under = Breach::Under {
        cluster: 5,
        count: 0,
        named: 1,
    };
    let copied = Breach::Copied {
        cluster: 5,
        count: 0,
        named: 1,
    };
    assert_eq!(rt; report.breaches.as_slice(), [under, copied].as_slice());
    assert_eq!(rt; report.leaks.len(), 0);
    Ok(())
}

#[test]
fn a_cluster_that_is_counted_for_nothing(rt: HostRuntime) -> Result<(), Fail> {
    let report = report_of(rt.alloc(), &[(1037, 1)])?;
    let leak = Leak {
        cluster: 6,
        count: 1,
        named: 0,
    };
    assert_eq!(rt; report.breaches.len(), 0);
    assert_eq!(rt; report.leaks.is_empty(), false);
    assert_eq!(rt; report.leaks.iter().next(), Some(leak));
    assert_eq!(rt; report.leaks.len(), 1);
    Ok(())
}

/// The second entry of the reftable names the refblock of the first, so its six counts are of clusters 256 to 261 too.
#[test]
fn a_refblock_that_two_entries_name(rt: HostRuntime) -> Result<(), Fail> {
    let report = report_of(rt.alloc(), &[(526, 4)])?;
    let under = Breach::Under {
        cluster: 2,
        count: 1,
        named: 2,
    };
    let shared = Breach::Shared {
        cluster: 2,
        named: 2,
    };
    assert_eq!(rt; report.breaches.as_slice(), [under, shared].as_slice());
    let mut cluster = 256;
    for leak in report.leaks.iter() {
        let wanted = Leak {
            cluster,
            count: 1,
            named: 0,
        };
        assert_eq!(rt; leak, wanted);
        cluster += 1;
    }
    assert_eq!(rt; cluster, 262);
    Ok(())
}

#[test]
fn lines_of_many_kinds(rt: HostRuntime) -> Result<(), Fail> {
    // a snapshot and a data file; then an L1 table that begins a byte later
    let report = report_of(rt.alloc(), &[(63, 1), (79, 4)])?;
    assert_eq!(rt;
        report.breaches.as_slice(),
        [Breach::Snapshots { count: 1 }, Breach::External].as_slice()
    );
    let report = report_of(rt.alloc(), &[(47, 1)])?;
    let l1 = Breach::Unaligned {
        kind: Kind::L1,
        offset: 1537,
    };
    assert_eq!(rt; report.breaches.first().copied(), Some(l1));
    Ok(())
}

#[test]
fn what_does_not_read_is_refused(rt: HostRuntime) -> Result<(), Fail> {
    let magic = report_of(rt.alloc(), &[(0, 0)]);
    assert_eq!(rt; magic.err(), Some(MetadataError::Format));
    let l1_entry = report_of(rt.alloc(), &[(1543, 1)]);
    assert_eq!(rt; l1_entry.err(), Some(MetadataError::Format));
    let l1_entries = report_of(rt.alloc(), &[(36, 1)]);
    assert_eq!(rt; l1_entries.err(), Some(MetadataError::Limit));
    Ok(())
}
