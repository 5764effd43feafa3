use crate::{Header, HeaderFields, HostOffset, MetadataError};
use image_access::{MemStorage, Storage, StorageError, TraceStorage};
use std::alloc::{AllocError, Global};
use std::test::Fail;

// `qemu-img create -f qcow2 -o cluster_size=512,backing_file=back.raw,backing_fmt=raw`: the file's first bytes.
const WITH_BACKING: [u8; 144] = [
    0x51, 0x46, 0x49, 0xfb, 0, 0, 0, 3, 0, 0, 0, 0, 0, 0, 0, 0x88, //
    0, 0, 0, 8, 0, 0, 0, 9, 0, 0, 0, 0, 0, 0x10, 0, 0, //
    0, 0, 0, 0, 0, 0, 0, 0x20, 0, 0, 0, 0, 0, 0, 6, 0, //
    0, 0, 0, 0, 0, 0, 2, 0, 0, 0, 0, 1, 0, 0, 0, 0, //
    0, 0, 0, 0, 0, 0, 0, 0, 0, 0, 0, 0, 0, 0, 0, 0, //
    0, 0, 0, 0, 0, 0, 0, 0, 0, 0, 0, 0, 0, 0, 0, 0, //
    0, 0, 0, 4, 0, 0, 0, 0x70, 0, 0, 0, 0, 0, 0, 0, 0, //
    0xe2, 0x79, 0x2a, 0xca, 0, 0, 0, 3, 0x72, 0x61, 0x77, 0, 0, 0, 0, 0, //
    0, 0, 0, 0, 0, 0, 0, 0, 0x62, 0x61, 0x63, 0x6b, 0x2e, 0x72, 0x61, 0x77,
];

// The same with `compat=0.10,cluster_size=4096`: version 2.
const OLD: [u8; 104] = [
    0x51, 0x46, 0x49, 0xfb, 0, 0, 0, 2, 0, 0, 0, 0, 0, 0, 0, 0x60, //
    0, 0, 0, 8, 0, 0, 0, 0xc, 0, 0, 0, 0, 0, 0x10, 0, 0, //
    0, 0, 0, 0, 0, 0, 0, 1, 0, 0, 0, 0, 0, 0, 0x30, 0, //
    0, 0, 0, 0, 0, 0, 0x10, 0, 0, 0, 0, 1, 0, 0, 0, 0, //
    0, 0, 0, 0, 0, 0, 0, 0, 0xe2, 0x79, 0x2a, 0xca, 0, 0, 0, 3, //
    0x72, 0x61, 0x77, 0, 0, 0, 0, 0, 0, 0, 0, 0, 0, 0, 0, 0, //
    0x62, 0x61, 0x63, 0x6b, 0x2e, 0x72, 0x61, 0x77,
];

// `qemu-img create -f qcow2 -o cluster_size=512,data_file=d.raw`.
const WITH_DATA_FILE: [u8; 128] = [
    0x51, 0x46, 0x49, 0xfb, 0, 0, 0, 3, 0, 0, 0, 0, 0, 0, 0, 0, //
    0, 0, 0, 0, 0, 0, 0, 9, 0, 0, 0, 0, 0, 1, 0, 0, //
    0, 0, 0, 0, 0, 0, 0, 2, 0, 0, 0, 0, 0, 0, 6, 0, //
    0, 0, 0, 0, 0, 0, 2, 0, 0, 0, 0, 1, 0, 0, 0, 0, //
    0, 0, 0, 0, 0, 0, 0, 0, 0, 0, 0, 0, 0, 0, 0, 4, //
    0, 0, 0, 0, 0, 0, 0, 0, 0, 0, 0, 0, 0, 0, 0, 0, //
    0, 0, 0, 4, 0, 0, 0, 0x70, 0, 0, 0, 0, 0, 0, 0, 0, //
    0x44, 0x41, 0x54, 0x41, 0, 0, 0, 5, 0x64, 0x2e, 0x72, 0x61, 0x77, 0, 0, 0,
];

fn loaded(alloc: Global, bytes: &[u8], writable: bool) -> Result<Header, MetadataError> {
    let mut storage = MemStorage::new(Vec::from_slice(alloc, bytes)?);
    Header::load(alloc, &mut storage, writable)
}

// The image with a backing file, with these bytes over it.
fn changed(
    alloc: Global,
    changes: &[(u64, &[u8])],
    writable: bool,
) -> Result<Header, MetadataError> {
    let mut storage = MemStorage::new(Vec::from_slice(alloc, &WITH_BACKING)?);
    for (at, bytes) in changes {
        storage.write(*at, bytes)?;
    }
    Header::load(alloc, &mut storage, writable)
}

fn text(name: Option<&String>) -> &str {
    match name {
        Some(name) => name.as_str(),
        None => "none",
    }
}

// What QEMU wrote into the first of these images.
fn fields_with_backing() -> HeaderFields {
    HeaderFields {
        magic: 0x5146_49fb,
        version: 3,
        backing_offset: 0x88,
        backing_length: 8,
        cluster_bits: 9,
        size: 1_048_576,
        crypt_method: 0,
        l1_entries: 32,
        l1_offset: 1536,
        reftable_offset: 512,
        reftable_clusters: 1,
        snapshots: 0,
        snapshots_offset: 0,
        incompatible: 0,
        compatible: 0,
        autoclear: 0,
        refcount_order: 4,
        header_length: 112,
    }
}

#[test]
fn reads_what_qemu_wrote(rt: HostRuntime) -> Result<(), Fail> {
    let header = loaded(rt.alloc(), &WITH_BACKING, true)?;
    assert_eq!(rt; header.fields(), fields_with_backing());
    assert_eq!(rt; text(header.backing_name()), "back.raw");
    assert_eq!(rt; text(header.backing_format()), "raw");
    assert_eq!(rt; text(header.data_file_name()), "none");
    Ok(())
}

#[test]
fn reads_version_2(rt: HostRuntime) -> Result<(), Fail> {
    let header = loaded(rt.alloc(), &OLD, true)?;
    let expected = HeaderFields {
        version: 2,
        backing_offset: 0x60,
        cluster_bits: 12,
        l1_entries: 1,
        l1_offset: 0x3000,
        reftable_offset: 0x1000,
        header_length: 72,
        ..fields_with_backing()
    };
    assert_eq!(rt; header.fields(), expected);
    assert_eq!(rt; text(header.backing_name()), "back.raw");
    assert_eq!(rt; text(header.backing_format()), "raw");
    assert_eq!(rt; header.require_version(3), Err(MetadataError::Version));
    Ok(())
}

#[test]
fn reads_the_name_of_a_data_file(rt: HostRuntime) -> Result<(), Fail> {
    let header = loaded(rt.alloc(), &WITH_DATA_FILE, true)?;
    assert!(rt; header.has_data_file());
    assert_eq!(rt; text(header.data_file_name()), "d.raw");
    assert_eq!(rt; text(header.backing_name()), "none");
    assert_eq!(rt; header.require_version(3), Ok(()));
    Ok(())
}

#[test]
fn refuses_each_cause(rt: HostRuntime) -> Result<(), Fail> {
    let unread: [(u64, &[u8]); 21] = [
        (0, &[0x52]),
        (7, &[1]),
        (7, &[4]),
        (23, &[8]),
        (23, &[22]),
        (35, &[1]),
        (79, &[1]),
        (79, &[2]),
        (79, &[8]),
        (79, &[16]),
        (72, &[0x80]),
        (99, &[7]),
        (103, &[103]),
        (100, &[0, 0, 2, 1]),
        (8, &[0, 0, 0, 0, 0, 0, 1, 0xf9]),
        (8, &[0x80, 0, 0, 0, 0, 0, 0, 0]),
        (8, &[0, 0, 0, 0, 0, 0, 0, 0x68]),
        (136, &[0xff]),
        (120, &[0xff]),
        (116, &[0, 0, 1, 0x89]),
        (128, &[1, 1, 1, 1, 0, 0, 1, 0x71]),
    ];
    for (at, bytes) in unread {
        let result = changed(rt.alloc(), &[(at, bytes)], false);
        assert_eq!(rt; result.err(), Some(MetadataError::Format), "at {at}");
    }
    let refused = [
        (36, [0, 0x40, 0, 1], MetadataError::Limit),
        (56, [0, 0, 0x40, 1], MetadataError::Limit),
        (44, [0, 0, 6, 1], MetadataError::Unaligned),
        (52, [0, 0, 2, 1], MetadataError::Unaligned),
    ];
    for (at, bytes, error) in refused {
        let result = changed(rt.alloc(), &[(at, &bytes)], true);
        assert_eq!(rt; result.err(), Some(error), "at {at}");
    }
    Ok(())
}

#[test]
fn orders_the_causes(rt: HostRuntime) -> Result<(), Fail> {
    let limit: (u64, &[u8]) = (36, &[0, 0x40, 0, 1]);
    let unaligned: (u64, &[u8]) = (44, &[0, 0, 6, 1]);
    let no_text: (u64, &[u8]) = (136, &[0xff]);
    let both = changed(rt.alloc(), &[limit, unaligned], true);
    assert_eq!(rt; both.err(), Some(MetadataError::Limit));
    let all = changed(rt.alloc(), &[limit, unaligned, no_text], true);
    assert_eq!(rt; all.err(), Some(MetadataError::Format));
    let no_header = loaded(rt.alloc(), &[0x51, 0x46, 0x49], false);
    assert_eq!(rt; no_header.err(), Some(MetadataError::Format));
    Ok(())
}

#[test]
fn loads_up_to_the_limits(rt: HostRuntime) -> Result<(), Fail> {
    let limits: [(u64, &[u8]); 2] = [(36, &[0, 0x40, 0, 0]), (56, &[0, 0, 0x40, 0])];
    let header = changed(rt.alloc(), &limits, true)?;
    assert_eq!(rt;
        (header.l1_table_entries(), header.reftable_entries()),
        (4_194_304, 1_048_576)
    );
    // a reftable off a cluster, read-only
    let read_only = changed(rt.alloc(), &[(52, &[0, 0, 2, 1])], false)?;
    assert_eq!(rt; read_only.reftable_offset().value(), 513);
    // an empty name at the cluster's end, and one that is left out
    let at_end: (u64, &[u8]) = (8, &[0, 0, 0, 0, 0, 0, 2, 0, 0, 0, 0, 0]);
    assert_eq!(rt;
        text(changed(rt.alloc(), &[at_end], true)?.backing_name()),
        ""
    );
    assert!(rt;
        changed(rt.alloc(), &[(15, &[0])], true)?
            .backing_name()
            .is_none()
    );
    // the first of two formats counts, and an extension of no known kind is passed over
    let two: (u64, &[u8]) = (
        128,
        &[
            0xe2, 0x79, 0x2a, 0xca, 0, 0, 0, 1, 0x78, 0, 0, 0, 0, 0, 0, 0,
        ],
    );
    let moved: (u64, &[u8]) = (15, &[0x70]);
    assert_eq!(rt;
        text(changed(rt.alloc(), &[moved, two, (19, &[0])], true)?.backing_format()),
        "raw"
    );
    let unknown: (u64, &[u8]) = (112, &[0x68, 0x03, 0xf8, 0x57]);
    assert!(rt;
        changed(rt.alloc(), &[unknown], true)?
            .backing_format()
            .is_none()
    );
    Ok(())
}

#[test]
fn a_new_header_reads_back(rt: HostRuntime) -> Result<(), Fail> {
    let name = String::from_str(rt.alloc(), "back.raw")?;
    let format = String::from_str(rt.alloc(), "raw")?;
    let data_file = String::from_str(rt.alloc(), "d.raw")?;
    assert!(rt;
        Header::fits(
            9,
            4,
            Some(name.as_str()),
            Some(format.as_str()),
            Some(data_file.as_str())
        )
    );
    let header = Header::new(9, 4, Some(name), Some(format), Some(data_file));
    let mut storage = TraceStorage::new(rt.alloc(), Vec::new(rt.alloc()))?;
    header.write(rt.alloc(), &mut storage)?;
    assert_eq!(rt; storage.writes(rt.alloc())?.as_slice(), [0].as_slice());
    let written = [
        0x51, 0x46, 0x49, 0xfb, 0, 0, 0, 3, 0, 0, 0, 0, 0, 0, 0, 0x90, //
        0, 0, 0, 8, 0, 0, 0, 9, 0, 0, 0, 0, 0, 0, 0, 0, //
        0, 0, 0, 0, 0, 0, 0, 0, 0, 0, 0, 0, 0, 0, 0, 0, //
        0, 0, 0, 0, 0, 0, 2, 0, 0, 0, 0, 1, 0, 0, 0, 0, //
        0, 0, 0, 0, 0, 0, 0, 0, 0, 0, 0, 0, 0, 0, 0, 4, //
        0, 0, 0, 0, 0, 0, 0, 0, 0, 0, 0, 0, 0, 0, 0, 0, //
        0, 0, 0, 4, 0, 0, 0, 0x68, 0xe2, 0x79, 0x2a, 0xca, 0, 0, 0, 3, //
        0x72, 0x61, 0x77, 0, 0, 0, 0, 0, 0x44, 0x41, 0x54, 0x41, 0, 0, 0, 5, //
        0x64, 0x2e, 0x72, 0x61, 0x77, 0, 0, 0, 0, 0, 0, 0, 0, 0, 0, 0, //
        0x62, 0x61, 0x63, 0x6b, 0x2e, 0x72, 0x61, 0x77,
    ];
    assert_eq!(rt; storage.as_slice(), written.as_slice());
    let again = Header::load(rt.alloc(), &mut storage, true)?;
    assert_eq!(rt; again.fields(), header.fields());
    assert_eq!(rt;
        (text(again.backing_name()), text(again.backing_format())),
        ("back.raw", "raw")
    );
    assert_eq!(rt; text(again.data_file_name()), "d.raw");
    Ok(())
}

fn name_of(alloc: Global, length: usize) -> Result<String, AllocError> {
    let mut name = String::new(alloc);
    for _ in 0..length {
        name.push('x')?;
    }
    Ok(name)
}

#[test]
fn names_fit_into_the_first_cluster(rt: HostRuntime) -> Result<(), Fail> {
    let name = name_of(rt.alloc(), 400)?;
    let longer = name_of(rt.alloc(), 401)?;
    assert!(rt; Header::fits(9, 0, Some(name.as_str()), None, None));
    assert!(rt; !Header::fits(9, 0, Some(longer.as_str()), None, None));
    // 104 and 8 bytes, an extension of 8 + 408, the name of 400, and an extension of 8 + 88
    let most = name_of(rt.alloc(), 88)?;
    let more = name_of(rt.alloc(), 89)?;
    let (backing, format) = (Some(name.as_str()), Some(longer.as_str()));
    assert!(rt; Header::fits(10, 6, backing, format, Some(most.as_str())));
    assert!(rt; !Header::fits(10, 6, backing, format, Some(more.as_str())));
    assert!(rt; !Header::fits(8, 4, None, None, None) && !Header::fits(22, 4, None, None, None));
    assert!(rt; !Header::fits(9, 7, None, None, None));
    Ok(())
}

#[test]
fn writes_its_parts(rt: HostRuntime) -> Result<(), Fail> {
    let mut header = loaded(rt.alloc(), &WITH_BACKING, true)?;
    header.set_size(0x0102_0304_0506_0708);
    header.set_l1_table(HostOffset::new(0x1122_3344_5566_7600), 0x21_2223)?;
    header.set_reftable(HostOffset::new(0x3132_3334_3536_3800), 0x3132)?;
    let mut storage = MemStorage::new(Vec::new(rt.alloc()));
    header.write_size(&mut storage)?;
    header.write_l1_table_pointer(&mut storage)?;
    header.write_reftable_pointer(&mut storage)?;
    let mut bytes = [0; 36];
    storage.read(24, &mut bytes)?;
    let expected = [
        1, 2, 3, 4, 5, 6, 7, 8, 0, 0, 0, 0, 0, 0x21, 0x22, 0x23, //
        0x11, 0x22, 0x33, 0x44, 0x55, 0x66, 0x76, 0, //
        0x31, 0x32, 0x33, 0x34, 0x35, 0x36, 0x38, 0, 0, 0, 0x31, 0x32,
    ];
    assert_eq!(rt; bytes.as_slice(), expected.as_slice());
    Ok(())
}

#[test]
fn clears_the_autoclear_bits_once(rt: HostRuntime) -> Result<(), Fail> {
    let mut header = changed(rt.alloc(), &[(88, &[0xff; 8])], true)?;
    let mut storage = TraceStorage::new(rt.alloc(), Vec::new(rt.alloc()))?;
    header.clear_autoclear(&mut storage)?;
    header.clear_autoclear(&mut storage)?;
    assert_eq!(rt; storage.writes(rt.alloc())?.as_slice(), [88].as_slice());
    assert_eq!(rt; header.fields(), fields_with_backing());
    Ok(())
}

#[test]
fn keeps_the_autoclear_bits_at_a_fault(rt: HostRuntime) -> Result<(), Fail> {
    let mut header = changed(rt.alloc(), &[(88, &[0xff; 8])], true)?;
    let mut storage = TraceStorage::new(rt.alloc(), Vec::new(rt.alloc()))?;
    storage.fail_at(1);
    assert_eq!(rt;
        header.clear_autoclear(&mut storage),
        Err(StorageError::Fault)
    );
    assert_eq!(rt; header.autoclear(), u64::MAX);
    Ok(())
}

#[test]
fn takes_over_tables_and_keeps_the_limits(rt: HostRuntime) -> Result<(), Fail> {
    let mut header = loaded(rt.alloc(), &WITH_BACKING, true)?;
    let other = loaded(rt.alloc(), &OLD, true)?;
    header.update(&other)?;
    assert_eq!(rt;
        (header.l1_table_offset().value(), header.l1_table_entries()),
        (0x3000, 1)
    );
    assert_eq!(rt;
        (header.reftable_offset().value(), header.reftable_clusters()),
        (0x1000, 1)
    );
    assert_eq!(rt; (header.cluster_bits(), header.size()), (9, 1_048_576));
    let before = header.fields();
    let offset = HostOffset::new(0);
    assert_eq!(rt;
        header.set_l1_table(offset, 4_194_305),
        Err(MetadataError::Limit)
    );
    assert_eq!(rt;
        header.set_reftable(offset, 16_385),
        Err(MetadataError::Limit)
    );
    assert_eq!(rt; header.fields(), before);
    Ok(())
}

#[test]
fn hands_on_what_a_storage_refuses(rt: HostRuntime) -> Result<(), Fail> {
    for call in 1..3 {
        let mut storage = TraceStorage::new(
            rt.alloc(),
            Vec::from_slice(rt.alloc(), &WITH_BACKING)?,
        )?;
        storage.fail_at(call);
        let fault = Header::load(rt.alloc(), &mut storage, true);
        assert_eq!(rt;
            fault.err(),
            Some(MetadataError::Storage(StorageError::Fault))
        );
        storage.refuse_memory_at(call);
        let memory = Header::load(rt.alloc(), &mut storage, true);
        assert_eq!(rt;
            memory.err(),
            Some(MetadataError::Storage(StorageError::Memory))
        );
    }
    Ok(())
}
