//! Commands and their replies.
use super::{copied, fresh, left_by, number_at, stopped};
use crate::open_and_run;
use crate::session::{Command, Reply, run};
use image_access::{BackingDisk, MemBacking, Storage, TraceStorage, WrappedFormat};
use qcow2_image::{ImageError, Mapping, MappingKind, Place, Qcow2};
use std::alloc::{AllocError, Global};
use std::test::Fail;

// Answers the commands on a storage's image.
fn replies<S: Storage>(
    alloc: Global,
    storage: S,
    commands: &[Command],
) -> Result<Vec<Reply>, ImageError> {
    let (_storage, replies) = left_by(alloc, storage, true, commands)?;
    Ok(replies)
}

#[test]
fn a_failed_image_answers_little(rt: HostRuntime) -> Result<(), Fail> {
    let alloc = rt.alloc();
    let mut storage = fresh(alloc)?;
    storage.fail_at(5);
    let commands = vec![in alloc;
        Command::Write {
            offset: 0,
            bytes: vec![in alloc; 0x11; 512]?
        },
        Command::Read {
            offset: 0,
            length: 1
        },
        Command::Flush,
        Command::Size,
    ]?;
    assert_eq!(rt;
        replies(alloc, storage, &commands)?.as_slice(),
        [
            Reply::WriteRefused(ImageError::Storage, 0),
            Reply::Refused(ImageError::Failed),
            Reply::Refused(ImageError::Failed),
            Reply::Size(65536)
        ]
        .as_slice()
    );
    Ok(())
}

#[test]
fn a_fill_is_answered_as_a_write(rt: HostRuntime) -> Result<(), Fail> {
    let alloc = rt.alloc();
    let fill = |offset, length| Command::Fill {
        offset,
        length,
        byte: 0x33,
    };
    let commands = vec![in alloc; fill(510, 4), a_read(509, 6), fill(0, u64::MAX)]?;
    assert_eq!(rt;
        replies(alloc, fresh(alloc)?, &commands)?.as_slice(),
        [
            Reply::Done,
            Reply::Bytes(vec![in alloc; 0, 0x33, 0x33, 0x33, 0x33, 0]?),
            Reply::WriteRefused(ImageError::BeyondSize, 0)
        ]
        .as_slice()
    );
    Ok(())
}

fn prepare(slot: u8, offset: u64, length: u64) -> Command {
    Command::PrepareDataMapping {
        slot,
        offset,
        length,
        overwrite: true,
    }
}

fn write_mapped(alloc: Global, slot: u8, at: u64, bytes: &[u8]) -> Result<Command, AllocError> {
    let bytes = bytes.to_vec(alloc)?;
    Ok(Command::WriteMapped { slot, at, bytes })
}

#[test]
fn a_prepared_slot_is_written_and_committed(rt: HostRuntime) -> Result<(), Fail> {
    let alloc = rt.alloc();
    let commands = vec![in alloc;
        prepare(7, 512, 512),
        write_mapped(alloc, 7, 0, &[0x33])?,
        prepare(9, 1024, 512),
        Command::CommitDataMapping { slot: 7 },
        Command::Read {
            offset: 511,
            length: 2
        },
    ]?;
    assert_eq!(rt;
        replies(alloc, fresh(alloc)?, &commands)?.as_slice(),
        [
            Reply::Prepared {
                offset: 2560,
                length: 512,
                existing: false
            },
            Reply::Done,
            Reply::Refused(ImageError::TablePrepared),
            Reply::Done,
            Reply::Bytes(vec![in alloc; 0, 0x33]?),
        ]
        .as_slice()
    );
    Ok(())
}

#[test]
fn misuse_of_prepared_slots(rt: HostRuntime) -> Result<(), Fail> {
    let alloc = rt.alloc();
    let commands = vec![in alloc;
        prepare(7, 512, 512),
        prepare(7, 0, 512),
        write_mapped(alloc, 7, 511, &[0x22, 0x22])?,
        write_mapped(alloc, 8, 0, &[0x22])?,
        Command::CommitDataMapping { slot: 8 },
        Command::DiscardDataMapping { slot: 8 },
    ]?;
    assert_eq!(rt;
        replies(alloc, fresh(alloc)?, &commands)?.as_slice(),
        [
            Reply::Prepared {
                offset: 2560,
                length: 512,
                existing: false
            },
            Reply::Misuse,
            Reply::Misuse,
            Reply::Misuse,
            Reply::Misuse,
            Reply::Misuse,
        ]
        .as_slice()
    );
    Ok(())
}

fn read_mapped(slot: u8, at: u64) -> Command {
    Command::ReadMapped {
        slot,
        at,
        length: 1,
    }
}

// What image 1 says of the second cluster, which is at 2560.
fn second_cluster() -> Mapping {
    Mapping {
        image: 1,
        offset: 512,
        length: 512,
        kind: MappingKind::Raw {
            place: Place::Image,
            offset: 2560,
            writable: true,
        },
    }
}

#[test]
fn a_mapping_slot_is_read(rt: HostRuntime) -> Result<(), Fail> {
    let alloc = rt.alloc();
    let commands = vec![in alloc;
        Command::Write {
            offset: 512,
            bytes: vec![in alloc; 0x33]?
        },
        Command::GetMapping {
            slot: 3,
            offset: 512,
            max: 512
        },
        read_mapped(3, 0),
        read_mapped(3, 512),
        read_mapped(4, 0),
    ]?;
    assert_eq!(rt;
        replies(alloc, fresh(alloc)?, &commands)?.as_slice(),
        [
            Reply::Done,
            Reply::Mapping(second_cluster()),
            Reply::Bytes(vec![in alloc; 0x33]?),
            Reply::Misuse,
            Reply::Misuse,
        ]
        .as_slice()
    );
    Ok(())
}

#[test]
fn a_prepared_slot_is_discarded(rt: HostRuntime) -> Result<(), Fail> {
    let alloc = rt.alloc();
    let commands = vec![in alloc;
        Command::Write {
            offset: 512,
            bytes: vec![in alloc; 0x33]?
        },
        prepare(0, 512, 10),
        Command::DiscardDataMapping { slot: 0 },
        Command::DiscardDataMapping { slot: 0 },
        Command::Flush,
        Command::Size,
    ]?;
    assert_eq!(rt;
        replies(alloc, fresh(alloc)?, &commands)?.as_slice(),
        [
            Reply::Done,
            Reply::Prepared {
                offset: 2560,
                length: 10,
                existing: true
            },
            Reply::Done,
            Reply::Misuse,
            Reply::Done,
            Reply::Size(65536),
        ]
        .as_slice()
    );
    Ok(())
}

#[test]
fn ranges_are_zeroed_and_discarded(rt: HostRuntime) -> Result<(), Fail> {
    let alloc = rt.alloc();
    let commands = vec![in alloc;
        Command::Write {
            offset: 0,
            bytes: vec![in alloc; 0x11; 2048]?
        },
        Command::EnsureZeroMapping {
            offset: 0,
            length: 512
        },
        Command::DiscardToZero {
            offset: 100,
            length: 1000
        },
        Command::DiscardToAny {
            offset: 1024,
            length: 512
        },
        Command::DiscardToBacking {
            offset: 1536,
            length: 100
        },
        Command::DiscardToBacking {
            offset: 65536,
            length: 1
        },
        Command::Read {
            offset: 1535,
            length: 2
        },
    ]?;
    assert_eq!(rt;
        replies(alloc, fresh(alloc)?, &commands)?.as_slice(),
        [
            Reply::Done,
            range(0, 512),
            range(512, 512),
            range(1024, 512),
            range(1536, 0),
            Reply::Refused(ImageError::BeyondSize),
            Reply::Bytes(vec![in alloc; 0, 0x11]?),
        ]
        .as_slice()
    );
    Ok(())
}

fn range(offset: u64, length: u64) -> Reply {
    Reply::Range { offset, length }
}

#[test]
fn special_reads_name_their_offset(rt: HostRuntime) -> Result<(), Fail> {
    let alloc = rt.alloc();
    for offset in [0, 100] {
        let commands = vec![in alloc;
            Command::ReadvSpecial { offset, length: 0 },
            Command::TryReadvSpecial { offset, length: 0 },
            Command::ReadvSpecial { offset, length: 4 },
            Command::TryReadvSpecial { offset, length: 4 },
        ]?;
        assert_eq!(rt;
            replies(alloc, fresh(alloc)?, &commands)?.as_slice(),
            [
                Reply::Done,
                Reply::NotCompressed(None),
                Reply::Refused(ImageError::NotCompressed { offset }),
                Reply::NotCompressed(Some(offset)),
            ]
            .as_slice()
        );
    }
    Ok(())
}

#[test]
fn no_bytes_are_prepared_for_reading(rt: HostRuntime) -> Result<(), Fail> {
    let alloc = rt.alloc();
    let commands = vec![in alloc; prepare(0, 1_000_000_000, 0), prepare(1, 0, 1)]?;
    let (storage, replies) = left_by(alloc, fresh(alloc)?, false, &commands)?;
    assert_eq!(rt;
        replies.as_slice(),
        [
            Reply::Prepared {
                offset: 0,
                length: 0,
                existing: true
            },
            Reply::Refused(ImageError::ReadOnly),
        ]
        .as_slice()
    );
    assert_eq!(rt; storage.writes(alloc)?.len(), 0);
    Ok(())
}

// An image whose next free cluster, at 2560, has old bytes.
fn with_old_bytes(alloc: Global) -> Result<TraceStorage, Fail> {
    let mut storage = fresh(alloc)?;
    storage.write(2560, &[0xee; 512])?;
    Ok(copied(alloc, &storage)?)
}

// Prepares a part of that cluster, writes and commits it, and flushes.
fn a_part_written(alloc: Global) -> Result<TraceStorage, Fail> {
    let commands = vec![in alloc;
        prepare(0, 100, 100),
        write_mapped(alloc, 0, 0, &[0x22; 100])?,
        Command::CommitDataMapping { slot: 0 },
        Command::Flush,
    ]?;
    let (storage, replies) = left_by(alloc, with_old_bytes(alloc)?, true, &commands)?;
    let prepared = Reply::Prepared {
        offset: 2660,
        length: 412,
        existing: false,
    };
    if replies.as_slice() != [prepared, Reply::Done, Reply::Done, Reply::Done].as_slice() {
        return Err("other replies")?;
    }
    Ok(storage)
}

// A cluster of equal bytes but for its second hundred.
fn a_cluster(alloc: Global, bytes: u8, part: u8) -> Result<Vec<u8>, AllocError> {
    let mut cluster = vec![in alloc; bytes; 512]?;
    for byte in &mut cluster[100..200] {
        *byte = part;
    }
    Ok(cluster)
}

#[test]
fn a_used_cluster_is_zeroed_whole_before_a_part_is_written(rt: HostRuntime) -> Result<(), Fail> {
    let alloc = rt.alloc();
    let storage = a_part_written(alloc)?;
    assert_eq!(rt;
        storage.writes(alloc)?.as_slice(),
        [1024, 2048, 1536, 2560, 2660, 1024, 2048].as_slice()
    );
    for (writes, bytes, part) in [(3, 0xee, 0xee), (4, 0, 0), (5, 0, 0x22)] {
        let left = stopped(alloc, &storage, writes)?;
        assert_eq!(rt;
            &left.as_slice()[2560..],
            a_cluster(alloc, bytes, part)?.as_slice(),
            "after {writes} writes"
        );
    }
    Ok(())
}

// Opens an image for writing and answers the commands: the storage then, and the number of a refused opening.
fn opened_and_run<S: Storage>(alloc: Global, storage: S, commands: &[Command]) -> (S, u8) {
    match open_and_run::<S, Box<dyn BackingDisk>>(alloc, storage, None, 1, commands) {
        Ok((image, _replies)) => (image.into_storage(), 0),
        Err((storage, refusal)) => (storage, refusal.number()),
    }
}

// A look at an image, which changes nothing.
fn a_look(alloc: Global) -> Result<Vec<Command>, AllocError> {
    let commands = vec![in alloc;
        Command::Size,
        Command::Read {
            offset: 65534,
            length: 2
        },
    ]?;
    Ok(commands)
}

// What a look at an empty disk is answered.
fn is_empty_disk(alloc: Global, replies: &[Reply]) -> Result<bool, AllocError> {
    let bytes = vec![in alloc; 0, 0]?;
    Ok(replies == [Reply::Size(65536), Reply::Bytes(bytes)].as_slice())
}

#[test]
fn a_reftable_off_a_cluster_is_in_the_way_of_writing_alone(rt: HostRuntime) -> Result<(), Fail> {
    let alloc = rt.alloc();
    let mut storage = fresh(alloc)?;
    storage.write(48, &[0, 0, 0, 0, 0, 0, 2, 1])?;
    let commands = a_look(alloc)?;
    let (kept, refusal) = opened_and_run(alloc, copied(alloc, &storage)?, &commands);
    assert_eq!(rt; refusal, 4);
    assert_eq!(rt; kept.writes(alloc)?.len(), 0);
    let (_storage, replies) = left_by(alloc, storage, false, &commands)?;
    assert!(rt; is_empty_disk(alloc, &replies)?);
    Ok(())
}

#[test]
fn autoclear_bits_are_cleared_once(rt: HostRuntime) -> Result<(), Fail> {
    let alloc = rt.alloc();
    let mut storage = fresh(alloc)?;
    storage.write(88, &[0xff; 8])?;
    let commands = a_look(alloc)?;
    let (kept, replies) = left_by(alloc, copied(alloc, &storage)?, false, &commands)?;
    assert!(rt; is_empty_disk(alloc, &replies)?);
    assert_eq!(rt; kept.writes(alloc)?.len(), 0);
    let (mut cleared, refusal) = opened_and_run(alloc, copied(alloc, &storage)?, &commands);
    assert_eq!(rt; refusal, 0);
    assert_eq!(rt; cleared.writes(alloc)?.as_slice(), [88].as_slice());
    assert_eq!(rt; number_at(&mut cleared, 88)?, 0);
    Ok(())
}

// Answers the commands on an image over another disk.
fn replies_over<S: Storage, F: WrappedFormat<S>>(
    alloc: Global,
    storage: S,
    below: F,
    commands: &[Command],
) -> Result<Vec<Reply>, ImageError> {
    let mut image = match Qcow2::open_image(alloc, storage, true, 1) {
        Ok(image) => image,
        Err((_storage, refusal)) => return Err(refusal),
    };
    if let Err((_below, refusal)) = image.set_backing(Some(below)) {
        return Err(refusal);
    }
    Ok(run(alloc, &mut image, commands))
}

fn a_read(offset: u64, length: u64) -> Command {
    Command::Read { offset, length }
}

#[test]
fn a_disk_below_shows_where_nothing_is_written(rt: HostRuntime) -> Result<(), Fail> {
    let alloc = rt.alloc();
    let below = MemBacking::new(vec![in alloc; 0x55; 700]?);
    let commands = vec![in alloc;
        a_read(0, 4),
        Command::Write {
            offset: 512,
            bytes: vec![in alloc; 0x66]?
        },
        a_read(698, 4),
        a_read(512, 2),
    ]?;
    assert_eq!(rt;
        replies_over(alloc, fresh(alloc)?, below, &commands)?.as_slice(),
        [
            Reply::Bytes(vec![in alloc; 0x55; 4]?),
            Reply::Done,
            Reply::Bytes(vec![in alloc; 0x55, 0x55, 0, 0]?),
            Reply::Bytes(vec![in alloc; 0x66, 0x55]?),
        ]
        .as_slice()
    );
    Ok(())
}
