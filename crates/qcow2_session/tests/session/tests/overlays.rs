//! Runs over a disk below: what shows, what is written, and what a stop leaves.
use super::fresh;
use crate::check;
use crate::headline::open_and_run;
use crate::session::{Command, Reply};
use image_access::{MemBacking, Storage, TraceStorage};
use qcow2_image::ImageError;
use std::alloc::{AllocError, Global};
use std::test::Fail;

// The disk below: this many bytes of one value, and zeros after them.
fn disk_below(alloc: Global) -> Result<MemBacking, AllocError> {
    Ok(MemBacking::new(vec![in alloc; 0x55; 700]?))
}

// Opens the image over that disk, or over none, and answers the commands: the storage then, and the replies.
fn ran<S: Storage>(
    alloc: Global,
    storage: S,
    below: Option<MemBacking>,
    commands: &[Command],
) -> Result<(S, Vec<Reply>), ImageError> {
    match open_and_run(alloc, storage, below, 1, commands) {
        Ok((image, replies)) => Ok((image.into_storage(), replies)),
        Err((_storage, refusal)) => Err(refusal),
    }
}

fn read_at(offset: u64, length: u64) -> Command {
    Command::Read { offset, length }
}

// Writes two bytes over the edge of two clusters.
fn written(alloc: Global) -> Result<Command, AllocError> {
    let bytes = vec![in alloc; 0x33; 2]?;
    Ok(Command::Write { offset: 511, bytes })
}

#[test]
fn a_run_reads_the_disk_below_and_writes_over_it(rt: HostRuntime) -> Result<(), Fail> {
    let alloc = rt.alloc();
    let commands = vec![in alloc;
        read_at(698, 4),
        written(alloc)?,
        read_at(510, 4),
        Command::Flush,
    ]?;
    let (storage, replies) = ran(alloc, fresh(alloc)?, Some(disk_below(alloc)?), &commands)?;
    let edge = Reply::Bytes([0x55, 0x55, 0, 0].to_vec(alloc)?);
    let over = Reply::Bytes([0x55, 0x33, 0x33, 0x55].to_vec(alloc)?);
    assert_eq!(rt;
        replies.as_slice(),
        [edge, Reply::Done, over, Reply::Done].as_slice()
    );
    // with no disk below, what the image has itself shows alone
    let looks = vec![in alloc; read_at(510, 4), read_at(1023, 2)]?;
    let (_storage, replies) = ran(alloc, storage, None, &looks)?;
    let kept = Reply::Bytes([0x55, 0x33, 0x33, 0x55].to_vec(alloc)?);
    let none = Reply::Bytes([0, 0].to_vec(alloc)?);
    assert_eq!(rt; replies.as_slice(), [kept, none].as_slice());
    Ok(())
}

// How many breaches the checker finds.
fn breaches(alloc: Global, storage: &mut TraceStorage) -> Result<usize, Fail> {
    let report = check(alloc, storage)?;
    Ok(report.breaches.len())
}

#[test]
fn each_stop_over_a_disk_below_has_its_bytes_or_the_given(rt: HostRuntime) -> Result<(), Fail> {
    let alloc = rt.alloc();
    let commands = vec![in alloc; written(alloc)?, Command::Flush]?;
    let (storage, _replies) = ran(alloc, fresh(alloc)?, Some(disk_below(alloc)?), &commands)?;
    let looks = vec![in alloc; read_at(511, 2)]?;
    let mut shown = Vec::new(alloc);
    for writes in 0..storage.writes(alloc)?.len() + 1 {
        let mut left = TraceStorage::new(alloc, storage.after(alloc, writes)?)?;
        assert_eq!(rt; breaches(alloc, &mut left)?, 0, "after {writes} writes");
        let (_left, replies) = ran(alloc, left, Some(disk_below(alloc)?), &looks)?;
        shown.push(replies)?;
    }
    let below = Reply::Bytes([0x55, 0x55].to_vec(alloc)?);
    let part = Reply::Bytes([0x33, 0x55].to_vec(alloc)?);
    let given = Reply::Bytes([0x33, 0x33].to_vec(alloc)?);
    for replies in shown.iter() {
        assert!(rt;
            [&below, &part, &given]
                .iter()
                .any(|reply| replies.first() == Some(*reply))
        );
    }
    assert_eq!(rt;
        shown.last().and_then(|replies| replies.first()),
        Some(&given)
    );
    Ok(())
}
