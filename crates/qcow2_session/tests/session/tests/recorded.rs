//! That what a run has written opens again, wherever it is stopped.
use super::{fresh, refusal, stopped};
use crate::session::{Command, Reply};
use crate::{check, open_and_run_recorded};
use image_access::{MemBacking, TraceStorage};
use qcow2_image::ImageError;
use std::alloc::{AllocError, Global};
use std::test::Fail;

// Runs commands on an image: the storage then, and the replies.
fn recorded(
    alloc: Global,
    storage: TraceStorage,
    commands: &[Command],
) -> Result<(TraceStorage, Vec<Reply>), ImageError> {
    match open_and_run_recorded::<MemBacking>(alloc, storage, None, 1, commands) {
        Ok((image, replies)) => Ok((image.into_storage(), replies)),
        Err((_storage, refusal)) => Err(refusal),
    }
}

// Writes to two clusters with a flush between.
fn two_writes(alloc: Global) -> Result<Vec<Command>, AllocError> {
    let mut commands = Vec::new(alloc);
    for offset in [0, 40000] {
        let bytes = vec![in alloc; 0x11; 512]?;
        commands.push(Command::Write { offset, bytes })?;
        commands.push(Command::Flush)?;
    }
    Ok(commands)
}

#[test]
fn a_run_opens_again_after_each_of_its_writes(rt: HostRuntime) -> Result<(), Fail> {
    let alloc = rt.alloc();
    let commands = two_writes(alloc)?;
    let (storage, replies) = recorded(alloc, fresh(alloc)?, &commands)?;
    let done = [Reply::Done, Reply::Done, Reply::Done, Reply::Done];
    assert_eq!(rt; replies.as_slice(), done.as_slice());
    let writes = storage.writes(alloc)?.len();
    assert!(rt; writes > 8);
    for k in 0..writes {
        let mut left = stopped(alloc, &storage, k)?;
        assert_eq!(rt; check(alloc, &mut left)?.breaches.len(), 0);
        let (_again, replies) = recorded(alloc, left, &commands)?;
        assert_eq!(rt; replies.as_slice(), done.as_slice());
    }
    Ok(())
}

#[test]
fn a_recorded_opening_hands_back_what_is_refused(rt: HostRuntime) -> Result<(), Fail> {
    let alloc = rt.alloc();
    let storage = TraceStorage::new(alloc, vec![in alloc; 0; 512]?)?;
    assert_eq!(rt; refusal(recorded(alloc, storage, &[])), 19);
    Ok(())
}
