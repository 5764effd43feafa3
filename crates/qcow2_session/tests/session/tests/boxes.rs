//! That calls take storages and disks below of all types, in boxes.
use super::{made, opened};
use crate::boxes::{
    AnyDisk, AnyStorage, create_in_boxes, open_and_run_in_boxes, open_in_boxes, read_in_boxes,
    run_in_boxes, write_in_boxes,
};
use crate::headline::open_and_run;
use crate::session::{Command, Reply};
use image_access::{BackingDisk, DynStorage, MemBacking, MemStorage, Storage, TraceStorage};
use qcow2_image::{ImageError, Qcow2, Qcow2CreateBuilder};
use std::alloc::{AllocError, Global};
use std::test::Fail;

// New images, one in memory and one in a storage that keeps its changes.
fn mixed(alloc: Global) -> Result<[Box<dyn DynStorage>; 2], ImageError> {
    let memory: Box<dyn DynStorage> = Box::new(alloc, MemStorage::new(Vec::new(alloc)))?;
    let trace: Box<dyn DynStorage> = Box::new(alloc, TraceStorage::new(alloc, Vec::new(alloc))?)?;
    Ok([
        made(alloc, memory, 65536, 16)?,
        made(alloc, trace, 65536, 16)?,
    ])
}

// Writes over the edge of two clusters, flushes, and reads around it.
fn commands(alloc: Global) -> Result<Vec<Command>, AllocError> {
    let mut commands = Vec::new(alloc);
    let bytes = vec![in alloc; 0x33; 2]?;
    commands.push(Command::Write { offset: 511, bytes })?;
    commands.push(Command::Flush)?;
    commands.push(Command::Read {
        offset: 510,
        length: 4,
    })?;
    Ok(commands)
}

// Runs commands on an image in a storage, and hands the storage back with the replies.
fn ran<S: Storage>(
    alloc: Global,
    storage: S,
    commands: &[Command],
) -> Result<(S, Vec<Reply>), ImageError> {
    match open_and_run::<S, Box<dyn BackingDisk>>(alloc, storage, None, 1, commands) {
        Ok((image, replies)) => Ok((image.into_storage(), replies)),
        Err((_storage, refusal)) => Err(refusal),
    }
}

#[test]
fn storages_of_all_types_run_alike(rt: HostRuntime) -> Result<(), Fail> {
    let alloc = rt.alloc();
    let commands = commands(alloc)?;
    for (storage, name) in mixed(alloc)?.into_iter().zip(["mem", "trace"]) {
        let (storage, replies) = ran(alloc, storage, &commands)?;
        let bytes = [0, 0x33, 0x33, 0].to_vec(alloc)?;
        assert_eq!(rt;
            replies.as_slice(),
            [Reply::Done, Reply::Done, Reply::Bytes(bytes)].as_slice()
        );
        assert_eq!(rt; storage.name(), name);
    }
    Ok(())
}

// Runs commands on an image in a box, over a disk in a box if one is given, and leaves it open.
fn ran_in_boxes(
    alloc: Global,
    storage: AnyStorage,
    below: Option<AnyDisk>,
    commands: &[Command],
) -> Result<(Qcow2<AnyStorage, AnyDisk>, Vec<Reply>), ImageError> {
    match open_and_run_in_boxes(alloc, storage, below, 1, commands) {
        Ok(ran) => Ok(ran),
        Err((_storage, refusal)) => Err(refusal),
    }
}

#[test]
fn an_image_in_a_box_shows_the_disk_in_a_box_below(rt: HostRuntime) -> Result<(), Fail> {
    let alloc = rt.alloc();
    let commands = commands(alloc)?;
    for storage in mixed(alloc)? {
        let below: AnyDisk = Box::new(alloc, MemBacking::new(vec![in alloc; 0x55; 700]?))?;
        let (mut image, replies) = ran_in_boxes(alloc, storage, Some(below), &commands)?;
        let bytes = [0x55, 0x33, 0x33, 0x55].to_vec(alloc)?;
        assert_eq!(rt;
            replies.as_slice(),
            [Reply::Done, Reply::Done, Reply::Bytes(bytes)].as_slice()
        );
        // the open image is read and written
        assert!(rt; write_in_boxes(&mut image, 510, &[0x77]).is_ok());
        let bytes = read_in_boxes(alloc, &mut image, 509, 3)?;
        assert_eq!(rt; bytes.as_slice(), [0x55, 0x77, 0x33].as_slice());
        let replies = run_in_boxes(alloc, &mut image, &commands[1..2]);
        assert_eq!(rt; replies.as_slice(), [Reply::Done].as_slice());
        // what was written stays, and is read with no disk below
        let (_image, replies) = ran_in_boxes(alloc, image.into_storage(), None, &commands[2..3])?;
        let kept = [0x77, 0x33, 0x33, 0x55].to_vec(alloc)?;
        assert_eq!(rt; replies.as_slice(), [Reply::Bytes(kept)].as_slice());
    }
    Ok(())
}

// What an image in a storage is printed as, and the names of the storages that it is over.
fn names<S: Storage>(alloc: Global, storage: S) -> Result<(String, Vec<String>), ImageError> {
    let image: Qcow2<S> = opened(alloc, storage, false)?;
    let mut names = Vec::new(alloc);
    for storage in image.collect_storage_dependencies(alloc)? {
        names.push(storage.name().to_string(alloc)?)?;
    }
    Ok((image.to_string(alloc)?, names))
}

#[test]
fn an_image_is_printed_by_the_name_of_its_storage(rt: HostRuntime) -> Result<(), Fail> {
    let alloc = rt.alloc();
    for (storage, printed) in mixed(alloc)?
        .into_iter()
        .zip([("qcow2[mem]", "mem"), ("qcow2[trace]", "trace")])
    {
        let (image, storages) = names(alloc, storage)?;
        assert_eq!(rt; image.as_str(), printed.0);
        assert_eq!(rt; storages.len(), 1);
        assert_eq!(rt; storages[0].as_str(), printed.1);
    }
    Ok(())
}

// An empty storage in memory, in a box.
fn empty(alloc: Global) -> Result<AnyStorage, AllocError> {
    Ok(Box::new(alloc, MemStorage::new(Vec::new(alloc)))?)
}

// Creates an image in a box, and opens it for writing.
fn created_in_boxes(alloc: Global) -> Result<Qcow2<AnyStorage, AnyDisk>, ImageError> {
    let builder = Qcow2CreateBuilder::new(empty(alloc)?).size(65536);
    let (storage, done) = create_in_boxes(alloc, builder);
    done?;
    match open_in_boxes(alloc, Qcow2::builder(storage, 1).write(true)) {
        Ok(image) => Ok(image),
        Err((_storage, refusal)) => Err(refusal),
    }
}

#[test]
fn builders_take_storages_in_boxes(rt: HostRuntime) -> Result<(), Fail> {
    let alloc = rt.alloc();
    let mut image = created_in_boxes(alloc)?;
    assert!(rt; write_in_boxes(&mut image, 65534, &[0x77]).is_ok());
    let bytes = read_in_boxes(alloc, &mut image, 65533, 3)?;
    assert_eq!(rt; bytes.as_slice(), [0, 0x77, 0].as_slice());
    Ok(())
}
