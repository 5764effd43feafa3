mod boxes;
mod commands;
mod creating;
mod data_files;
mod flushes;
mod images;
mod invalidation;
mod mappings;
mod overlays;
mod recorded;
mod sizes;
mod writes;

use super::{read, write};
use crate::session::{Command, Reply, run};
use image_access::{Storage, StorageError, TraceStorage};
use qcow2_image::{ImageError, MappingKind, Qcow2, Qcow2CreateBuilder};
use std::alloc::{AllocError, Global};
use std::test::Fail;

// What calls the driver is generic, and the tests themselves compare plain values.

// Makes an image in clusters of 512 bytes.
fn made<S: Storage>(alloc: Global, storage: S, size: u64, width: u64) -> Result<S, ImageError> {
    let builder = Qcow2CreateBuilder::new(storage)
        .size(size)
        .cluster_size(512)
        .refcount_width(width);
    let (storage, done) = builder.create(alloc);
    done?;
    Ok(storage)
}

// A storage with a new image, and what was written to make it.
fn created(alloc: Global, size: u64, width: u64) -> Result<TraceStorage, Fail> {
    let storage = TraceStorage::new(alloc, Vec::new(alloc))?;
    Ok(made(alloc, storage, size, width)?)
}

// The same contents, with nothing traced yet.
fn copied(alloc: Global, storage: &TraceStorage) -> Result<TraceStorage, AllocError> {
    TraceStorage::new(alloc, storage.as_slice().to_vec(alloc)?)
}

// The contents after so many writes, with nothing traced yet.
fn stopped(
    alloc: Global,
    storage: &TraceStorage,
    writes: usize,
) -> Result<TraceStorage, AllocError> {
    TraceStorage::new(alloc, storage.after(alloc, writes)?)
}

// A new image of 65,536 bytes, with nothing traced yet.
fn fresh(alloc: Global) -> Result<TraceStorage, Fail> {
    let storage = created(alloc, 65536, 16)?;
    Ok(copied(alloc, &storage)?)
}

fn opened<S: Storage>(alloc: Global, storage: S, writable: bool) -> Result<Qcow2<S>, ImageError> {
    match Qcow2::open_image(alloc, storage, writable, 1) {
        Ok(image) => Ok(image),
        Err((_storage, refusal)) => Err(refusal),
    }
}

// The replies to commands on an image that is opened for writing or not, and the storage afterwards.
fn left_by<S: Storage>(
    alloc: Global,
    storage: S,
    writable: bool,
    commands: &[Command],
) -> Result<(S, Vec<Reply>), ImageError> {
    let mut image = opened(alloc, storage, writable)?;
    let replies = run(alloc, &mut image, commands);
    Ok((image.into_storage(), replies))
}

// What the image says of a range of its disk.
fn mapped<S: Storage>(
    alloc: Global,
    storage: S,
    offset: u64,
    max: u64,
) -> Result<(MappingKind, u64), ImageError> {
    let mut image = opened(alloc, storage, false)?;
    let (mapping, length) = image.get_mapping(offset, max)?;
    Ok((mapping.kind, length))
}

// The guest's bytes of a range.
fn guest_bytes<S: Storage>(
    alloc: Global,
    storage: S,
    offset: u64,
    length: u64,
) -> Result<Vec<u8>, ImageError> {
    let mut image = opened(alloc, storage, false)?;
    read(alloc, &mut image, offset, length)
}

// Writes all bytes and flushes.
fn written<S: Storage>(
    alloc: Global,
    storage: S,
    offset: u64,
    bytes: &[u8],
) -> Result<S, ImageError> {
    let mut image = opened(alloc, storage, true)?;
    write_all(&mut image, offset, bytes)?;
    image.flush()?;
    Ok(image.into_storage())
}

fn write_all<S: Storage>(
    image: &mut Qcow2<S>,
    offset: u64,
    bytes: &[u8],
) -> Result<(), ImageError> {
    match write(image, offset, bytes) {
        Ok(()) => Ok(()),
        Err((refusal, _done)) => Err(refusal),
    }
}

// Eight bytes of the file, the highest first.
fn number_at<S: Storage>(storage: &mut S, at: u64) -> Result<u64, StorageError> {
    let mut bytes = [0u8; 8];
    storage.read(at, &mut bytes)?;
    Ok(u64::from_be_bytes(bytes))
}

// The number of a refusal, 0 where there is none.
fn refusal<T: Drop>(answer: Result<T, ImageError>) -> u8 {
    match answer {
        Ok(_value) => 0,
        Err(refusal) => refusal.number(),
    }
}
