//! That an image's flush flushes its storage, and its sync syncs it.
ghost use Rattle.std.specs.Prelude.{◌≡◌};
ghost use Rattle.image_access.specs.Changes.{counts_all, only_all};
ghost use Rattle.image_access.specs.TraceStorage.{view_of_trace};

use super::{fresh, left_by, made, opened, refusal, write_all};
use crate::session::{Command, Reply};
use image_access::{Storage, StorageError, StoragePreallocate, TraceStorage};
use qcow2_image::{ImageError, Qcow2};
use std::alloc::{AllocError, Global};
use std::test::Fail;

// A recording storage that keeps how many changes it had at each flush and how often it was synced, or fails at all of them.
#[derive(Drop)]
struct FlushedStorage {
    inner: TraceStorage,
    fails: bool,
    flushed_at: Vec<usize>,
    syncs: usize,
}

impl FlushedStorage {
    fn new(alloc: Global, inner: TraceStorage, fails: bool) -> Self {
        FlushedStorage {
            inner,
            fails,
            flushed_at: Vec::new(alloc),
            syncs: 0,
        }
    }

    // How many flushes it was given, and whether the last one came after all changes.
    fn told(&self) -> (usize, bool) {
        let last = self.flushed_at.last().copied();
        (
            self.flushed_at.len(),
            last == Some(self.inner.changes().len()),
        )
    }
}

impl Storage for FlushedStorage {
    ghost view = { λ s. view_of_trace s.inner };

    ghost counts_now = { λ s t h le. counts_all s.inner.start s.inner.changes t le };

    ghost only_now = { λ s c had. only_all s.inner.start s.inner.changes c had };

    ghost passes = { λ call old new result. new ≡ new };

    fn name(&self) -> &str {
        self.inner.name()
    }

    fn size(&mut self) -> Result<u64, StorageError> {
        self.inner.size()
    }

    fn read(&mut self, at: u64, buf: &mut [u8]) -> Result<(), StorageError> {
        self.inner.read(at, buf)
    }

    fn write(&mut self, at: u64, bytes: &[u8]) -> Result<(), StorageError> {
        self.inner.write(at, bytes)
    }

    fn write_zeroes(&mut self, at: u64, length: u64) -> Result<(), StorageError> {
        self.inner.write_zeroes(at, length)
    }

    fn write_allocated_zeroes(&mut self, at: u64, length: u64) -> Result<(), StorageError> {
        self.inner.write_allocated_zeroes(at, length)
    }

    fn resize(&mut self, size: u64, preallocate: StoragePreallocate) -> Result<(), StorageError> {
        self.inner.resize(size, preallocate)
    }

    fn flush(&mut self) -> Result<(), StorageError> {
        self.flushed_at.push(self.inner.changes().len())?;
        if self.fails {
            self.inner.fail_at(1);
        }
        self.inner.flush()
    }

    fn sync(&mut self) -> Result<(), StorageError> {
        self.syncs += 1;
        if self.fails {
            self.inner.fail_at(1);
        }
        self.inner.sync()
    }

    fn invalidate_cache(&mut self) -> Result<(), StorageError> {
        self.inner.invalidate_cache()
    }

    fn req_align(&self) -> usize {
        1
    }

    fn mem_align(&self) -> usize {
        1
    }
}

// A new image on a storage whose flushes are kept, or fail.
fn flushed(alloc: Global, fails: bool) -> Result<FlushedStorage, Fail> {
    let inner = fresh(alloc)?;
    Ok(FlushedStorage::new(alloc, inner, fails))
}

fn a_write(alloc: Global) -> Result<Command, AllocError> {
    let bytes = vec![in alloc; 0x11; 512]?;
    Ok(Command::Write { offset: 0, bytes })
}

#[test]
fn a_flush_flushes_the_storage_last(rt: HostRuntime) -> Result<(), Fail> {
    let alloc = rt.alloc();
    let commands = vec![in alloc; a_write(alloc)?, Command::Flush]?;
    let (storage, replies) = left_by(alloc, flushed(alloc, false)?, true, &commands)?;
    assert_eq!(rt; replies.as_slice(), [Reply::Done, Reply::Done].as_slice());
    assert_eq!(rt; storage.told(), (1, true));
    Ok(())
}

#[test]
fn each_flush_flushes_the_storage(rt: HostRuntime) -> Result<(), Fail> {
    let alloc = rt.alloc();
    for writable in [false, true] {
        let commands = vec![in alloc; Command::Flush, Command::Flush]?;
        let (storage, replies) = left_by(alloc, flushed(alloc, false)?, writable, &commands)?;
        assert_eq!(rt; replies.as_slice(), [Reply::Done, Reply::Done].as_slice());
        assert_eq!(rt; storage.told(), (2, true));
    }
    Ok(())
}

#[test]
fn each_sync_syncs_the_storage(rt: HostRuntime) -> Result<(), Fail> {
    let alloc = rt.alloc();
    for writable in [false, true] {
        let commands = vec![in alloc; Command::Sync, Command::Flush, Command::Sync]?;
        let (storage, replies) = left_by(alloc, flushed(alloc, false)?, writable, &commands)?;
        assert_eq!(rt;
            replies.as_slice(),
            [Reply::Done, Reply::Done, Reply::Done].as_slice()
        );
        assert_eq!(rt; storage.syncs, 2);
        assert_eq!(rt; storage.told(), (1, true));
    }
    Ok(())
}

// A sync writes nothing that is cached, and a failed one fails the image.
#[test]
fn an_image_fails_where_its_storage_is_not_synced(rt: HostRuntime) -> Result<(), Fail> {
    let alloc = rt.alloc();
    let commands = vec![in alloc;
        a_write(alloc)?,
        Command::Sync,
        Command::Sync,
        Command::Flush,
        Command::Size,
        Command::Leaked,
    ]?;
    let refused = [
        Reply::Refused(ImageError::Storage),
        Reply::Refused(ImageError::Failed),
        Reply::Refused(ImageError::Failed),
        Reply::Size(65536),
        Reply::Leaked(0),
    ];
    let (storage, all) = left_by(alloc, flushed(alloc, true)?, true, &commands)?;
    assert_eq!(rt; all.first(), Some(&Reply::Done));
    assert_eq!(rt; &all[1..], refused.as_slice());
    assert_eq!(rt; storage.syncs, 1);
    assert_eq!(rt; storage.told(), (0, false));
    Ok(())
}

#[test]
fn nothing_else_flushes_the_storage(rt: HostRuntime) -> Result<(), Fail> {
    let alloc = rt.alloc();
    let commands = vec![in alloc; a_write(alloc)?, Command::Size]?;
    let (storage, replies) = left_by(alloc, flushed(alloc, true)?, true, &commands)?;
    assert_eq!(rt;
        replies.as_slice(),
        [Reply::Done, Reply::Size(65536)].as_slice()
    );
    assert_eq!(rt; storage.told(), (0, false));
    Ok(())
}

// A flush whose storage fails, of an image with something to be written, and of one with nothing.
#[test]
fn an_image_fails_where_its_storage_is_not_flushed(rt: HostRuntime) -> Result<(), Fail> {
    let alloc = rt.alloc();
    let read = Command::Read {
        offset: 0,
        length: 1,
    };
    let commands = vec![in alloc;
        a_write(alloc)?,
        Command::Flush,
        Command::Flush,
        read,
        Command::Size,
    ]?;
    let refused = [
        Reply::Refused(ImageError::Storage),
        Reply::Refused(ImageError::Failed),
        Reply::Refused(ImageError::Failed),
        Reply::Size(65536),
    ];
    let (storage, all) = left_by(alloc, flushed(alloc, true)?, true, &commands)?;
    assert_eq!(rt; all.first(), Some(&Reply::Done));
    assert_eq!(rt; &all[1..], refused.as_slice());
    assert_eq!(rt; storage.told(), (1, true));
    for writable in [false, true] {
        let (storage, all) = left_by(alloc, flushed(alloc, true)?, writable, &commands[1..])?;
        assert_eq!(rt; all.as_slice(), refused.as_slice());
        assert_eq!(rt; storage.told(), (1, true));
    }
    Ok(())
}

// What a refused flush leaves: all that was given is there, since only the storage's own flush failed.
fn left_by_a_refused_flush(alloc: Global) -> Result<(u8, Vec<u8>), Fail> {
    let mut image = opened(alloc, flushed(alloc, true)?, true)?;
    write_all(&mut image, 0, &[0x11; 512])?;
    let number = refusal(image.flush());
    let mut again = opened(alloc, image.into_storage(), false)?;
    Ok((number, crate::session::read(alloc, &mut again, 511, 2)?))
}

#[test]
fn a_refused_flush_of_the_storage_leaves_what_was_written(rt: HostRuntime) -> Result<(), Fail> {
    let (number, bytes) = left_by_a_refused_flush(rt.alloc())?;
    assert_eq!(rt; number, 15);
    assert_eq!(rt; bytes.as_slice(), [0x11, 0].as_slice());
    Ok(())
}

// Creating flushes a storage once, after all its changes, and is refused where that fails.
#[test]
fn a_new_image_is_flushed(rt: HostRuntime) -> Result<(), Fail> {
    let alloc = rt.alloc();
    let empty = TraceStorage::new(alloc, Vec::new(alloc))?;
    let storage = made(alloc, FlushedStorage::new(alloc, empty, false), 65536, 16)?;
    assert_eq!(rt; storage.told(), (1, true));
    let empty = TraceStorage::new(alloc, Vec::new(alloc))?;
    let done = made(alloc, FlushedStorage::new(alloc, empty, true), 65536, 16);
    assert_eq!(rt; refusal(done), 15);
    Ok(())
}
