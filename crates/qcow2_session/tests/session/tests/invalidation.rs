//! Images that drop what they keep of their file, and read it anew.
ghost use Rattle.std.specs.Prelude.{◌≡◌};
ghost use Rattle.image_access.specs.Changes.{counts_all, only_all};
ghost use Rattle.image_access.specs.TraceStorage.{view_of_trace};

use super::{fresh, guest_bytes, left_by, opened, refusal, write_all};
use crate::session::{Command, Reply, read, release};
use image_access::{Storage, StorageError, StoragePreallocate, TraceStorage};
use qcow2_image::{ImageError, Qcow2};
use std::alloc::Global;
use std::test::Fail;

// A byte of the header's offset of the L1 table.
const L1_PLACE: u64 = 46;

// A storage whose header names the refblock as the L1 table from its first invalidation on, up to the next one.
#[derive(Drop)]
struct TurningStorage {
    inner: TraceStorage,
    is_turned: bool,
}

impl Storage for TurningStorage {
    ghost view = { λ s. view_of_trace s.inner };

    ghost counts_now = { λ s t h le. counts_all s.inner.start s.inner.changes t le };

    ghost only_now = { λ s c had. only_all s.inner.start s.inner.changes c had };

    ghost passes = { λ call old new result. new ≡ new };

    fn name(&self) -> &str {
        self.inner.name()
    }

    fn size(&mut self) -> Result<u64, StorageError> {
        self.inner.size()
    }

    fn read(&mut self, at: u64, buf: &mut [u8]) -> Result<(), StorageError> {
        self.inner.read(at, buf)?;
        let length = buf.len() as u64;
        if self.is_turned && at <= L1_PLACE && L1_PLACE - at < length {
            buf[(L1_PLACE - at) as usize] = 4;
        }
        Ok(())
    }

    fn write(&mut self, at: u64, bytes: &[u8]) -> Result<(), StorageError> {
        self.inner.write(at, bytes)
    }

    fn write_zeroes(&mut self, at: u64, length: u64) -> Result<(), StorageError> {
        self.inner.write_zeroes(at, length)
    }

    fn write_allocated_zeroes(&mut self, at: u64, length: u64) -> Result<(), StorageError> {
        self.inner.write_allocated_zeroes(at, length)
    }

    fn resize(&mut self, size: u64, preallocate: StoragePreallocate) -> Result<(), StorageError> {
        self.inner.resize(size, preallocate)
    }

    fn flush(&mut self) -> Result<(), StorageError> {
        self.inner.flush()
    }

    fn sync(&mut self) -> Result<(), StorageError> {
        self.inner.sync()
    }

    fn invalidate_cache(&mut self) -> Result<(), StorageError> {
        self.is_turned = !self.is_turned;
        self.inner.invalidate_cache()
    }

    fn req_align(&self) -> usize {
        1
    }

    fn mem_align(&self) -> usize {
        1
    }
}

// Two bytes at the border of two clusters, before an image is invalidated and afterwards.
fn around<S: Storage>(
    alloc: Global,
    storage: S,
    flushes: bool,
) -> Result<[(u8, u8); 2], ImageError> {
    let mut image = opened(alloc, storage, true)?;
    write_all(&mut image, 0, &[0x11; 512])?;
    if flushes {
        image.flush()?;
    }
    let before = at_border(alloc, &mut image)?;
    image.invalidate_cache()?;
    let after = at_border(alloc, &mut image)?;
    Ok([before, after])
}

fn at_border<S: Storage>(alloc: Global, image: &mut Qcow2<S>) -> Result<(u8, u8), ImageError> {
    match read(alloc, image, 511, 2)?.as_slice() {
        [first, second] => Ok((*first, *second)),
        _ => Ok((0, 0xff)),
    }
}

#[test]
fn an_invalidated_image_is_the_same_after_a_flush(rt: HostRuntime) -> Result<(), Fail> {
    let alloc = rt.alloc();
    let shown = around(alloc, fresh(alloc)?, true)?;
    assert_eq!(rt; shown, [(0x11, 0), (0x11, 0)]);
    Ok(())
}

#[test]
fn what_was_not_flushed_is_lost(rt: HostRuntime) -> Result<(), Fail> {
    let alloc = rt.alloc();
    let shown = around(alloc, fresh(alloc)?, false)?;
    assert_eq!(rt; shown, [(0x11, 0), (0, 0)]);
    Ok(())
}

// The refusals while a mapping is prepared, once more, and after it was discarded.
fn beside_a_mapping<S: Storage>(alloc: Global, storage: S) -> Result<[u8; 3], ImageError> {
    let mut image = opened(alloc, storage, true)?;
    let prepared = image.prepare_data_mapping(0, 512, true)?;
    let first = refusal(image.invalidate_cache());
    let second = refusal(image.invalidate_cache());
    release(&mut image, prepared);
    Ok([first, second, refusal(image.invalidate_cache())])
}

#[test]
fn no_image_is_invalidated_beside_a_prepared_mapping(rt: HostRuntime) -> Result<(), Fail> {
    let alloc = rt.alloc();
    let refused = beside_a_mapping(alloc, fresh(alloc)?)?;
    assert_eq!(rt; refused, [21, 21, 0]);
    Ok(())
}

// What a write under a new L2 table leaves after a refused invalidation, with the refusals of that one and of the next.
fn beyond_a_refusal<S: Storage>(alloc: Global, storage: S) -> Result<([u8; 2], S), ImageError> {
    let mut image = opened(alloc, storage, true)?;
    write_all(&mut image, 0, &[0x11; 512])?;
    image.flush()?;
    let first = refusal(image.invalidate_cache());
    write_all(&mut image, 32768, &[0x22; 512])?;
    image.flush()?;
    let second = refusal(image.invalidate_cache());
    Ok(([first, second], image.into_storage()))
}

#[test]
fn a_refused_invalidation_keeps_the_tables_that_it_had(rt: HostRuntime) -> Result<(), Fail> {
    let alloc = rt.alloc();
    let turning = TurningStorage {
        inner: fresh(alloc)?,
        is_turned: false,
    };
    let (refused, storage) = beyond_a_refusal(alloc, turning)?;
    assert_eq!(rt; refused, [19, 0]);
    let first = guest_bytes(alloc, storage, 0, 1)?;
    assert_eq!(rt; first.as_slice(), [0x11].as_slice());
    Ok(())
}

#[test]
fn a_write_behind_a_refused_invalidation_is_there(rt: HostRuntime) -> Result<(), Fail> {
    let alloc = rt.alloc();
    let turning = TurningStorage {
        inner: fresh(alloc)?,
        is_turned: false,
    };
    let (_refused, storage) = beyond_a_refusal(alloc, turning)?;
    let written = guest_bytes(alloc, storage, 32768, 1)?;
    assert_eq!(rt; written.as_slice(), [0x22].as_slice());
    Ok(())
}

// The number of a reply's refusal, 0 where it is done.
fn number_of(reply: &Reply) -> u8 {
    match reply {
        Reply::Done => 0,
        Reply::Refused(refusal) => refusal.number(),
        _ => 255,
    }
}

#[test]
fn a_command_invalidates_but_beside_a_prepared_mapping(rt: HostRuntime) -> Result<(), Fail> {
    let alloc = rt.alloc();
    let prepare = Command::PrepareDataMapping {
        slot: 0,
        offset: 512,
        length: 512,
        overwrite: true,
    };
    let discard = Command::DiscardDataMapping { slot: 0 };
    let commands = vec![in alloc;
        Command::InvalidateCache,
        prepare,
        Command::InvalidateCache,
        discard,
        Command::InvalidateCache,
    ]?;
    let (_storage, replies) = left_by(alloc, fresh(alloc)?, true, &commands)?;
    let mut numbers = [0u8; 5];
    for (number, reply) in numbers.iter_mut().zip(replies.iter()) {
        *number = number_of(reply);
    }
    assert_eq!(rt; numbers, [0, 255, 21, 0, 0]);
    Ok(())
}
