//! Guest offsets that no L2 entry can hold.
ghost use Rattle.std.specs.Prelude.{◌≡◌};
ghost use Rattle.image_access.specs.Changes.{counts_all, only_all};
ghost use Rattle.image_access.specs.TraceStorage.{view_of_trace};

use super::super::refusal;
use super::empty;
use crate::session::{release, write};
use image_access::{MemBacking, Storage, StorageError, StoragePreallocate, TraceStorage};
use qcow2_image::{ImageError, Qcow2, Qcow2CreateBuilder};
use std::alloc::{AllocError, Global};
use std::test::Fail;

// A storage that may keep nothing: then all of its bytes are zero, at any offset.
#[derive(Drop)]
struct FarStorage {
    inner: TraceStorage,
    keeps: bool,
}

impl Storage for FarStorage {
    ghost view = { λ s. view_of_trace s.inner };

    ghost counts_now = { λ s t h le. counts_all s.inner.start s.inner.changes t le };

    ghost only_now = { λ s c had. only_all s.inner.start s.inner.changes c had };

    ghost passes = { λ call old new result. new ≡ new };

    fn name(&self) -> &str {
        "far"
    }

    fn size(&mut self) -> Result<u64, StorageError> {
        self.inner.size()
    }

    fn read(&mut self, at: u64, buf: &mut [u8]) -> Result<(), StorageError> {
        self.inner.read(at, buf)
    }

    fn write(&mut self, at: u64, bytes: &[u8]) -> Result<(), StorageError> {
        if self.keeps {
            self.inner.write(at, bytes)
        } else {
            Ok(())
        }
    }

    fn write_zeroes(&mut self, at: u64, length: u64) -> Result<(), StorageError> {
        if self.keeps {
            self.inner.write_zeroes(at, length)
        } else {
            Ok(())
        }
    }

    fn write_allocated_zeroes(&mut self, at: u64, length: u64) -> Result<(), StorageError> {
        self.write_zeroes(at, length)
    }

    fn resize(&mut self, size: u64, preallocate: StoragePreallocate) -> Result<(), StorageError> {
        if self.keeps {
            self.inner.resize(size, preallocate)
        } else {
            Ok(())
        }
    }

    fn flush(&mut self) -> Result<(), StorageError> {
        self.inner.flush()
    }

    fn sync(&mut self) -> Result<(), StorageError> {
        self.inner.sync()
    }

    fn invalidate_cache(&mut self) -> Result<(), StorageError> {
        self.inner.invalidate_cache()
    }

    fn req_align(&self) -> usize {
        1
    }

    fn mem_align(&self) -> usize {
        1
    }
}

type Image = Qcow2<FarStorage, MemBacking>;

fn far(alloc: Global, keeps: bool) -> Result<FarStorage, AllocError> {
    Ok(FarStorage {
        inner: empty(alloc)?,
        keeps,
    })
}

// Where a range is prepared, and how long.
fn prepared(image: &mut Image, offset: u64, length: u64) -> Result<(u64, u64), ImageError> {
    let prepared = image.prepare_data_mapping(offset, length, true)?;
    let place = (prepared.offset(), prepared.length());
    release(image, prepared);
    Ok(place)
}

const CLUSTER: u64 = 2097152;

#[test]
fn an_entry_holds_offsets_of_56_bits(rt: HostRuntime) -> Result<(), Fail> {
    let alloc = rt.alloc();
    let builder = Qcow2CreateBuilder::new(far(alloc, true)?)
        .size((1 << 56) + CLUSTER)
        .cluster_size(CLUSTER)
        .data_file("data.raw".to_string(alloc)?, far(alloc, false)?);
    let made = builder.create_open(alloc, |made| Ok(Qcow2::builder(made, 1)));
    let Ok(mut image) = made else {
        return Err("it isn't made")?;
    };
    let image: &mut Image = &mut image;
    let last = (1 << 56) - CLUSTER;
    assert_eq!(rt; prepared(image, last, CLUSTER)?, (last, CLUSTER));
    assert_eq!(rt; prepared(image, (1 << 56) - 1, 5)?, ((1 << 56) - 1, 1));
    assert_eq!(rt; refusal(prepared(image, 1 << 56, 1)), 13);
    // a write that passes there ends at the edge of the clusters
    let refused = match write(image, (1 << 56) - 3, &[0x11; 5]) {
        Ok(()) => (0, 5),
        Err((refusal, done)) => (refusal.number(), done),
    };
    assert_eq!(rt; refused, (13, 3));
    let (mapping, length) = image.get_mapping((1 << 56) - 3, 5)?;
    assert_eq!(rt;
        (mapping.kind, length),
        (super::in_data_file((1 << 56) - 3), 3)
    );
    // the image goes on
    assert_eq!(rt; prepared(image, 0, 1)?, (0, CLUSTER));
    image.flush()?;
    assert_eq!(rt; image.leaked_clusters(), 0);
    Ok(())
}
