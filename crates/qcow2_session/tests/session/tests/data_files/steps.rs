//! Many steps of all kinds, each compared with the bytes that the disk must have.
use super::super::{created, number_at};
use super::{Image, asking, data_file_of, opened_with, own_file_of, put};
use crate::session::{read, release};
use image_access::{MemBacking, PreallocateMode, TraceStorage};
use qcow2_image::ImageError;
use std::alloc::Global;
use std::test::Fail;

// The size of the disk at first: two L2 tables cover it.
const SIZE: u64 = 36352;

// Numbers that look random.
#[derive(Drop)]
struct Numbers {
    state: u64,
}

impl Numbers {
    // A number below a limit.
    fn below(&mut self, limit: u64) -> u64 {
        self.state = self
            .state
            .wrapping_mul(6_364_136_223_846_793_005)
            .wrapping_add(1_442_695_040_888_963_407);
        (self.state >> 33) % limit
    }
}

// What a session runs on: whether the header asks for the data file, and how many bytes the disk below has.
#[derive(Clone, Copy, Debug)]
struct Kind {
    asks: bool,
    below: usize,
}

// An image, the bytes that its disk must have, and those of the disk below.
#[derive(Drop)]
struct Session {
    image: Image,
    disk: Vec<u8>,
    below: Vec<u8>,
    kind: Kind,
    numbers: Numbers,
}

const MODES: [PreallocateMode; 5] = [
    PreallocateMode::None,
    PreallocateMode::Zero,
    PreallocateMode::FormatAllocate,
    PreallocateMode::FullAllocate,
    PreallocateMode::WriteData,
];

fn disk_below(alloc: Global, below: &Vec<u8>) -> Result<Option<MemBacking>, Fail> {
    if below.is_empty() {
        return Ok(None);
    }
    Ok(Some(MemBacking::new(below.as_slice().to_vec(alloc)?)))
}

impl Session {
    fn new(alloc: Global, kind: Kind, seed: u64) -> Result<Session, Fail> {
        let storage = if kind.asks {
            asking(alloc, SIZE)?
        } else {
            created(alloc, SIZE, 16)?
        };
        let below = vec![in alloc; 0x55; kind.below]?;
        // the data file has other bytes at first
        let file = TraceStorage::new(alloc, vec![in alloc; 0x99; 20000]?)?;
        let image = opened_with(alloc, storage, file, disk_below(alloc, &below)?)?;
        let mut disk = vec![in alloc; 0; SIZE as usize]?;
        disk[..kind.below].fill(0x55);
        Ok(Session {
            image,
            disk,
            below,
            kind,
            numbers: Numbers { state: seed },
        })
    }

    // A range of the disk, which has at least one byte, often at clusters' edges.
    fn range(&mut self) -> (u64, u64) {
        let size = self.disk.len() as u64;
        let mut offset = self.numbers.below(size);
        if self.numbers.below(2) == 0 {
            offset -= offset % 512;
        }
        let mut length = 1 + self.numbers.below(3000);
        if self.numbers.below(2) == 0 {
            length = 512 * (1 + length / 512);
        }
        (offset, length.min(size - offset))
    }

    fn write(&mut self, alloc: Global) -> Result<(), Fail> {
        let (offset, length) = self.range();
        let byte = 1 + self.numbers.below(255) as u8;
        let bytes = vec![in alloc; byte; length as usize]?;
        put(&mut self.image, offset, &bytes)?;
        self.disk[offset as usize..(offset + length) as usize].fill(byte);
        Ok(())
    }

    // Clears a range in one of four ways, of which the last one shows the disk below.
    fn clear(&mut self) -> Result<(), ImageError> {
        let (offset, length) = self.range();
        let way = self.numbers.below(4);
        let (from, count) = match way {
            0 => self.image.ensure_zero_mapping(offset, length)?,
            1 => self.image.discard_to_zero_unsafe(offset, length)?,
            2 => self.image.discard_to_any_unsafe(offset, length)?,
            _ => self.image.discard_to_backing_unsafe(offset, length)?,
        };
        for at in from as usize..(from + count) as usize {
            self.disk[at] = if way == 3 {
                self.below.get(at).copied().unwrap_or(0)
            } else {
                0
            };
        }
        Ok(())
    }

    // Prepares a range and drops it, which changes nothing. An existing one is written in place.
    fn drop_prepared(&mut self, alloc: Global) -> Result<(), Fail> {
        let (offset, length) = self.range();
        let overwrite = self.numbers.below(2) == 0;
        let bytes = vec![in alloc; 0xee; length as usize]?;
        let prepared = self.image.prepare_data_mapping(offset, length, overwrite)?;
        let existing = prepared.is_nonblocking() && prepared.length() == length;
        let written = if existing {
            self.image.write_mapped(&prepared, 0, &bytes)
        } else {
            Ok(())
        };
        release(&mut self.image, prepared);
        written?;
        if existing {
            self.disk[offset as usize..(offset + length) as usize].fill(0xee);
        }
        Ok(())
    }

    // Another size: of whole clusters where the data file doesn't end with the disk.
    fn size(&mut self, from: u64, most: u64) -> u64 {
        let size = from + self.numbers.below(most);
        if self.kind.asks {
            size
        } else {
            size - size % 512
        }
    }

    fn grow(&mut self) -> Result<(), Fail> {
        let old = self.disk.len() as u64;
        let size = self.size(old + 512, 30000);
        let mode = MODES[self.numbers.below(5) as usize];
        self.image.resize_grow(size, mode)?;
        self.disk.resize(size as usize, 0)?;
        Ok(())
    }

    fn shrink(&mut self) -> Result<(), Fail> {
        let old = self.disk.len() as u64;
        let size = self.size(old / 2, old / 2);
        assert_size(self.image.resize_shrink(size)?, old)?;
        self.disk.truncate(size as usize);
        Ok(())
    }

    // Flushes, and opens the image again with what both files hold.
    fn reopen(&mut self, alloc: Global) -> Result<(), Fail> {
        self.image.flush()?;
        let file = data_file_of(alloc, &self.image)?;
        let storage = own_file_of(alloc, &self.image)?;
        self.image = opened_with(alloc, storage, file, disk_below(alloc, &self.below)?)?;
        Ok(())
    }

    fn step(&mut self, alloc: Global) -> Result<(), Fail> {
        match self.numbers.below(12) {
            0..=4 => self.write(alloc),
            5..=7 => Ok(self.clear()?),
            8 => self.drop_prepared(alloc),
            9 => self.reopen(alloc),
            10 if self.below.is_empty() && self.disk.len() < 60_000 => self.grow(),
            11 if self.below.is_empty() && self.disk.len() > 2000 => self.shrink(),
            _ => Ok(self.image.flush()?),
        }
    }

    // Whether the disk is as it must be.
    fn is_right(&mut self, alloc: Global) -> Result<bool, Fail> {
        let size = self.disk.len() as u64;
        if self.image.size() != size || self.image.leaked_clusters() != 0 {
            return Ok(false);
        }
        let shown = read(alloc, &mut self.image, 0, size)?;
        Ok(shown.as_slice() == self.disk.as_slice())
    }

    // How often clusters are counted, and how often tables and, without the bit, entries use one.
    fn counts(&mut self, alloc: Global) -> Result<(u64, u64), Fail> {
        self.image.flush()?;
        let mut own = own_file_of(alloc, &self.image)?;
        let mut counted = 0;
        for at in 0..64 {
            let four = number_at(&mut own, 1024 + 8 * at)?;
            counted += (four >> 48) + (four >> 32) % 65536 + (four >> 16) % 65536 + four % 65536;
        }
        let entries = number_at(&mut own, 32)? % (1 << 32);
        let table = number_at(&mut own, 40)?;
        // header, reftable and refblock
        let mut used = 3 + (8 * entries).div_ceil(512);
        for l1 in 0..entries {
            let place = number_at(&mut own, table + 8 * l1)? % (1 << 56);
            if place == 0 {
                continue;
            }
            used += 1;
            for l2 in 0..64 {
                let entry = number_at(&mut own, place + 8 * l2)?;
                if !self.kind.asks && entry % (1 << 56) > 511 {
                    used += 1;
                }
                if self.kind.asks && entry >> 63 == 1 {
                    used += wrong(entry % (1 << 56) & !511, 512 * (64 * l1 + l2));
                }
            }
        }
        Ok((counted, used))
    }
}

// A great number where an entry doesn't have the guest's own offset.
fn wrong(found: u64, guest: u64) -> u64 {
    if found == guest { 0 } else { 1_000_000 }
}

fn assert_size(found: u64, wanted: u64) -> Result<(), Fail> {
    if found != wanted {
        return Err("the tail wasn't discarded")?;
    }
    Ok(())
}

#[test]
fn each_step_leaves_the_disk_that_it_must(rt: HostRuntime) -> Result<(), Fail> {
    let alloc = rt.alloc();
    for asks in [true, false] {
        for below in [0, 5000] {
            let kind = Kind { asks, below };
            for seed in [1, 2] {
                let mut session = Session::new(alloc, kind, seed)?;
                for step in 0..60 {
                    session.step(alloc)?;
                    assert!(rt; session.is_right(alloc)?, "{kind:?}, {seed}, step {step}");
                }
                let (counted, used) = session.counts(alloc)?;
                assert_eq!(rt; counted, used, "{kind:?}, {seed}");
                session.reopen(alloc)?;
                assert!(rt; session.is_right(alloc)?, "{kind:?}, {seed}, in the end");
            }
        }
    }
    Ok(())
}
