use crate::{Device, Errno, State, serve};
use std::alloc::Global;
use std::io;
use std::io::ErrorKind;
use std::test::Fail;

// What a client sends, or what a plain server of the protocol answered to it.
const SIMPLE: [u8; 199] = [
    0, 0, 0, 3, 73, 72, 65, 86, 69, 79, 80, 84, 0, 0, 0, 7, 0, 0, 0, 6, 0, 0, 0, 0, 0, 0, 37, 96,
    149, 19, 0, 0, 0, 1, 0, 0, 0, 0, 0, 0, 0, 1, 0, 0, 0, 0, 0, 0, 0, 5, 0, 0, 0, 3, 97, 98, 99,
    37, 96, 149, 19, 0, 0, 0, 0, 0, 0, 0, 0, 0, 0, 0, 2, 0, 0, 0, 0, 0, 0, 0, 4, 0, 0, 0, 5, 37,
    96, 149, 19, 0, 0, 0, 1, 0, 0, 0, 0, 0, 0, 0, 3, 0, 0, 0, 0, 0, 0, 0, 15, 0, 0, 0, 2, 120, 121,
    37, 96, 149, 19, 0, 0, 0, 3, 0, 0, 0, 0, 0, 0, 0, 4, 0, 0, 0, 0, 0, 0, 0, 0, 0, 0, 0, 0, 37,
    96, 149, 19, 0, 0, 0, 0, 0, 0, 0, 0, 0, 0, 0, 5, 0, 0, 0, 0, 0, 0, 0, 16, 0, 0, 0, 1, 37, 96,
    149, 19, 0, 0, 0, 2, 0, 0, 0, 0, 0, 0, 0, 6, 0, 0, 0, 0, 0, 0, 0, 0, 0, 0, 0, 0,
];

// What a client sends, or what a plain server of the protocol answered to it.
const SIMPLE_REPLIES: [u8; 189] = [
    78, 66, 68, 77, 65, 71, 73, 67, 73, 72, 65, 86, 69, 79, 80, 84, 0, 3, 0, 3, 232, 137, 4, 85,
    101, 169, 0, 0, 0, 7, 0, 0, 0, 3, 0, 0, 0, 12, 0, 0, 0, 0, 0, 0, 0, 0, 0, 16, 4, 109, 0, 3,
    232, 137, 4, 85, 101, 169, 0, 0, 0, 7, 0, 0, 0, 3, 0, 0, 0, 14, 0, 3, 0, 0, 0, 1, 0, 0, 16, 0,
    2, 0, 0, 0, 0, 3, 232, 137, 4, 85, 101, 169, 0, 0, 0, 7, 0, 0, 0, 1, 0, 0, 0, 0, 103, 68, 102,
    152, 0, 0, 0, 0, 0, 0, 0, 0, 0, 0, 0, 1, 103, 68, 102, 152, 0, 0, 0, 0, 0, 0, 0, 0, 0, 0, 0, 2,
    0, 97, 98, 99, 0, 103, 68, 102, 152, 0, 0, 0, 28, 0, 0, 0, 0, 0, 0, 0, 3, 103, 68, 102, 152, 0,
    0, 0, 0, 0, 0, 0, 0, 0, 0, 0, 4, 103, 68, 102, 152, 0, 0, 0, 22, 0, 0, 0, 0, 0, 0, 0, 5,
];

// What a client sends, or what a plain server of the protocol answered to it.
const STRUCTURED: [u8; 392] = [
    0, 0, 0, 3, 73, 72, 65, 86, 69, 79, 80, 84, 0, 0, 0, 3, 0, 0, 0, 0, 73, 72, 65, 86, 69, 79, 80,
    84, 0, 0, 0, 8, 0, 0, 0, 0, 73, 72, 65, 86, 69, 79, 80, 84, 0, 0, 0, 10, 0, 0, 0, 27, 0, 0, 0,
    0, 0, 0, 0, 1, 0, 0, 0, 15, 98, 97, 115, 101, 58, 97, 108, 108, 111, 99, 97, 116, 105, 111,
    110, 73, 72, 65, 86, 69, 79, 80, 84, 0, 0, 0, 9, 0, 0, 0, 8, 0, 0, 0, 0, 0, 0, 0, 0, 73, 72,
    65, 86, 69, 79, 80, 84, 0, 0, 0, 99, 0, 0, 0, 1, 120, 73, 72, 65, 86, 69, 79, 80, 84, 0, 0, 0,
    6, 0, 0, 0, 6, 0, 0, 0, 0, 0, 0, 73, 72, 65, 86, 69, 79, 80, 84, 0, 0, 0, 7, 0, 0, 0, 6, 0, 0,
    0, 0, 0, 0, 37, 96, 149, 19, 0, 1, 0, 1, 0, 0, 0, 0, 0, 0, 0, 1, 0, 0, 0, 0, 0, 0, 0, 0, 0, 0,
    0, 4, 119, 120, 121, 122, 37, 96, 149, 19, 0, 0, 0, 0, 0, 0, 0, 0, 0, 0, 0, 2, 0, 0, 0, 0, 0,
    0, 0, 1, 0, 0, 0, 3, 37, 96, 149, 19, 0, 8, 0, 7, 0, 0, 0, 0, 0, 0, 0, 3, 0, 0, 0, 0, 0, 0, 0,
    0, 0, 0, 0, 16, 37, 96, 149, 19, 0, 2, 0, 6, 0, 0, 0, 0, 0, 0, 0, 4, 0, 0, 0, 0, 0, 0, 0, 1, 0,
    0, 0, 2, 37, 96, 149, 19, 0, 0, 0, 4, 0, 0, 0, 0, 0, 0, 0, 5, 0, 0, 0, 0, 0, 0, 0, 0, 0, 0, 0,
    16, 37, 96, 149, 19, 0, 0, 0, 0, 0, 0, 0, 0, 0, 0, 0, 6, 0, 0, 0, 0, 0, 0, 0, 0, 0, 0, 0, 4,
    37, 96, 149, 19, 0, 0, 0, 9, 0, 0, 0, 0, 0, 0, 0, 7, 0, 0, 0, 0, 0, 0, 0, 0, 0, 0, 0, 1, 37,
    96, 149, 19, 0, 0, 0, 2, 0, 0, 0, 0, 0, 0, 0, 8, 0, 0, 0, 0, 0, 0, 0, 0, 0, 0, 0, 0,
];

// What a client sends, or what a plain server of the protocol answered to it.
const STRUCTURED_REPLIES: [u8; 573] = [
    78, 66, 68, 77, 65, 71, 73, 67, 73, 72, 65, 86, 69, 79, 80, 84, 0, 3, 0, 3, 232, 137, 4, 85,
    101, 169, 0, 0, 0, 3, 0, 0, 0, 2, 0, 0, 0, 4, 0, 0, 0, 0, 0, 3, 232, 137, 4, 85, 101, 169, 0,
    0, 0, 3, 0, 0, 0, 1, 0, 0, 0, 0, 0, 3, 232, 137, 4, 85, 101, 169, 0, 0, 0, 8, 0, 0, 0, 1, 0, 0,
    0, 0, 0, 3, 232, 137, 4, 85, 101, 169, 0, 0, 0, 10, 0, 0, 0, 4, 0, 0, 0, 19, 0, 0, 0, 1, 98,
    97, 115, 101, 58, 97, 108, 108, 111, 99, 97, 116, 105, 111, 110, 0, 3, 232, 137, 4, 85, 101,
    169, 0, 0, 0, 10, 0, 0, 0, 1, 0, 0, 0, 0, 0, 3, 232, 137, 4, 85, 101, 169, 0, 0, 0, 9, 0, 0, 0,
    4, 0, 0, 0, 19, 0, 0, 0, 0, 98, 97, 115, 101, 58, 97, 108, 108, 111, 99, 97, 116, 105, 111,
    110, 0, 3, 232, 137, 4, 85, 101, 169, 0, 0, 0, 9, 0, 0, 0, 1, 0, 0, 0, 0, 0, 3, 232, 137, 4,
    85, 101, 169, 0, 0, 0, 99, 128, 0, 0, 1, 0, 0, 0, 0, 0, 3, 232, 137, 4, 85, 101, 169, 0, 0, 0,
    6, 0, 0, 0, 3, 0, 0, 0, 12, 0, 0, 0, 0, 0, 0, 0, 0, 0, 16, 4, 109, 0, 3, 232, 137, 4, 85, 101,
    169, 0, 0, 0, 6, 0, 0, 0, 3, 0, 0, 0, 14, 0, 3, 0, 0, 0, 1, 0, 0, 16, 0, 2, 0, 0, 0, 0, 3, 232,
    137, 4, 85, 101, 169, 0, 0, 0, 6, 0, 0, 0, 1, 0, 0, 0, 0, 0, 3, 232, 137, 4, 85, 101, 169, 0,
    0, 0, 7, 0, 0, 0, 3, 0, 0, 0, 12, 0, 0, 0, 0, 0, 0, 0, 0, 0, 16, 4, 109, 0, 3, 232, 137, 4, 85,
    101, 169, 0, 0, 0, 7, 0, 0, 0, 3, 0, 0, 0, 14, 0, 3, 0, 0, 0, 1, 0, 0, 16, 0, 2, 0, 0, 0, 0, 3,
    232, 137, 4, 85, 101, 169, 0, 0, 0, 7, 0, 0, 0, 1, 0, 0, 0, 0, 102, 142, 51, 239, 0, 1, 0, 0,
    0, 0, 0, 0, 0, 0, 0, 1, 0, 0, 0, 0, 102, 142, 51, 239, 0, 1, 0, 1, 0, 0, 0, 0, 0, 0, 0, 2, 0,
    0, 0, 11, 0, 0, 0, 0, 0, 0, 0, 1, 120, 121, 122, 102, 142, 51, 239, 0, 1, 0, 5, 0, 0, 0, 0, 0,
    0, 0, 3, 0, 0, 0, 12, 0, 0, 0, 1, 0, 0, 0, 16, 0, 0, 0, 0, 102, 142, 51, 239, 0, 1, 0, 0, 0, 0,
    0, 0, 0, 0, 0, 4, 0, 0, 0, 0, 102, 142, 51, 239, 0, 1, 0, 0, 0, 0, 0, 0, 0, 0, 0, 5, 0, 0, 0,
    0, 102, 142, 51, 239, 0, 1, 0, 1, 0, 0, 0, 0, 0, 0, 0, 6, 0, 0, 0, 12, 0, 0, 0, 0, 0, 0, 0, 0,
    119, 0, 0, 122, 102, 142, 51, 239, 0, 1, 128, 1, 0, 0, 0, 0, 0, 0, 0, 7, 0, 0, 0, 6, 0, 0, 0,
    22, 0, 0,
];

// What a client sends, or what a plain server of the protocol answered to it.
const OLD: [u8; 76] = [
    0, 0, 0, 1, 73, 72, 65, 86, 69, 79, 80, 84, 0, 0, 0, 1, 0, 0, 0, 0, 37, 96, 149, 19, 0, 0, 0,
    0, 0, 0, 0, 0, 0, 0, 0, 9, 0, 0, 0, 0, 0, 0, 0, 0, 0, 0, 0, 2, 37, 96, 149, 19, 0, 0, 0, 2, 0,
    0, 0, 0, 0, 0, 0, 1, 0, 0, 0, 0, 0, 0, 0, 0, 0, 0, 0, 0,
];

// What a client sends, or what a plain server of the protocol answered to it.
const OLD_REPLIES: [u8; 170] = [
    78, 66, 68, 77, 65, 71, 73, 67, 73, 72, 65, 86, 69, 79, 80, 84, 0, 3, 0, 0, 0, 0, 0, 0, 0, 16,
    4, 109, 0, 0, 0, 0, 0, 0, 0, 0, 0, 0, 0, 0, 0, 0, 0, 0, 0, 0, 0, 0, 0, 0, 0, 0, 0, 0, 0, 0, 0,
    0, 0, 0, 0, 0, 0, 0, 0, 0, 0, 0, 0, 0, 0, 0, 0, 0, 0, 0, 0, 0, 0, 0, 0, 0, 0, 0, 0, 0, 0, 0, 0,
    0, 0, 0, 0, 0, 0, 0, 0, 0, 0, 0, 0, 0, 0, 0, 0, 0, 0, 0, 0, 0, 0, 0, 0, 0, 0, 0, 0, 0, 0, 0, 0,
    0, 0, 0, 0, 0, 0, 0, 0, 0, 0, 0, 0, 0, 0, 0, 0, 0, 0, 0, 0, 0, 0, 0, 0, 0, 0, 0, 0, 0, 0, 0,
    103, 68, 102, 152, 0, 0, 0, 0, 0, 0, 0, 0, 0, 0, 0, 9, 0, 0,
];

/// A disk in memory, whose calls can be made to fail.
#[derive(Drop)]
struct MemDevice {
    bytes: Vec<u8>,
    read_only: bool,
    clears: bool,
    broken: bool,
    flushes: u32,
    syncs: u32,
}

impl MemDevice {
    fn new(alloc: Global) -> Result<Self, Fail> {
        Ok(MemDevice {
            bytes: vec![in alloc; 0; 16]?,
            read_only: false,
            clears: false,
            broken: false,
            flushes: 0,
            syncs: 0,
        })
    }
}

// The whole units of four bytes that a range has.
fn units(offset: u64, length: u64) -> (u64, u64) {
    let from = offset.saturating_add(3) / 4 * 4;
    let to = offset.saturating_add(length) / 4 * 4;
    (from, to.saturating_sub(from))
}

impl Device for MemDevice {
    ghost use Rattle.std.specs.Prelude.{None, false};

    ghost view = { λ d. record { is_sound = ⊥; is_failed = false; is_read_only = d.read_only; size = 16; value = λ o. None; unit = 4 } };

    ghost Flushed = { λ old new. Unit {0} };

    ghost Synced = { λ old new. Unit {0} };

    fn size(&self) -> u64 {
        self.bytes.len() as u64
    }

    fn is_read_only(&self) -> bool {
        self.read_only
    }

    fn can_clear(&self) -> bool {
        self.clears
    }

    fn read(&mut self, offset: u64, bytes: &mut [u8]) -> Result<(), Errno> {
        let from = offset as usize;
        let held = self.bytes.get(from..from.saturating_add(bytes.len()));
        bytes.copy_from_slice(held.ok_or(Errno::Io)?);
        Ok(())
    }

    fn write(&mut self, offset: u64, bytes: &[u8]) -> Result<(), Errno> {
        let from = offset as usize;
        let to = from.saturating_add(bytes.len());
        if to > self.bytes.len() {
            return Err(Errno::Io);
        }
        self.bytes[from..to].copy_from_slice(bytes);
        Ok(())
    }

    fn discard(&mut self, offset: u64, length: u64) -> Result<(u64, u64), Errno> {
        let (from, count) = units(offset, length);
        let to = from.saturating_add(count);
        if count > 0 && to <= self.size() {
            self.bytes[from as usize..to as usize].fill(0);
        }
        Ok((from, count))
    }

    fn zero(&mut self, offset: u64, length: u64) -> Result<(u64, u64), Errno> {
        self.discard(offset, length)
    }

    fn look_up(&mut self, _offset: u64, max: u64) -> Result<(State, u64), Errno> {
        Ok((State::Data, max))
    }

    fn flush(&mut self) -> Result<(), Errno> {
        if self.broken {
            return Err(Errno::Io);
        }
        self.flushes = self.flushes.saturating_add(1);
        Ok(())
    }

    fn sync(&mut self) -> Result<(), Errno> {
        self.syncs = self.syncs.saturating_add(1);
        Ok(())
    }
}

// What the server answers, and how it ended.
fn answered(
    alloc: Global,
    device: &mut MemDevice,
    sent: &[u8],
) -> Result<(Vec<u8>, io::Result<()>), Fail> {
    let mut reader = sent;
    let mut written = Vec::new(alloc);
    let ended = serve(alloc, &mut reader, &mut written, device);
    Ok((written, ended))
}

#[test]
fn simple_replies(rt: HostRuntime) -> Result<(), Fail> {
    let mut device = MemDevice::new(rt.alloc())?;
    let (written, ended) = answered(rt.alloc(), &mut device, &SIMPLE)?;
    ended?;
    assert_eq!(rt; written.as_slice(), SIMPLE_REPLIES.as_slice());
    assert_eq!(rt;
        device.bytes.as_slice(),
        b"\0\0\0\0\0abc\0\0\0\0\0\0\0\0".as_slice()
    );
    assert_eq!(rt; (device.flushes, device.syncs), (2, 2));
    Ok(())
}

#[test]
fn structured_replies(rt: HostRuntime) -> Result<(), Fail> {
    for clears in [false, true] {
        let mut device = MemDevice::new(rt.alloc())?;
        device.clears = clears;
        let (written, ended) = answered(rt.alloc(), &mut device, &STRUCTURED)?;
        ended?;
        assert_eq!(rt; device.syncs, 2);
        if !clears {
            assert_eq!(rt; written.as_slice(), STRUCTURED_REPLIES.as_slice());
            assert_eq!(rt;
                device.bytes.as_slice(),
                b"w\0\0z\0\0\0\0\0\0\0\0\0\0\0\0".as_slice()
            );
        } else {
            assert_eq!(rt; device.bytes.as_slice(), [0u8; 16].as_slice());
        }
    }
    Ok(())
}

#[test]
fn the_old_way_to_begin(rt: HostRuntime) -> Result<(), Fail> {
    let mut device = MemDevice::new(rt.alloc())?;
    let (written, ended) = answered(rt.alloc(), &mut device, &OLD)?;
    ended?;
    assert_eq!(rt; written.as_slice(), OLD_REPLIES.as_slice());
    Ok(())
}

#[test]
fn a_failed_flush_is_told(rt: HostRuntime) -> Result<(), Fail> {
    let mut device = MemDevice::new(rt.alloc())?;
    device.broken = true;
    let (written, ended) = answered(rt.alloc(), &mut device, &SIMPLE)?;
    assert!(rt; ended.is_err());
    // The reply to FLUSH is the last but one.
    let reply = written.get(157..165).ok_or("a reply is missing")?;
    assert_eq!(rt; reply, [0x67, 0x44, 0x66, 0x98, 0, 0, 0, 5].as_slice());
    assert_eq!(rt; device.syncs, 0);
    Ok(())
}

#[test]
fn a_read_only_disk_stays(rt: HostRuntime) -> Result<(), Fail> {
    let mut device = MemDevice::new(rt.alloc())?;
    device.read_only = true;
    let (_, ended) = answered(rt.alloc(), &mut device, &STRUCTURED)?;
    ended?;
    assert_eq!(rt; device.bytes.as_slice(), [0u8; 16].as_slice());
    Ok(())
}

#[test]
fn an_input_may_end_anywhere(rt: HostRuntime) -> Result<(), Fail> {
    for count in 0..SIMPLE.len() {
        let mut device = MemDevice::new(rt.alloc())?;
        let (written, ended) = answered(rt.alloc(), &mut device, &SIMPLE[..count])?;
        ended?;
        assert_eq!(rt; written.as_slice(), &SIMPLE_REPLIES[..written.len()]);
    }
    Ok(())
}

#[test]
fn a_payload_that_is_too_long_is_not_read(rt: HostRuntime) -> Result<(), Fail> {
    let mut sent = Vec::new(rt.alloc());
    sent.extend_from_slice(&SIMPLE[..26])?;
    sent.extend_from_slice(&[0x25, 0x60, 0x95, 0x13, 0, 0, 0, 1])?;
    sent.extend_from_slice(&[0; 16])?;
    sent.extend_from_slice(&[2, 0, 0, 1])?;
    let mut device = MemDevice::new(rt.alloc())?;
    let (_, ended) = answered(rt.alloc(), &mut device, &sent)?;
    assert_eq!(rt; ended.err().map(|e| e.kind()), Some(ErrorKind::InvalidData));
    Ok(())
}

#[test]
fn numbers_that_clients_are_sent(rt: HostRuntime) {
    assert_eq!(rt; Errno::NoSpace.number(), 28);
    assert_eq!(rt; State::Hole.number(), 3);
}
