//! Setting the data file of an open image.
use super::super::{copied, fresh, refusal};
use super::{
    Image, asking, data_file_of, empty, fresh_with_file, in_data_file, mapped_in, opened_with,
    own_file_of, put,
};
use crate::session::{read, release};
use image_access::{Storage, TraceStorage};
use qcow2_image::{ImageError, Mapping, MappingKind, Place, Prepared, Qcow2};
use std::alloc::Global;
use std::test::Fail;

// A file of four bytes.
fn marked(alloc: Global) -> Result<TraceStorage, Fail> {
    Ok(TraceStorage::new(alloc, [1, 2, 3, 4].to_vec(alloc)?)?)
}

// The number of a refusal, and the length of the file that it hands back.
fn set(image: &mut Image, file: Option<TraceStorage>) -> (u8, Option<usize>) {
    match image.set_data_file(file) {
        Ok(()) => (0, None),
        Err((file, refusal)) => (refusal.number(), file.map(|it| it.as_slice().len())),
    }
}

#[test]
fn a_prepared_range_keeps_the_data_file(rt: HostRuntime) -> Result<(), Fail> {
    let alloc = rt.alloc();
    let mut image = fresh_with_file(alloc, 65536)?;
    put(&mut image, 0, &[0x11; 512])?;
    let given = marked(alloc)?;
    let prepared = image.prepare_data_mapping(512, 512, true)?;
    let beside = set(&mut image, Some(given));
    let none = set(&mut image, None);
    release(&mut image, prepared);
    assert_eq!(rt; beside, (17, Some(4)));
    assert_eq!(rt; none, (17, None));
    assert_eq!(rt;
        read(alloc, &mut image, 0, 4)?.as_slice(),
        [0x11; 4].as_slice()
    );
    // an existing one doesn't keep it
    let given = marked(alloc)?;
    let prepared = image.prepare_data_mapping(0, 512, true)?;
    let existing = prepared.is_nonblocking();
    let beside = set(&mut image, Some(given));
    release(&mut image, prepared);
    assert!(rt; existing);
    assert_eq!(rt; beside, (0, None));
    assert_eq!(rt;
        read(alloc, &mut image, 0, 5)?.as_slice(),
        [1, 2, 3, 4, 0].as_slice()
    );
    assert_eq!(rt; data_file_of(alloc, &image)?.as_slice().len(), 4);
    Ok(())
}

#[test]
fn a_failed_image_keeps_its_data_file(rt: HostRuntime) -> Result<(), Fail> {
    let alloc = rt.alloc();
    let mut file = empty(alloc)?;
    file.fail_at(1);
    let mut image = opened_with(alloc, asking(alloc, 65536)?, file, None)?;
    assert_eq!(rt; refusal(put(&mut image, 0, &[0x11; 512])), 15);
    assert_eq!(rt; set(&mut image, Some(marked(alloc)?)), (16, Some(4)));
    assert_eq!(rt; set(&mut image, None), (16, None));
    assert_eq!(rt; data_file_of(alloc, &image)?.as_slice().len(), 0);
    Ok(())
}

// An image that asks for a data file is refused without one, and goes on with the next one.
#[test]
fn a_data_file_is_taken_away_and_given_back(rt: HostRuntime) -> Result<(), Fail> {
    let alloc = rt.alloc();
    let mut image = fresh_with_file(alloc, 65536)?;
    put(&mut image, 600, &[0x11; 4])?;
    let file = data_file_of(alloc, &image)?;
    assert_eq!(rt; set(&mut image, None), (0, None));
    assert_eq!(rt; refusal(read(alloc, &mut image, 600, 4)), 12);
    assert_eq!(rt; refusal(put(&mut image, 600, &[0x22])), 12);
    assert_eq!(rt; set(&mut image, Some(file)), (0, None));
    assert_eq!(rt;
        read(alloc, &mut image, 600, 4)?.as_slice(),
        [0x11; 4].as_slice()
    );
    put(&mut image, 601, &[0x22])?;
    assert_eq!(rt;
        read(alloc, &mut image, 600, 4)?.as_slice(),
        [0x11, 0x22, 0x11, 0x11].as_slice()
    );
    Ok(())
}

// What a read by a mapping and a write by an existing prepared range are refused with.
fn used(image: &mut Image, mapping: &Mapping, prepared: &Prepared) -> [u8; 2] {
    let mut bytes = [0; 4];
    [
        refusal(image.read_mapped(mapping, 0, &mut bytes)),
        refusal(image.write_mapped(prepared, 0, &[0x33; 4])),
    ]
}

// The refusals of old mappings before and after another data file is set, or none.
fn around(image: &mut Image, file: Option<TraceStorage>) -> Result<[[u8; 2]; 2], ImageError> {
    let (mapping, _length) = image.get_mapping(0, 512)?;
    let prepared = image.prepare_data_mapping(0, 512, true)?;
    let before = used(image, &mapping, &prepared);
    let done = set(image, file);
    let after = used(image, &mapping, &prepared);
    release(image, prepared);
    if done.0 != 0 {
        return Err(ImageError::MappingPrepared);
    }
    Ok([before, after])
}

// The header doesn't ask for a data file. The same place is in another file by then.
#[test]
fn mappings_are_outdated_in_another_file(rt: HostRuntime) -> Result<(), Fail> {
    let alloc = rt.alloc();
    let Ok(mut image) = Qcow2::builder(fresh(alloc)?, 1).write(true).open(alloc) else {
        return Err("it doesn't open")?;
    };
    put(&mut image, 0, &[0x11; 512])?;
    let file = Some(empty(alloc)?);
    assert_eq!(rt; around(&mut image, file)?, [[0, 0], [10, 10]]);
    assert_eq!(rt; mapped_in(&mut image, 0, 512)?, (in_data_file(2560), 512));
    assert_eq!(rt;
        read(alloc, &mut image, 0, 4)?.as_slice(),
        [0; 4].as_slice()
    );
    put(&mut image, 0, &[0x22; 2])?;
    assert_eq!(rt;
        read(alloc, &mut image, 0, 4)?.as_slice(),
        [0x22, 0x22, 0, 0].as_slice()
    );
    // once more in the image's own file, which kept its bytes
    assert_eq!(rt; around(&mut image, None)?, [[0, 0], [10, 10]]);
    let own = MappingKind::Raw {
        place: Place::Image,
        offset: 2560,
        writable: true,
    };
    assert_eq!(rt; mapped_in(&mut image, 0, 512)?, (own, 512));
    assert_eq!(rt;
        read(alloc, &mut image, 0, 5)?.as_slice(),
        [0x33, 0x33, 0x33, 0x33, 0x11].as_slice()
    );
    assert_eq!(rt; own_file_of(alloc, &image)?.as_slice().len(), 3072);
    Ok(())
}

// An image that was opened without a word about data files takes one.
#[test]
fn an_image_opened_alone_takes_a_data_file(rt: HostRuntime) -> Result<(), Fail> {
    let alloc = rt.alloc();
    let storage = asking(alloc, 65536)?;
    let mut image: Image = match Qcow2::open_image(alloc, copied(alloc, &storage)?, true, 1) {
        Ok(image) => image,
        Err((_storage, refusal)) => return Err(refusal)?,
    };
    assert_eq!(rt; refusal(put(&mut image, 0, &[1])), 12);
    let mut file = empty(alloc)?;
    file.write(0, &[0x99; 4])?;
    assert_eq!(rt; set(&mut image, Some(file)), (0, None));
    put(&mut image, 1, &[1])?;
    assert_eq!(rt;
        read(alloc, &mut image, 0, 4)?.as_slice(),
        [0, 1, 0, 0].as_slice()
    );
    Ok(())
}
