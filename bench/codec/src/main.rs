//! The functions of libcodec.a beside two codecs in plain Rust, for bench/run-codec.
//! `check`: do the plain ones agree? `images N`: N calls of each on the largest image; `numbers`: a call of each on each
//! message's number. Callgrind counts them under the names below.

#[allow(dead_code)]
#[path = "../../../tests/reference/src/codec.rs"]
mod codec;
#[allow(dead_code)]
#[path = "../../../tests/codec/src/images.rs"]
mod images;
mod lean;
#[path = "../../../tests/codec/src/random.rs"]
mod random;

use std::hint::black_box;
use std::slice::{from_raw_parts, from_raw_parts_mut};

#[link(name = "codec", kind = "static")]
extern "C" {
    fn dpr_message_parts(number: u16, parts: *mut [u8; 3]) -> u8;
    fn dpr_image_check(image: *const u8, image_len: usize) -> u16;
    fn dpr_image_copy(image: *const u8, image_len: usize, buffer: *mut u8, buffer_len: usize, offset: usize) -> u8;
}

type MessageParts = unsafe extern "C" fn(u16, *mut [u8; 3]) -> u8;
type ImageCheck = unsafe extern "C" fn(*const u8, usize) -> u16;
type ImageCopy = unsafe extern "C" fn(*const u8, usize, *mut u8, usize, usize) -> u8;

#[no_mangle]
#[inline(never)]
unsafe extern "C" fn lean_image_check(image: *const u8, length: usize) -> u16 {
    lean::image_check(from_raw_parts(image, length))
}

#[no_mangle]
#[inline(never)]
unsafe extern "C" fn reference_image_check(image: *const u8, length: usize) -> u16 {
    let (number, index) = codec::check_image(from_raw_parts(image, length));
    u16::from_le_bytes([number, index as u8])
}

#[no_mangle]
#[inline(never)]
unsafe extern "C" fn lean_image_copy(
    image: *const u8,
    length: usize,
    buffer: *mut u8,
    room: usize,
    offset: usize,
) -> u8 {
    lean::image_copy(from_raw_parts(image, length), from_raw_parts_mut(buffer, room), offset)
}

#[no_mangle]
#[inline(never)]
unsafe extern "C" fn reference_image_copy(
    image: *const u8,
    length: usize,
    buffer: *mut u8,
    room: usize,
    offset: usize,
) -> u8 {
    let (site, log) = match codec::read_image(from_raw_parts(image, length)) {
        Ok(read) => read,
        Err(refusal) => return refusal.number,
    };
    let records: Vec<Vec<u8>> = log.iter().map(|record| record.bytes()).collect();
    codec::write_image(site as u64, &records, from_raw_parts_mut(buffer, room), offset as u64).err().unwrap_or(0)
}

#[no_mangle]
#[inline(never)]
unsafe extern "C" fn lean_message_parts(number: u16, parts: *mut [u8; 3]) -> u8 {
    match lean::message_parts(number) {
        Err(refusal) => refusal,
        Ok(message) => {
            *parts = message;
            0
        }
    }
}

#[no_mangle]
#[inline(never)]
unsafe extern "C" fn reference_message_parts(number: u16, parts: *mut [u8; 3]) -> u8 {
    match codec::Message::from_number(number) {
        Err(refusal) => refusal,
        Ok(message) => {
            *parts = [message.transaction, message.participant, message.kind];
            0
        }
    }
}

/// Number and index of an image.
fn checked(check: ImageCheck, image: &[u8]) -> [u8; 2] {
    unsafe { check(image.as_ptr(), image.len()) }.to_le_bytes()
}

/// Answer and buffer of a copy to a buffer of so many bytes.
fn copied(copy: ImageCopy, image: &[u8], room: usize, offset: usize) -> (u8, Vec<u8>) {
    let mut buffer = vec![0xEE; room];
    let answer = unsafe { copy(image.as_ptr(), image.len(), buffer.as_mut_ptr(), room, offset) };
    (answer, buffer)
}

/// Answer and parts of a message number.
fn parted(parts_of: MessageParts, number: u16) -> (u8, [u8; 3]) {
    let mut parts = [0xEE; 3];
    let answer = unsafe { parts_of(number, &mut parts) };
    (answer, parts)
}

/// The lean codec against the reference model's: accepted images, their prefixes, their single-byte changes, and bad
/// records in their places; all message numbers.
fn check() {
    let mut compared = 0;
    let mut compare = |image: &[u8], room: usize, offset: usize| {
        let (lean, reference) =
            (copied(lean_image_copy, image, room, offset), copied(reference_image_copy, image, room, offset));
        assert_eq!(lean, reference, "image {image:02X?}, buffer of {room} bytes, offset {offset}");
        assert_eq!(checked(lean_image_check, image), checked(reference_image_check, image), "image {image:02X?}");
        compared += 1;
    };
    for image in images::accepted(&mut random::Random(7)) {
        for room in 0..image.len() + 8 {
            compare(&image, room, room / 8);
            compare(&image, room, 0);
            compare(&image[..room.min(image.len())], 200, 9);
        }
        for i in 0..image.len() {
            for value in 0..=255 {
                let mut changed = image.clone();
                changed[i] = value;
                compare(&changed, 200, 9);
            }
        }
        let records = images::records_of(&image);
        for (_, bad) in images::bad_records(image[4]) {
            for place in 0..records.len() {
                let mut changed = records.clone();
                changed[place] = bad.clone();
                compare(&images::exact(image[4], &changed), 200, 9);
            }
        }
    }
    for number in 0..=u16::MAX {
        assert_eq!(parted(lean_message_parts, number), parted(reference_message_parts, number), "message number {number}");
    }
    println!("the two codecs in plain Rust agree on {compared} checks and copies, and on all message numbers");
}

fn measure_images(calls: usize) {
    // the largest: 24 records at the coordinator
    let image = images::accepted(&mut random::Random(7)).into_iter().max_by_key(Vec::len).unwrap();
    assert_eq!((image[4], image[5], image.len()), (0, 24, 182));
    for check in [dpr_image_check as ImageCheck, lean_image_check, reference_image_check] {
        for _ in 0..calls {
            assert_eq!(black_box(checked(check, black_box(&image))), [0, 24]);
        }
    }
    let mut wanted = vec![0xEE; 200];
    wanted[9..9 + image.len()].copy_from_slice(&image);
    for copy in [dpr_image_copy as ImageCopy, lean_image_copy, reference_image_copy] {
        for _ in 0..calls {
            let (answer, buffer) = black_box(copied(copy, black_box(&image), 200, 9));
            assert!(answer == 0 && buffer == wanted);
        }
    }
}

fn measure_numbers() {
    for parts_of in [dpr_message_parts as MessageParts, lean_message_parts, reference_message_parts] {
        for number in 0..512 {
            let wanted = match number {
                0..448 => [(number / 56) as u8, (number % 56 / 7 + 1) as u8, (number % 7) as u8],
                _ => [((number - 448) / 8) as u8, (number % 8 + 1) as u8, 7],
            };
            assert_eq!(black_box(parted(parts_of, black_box(number))), (0, wanted));
        }
    }
}

fn main() {
    let words: Vec<String> = std::env::args().skip(1).collect();
    match words.iter().map(String::as_str).collect::<Vec<_>>()[..] {
        ["check"] => check(),
        ["images", calls] => measure_images(calls.parse().unwrap()),
        ["numbers"] => measure_numbers(),
        _ => panic!("check, numbers, or images and the number of calls"),
    }
}
