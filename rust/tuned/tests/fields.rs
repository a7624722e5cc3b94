//! Reading into fields and writing from them, by the tuned implementation and by
//! the reference: versions 1 and 2, as an image and as fields.

#![forbid(unsafe_code)]

use books::tuned::{knows, narrowed, widened};
use books::{Call, Generator};
use reference::party::Party;
use tuned::IMAGE_LENGTH;

#[test]
fn drawn_books_are_read() {
    let mut generator = Generator::new(9);
    for _ in 0..4_000 {
        let bytes = generator.any_book();
        if !knows(&bytes, &Call::Read) {
            continue;
        }
        let (number, expected) = reference::read(&bytes, Party::Operator);
        let mut image = [0xA5; IMAGE_LENGTH];
        let read = tuned::read_image(&bytes, &mut image);
        assert_eq!(read.err().unwrap_or(0), number);
        assert_eq!(widened(&image), expected);
        match tuned::read(&bytes) {
            Err(refusal) => assert_eq!(refusal, number),
            Ok(book) => {
                let mut written = vec![0xAA; bytes.len()];
                assert_eq!((number, tuned::write(&book, &mut written)), (0, Ok(())));
                assert_eq!(written, bytes);
            }
        }
    }
}

#[test]
fn drawn_images_are_written() {
    let mut generator = Generator::new(10);
    for _ in 0..8_000 {
        let call = generator.write();
        let known = knows(&[], &call);
        let Call::Write { image, length } = call else {
            panic!("a write");
        };
        if !known {
            continue;
        }
        let mut expected = vec![0xAA; length];
        let number = reference::write(&image, &mut expected);
        let mut part = vec![0xAA; length];
        let written = tuned::write_image(&narrowed(&image), &mut part);
        assert_eq!(written.err().unwrap_or(0), number);
        assert_eq!(part, expected);
    }
}

/// S and U of version 1 are neither written nor looked at.
#[test]
fn fields_that_version_1_has_not() {
    let mut generator = Generator::new(11);
    for _ in 0..200 {
        let bytes = generator.sized(1, 3, 4).to_bytes();
        let mut book = tuned::read(&bytes).expect("an accepted book");
        assert_eq!((book.prices.s, book.prices.u), (0, 0));
        (book.prices.s, book.prices.u) = (1_900, u32::MAX);
        let mut part = vec![0xAA; bytes.len()];
        assert_eq!(tuned::write(&book, &mut part), Ok(()));
        assert_eq!(part, bytes);
    }
}
