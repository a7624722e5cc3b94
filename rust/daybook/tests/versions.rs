//! The sample books as each version, and what would be lost.

#![forbid(unsafe_code)]

use std::fs;
use std::path::Path;

use daybook::{archive, write, Book, Operator, Refusal, Version, IMAGE_LENGTH};

/// The sample books of versions 1, 2 and 3; the second has selling tariffs, the third
/// these and a manager.
fn samples() -> [Vec<u8>; 3] {
    ["day.gdb", "day-2.gdb", "day-3.gdb"].map(|name| {
        let folder = Path::new(env!("CARGO_MANIFEST_DIR")).join("../../samples");
        fs::read(folder.join(name)).expect("a sample")
    })
}

/// The bytes of a book's fields.
fn written(book: &Book) -> Vec<u8> {
    let mut bytes = vec![0; book.length()];
    write(book, &mut bytes).expect("fields of an accepted book");
    bytes
}

/// A sample without what an earlier version has not.
fn bare(book: &[u8]) -> Book {
    let mut book = Operator::new().read(book).expect("a sample");
    book.prices.pvb_selling_tariff = 0;
    book.prices.tank_and_store_selling_tariff = 0;
    for user in &mut book.users {
        user.managers = [0; 3];
    }
    book
}

#[test]
fn each_version_as_each() {
    for sample in samples() {
        let first = bare(&sample);
        let bytes = written(&first);
        for version in Version::ALL {
            let converted = Operator::new()
                .convert(&bytes, version)
                .expect("nothing is lost");
            let (users, trades) = (first.users.len(), first.trades.len());
            assert_eq!(converted.len(), version.length(users, trades));
            let expected = Book {
                version: version.number(),
                ..first.clone()
            };
            assert_eq!(Operator::new().read(&converted).as_ref(), Ok(&expected));
            let own = Version::from_number(first.version).expect("a known version");
            assert_eq!(
                Operator::new().convert(&converted, own).as_ref(),
                Ok(&bytes)
            );
        }
    }
}

#[test]
fn upwards_nothing_is_lost_and_every_answer_stays() {
    for sample in samples() {
        let from = Operator::new().read(&sample).unwrap().version;
        for version in Version::ALL.into_iter().filter(|it| it.number() >= from) {
            let mut converted = Operator::new().convert(&sample, version).unwrap();
            let mut own = sample.clone();
            for user in Operator::new().read(&sample).unwrap().users {
                let levels = |book: &[u8]| {
                    (
                        Operator::new().morning_level(book, user.id),
                        Operator::new().afternoon_level(book, user.id),
                    )
                };
                assert_eq!(levels(&converted), levels(&own));
            }
            assert_eq!(
                Operator::new().run(&mut converted),
                Operator::new().run(&mut own)
            );
            assert_eq!(Operator::new().convert(&own, version), Ok(converted));
        }
    }
}

#[test]
fn what_would_be_lost_is_refused() {
    let [one, two, three] = samples();
    assert_eq!(
        Operator::new().convert(&two, Version::V1),
        Err(Refusal::InformationLost)
    );
    for version in [Version::V1, Version::V2] {
        assert_eq!(
            Operator::new().convert(&three, version),
            Err(Refusal::InformationLost)
        );
    }
    assert_eq!(Operator::new().convert(&one, Version::V1), Ok(one));
    assert_eq!(Operator::new().convert(&two, Version::V2), Ok(two.clone()));

    // each field by itself
    let mut tariff = bare(&two);
    tariff.prices.tank_and_store_selling_tariff = 1;
    assert_eq!(
        Operator::new().convert(&written(&tariff), Version::V1),
        Err(Refusal::InformationLost)
    );
    let mut managed = bare(&three);
    managed.users[2].managers[2] = managed.users[0].id;
    let managed = written(&managed);
    assert_eq!(
        Operator::new().convert(&managed, Version::V1),
        Err(Refusal::InformationLost)
    );
    assert_eq!(
        Operator::new().convert(&managed, Version::V2),
        Err(Refusal::InformationLost)
    );
    assert_eq!(
        Operator::new().convert(&managed, Version::V3),
        Ok(managed.clone())
    );
}

#[test]
fn refusals_come_in_their_order_and_leave_the_part() {
    let [one, _, three] = samples();
    let mut part = [7; IMAGE_LENGTH];
    for unknown in [0, 4, 257, 65_537, u32::MAX] {
        // 23 before 21 and 22, and after the book's questions
        let number = Refusal::TargetVersion.number();
        assert_eq!(
            archive::convert(&three, archive::OPERATOR, unknown, &mut part[..1]),
            number
        );
        assert_eq!(
            archive::convert(&three[..99], archive::OPERATOR, unknown, &mut part),
            3
        );
    }
    // 21 before 22
    let lost = Operator::new().convert_into(&three, Version::V1, &mut part[..0]);
    assert_eq!(lost, Err(Refusal::InformationLost));
    let length = Version::V3.length(2, 1);
    let short = Operator::new().convert_into(&one, Version::V3, &mut part[..length - 1]);
    assert_eq!(short, Err(Refusal::ConversionRoom));
    assert_eq!(
        Operator::new().convert(&[], Version::V3),
        Err(Refusal::Mark)
    );
    assert!(part.iter().all(|byte| *byte == 7));

    assert_eq!(
        Operator::new().convert_into(&one, Version::V3, &mut part),
        Ok(length)
    );
    assert_eq!(
        part[..length],
        Operator::new().convert(&one, Version::V3).unwrap()
    );
    assert!(part[length..].iter().all(|byte| *byte == 7));
}

#[test]
fn versions_have_their_numbers() {
    for (version, number) in Version::ALL.into_iter().zip(1..) {
        assert_eq!(
            (version.number(), Version::from_number(number)),
            (number, Some(version))
        );
    }
    assert_eq!(
        (Version::from_number(0), Version::from_number(4)),
        (None, None)
    );
    assert_eq!(Version::V3.length(64, 256), IMAGE_LENGTH);
}
