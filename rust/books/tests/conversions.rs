//! Conversions between versions (ask 7) on random books: up and back, what they leave
//! unchanged, and which numbers are met.

#![forbid(unsafe_code)]

use std::collections::BTreeMap;

use books::conversions::length_as;
use books::damage::version_of;
use books::{answer, Call, Generator};
use reference::party::{Given, Party};
use reference::{check, convert};

/// The bytes as a book of this version.
fn converted(bytes: &[u8], version: u32) -> Vec<u8> {
    let mut output = vec![0; length_as(bytes, version)];
    assert_eq!(convert(bytes, Party::Operator, version, &mut output), 0);
    output
}

/// "Going from 1 to 2 or 3 no level, call, warning, reduction or run without a log
/// may answer otherwise"; and so from 2 to 3, and for lists and cancellations. The
/// books afterwards are those of the lower version, converted.
#[test]
fn conversions_change_no_answer() {
    let mut generator = Generator::new(80);
    let (mut calls, mut accepted) = (0, 0);
    for _ in 0..1_500 {
        let lower = generator.any_book();
        if check(&lower) != 0 || version_of(&lower) == 3 {
            continue;
        }
        let store = generator.store(&lower);
        let store = store.as_deref();
        for version in u32::from(version_of(&lower)) + 1..=3 {
            let upper = converted(&lower, version);
            for _ in 0..4 {
                let id = generator.arguments(&lower).id;
                for call in [
                    generator.changing_call(&lower, store),
                    Call::Warning { id },
                    Call::MorningLevel { id },
                    Call::AfternoonLevel { id },
                    generator.cancellation(&lower, store),
                ] {
                    let (mut one, mut other) = (lower.clone(), upper.clone());
                    let found = answer(&mut one, Given::by_operator(store), None, &call);
                    assert_eq!(
                        found,
                        answer(&mut other, Given::by_operator(store), None, &call),
                        "{call:?}"
                    );
                    assert_eq!(converted(&one, version), other);
                    calls += 1;
                    accepted += u32::from(found.number == 0);
                }
            }
        }
    }
    println!("{calls} calls answered as before a conversion, {accepted} of them accepted");
    assert!(calls > 10_000 && accepted > 4_000);
}

/// "Converting up and back gives the first bytes", and so does every conversion that
/// is accepted. Drawn conversions meet each number in each version that can give it.
#[test]
fn there_and_back() {
    let mut generator = Generator::new(81);
    let mut met: BTreeMap<(u16, u32, u32), u32> = BTreeMap::new();
    for _ in 0..12_000 {
        let book = generator.any_book();
        let (source, call) = generator.conversion(&book);
        let Call::Convert { version, length } = call else {
            panic!("a conversion");
        };
        let found = answer(&mut source.clone(), Given::OPERATOR, None, &call);
        let own = if source.len() < 32 {
            0
        } else {
            version_of(&source)
        };
        *met.entry((own, version.min(4), found.number)).or_default() += 1;
        if found.number != 0 {
            assert_eq!(found.part, vec![0xAA; length], "an output left");
            continue;
        }
        let (written, rest) = found.part.split_at(length_as(&source, version));
        assert!(rest.iter().all(|byte| *byte == 0xAA), "the rest kept");
        assert_eq!(check(written), 0);
        assert_eq!(converted(written, own.into()), source);
        if u32::from(own) == version {
            assert_eq!(written, source, "a copy");
        }
    }
    println!("{met:?}");
    for own in [1, 2, 3] {
        for version in [1, 2, 3] {
            for number in [0, 3, 4, 5, 6, 7, 22] {
                assert!(
                    met.contains_key(&(own, version, number)),
                    "{own} {version} {number}"
                );
            }
            let loses = u32::from(own) > version;
            assert_eq!(
                met.contains_key(&(own, version, 21)),
                loses,
                "{own} {version}"
            );
        }
        assert!(met.contains_key(&(own, 4, 23)) && met.contains_key(&(own, 0, 23)));
    }
}
