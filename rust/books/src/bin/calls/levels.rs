//! Levels and guarantee calls of version 2, whose credit decides.

use books::versions::in_version_1;
use books::written::{book, covered, for_tomorrow, house, sale, shipper, standing_at};
use books::Call;
use reference::book::Book;

use crate::{on, selling, Shown, TARIFFS};

/// A shipper long by 3,000 MWh in PVB, 200 in TVB and 10 in AVB, which is a credit
/// of 4,647,000, with these charges and guarantees.
fn long(charges: i128, assigned: i128, blocked: i128) -> Book {
    let user = shipper(1, [3_000, 200, 10], charges, assigned, blocked);
    selling(TARIFFS, book(vec![user], vec![]))
}

pub fn levels() -> Vec<Shown> {
    let (morning, afternoon) = (Call::MorningLevel { id: 1 }, Call::AfternoonLevel { id: 1 });
    let on_level =
        |shows, call: &Call, level, book: Book| on(shows, &[0, level], call.clone(), &book);
    let rich = || long(20_000_000, 0, 0);
    let other = |tariffs| selling(tariffs, rich());
    // Short by as many MWh in PVB; long by 100 in TVB after a sale and a purchase.
    let mixed = selling(
        TARIFFS,
        book(
            vec![shipper(1, [-5_000, 400, 0], 30_000_000, 0, 0), covered(2)],
            vec![sale(1, 2, 1, 350), sale(2, 1, 1, 50), sale(1, 2, 2, 1)],
        ),
    );
    let tomorrow = selling(
        TARIFFS,
        book(
            vec![shipper(1, [0, 500, 0], 20_000_000, 0, 0), covered(2)],
            vec![for_tomorrow(sale(1, 2, 1, 800))],
        ),
    );
    let house_long = selling(TARIFFS, book(vec![house(1), covered(2)], vec![]));
    vec![
        on_level(
            "version 2, a credit of 4,647,000: afternoon level",
            &afternoon,
            15_353_000,
            rich(),
        ),
        on_level(
            "the same: morning level, without credit",
            &morning,
            20_000_000,
            rich(),
        ),
        on_level(
            "the same in version 1: afternoon level",
            &afternoon,
            20_000_000,
            in_version_1(&rich()),
        ),
        on_level(
            "S and U are 0: afternoon level",
            &afternoon,
            20_000_000,
            other([0, 0]),
        ),
        on_level(
            "S alone: afternoon level",
            &afternoon,
            15_500_000,
            other([1_500, 0]),
        ),
        on_level(
            "U alone: afternoon level",
            &afternoon,
            19_853_000,
            other([0, 700]),
        ),
        on_level(
            "a credit down to the floor: afternoon level",
            &afternoon,
            10_000_000,
            long(14_647_000, 0, 0),
        ),
        on_level(
            "a cent above the floor: afternoon level",
            &afternoon,
            10_000_001,
            long(14_647_001, 0, 0),
        ),
        on_level(
            "a cent below the floor: afternoon level",
            &afternoon,
            10_000_000,
            long(14_646_999, 0, 0),
        ),
        on_level(
            "the credit is above the sum: afternoon level",
            &afternoon,
            10_000_000,
            long(0, 0, 0),
        ),
        on_level(
            "short in PVB, long in TVB: afternoon level",
            &afternoon,
            39_932_250,
            mixed.clone(),
        ),
        on_level("the same: morning level", &morning, 40_002_250, mixed),
        on_level(
            "long in TVB, sold for d+1: afternoon level",
            &afternoon,
            20_370_000,
            tomorrow.clone(),
        ),
        on_level("the same: morning level", &morning, 20_720_000, tomorrow),
        on(
            "version 2, a clearing house: afternoon level",
            &[9, 0],
            afternoon.clone(),
            &house_long,
        ),
        on(
            "version 2, an unknown id: afternoon level",
            &[8, 0],
            Call::AfternoonLevel { id: 3 },
            &house_long,
        ),
    ]
}

pub fn guarantees() -> Vec<Shown> {
    // A trade that was cut before calls the user in.
    let called_in = |assigned, blocked| {
        let user = shipper(1, [3_000, 200, 10], 20_000_000, assigned, blocked);
        let trades = vec![standing_at(sale(1, 2, 0, 10), 0)];
        selling(TARIFFS, book(vec![user, covered(2)], trades))
    };
    let (morning, afternoon) = (Call::MorningCall { id: 1 }, Call::AfternoonCall { id: 1 });
    let flagged = selling(
        TARIFFS,
        book(
            vec![shipper(1, [-30_001, 900_000, 0], 0, 0, 0), covered(2)],
            vec![],
        ),
    );
    let not_flagged = selling(
        TARIFFS,
        book(
            vec![shipper(1, [-30_000, 900_000, 0], 0, 0, 0), covered(2)],
            vec![],
        ),
    );
    let warning = Call::Warning { id: 1 };
    vec![
        on(
            "version 2: afternoon call for the level with the credit",
            &[0, 15_353_000, 15_353_000],
            afternoon.clone(),
            &called_in(20_000_000, 0),
        ),
        on(
            "the same: morning call, without credit",
            &[0, 20_000_000, 20_000_000],
            morning,
            &called_in(20_000_000, 0),
        ),
        on(
            "assigned is the level with the credit: afternoon call",
            &[0, 15_353_000, 15_353_000],
            afternoon.clone(),
            &called_in(15_353_000, 0),
        ),
        on(
            "assigned is a cent less: afternoon call",
            &[12, 0, 0],
            afternoon.clone(),
            &called_in(15_352_999, 0),
        ),
        on(
            "level - blocked 1,000,001: afternoon call",
            &[0, 15_353_000, 1_000_001],
            afternoon.clone(),
            &called_in(20_000_000, 14_352_999),
        ),
        on(
            "level - blocked 1,000,000: afternoon call",
            &[11, 0, 0],
            afternoon,
            &called_in(20_000_000, 14_353_000),
        ),
        on(
            "flagged whatever the credit: warning",
            &[0, 1],
            warning.clone(),
            &flagged,
        ),
        on("not flagged: warning", &[0, 0], warning, &not_flagged),
        on(
            "version 2: posting",
            &[0],
            Call::Posting {
                id: 1,
                area: 2,
                amount: -11,
            },
            &called_in(0, 0),
        ),
        on(
            "version 2: posting out of range",
            &[10],
            Call::Posting {
                id: 1,
                area: 0,
                amount: 997_001,
            },
            &called_in(0, 0),
        ),
    ]
}
