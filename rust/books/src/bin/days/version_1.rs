//! Books of document 01: refused ones, states, runs.

use books::accepted::{chain, largest, long, set_positions};
use books::written::{
    asked_for, book, chain_of_four, covered, house, largest_amounts, of_kind, sale, shipper,
    standing_at, MOST_CENTS,
};
use books::Random;
use reference::book::{length, Trade, MOST_TRADES, MOST_USERS};

use crate::{altered, changed, shown, Shown};

pub fn refused() -> Vec<Shown> {
    let mut over = largest_amounts(0, [0; 3], 0).to_bytes();
    over.resize(length(1, MOST_USERS, MOST_TRADES) + 1, 0);
    vec![
        altered("no input", "refused 1", Vec::clear),
        altered("31 bytes", "refused 1", |bytes| bytes.truncate(31)),
        altered("another mark", "refused 1", |bytes| bytes[2] = b'b'),
        altered("version 3, length of version 1", "refused 3", |bytes| {
            bytes[3] = 3;
        }),
        changed("version 4", "refused 2", |book| book.version = 4),
        altered("one byte more", "refused 3", |bytes| bytes.push(0)),
        altered("one byte less", "refused 3", |bytes| {
            bytes.pop();
        }),
        altered("no user", "refused 3", |bytes| {
            bytes.truncate(32);
            bytes[5] = 0;
            bytes[6] = 0;
        }),
        Shown {
            shows: "one byte past the longest book of version 1",
            first: "refused 3",
            bytes: over,
        },
        changed("30 February", "refused 4", |book| book.date = 20_240_230),
        changed("P is 0", "refused 4", |book| book.prices.p.0 = 0),
        changed("blocked above assigned", "refused 5", |book| {
            book.users[1].blocked.0 += 1;
        }),
        altered("a zero byte of a user is 1", "refused 5", |bytes| {
            bytes[32 + 5] = 1;
        }),
        changed("a trade of a user with itself", "refused 6", |book| {
            book.trades[0].buyer = 101;
        }),
        changed("a platform's sale below notified", "refused 6", |book| {
            book.trades[0].kind = 1;
            book.trades[0].standing.0 = 1;
        }),
        changed("a position is not as defined", "refused 7", |book| {
            book.users[0].position[1].0 = 1;
        }),
    ]
}

pub fn states() -> Vec<Shown> {
    let every = book(
        vec![
            house(1),
            shipper(2, [-40_000, 0, 0], 0, 10_000_000, 0),
            shipper(3, [-40_000, 0, 0], 0, 90_000_000, 0),
            shipper(4, [-20_000, 5, 7], 0, 0, 0),
        ],
        vec![of_kind(sale(4, 1, 2, 7), 2)],
    );
    let cut_before = |blocked| {
        book(
            vec![
                shipper(1, [0; 3], 30_000_000, 40_000_000, blocked),
                covered(2),
            ],
            vec![standing_at(sale(1, 2, 0, 10), 0)],
        )
    };
    vec![
        shown("every state", "run 0 0 0", every),
        shown(
            "one user, no trade",
            "run 0 0 0",
            book(vec![covered(u32::MAX)], vec![]),
        ),
        shown(
            "no trade, a user short in each area",
            "run 0 0 0",
            book(
                vec![
                    shipper(1, [-1_000_000, 0, 0], 0, 0, 0),
                    shipper(2, [0, -1_000_000, 0], 0, 0, 0),
                    shipper(3, [0, 0, -1_000_000], 0, 0, 0),
                ],
                vec![],
            ),
        ),
        shown(
            "called in by a trade cut before, level - blocked 1,000,001: call",
            "run 0 0 0",
            cut_before(28_999_999),
        ),
        shown(
            "level - blocked 1,000,000: quiet",
            "run 0 0 0",
            cut_before(29_000_000),
        ),
    ]
}

pub fn runs() -> Vec<Shown> {
    let of = |area, mwh| sale(1, 2, area, mwh);
    let trades: Vec<Trade> = vec![of(0, 40), of(1, 30), standing_at(of(0, 11), 10), of(2, 20)];
    // Area 0 is short, area 1 at exactly 0, area 2 long.
    let tiers = |target| {
        let seller = shipper(1, [0, 30, 500], 20_000_000, 0, 0);
        asked_for(target, book(vec![seller, covered(2)], trades.clone()))
    };
    let mut two_chains = chain_of_four();
    two_chains.users.push(shipper(5, [0; 3], 0, 10_000_000, 0));
    two_chains.users[3].assigned.0 = MOST_CENTS;
    two_chains.trades.push(sale(2, 5, 0, 35_000));
    two_chains.trades.push(sale(5, 3, 0, 30_000));
    set_positions(&mut two_chains);
    let mut random = Random::new(11);
    vec![
        shown("a chain of three reductions", "run 3 ", chain_of_four()),
        shown("two chains that meet", "run 4 ", two_chains),
        shown(
            "both tiers, tier two in part; the target stays, and the rest is cut",
            "run 2 ",
            tiers(160_000),
        ),
        shown("tier one suffices", "run 1 ", tiers(50_000)),
        shown("both tiers fall to 0", "run 1 ", tiers(300_000)),
        shown(
            "the largest amounts in area 2: the highest level",
            "run 1 ",
            largest_amounts(2, [-1_000_000; 3], MOST_CENTS),
        ),
        shown(
            "the largest amounts in area 0",
            "run 1 ",
            largest_amounts(0, [0; 3], 0),
        ),
        shown("64 users and 256 trades", "run ", largest(&mut random)),
        shown("64 users and 256 trades", "run ", largest(&mut random)),
        shown("a drawn chain", "run ", chain(&mut random)),
        shown("a drawn chain", "run ", chain(&mut random)),
        shown("a drawn chain", "run ", chain(&mut random)),
        shown("a run of many reductions", "run ", long(&mut random)),
    ]
}
