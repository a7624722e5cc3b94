//! Chains of reductions, cuts of one tier and of both.

use books::written::{chain_of_four, printed_example, sale};

use crate::{again, not_eligible, on, sales_book, Reduction};

pub fn chains() -> Vec<Reduction> {
    vec![
        on("document 01, printed day", 0, 101, printed_example()),
        again(
            "the same user: its level is its assigned guarantee",
            13,
            101,
        ),
        again(
            "the buyer, party to a trade cut before, whose blocked guarantee is its level",
            11,
            102,
        ),
        on(
            "a chain of four: the first user's sale falls to 0",
            0,
            1,
            chain_of_four(),
        ),
        again("the buyer of it became short", 0, 2),
        again("the buyer of that became short", 0, 3),
        again("the last buyer became short and has no sale", 14, 4),
        again("the first user has no sale left", 14, 1),
        again("the second user is not short of cover any more", 13, 2),
    ]
}

pub fn one_tier() -> Vec<Reduction> {
    let short = |trades, target| sales_book([0; 3], trades, target);
    let of = |area, mwh| sale(1, 2, area, mwh);
    vec![
        on(
            "trades 3 and 4, A 7,000: cut 2 and 2, over 1,000",
            0,
            1,
            short(vec![of(0, 3), of(0, 4)], 7_000),
        ),
        on(
            "trades 3 and 3, A 6,000: cut 2 and 1, a tie",
            0,
            1,
            short(vec![of(0, 3), of(0, 3)], 6_000),
        ),
        on(
            "five trades of 3, a tie of five for two MWh more",
            0,
            1,
            short(vec![of(0, 3); 5], 14_000),
        ),
        on(
            "the largest remainder is the last trade's",
            0,
            1,
            short(vec![of(0, 3), of(0, 4), of(0, 5)], 8_000),
        ),
        on(
            "A = 1: one MWh is cut, over 1,999",
            0,
            1,
            short(vec![of(0, 5), of(0, 6)], 1),
        ),
        on(
            "A = V = 12,000: all is cut",
            0,
            1,
            short(vec![of(0, 2), of(0, 4)], 12_000),
        ),
        on("A = V - 1", 0, 1, short(vec![of(0, 2), of(0, 4)], 11_999)),
        on(
            "T 12,001, V 12,000, tier two empty: all is cut, short 1",
            0,
            1,
            short(vec![of(0, 2), of(0, 4)], 12_001),
        ),
        again("the same user has no sale left", 14, 1),
        on(
            "three areas, two tariffs",
            0,
            1,
            short(
                vec![of(0, 700), of(1, 500), of(2, 300), of(1, 11)],
                1_234_567,
            ),
        ),
        again("the same once more: each cut lowers the level by w", 13, 1),
        on(
            "area 2 alone: the cuts are worth t, not w",
            0,
            1,
            short(vec![of(2, 900), of(2, 100)], 210_001),
        ),
        on(
            "three areas, a tie of remainders between two tariffs",
            0,
            1,
            short(vec![of(1, 10), of(0, 10), of(2, 10)], 27_000),
        ),
    ]
}

pub fn two_tiers() -> Vec<Reduction> {
    let of = |area, mwh| sale(1, 3, area, mwh);
    let mixed = || vec![of(0, 40), of(1, 30), of(0, 10), of(2, 20)];
    // Area 0 is short, areas 1 and 2 are long, or at exactly 0.
    let book_of = |target| sales_book([0, 30, 500], mixed(), target);
    vec![
        on(
            "tier one empty: every position is long",
            0,
            1,
            sales_book([900; 3], mixed(), 99_999),
        ),
        again(
            "the same once more: a long position earns no credit, the target stays",
            0,
            1,
        ),
        again("and more than what is left", 0, 1),
        on(
            "tier one empty, a position of exactly 0",
            0,
            1,
            sales_book([50, 30, 20], mixed(), 50_000),
        ),
        on("tier one suffices", 0, 1, book_of(50_000)),
        on(
            "T = tier one's V: tier two is asked for 0",
            0,
            1,
            book_of(100_000),
        ),
        on(
            "T = tier one's V + 1: tier two is asked for 1",
            0,
            1,
            book_of(100_001),
        ),
        on("both tiers, tier two in part", 0, 1, book_of(160_000)),
        on("T = both V: all is cut", 0, 1, book_of(205_000)),
        on("T above both V: short", 0, 1, book_of(300_000)),
        on(
            "only a bilateral sale for the day is cut",
            0,
            1,
            sales_book([0; 3], not_eligible(), 15_000),
        ),
        on(
            "the buyer is a clearing house",
            0,
            1,
            sales_book([0; 3], vec![sale(1, 4, 0, 40), of(0, 2)], 30_000),
        ),
    ]
}
