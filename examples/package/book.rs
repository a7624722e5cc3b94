//! Makes the book of document 01's example, checks it and runs its day. With the package installed,
//! as src/main.rs of a package with `daybook = { path = "PREFIX/share/daybook/rust" }`.

use daybook::{Book, Operator, Prices, Refusal, Trade, User};

fn main() -> Result<(), Refusal> {
    let prices = Prices { pvb_tariff: 2_000, tank_and_store_tariff: 2_100, ..Prices::default() };
    let seller = User { id: 101, physical: [-10_000, 0, 0], position: [-40_000, 0, 0], assigned: 50_000_000, blocked: 10_000_000, ..User::default() };
    let buyer = User { id: 102, position: [30_000, 0, 0], assigned: 10_000_000, blocked: 10_000_000, ..User::default() };
    let trade = Trade { seller: 101, buyer: 102, notified: 30_000, standing: 30_000, ..Trade::default() };
    let book = Book { version: 1, date: 20_260_318, prices, users: vec![seller, buyer], trades: vec![trade] };
    let mut bytes = vec![0; book.length()];
    daybook::write(&book, &mut bytes)?;
    let mut operator = Operator::new();
    operator.read(&bytes)?;
    let day = operator.run(&mut bytes)?;
    println!("number 0: {} reduction, {} MWh, {} cents", day.reductions, day.mwh, day.worth);
    Ok(())
}
