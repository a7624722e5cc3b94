//! One field of all records: its name, and what it says of each user or trade.

use daybook::{Book, Trade, User};

use daybook_text::fields::{has_managers, Field};
use daybook_text::json::Object;
use daybook_text::text::{aligned, Cells, NONE};
use daybook_text::words::{euros, grouped, wide, word, AREAS, DAYS, KINDS, ROLES};

/// The fields of users that have a name of their own, in the order of the records.
const OF_USERS: [Field; 14] = [
    Field::Id,
    Field::Role,
    Field::Physical(0),
    Field::Physical(1),
    Field::Physical(2),
    Field::Position(0),
    Field::Position(1),
    Field::Position(2),
    Field::Charges,
    Field::Assigned,
    Field::Blocked,
    Field::Manager(0),
    Field::Manager(1),
    Field::Manager(2),
];

/// Those of trades.
const OF_TRADES: [Field; 7] = [
    Field::Seller,
    Field::Buyer,
    Field::Area,
    Field::Kind,
    Field::Day,
    Field::Notified,
    Field::Standing,
];

/// The field of a name, in whatever case; `_` or `-` may stand for the blank.
pub fn named(name: &str) -> Option<Field> {
    let plain = |name: &str| name.to_ascii_lowercase().replace(['_', '-'], " ");
    let is_meant = |field: &Field| plain(&field.to_string()) == plain(name.trim());
    OF_USERS.into_iter().chain(OF_TRADES).find(is_meant)
}

/// All names, as a message lists them.
pub fn names() -> String {
    let listed = |fields: &[Field]| {
        let names: Vec<String> = fields.iter().map(Field::to_string).collect();
        names.join(", ")
    };
    let (users, trades) = (listed(&OF_USERS), listed(&OF_TRADES));
    format!("of users {users} (managers in version 3); of trades {trades}")
}

/// Whether books of a version have a field.
pub fn has(version: u16, field: Field) -> bool {
    !matches!(field, Field::Manager(_)) || has_managers(version) == Some(true)
}

/// What a field says of a record.
#[derive(Clone, Debug, PartialEq, Eq)]
enum Value {
    Number(u32),
    Word(String),
    Mwh(i64),
    Cents(i128),
    Manager(u32),
}

/// The values of a field in the order of the records, each with what its record is
/// known by: a user by its place and id, a trade by its place.
#[derive(Clone, Debug)]
pub struct Column {
    field: Field,
    values: Vec<(Known, Value)>,
}

#[derive(Clone, Copy, Debug)]
enum Known {
    User(usize, u32),
    Trade(usize),
}

impl Column {
    pub fn new(book: &Book, field: Field) -> Column {
        let users = book.users.iter().enumerate();
        let users = users.filter_map(|(place, user)| {
            let known = Known::User(place + 1, user.id);
            of_user(user, field).map(|value| (known, value))
        });
        let trades = book.trades.iter().enumerate();
        let trades = trades.filter_map(|(place, trade)| {
            let known = Known::Trade(place + 1);
            of_trade(trade, field).map(|value| (known, value))
        });
        Column {
            field,
            values: users.chain(trades).collect(),
        }
    }

    /// A line for each record, in the words of the text form.
    pub fn lines(&self) -> String {
        let cells = |(known, value): &(Known, Value)| -> Cells {
            let mut cells = match known {
                Known::User(_, id) => vec!["user".to_string(), id.to_string()],
                Known::Trade(place) => vec!["trade".to_string(), grouped(wide(*place))],
            };
            if self.field != Field::Id {
                cells.extend([self.field.to_string(), value.words()]);
            }
            cells
        };
        let rows: Vec<Cells> = self.values.iter().map(cells).collect();
        aligned(&rows)
    }

    /// An object for each record of a book.
    pub fn objects(&self, book: &str) -> Vec<Object> {
        let object = |(known, value): &(Known, Value)| {
            let object = Object::new().string("book", book);
            let object = match known {
                Known::User(place, id) => object.put("user", place).put("id", id),
                Known::Trade(place) => object.put("trade", place),
            };
            match self.field {
                Field::Id => object,
                Field::Physical(area) => value.put(area_of(object, area), "physical"),
                Field::Position(area) => value.put(area_of(object, area), "position"),
                Field::Manager(area) => value.put(area_of(object, area), "manager"),
                field => value.put(object, &field.to_string()),
            }
        };
        self.values.iter().map(object).collect()
    }
}

fn area_of(object: Object, area: usize) -> Object {
    object.string("area", AREAS[area])
}

impl Value {
    fn words(&self) -> String {
        match self {
            Value::Number(number) => number.to_string(),
            Value::Word(word) => word.clone(),
            Value::Mwh(mwh) => grouped(*mwh),
            Value::Cents(cents) => euros(*cents),
            Value::Manager(0) => NONE.to_string(),
            Value::Manager(id) => id.to_string(),
        }
    }

    fn put(&self, object: Object, name: &str) -> Object {
        match self {
            Value::Number(number) | Value::Manager(number) => object.put(name, number),
            Value::Word(word) => object.string(name, word),
            Value::Mwh(mwh) => object.put(&format!("{name}_mwh"), mwh),
            Value::Cents(cents) => object.put(&format!("{name}_cents"), cents),
        }
    }
}

fn of_user(user: &User, field: Field) -> Option<Value> {
    Some(match field {
        Field::Id => Value::Number(user.id),
        Field::Role => Value::Word(word(&ROLES, user.role)),
        Field::Physical(area) => Value::Mwh(i64::from(*user.physical.get(area)?)),
        Field::Position(area) => Value::Mwh(i64::from(*user.position.get(area)?)),
        Field::Charges => Value::Cents(i128::from(user.charges)),
        Field::Assigned => Value::Cents(i128::from(user.assigned)),
        Field::Blocked => Value::Cents(i128::from(user.blocked)),
        Field::Manager(area) => Value::Manager(*user.managers.get(area)?),
        _ => return None,
    })
}

fn of_trade(trade: &Trade, field: Field) -> Option<Value> {
    Some(match field {
        Field::Seller => Value::Number(trade.seller),
        Field::Buyer => Value::Number(trade.buyer),
        Field::Area => Value::Word(word(&AREAS, trade.area)),
        Field::Kind => Value::Word(word(&KINDS, trade.kind)),
        Field::Day => Value::Word(word(&DAYS, trade.day)),
        Field::Notified => Value::Mwh(i64::from(trade.notified)),
        Field::Standing => Value::Mwh(i64::from(trade.standing)),
        _ => return None,
    })
}
