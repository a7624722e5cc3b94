//! Groups in a picture: members stand beside their manager, under one bracket.

use daybook::{Book, User};

use daybook_text::groups::manager;
use daybook_text::words::AREAS;

/// The height of brackets, above the names.
pub const BRACKET: usize = 20;

/// The users of a picture in the order of the book, each with those whose manager it
/// is in some area, which follow it; a user stands once.
pub fn groups(book: &Book, ids: &[u32]) -> Vec<Vec<u32>> {
    let shown: Vec<&User> = book
        .users
        .iter()
        .filter(|it| ids.contains(&it.id))
        .collect();
    let head = |user: &User| {
        let mut managers = (0..AREAS.len()).filter_map(|area| manager(book, user, area));
        let shown = managers.find(|it| ids.contains(it));
        shown.unwrap_or(user.id)
    };
    let mut groups: Vec<Vec<u32>> = Vec::new();
    for user in shown {
        let head = head(user);
        let is_placed = |id: u32| groups.iter().any(|group| group.contains(&id));
        let (is_user_placed, is_head_placed) = (is_placed(user.id), is_placed(head));
        match groups.iter_mut().find(|group| group[0] == head) {
            _ if is_user_placed => {}
            Some(group) => group.push(user.id),
            None if head != user.id && !is_head_placed => groups.push(vec![head, user.id]),
            None => groups.push(vec![user.id]),
        }
    }
    groups
}

/// The bracket over a manager and its members, from the first to the last.
pub fn bracket(manager: u32, first: usize, last: usize) -> String {
    let (left, right, middle) = (first - 40, last + 40, first.midpoint(last));
    format!(
        "<path class=\"bracket\" d=\"M{left} 0V-5H{right}V0\"/>\
         <text class=\"state\" x=\"{middle}\" y=\"-8\">managed by {manager}</text>\n"
    )
}

#[cfg(test)]
mod tests {
    use super::*;

    fn book(users: &[(u32, [u32; 3])]) -> Book {
        let user = |(id, managers): &(u32, [u32; 3])| User {
            id: *id,
            managers: *managers,
            ..User::default()
        };
        Book {
            version: 3,
            users: users.iter().map(user).collect(),
            ..Book::default()
        }
    }

    #[test]
    fn members_follow_their_manager() {
        let users = [
            (1, [4, 0, 0]),
            (2, [0; 3]),
            (3, [0, 0, 4]),
            (4, [0; 3]),
            (5, [0, 1, 0]),
        ];
        let book = book(&users);
        assert_eq!(
            groups(&book, &[1, 2, 3, 4, 5]),
            [vec![4, 1, 3], vec![2], vec![5]]
        );
        assert_eq!(groups(&book, &[1, 2, 3, 5]), [vec![1, 5], vec![2], vec![3]]);
        assert_eq!(groups(&book, &[2, 4]), [vec![2], vec![4]]);
        assert_eq!(groups(&book, &[]), Vec::<Vec<u32>>::new());
    }
}
