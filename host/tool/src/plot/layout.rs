//! Where things stand that must not cover each other.

/// Something that wants to stand in the middle of a place, with its width.
#[derive(Clone, Copy)]
pub struct Wish {
    pub middle: f64,
    pub width: f64,
}

/// The middles of things in a row, in the order of their wishes: beside each
/// other, from the left edge to the right one, and otherwise where they wish.
pub fn spread(wishes: &[Wish], left: f64, right: f64) -> Vec<f64> {
    let mut middles: Vec<f64> = wishes.iter().map(|wish| wish.middle).collect();
    let mut free = left;
    for (middle, wish) in middles.iter_mut().zip(wishes) {
        *middle = middle.max(free + wish.width / 2.0);
        free = *middle + wish.width / 2.0;
    }
    let mut free = right;
    for (middle, wish) in middles.iter_mut().zip(wishes).rev() {
        *middle = middle.min(free - wish.width / 2.0);
        free = *middle - wish.width / 2.0;
    }
    middles
}

/// Things in a row, in groups: each begins where the first one of its group has
/// left room.
pub fn groups<T>(things: &[T], x: impl Fn(&T) -> f64, room: f64) -> Vec<&[T]> {
    let mut groups = Vec::new();
    let mut rest = things;
    while let Some(first) = rest.first() {
        let free = x(first) + room;
        let end = rest.iter().position(|thing| x(thing) >= free);
        let (group, after) = rest.split_at(end.unwrap_or(rest.len()));
        groups.push(group);
        rest = after;
    }
    groups
}

#[cfg(test)]
mod tests {
    use super::*;

    #[test]
    fn what_has_no_room_is_in_the_group_before() {
        let grouped = groups(&[0.0, 5.0, 9.0, 10.0, 30.0], |x| *x, 10.0);
        assert_eq!(grouped, [&[0.0, 5.0, 9.0][..], &[10.0], &[30.0]]);
        assert!(groups(&[], |x: &f64| *x, 10.0).is_empty());
    }

    #[test]
    fn things_stand_beside_each_other_and_within_the_edges() {
        let wishes = |middles: &[f64]| -> Vec<Wish> {
            let width = 10.0;
            let wish = |&middle: &f64| Wish { middle, width };
            middles.iter().map(wish).collect()
        };
        assert_eq!(spread(&[], 0.0, 100.0), []);
        assert_eq!(spread(&wishes(&[20.0, 50.0]), 0.0, 100.0), [20.0, 50.0]);
        assert_eq!(spread(&wishes(&[0.0, 0.0]), 0.0, 100.0), [5.0, 15.0]);
        assert_eq!(spread(&wishes(&[100.0, 100.0]), 0.0, 100.0), [85.0, 95.0]);
        let many = spread(&wishes(&[50.0; 10]), 0.0, 100.0);
        assert_eq!((many[0], many[9]), (5.0, 95.0));
    }
}
