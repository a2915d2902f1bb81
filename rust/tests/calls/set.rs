//! Sets.

use patricia::{AllocError, LoadError, NotInOrder, PatriciaSet, StringPatriciaSet};
use std::collections::BTreeSet;
use std::ops::Bound;

fn set() -> StringPatriciaSet {
    StringPatriciaSet::from(["b", "a", "", "abc", "ab", "é", "è"])
}

/// The elements of `set`, in order.
const ELEMENTS: [&str; 7] = ["", "a", "ab", "abc", "b", "è", "é"];

#[test]
fn elements_come_and_go() {
    let mut set = PatriciaSet::new();
    assert!(set.is_empty() && set.insert("foo") && !set.insert("foo"));
    assert_eq!(
        (set.try_insert("foobar"), set.try_insert(b"foobar")),
        (Ok(true), Ok(false))
    );
    assert!(set.contains(b"foo") && !set.contains("fo") && !set.contains(""));
    assert_eq!(set.get_longest_common_prefix("foolish"), Some(&b"foo"[..]));
    assert_eq!(set.get_longest_common_prefix("fo"), None);
    assert_eq!(set.longest_common_prefix_len("fooba"), 5);
    assert_eq!(set.common_prefixes("foobarbaz").count(), 2);
    assert!(set.remove("foo") && !set.remove("foo"));
    assert_eq!(
        (set.try_remove("foobar"), set.try_remove("x")),
        (Ok(true), Ok(false))
    );
    assert_eq!((set.len(), set.iter().next()), (0, None));
    set.extend(["x", "y", "x"]);
    assert_eq!(
        (set.len(), set.try_extend(["z"]), set.len()),
        (2, Ok(()), 3)
    );
    set.clear();
    assert_eq!((set.len(), set.contains("x")), (0, false));
}

#[test]
fn iterators_know_how_many_are_left() {
    let set = set();
    let (mut iter, mut owned) = (set.iter(), set.clone().into_iter());
    for (at, element) in ELEMENTS.iter().enumerate() {
        assert_eq!(
            (iter.len(), owned.size_hint()),
            (7 - at, (7 - at, Some(7 - at)))
        );
        assert_eq!(iter.next().as_deref(), Some(*element));
        assert_eq!(owned.try_next().unwrap().as_deref(), Some(*element));
    }
    assert_eq!(
        (iter.try_next(), owned.next(), owned.len()),
        (Ok(None), None, 0)
    );
    assert_eq!((iter.len(), iter.next(), iter.next()), (0, None, None));
    let written = format!("{:?} {owned:?} {:?}", set.iter(), set.iter_prefix(""));
    assert_eq!(written, "Iter { .. } IntoIter { .. } IterPrefix { .. }");
    let written = format!("{:?} {:?}", set.range("a"..), set.within("a", 1));
    assert_eq!(written, "Range { .. } Within { .. }");
}

#[test]
fn parts_are_those_that_begin_with_a_prefix() {
    let mut set = set();
    let under = {
        let prefix = String::from("ab");
        set.iter_prefix(&prefix)
    };
    assert_eq!(under.collect::<Vec<_>>(), ["ab", "abc"]);
    assert_eq!(set.iter_prefix("é").try_next(), Ok(Some("é".to_string())));
    assert_eq!(
        (set.count_prefix("a"), set.try_count_prefix("")),
        (3, Ok(7))
    );
    let mut cursor = set.cursor_prefix("ab");
    assert!(cursor.advance() && cursor.advance() && cursor.key() == Some("abc"));
    assert!(!cursor.advance());
    let part = set.split_by_prefix("ab");
    assert_eq!(part.iter().collect::<Vec<_>>(), ["ab", "abc"]);
    assert_eq!(
        (set.len(), set.try_split_by_prefix("x").unwrap().len()),
        (5, 0)
    );
    assert_eq!(
        (set.remove_prefix("a"), set.try_remove_prefix("b")),
        (1, Ok(1))
    );
    assert_eq!(set.iter().collect::<Vec<_>>(), ["", "è", "é"]);
}

#[test]
fn ranges_and_cursors_are_in_order() {
    let set = set();
    let keys = |range: patricia::set::Range<'_, String>| range.collect::<Vec<_>>();
    assert_eq!(keys(set.range("ab".."b")), ELEMENTS[2..4]);
    assert_eq!(keys(set.range("ab"..="b")), ELEMENTS[2..5]);
    assert_eq!(keys(set.range::<&str, _>(..)), ELEMENTS);
    assert_eq!(keys(set.range("b".."a")), [""; 0]);
    let behind = (Bound::Excluded("ab"), Bound::Excluded("é"));
    assert_eq!(keys(set.range::<&str, _>(behind)), ELEMENTS[3..6]);
    assert_eq!(set.range("x"..).try_next(), Ok(Some("è".to_string())));
    let mut cursor = set.cursor();
    assert_eq!(cursor.next_entry(), Some((String::new(), &())));
    assert!(cursor.advance() && cursor.key() == Some("a"));
    cursor.skip(1);
    assert!(cursor.advance() && cursor.key() == Some("b"));
    let mut from = set.cursor_from("aa");
    assert!(from.advance() && from.key() == Some("ab"));
    let mut range = set.cursor_range("a".."ab");
    assert!(range.advance() && range.key() == Some("a") && !range.advance());
}

#[test]
fn within_finds_the_elements_that_are_near() {
    let set = set();
    assert_eq!(
        set.within("ab", 1).collect::<Vec<_>>(),
        ["a", "ab", "abc", "b"]
    );
    let mut near = set.within("e", 1);
    assert_eq!(near.key(), None);
    let found = std::iter::from_fn(|| {
        near.try_advance()
            .unwrap()
            .then(|| near.key().map(str::len))
    });
    assert_eq!(found.flatten().collect::<Vec<_>>(), [0, 1, 1, 2, 2]);
    assert_eq!(
        set.within("abcd", 1).try_next(),
        Ok(Some("abc".to_string()))
    );
    let mut near = set.within("abcd", 1);
    assert!(near.advance() && near.key() == Some("abc") && !near.advance());
}

#[test]
fn ends_and_neighbours_are_those_of_std() {
    let mut set = set();
    let mut model = BTreeSet::from(ELEMENTS.map(str::to_string));
    for key in ["", "\0", "a", "aa", "abc", "z", "é", "ê"] {
        let after = model.iter().find(|element| element.as_str() > key).cloned();
        assert_eq!(
            (set.first_after(key), set.try_first_after(key)),
            (after.clone(), Ok(after))
        );
        let before = model.range(..key.to_string()).next_back().cloned();
        assert_eq!(
            (set.last_before(key), set.try_last_before(key)),
            (before.clone(), Ok(before))
        );
    }
    while !model.is_empty() {
        assert_eq!(
            (set.first(), set.last()),
            (model.first().cloned(), model.last().cloned())
        );
        assert_eq!(
            (set.try_first(), set.try_last()),
            (Ok(set.first()), Ok(set.last()))
        );
        assert_eq!(
            (set.pop_first(), set.try_pop_last()),
            (model.pop_first(), Ok(model.pop_last()))
        );
    }
    set.extend(["a", "b"]);
    assert_eq!(
        (set.try_pop_first(), set.pop_last()),
        (Ok(Some("a".into())), Some("b".into()))
    );
    assert_eq!(
        (set.first(), set.pop_first(), set.pop_last()),
        (None, None, None)
    );
}

#[test]
fn retain_and_visits_are_in_order() {
    let mut set = set();
    let mut asked = Vec::new();
    set.for_each(|element| asked.push(element.to_string()));
    assert_eq!(
        set.try_for_each(|element| asked.push(element.to_string())),
        Ok(())
    );
    assert_eq!(asked, [ELEMENTS, ELEMENTS].concat());
    asked.clear();
    set.retain(|element| {
        asked.push(element.to_string());
        element.len() == 1
    });
    assert_eq!(asked, ELEMENTS);
    assert_eq!(set.iter().collect::<Vec<_>>(), ["a", "b"]);
    assert_eq!(
        (set.try_retain(|element| element > "a"), set.len()),
        (Ok(()), 1)
    );
}

type Model<'a> = BTreeSet<&'a &'static str>;

fn check_combined(one: &[&'static str], other: &[&'static str]) {
    let (x, y): (Model, Model) = (one.iter().collect(), other.iter().collect());
    let a: StringPatriciaSet = one.iter().collect();
    let b: StringPatriciaSet = other.iter().collect();
    let both: StringPatriciaSet = x.union(&y).collect();
    assert!(&a | &b == both && a.union(&b) == both && a.try_union(&b) == Ok(both));
    let common: StringPatriciaSet = x.intersection(&y).collect();
    assert!(&a & &b == common && a.intersection(&b) == common);
    assert!(a.try_intersection(&b) == Ok(common));
    let rest: StringPatriciaSet = x.difference(&y).collect();
    assert!(&a - &b == rest && a.difference(&b) == rest && a.try_difference(&b) == Ok(rest));
    assert_eq!(a.is_subset(&b), x.is_subset(&y));
    assert_eq!(a.try_is_subset(&b), Ok(x.is_subset(&y)));
    assert_eq!(a.is_superset(&b), x.is_superset(&y));
    assert_eq!(a.is_disjoint(&b), x.is_disjoint(&y));
    assert_eq!(a.try_is_disjoint(&b), Ok(x.is_disjoint(&y)));
}

fn check_appended(one: &[&'static str], other: &[&'static str]) {
    let mut a: StringPatriciaSet = one.iter().collect();
    let mut b: StringPatriciaSet = other.iter().collect();
    let both: Model = one.iter().chain(other).collect();
    a.append(&mut b);
    assert!(a.iter().eq(both.iter().map(|key| key.to_string())) && b.is_empty());
    assert_eq!(b.try_append(&mut a), Ok(()));
    assert_eq!((a.len(), b.len()), (0, both.len()));
}

#[test]
fn sets_are_combined_as_those_of_std() {
    let lists: [&[&str]; 7] = [
        &[],
        &[""],
        &["a", "ab"],
        &["ab", "b", ""],
        &["a", "ab", "b"],
        &["é"],
        &["è", "a"],
    ];
    for one in lists {
        for other in lists {
            check_combined(one, other);
            check_appended(one, other);
        }
    }
}

#[test]
fn many_elements_are_looked_up() {
    let set: StringPatriciaSet = (0..150).step_by(2).map(|n| n.to_string()).collect();
    for count in [0, 1, 64, 65, 200] {
        let keys: Vec<String> = (0..count).map(|n| format!("{n}")).collect();
        let wanted: Vec<bool> = keys.iter().map(|key| set.contains(key)).collect();
        assert_eq!(set.contains_many(&keys), wanted);
        assert_eq!(set.try_contains_many(&keys), Ok(wanted));
        let longest = keys.iter().map(|key| set.get_longest_common_prefix(key));
        let longest: Vec<Option<&str>> = longest.collect();
        assert_eq!(set.longest_many(&keys), longest);
        assert_eq!(set.try_longest_many(&keys), Ok(longest));
    }
}

#[test]
fn elements_are_loaded() {
    let mut set = PatriciaSet::from_sorted_iter(["", "a"]).unwrap();
    assert_eq!(
        (set.sorted_load(["b", "c"]), set.try_sorted_load(["d"])),
        (Ok(()), Ok(()))
    );
    assert_eq!(set.sorted_load(["e", "f", "a", "g"]), Err(NotInOrder));
    assert_eq!(set.try_sorted_load(["f"]), Err(LoadError::NotInOrder));
    let keys = ["", "a", "b", "c", "d", "e", "f"].map(|key| key.as_bytes().to_vec());
    assert!(set.iter().eq(keys));
    let twice = PatriciaSet::from_sorted_iter(["a", "a"]);
    assert_eq!(twice.map(|set| set.len()), Err(NotInOrder));
    assert!(PatriciaSet::try_from_sorted_iter(["a", "b"]).is_ok_and(|set| set.len() == 2));
    let collected = PatriciaSet::try_from_iter(["b", "a", "b"]);
    assert_eq!(collected.map(|set| set.len()), Ok::<_, AllocError>(2));
    assert_eq!(
        PatriciaSet::from([[2], [1], [2]])
            .into_iter()
            .collect::<Vec<_>>(),
        [[1], [2]]
    );
    let mut large: StringPatriciaSet = (0..20_000).rev().map(|n| n.to_string()).collect();
    assert_eq!((large.len(), large.count_prefix("1")), (20_000, 11_111));
    large.retain(|key| !key.starts_with('1'));
    assert_eq!((large.len(), large.count_prefix("1")), (8889, 0));
}
