//! Maps with so many entries that nodes are relocated and labels laid anew.

use crate::common::{Random, any_key};
use crate::pair::{Model, check};
use patricia::PatriciaMap;

#[test]
fn large_maps_are_as_those_of_std() {
    let mut random = Random::new(99);
    let mut map = PatriciaMap::new();
    let mut model = Model::new();
    for round in 0..4 {
        for n in 0..40_000 {
            let key = format!("{}_{}", random.below(50), random.below(30_000)).into_bytes();
            if random.below(3) < round {
                assert_eq!(map.remove(&key), model.remove(&key));
            } else {
                assert_eq!(map.insert(&key, n), model.insert(key, n));
            }
        }
        check(&map, &model);
        if round == 0 {
            assert!(model.len() > 20_000);
        }
        let keys: Vec<Vec<u8>> = model.keys().cloned().collect();
        let wanted: Vec<_> = model.values().map(Some).collect();
        assert_eq!(map.get_many(&keys), wanted);
        let lent: Vec<&mut u32> = map.values_mut().collect();
        assert!(lent.iter().map(|value| &**value).eq(model.values()));
    }
    map.retain(|_, value| *value % 5 == 0);
    model.retain(|_, value| *value % 5 == 0);
    check(&map, &model);
    while let Some(entry) = map.pop_first() {
        assert_eq!(model.pop_first(), Some(entry));
    }
    assert!(model.is_empty());
}

#[test]
fn large_maps_that_are_loaded_are_as_those_of_std() {
    let mut random = Random::new(7);
    let mut entries: Vec<(Vec<u8>, u32)> = (0..60_000)
        .map(|n| (any_key::<String>(&mut random), n))
        .collect();
    entries.extend((0..25_000).map(|n| (format!("{n}/{}", n % 7).into_bytes(), n)));
    random.shuffle(&mut entries);
    let model: Model = entries.iter().cloned().collect();
    let map = PatriciaMap::from_iter(entries.iter().cloned());
    check(&map, &model);
    let mut extended = PatriciaMap::new();
    extended.extend(entries);
    assert!(extended == map);
    let sorted = PatriciaMap::from_sorted_iter(model.clone()).unwrap();
    assert!(sorted == map && sorted.tree_bytes() == map.tree_bytes());
}
