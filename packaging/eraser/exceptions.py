"""What no rule says, as data. The eraser and the check read it, each in its own way.

An entry names a file by its path below `crates`, without `src`. Each must fit: where a source has changed so that one
does not, the eraser stops.
"""

# The crates that are erased, each before those that use it.
CRATES = ('patricia_keys', 'patricia_model', 'patricia_wire', 'patricia_distance', 'patricia_store', 'patricia_nodes',
          'patricia_walks', 'patricia_many', 'patricia_edits', 'patricia_codec', 'patricia_core', 'patricia_tree')

# The structs whose type parameters lose their bounds.
UNBOUNDED = [
    ('patricia_core/tree.rt', 'Tree'),
    ('patricia_tree/map.rt', 'GenericPatriciaMap'),
    ('patricia_tree/set.rt', 'GenericPatriciaSet'),
    ('patricia_walks/walk.rt', 'Walk'),
    ('patricia_walks/walk/reading.rt', 'ReadCursor'),
    ('patricia_walks/into_walk.rt', 'IntoWalk'),
    ('patricia_walks/along.rt', 'Along'),
    ('patricia_walks/along.rt', 'AlongOwned'),
]

# What the calls written by hand reach, besides what is public: a field by its struct, an item by its kind.
VISIBLE = [
    ('patricia_core/tree.rt', 'Tree.parts'),
    ('patricia_core/tree.rt', 'Tree.kind'),
    ('patricia_tree/map.rt', 'GenericPatriciaMap.tree'),
    ('patricia_tree/set.rt', 'GenericPatriciaSet.map'),
    ('patricia_store/store.rt', 'Store.heads'),
    ('patricia_store/store.rt', 'Store.bodies'),
    ('patricia_store/store.rt', 'Store.labels'),
    ('patricia_nodes/arena/node_vec.rt', 'NodeVec.store'),
    ('patricia_walks/under.rt', 'fn find_start'),
    ('patricia_walks/under.rt', 'struct UnderStart'),
    ('patricia_walks/under.rt', 'UnderStart.arena'),
    ('patricia_walks/under.rt', 'UnderStart.prefix'),
    ('patricia_walks/under.rt', 'UnderStart.front'),
    ('patricia_walks/under.rt', 'UnderStart.top'),
    ('patricia_walks/lib.rt', 'mod progress'),
    ('patricia_walks/lib.rt', 'mod value_progress'),
    ('patricia_store/lib.rt', 'mod body'),
    ('patricia_store/lib.rt', 'mod head'),
    ('patricia_store/lib.rt', 'mod labels'),
    ('patricia_store/lib.rt', 'mod packed'),
    ('patricia_store/lib.rt', 'mod draft'),
]

GUARD = 'patricia_tree/guard.rt'
RETAIN = 'patricia_tree/map/retain.rt'
WHOLE = 'patricia_tree/map/whole.rt'
LOADS = 'patricia_tree/map/sorted.rt'
SET_LOADS = 'patricia_tree/set/sorted.rt'

# A text as the rules leave it, which its file has once, as a text and as a list of tokens, and the text in its
# place. It has no comments but documentation.
EXCEPTIONS = [
    # 1. The crate of JSON is left out.
    ('patricia_tree/wire.rt',
     'pub use patricia_json::{JsonError, pair_from_json, pair_to_json};\n',
     ''),
    # 2 to 4. The one `Drop` with a body takes its value apart, which Rust does not allow. The cursor is held so that
    # it can be taken out.
    (GUARD, '    pub(crate) at: C,\n', '    pub(crate) at: crate::rt::Held<C>,\n'),
    (GUARD,
     "    pub fn new(owner: &'a mut M, at: C) -> Self {\n"
     '        CursorGuard { owner, at }\n',
     "    pub fn new(owner: &'a mut M, at: C) -> Self {\n"
     '        CursorGuard {\n            owner,\n            at: crate::rt::Held::new(at),\n        }\n'),
    (GUARD,
     '    fn drop(self) {\n'
     '        let CursorGuard { owner, at } = self;\n'
     '        *owner = at.into_map();\n'
     '    }\n',
     '    fn drop(&mut self) {\n'
     '        if let Some(at) = self.at.take() {\n'
     '            *self.owner = at.into_map();\n'
     '        }\n'
     '    }\n'),
    # 5. An example that continues in another one is no test in the workbench either.
    ('patricia_nodes/steps.rt',
     '/// ```text\n/// # use patricia::workbench::*;\n',
     '/// ```ignore\n/// # use patricia::workbench::*;\n'),
    # 6. A call that the oldest compiler does not have.
    ('patricia_keys/keys/text.rt',
     'let n = self.floor_char_boundary(shared_len(self.as_bytes(), bytes));\n',
     'let n = crate::rt::floor_char_boundary(self, shared_len(self.as_bytes(), bytes));\n'),
    # 7 and 8. A closure of the caller may panic, which a proof rules out: what has the tree of a map gives it back
    # when it is dropped.
    (RETAIN,
     '            Ok(pruner) => pruner,\n',
     '            Ok(pruner) => crate::rt::Returned::new(&mut self.tree, pruner, Pruner::into_tree),\n'),
    (RETAIN,
     '        let result = retain_all(&mut pruner, f);\n'
     '        self.tree = pruner.into_tree();\n'
     '        result\n',
     '        retain_all(&mut pruner, f)\n'),
    # 9. The same of a merge.
    (WHOLE,
     '        let mut merger = Merger::new(self.tree.take());\n'
     '        let result = merge_all(&mut merger, other, f);\n'
     '        self.tree = merger.into_tree();\n',
     '        let merger = Merger::new(self.tree.take());\n'
     '        let mut merger = crate::rt::Returned::new(&mut self.tree, merger, Merger::into_tree);\n'
     '        let result = merge_all(&mut merger, other, f);\n'
     '        drop(merger);\n'),
    # 10 to 14. The same of an iterator of the caller, in a map and in a set.
    (LOADS,
     '    pub(crate) fn take(owner: &mut GenericPatriciaMap<Q::Owned, V>) -> Self {\n'
     '        SortedLoad {\n'
     '            loader: Loader::new(owner.tree.take()),\n'
     '            last: None,\n'
     '        }\n'
     '    }\n',
     '    pub(crate) fn take(\n'
     '        owner: &mut GenericPatriciaMap<Q::Owned, V>,\n'
     "    ) -> crate::rt::Returned<'_, GenericPatriciaMap<Q::Owned, V>, Self> {\n"
     '        let load = SortedLoad {\n'
     '            loader: Loader::new(owner.tree.take()),\n'
     '            last: None,\n'
     '        };\n'
     '        crate::rt::Returned::new(owner, load, SortedLoad::give_back)\n'
     '    }\n'),
    (LOADS,
     '    pub(crate) fn give_back(self, owner: &mut GenericPatriciaMap<Q::Owned, V>) {\n',
     '    fn give_back(self) -> GenericPatriciaMap<Q::Owned, V> {\n'),
    (LOADS,
     '        owner.tree = loader.into_tree();\n',
     '        GenericPatriciaMap {\n'
     '            tree: loader.into_tree(),\n'
     '        }\n'),
    (LOADS,
     '                load.give_back(self);\n'
     '                return Err(error);\n'
     '            }\n'
     '        }\n'
     '        load.give_back(self);\n',
     '                return Err(error);\n'
     '            }\n'
     '        }\n'
     '        drop(load);\n'),
    (SET_LOADS,
     '                load.give_back(&mut self.map);\n'
     '                return Err(error);\n'
     '            }\n'
     '        }\n'
     '        load.give_back(&mut self.map);\n',
     '                return Err(error);\n'
     '            }\n'
     '        }\n'
     '        drop(load);\n'),
    # 15. The drop of a value of the caller may panic, which a proof rules out, too: a value that `retain` removes is
    # dropped once it is no more counted.
    ('patricia_core/tree/pruning.rt',
     '    walk.remove::<K, V>(&mut tree.arena)?;\n'
     '    tree.count -= 1;\n',
     '    let _old = walk.remove::<K, V>(&mut tree.arena)?;\n'
     '    tree.count -= 1;\n'),
    # 16 to 19. The same where all values are dropped: last, so that no node is left in part.
    ('patricia_core/tree.rt',
     '        self.parts.value = None;\n'
     '        self.parts.arena.clear();\n'
     '        self.parts.count = 0;\n',
     '        self.parts.count = 0;\n'
     '        let _value = self.parts.value.take();\n'
     '        self.parts.arena.clear();\n'),
    ('patricia_nodes/arena.rt',
     '        self.nodes.clear();\n'
     '        self.root = Link::none();\n'
     '        self.free = Link::none();\n'
     '        self.edits = 0;\n',
     '        self.root = Link::none();\n'
     '        self.free = Link::none();\n'
     '        self.edits = 0;\n'
     '        self.nodes.clear();\n'),
    ('patricia_store/store.rt',
     '        self.heads.clear();\n'
     '        self.bodies.clear();\n'
     '        self.labels.clear();\n'
     '        self.dead = 0;\n',
     '        self.heads.clear();\n'
     '        self.labels.clear();\n'
     '        self.dead = 0;\n'
     '        self.bodies.clear();\n'),
    ('patricia_walks/into_walk.rt',
     '        self.arena.clear();\n'
     '        self.progress.finish();\n'
     '        self.pending = None;\n',
     '        self.progress.finish();\n'
     '        let _pending = self.pending.take();\n'
     '        self.arena.clear();\n'),
]
