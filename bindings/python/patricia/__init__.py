"""Maps and sets whose keys share their common prefixes.

`PatriciaMap` and `PatriciaSet` have `bytes` as keys, `StringPatriciaMap` and `StringPatriciaSet`
have `str`. They have the calls of `dict` and `set`, but for `reversed`. They are in the order of
their keys, by bytes or by code points, a key of another type is a `TypeError`, and they answer
questions about prefixes.

    >>> routes = StringPatriciaMap({'/': 'home', '/blog': 'blog', '/blog/2024': 'year'})
    >>> routes.longest_prefix('/blog/2023')
    ('/blog', 'blog')
    >>> routes.prefixes('/blog/2024/01')
    [('/', 'home'), ('/blog', 'blog'), ('/blog/2024', 'year')]
    >>> list(routes.items(prefix='/blog'))
    [('/blog', 'blog'), ('/blog/2024', 'year')]

Values are any objects.

An iterator reads entries in blocks and gives the value that a key has when it comes to it. Where
keys were added or removed since it was made it raises `RuntimeError`, as that of a `dict` does.

As with `dict`, a single call that is written in C, such as `get` or an assignment to a key, needs
no lock where threads share a map; what takes several calls does. While many tree bytes are read, as
in unpickling, other threads run. A refused allocation is a `MemoryError`, and the map or set is as
it was before the call; a call over many keys, as `update`, keeps what it did before.
"""
import copyreg
import reprlib
from collections.abc import (
    ItemsView, KeysView, Mapping, MutableMapping, MutableSet, Set, ValuesView,
)

from patricia import _patricia

__all__ = ['DecodeError', 'PatriciaMap', 'PatriciaSet', 'StringPatriciaMap', 'StringPatriciaSet']
__version__ = _patricia.VERSION

# What an iterator gives, as walk.c numbers it.
_KEYS, _VALUES, _ENTRIES = range(3)


class DecodeError(ValueError):
    """Tree bytes and values that are no whole tree: `fault` says what is wrong first, and `offset`
    where, in bytes, or is None for too many values.

    >>> PatriciaSet.from_tree_bytes(b'', 0)
    Traceback (most recent call last):
        ...
    patricia.DecodeError: record cut short at 0
    """

    def __init__(self, fault, offset):
        super().__init__(fault if offset is None else '%s at %d' % (fault, offset))
        self.fault = fault
        self.offset = offset

    def __reduce__(self):
        return type(self), (self.fault, self.offset)


def _become(made, data, values, wide, as_text):
    """Gives a map or a set the keys of tree bytes, with these values."""
    fault = made._read(bytes(memoryview(data)), values, wide, as_text)
    if fault:
        raise DecodeError(*fault)
    return made


class _Tree:
    """What maps and sets have in common and what is not in C."""

    __slots__ = ()

    def copy(self):
        """Returns a map or a set with the same keys. The values are the same objects.

        >>> words = StringPatriciaSet(['a'])
        >>> words.copy() == words
        True
        """
        other = type(self)()
        other._clone_from(self)
        return other

    def __copy__(self):
        other = self.copy()
        getattr(other, '__dict__', {}).update(getattr(self, '__dict__', {}))
        return other

    def split_by_prefix(self, prefix):
        """Removes what begins with the prefix, and returns it as a map or a set.

        >>> words = StringPatriciaSet(['ab', 'ac', 'b'])
        >>> words.split_by_prefix('a'), words
        (StringPatriciaSet(['ab', 'ac']), StringPatriciaSet(['b']))
        """
        other = type(self)()
        self._split_into(prefix, other)
        return other

    def tree_bytes(self, wide=False):
        """Returns the encoding of the keys, the same whatever was added and removed before.

        With `wide`, levels take four bytes. Raises `OverflowError` where a record would lie too
        deep, and `ValueError` for a key with a surrogate, which is no text.

        >>> PatriciaSet([b'a']).tree_bytes()
        b'\\x0c\\x00\\x00\\x00\\x03\\x01\\x00\\x01a'
        """
        return self._write(wide, self._is_text)

    def _state(self, values):
        """What `pickle` and `deepcopy` keep: the keys as byte strings, since a `str` may have
        surrogates."""
        try:
            data, wide = self._write(False, False), False
        except OverflowError:
            data, wide = self._write(True, False), True
        attributes = getattr(self, '__dict__', None) or None
        return copyreg.__newobj__, (type(self),), (data, wide, values, attributes)

    def __setstate__(self, state):
        data, wide, values, attributes = state
        _become(self, data, values, wide, False)
        if attributes:
            self.__dict__.update(attributes)


class _View:
    """A view of the entries of a map whose key begins with a prefix, or of all."""

    __slots__ = ()

    def __init__(self, mapping, prefix=None):
        super().__init__(mapping)
        self._prefix = prefix
        mapping._walk(self._what, prefix)  # a prefix of another type is a TypeError

    def __len__(self):
        if self._prefix is None:
            return len(self._mapping)
        return self._mapping.count_prefix(self._prefix)

    def __iter__(self):
        return self._mapping._walk(self._what, self._prefix)

    def _has(self, key):
        """Whether a key that is in the map is in the view."""
        return self._prefix is None or key[:len(self._prefix)] == self._prefix

    def __repr__(self):
        return '%s(%r)' % (type(self).__name__.strip('_'), list(self))


class _Keys(_View, KeysView):
    __slots__ = ('_prefix',)
    _what = _KEYS

    def __contains__(self, key):
        return key in self._mapping and self._has(key)


class _Values(_View, ValuesView):
    __slots__ = ('_prefix',)
    _what = _VALUES

    def __contains__(self, value):
        return any(value is other or value == other for other in self)


class _Items(_View, ItemsView):
    __slots__ = ('_prefix',)
    _what = _ENTRIES

    def __contains__(self, entry):
        return super().__contains__(entry) and self._has(entry[0])


class _Map(_Tree, MutableMapping):
    """What maps have in common and what is not in C."""

    __slots__ = ()

    def __init__(self, /, *entries, **named):
        self.update(*entries, **named)

    @reprlib.recursive_repr()
    def __repr__(self):
        entries = ', '.join('%r: %r' % entry for entry in self.items())
        return '%s({%s})' % (type(self).__name__, entries)

    def __reduce__(self):
        return self._state(tuple(self.values()))

    def __or__(self, other):
        if not isinstance(other, Mapping):
            return NotImplemented
        both = self.copy()
        both.update(other)
        return both

    def __ror__(self, other):
        if not isinstance(other, Mapping):
            return NotImplemented
        both = type(self)(other)
        both.update(self)
        return both

    def __ior__(self, other):
        self.update(other)
        return self

    def keys(self, prefix=None):
        """Returns a view of the keys, or of those that begin with a prefix, in order.

        >>> list(StringPatriciaMap({'ab': 1, 'b': 2}).keys(prefix='a'))
        ['ab']
        """
        return _Keys(self, prefix)

    def values(self, prefix=None):
        """Returns a view of the values, or of those whose key begins with a prefix, in key order.

        >>> list(StringPatriciaMap({'ab': 1, 'b': 2}).values())
        [1, 2]
        """
        return _Values(self, prefix)

    def items(self, prefix=None):
        """Returns a view of the entries, or of those whose key begins with a prefix, in key order.

        >>> list(StringPatriciaMap({'ab': 1, 'b': 2}).items(prefix='a'))
        [('ab', 1)]
        """
        return _Items(self, prefix)

    def peekitem(self, index=-1):
        """Returns the last entry in key order, or with 0 the first one. Raises `IndexError` for an
        empty map, and for another index.

        >>> ports = StringPatriciaMap({'b': 1, 'a': 2})
        >>> ports.peekitem(), ports.peekitem(0)
        (('b', 1), ('a', 2))
        """
        if index not in (0, -1):
            raise IndexError('only the first and the last entry are found: 0 and -1')
        entry = self.last() if index else self.first()
        if entry is None:
            raise IndexError('the map is empty')
        return entry

    def popitem(self, index=-1):
        """Removes and returns the last entry in key order, or with 0 the first one. Raises
        `KeyError` for an empty map.

        >>> ports = StringPatriciaMap({'b': 1, 'a': 2})
        >>> ports.popitem(), ports
        (('b', 1), StringPatriciaMap({'a': 2}))
        """
        if not self:
            raise KeyError('the map is empty')
        entry = self.peekitem(index)
        del self[entry[0]]
        return entry

    @classmethod
    def fromkeys(cls, keys, value=None):
        """Makes a map of keys that have one value.

        >>> PatriciaMap.fromkeys([b'a', b'b'], 0)
        PatriciaMap({b'a': 0, b'b': 0})
        """
        return cls((key, value) for key in keys)

    @classmethod
    def from_tree_bytes(cls, data, values, wide=False):
        """Makes a map of tree bytes and of the values in key order. Raises `DecodeError` where
        they are no whole tree.

        >>> PatriciaMap.from_tree_bytes(PatriciaSet([b'a']).tree_bytes(), ['value'])
        PatriciaMap({b'a': 'value'})
        """
        return _become(cls(), data, tuple(values), wide, cls._is_text)


class _Set(_Tree, MutableSet):
    """What sets have in common and what is not in C."""

    __slots__ = ()

    def __init__(self, elements=()):
        self.update(elements)

    def __repr__(self):
        return '%s([%s])' % (type(self).__name__, ', '.join(map(repr, self)))

    def __reduce__(self):
        return self._state(len(self))

    def pop(self, index=-1):
        """Removes and returns the last element in order, or with 0 the first one. Raises
        `KeyError` for an empty set.

        >>> words = StringPatriciaSet(['b', 'a'])
        >>> words.pop(0), words
        ('a', StringPatriciaSet(['b']))
        """
        if index not in (0, -1):
            raise IndexError('only the first and the last element are found: 0 and -1')
        if not self:
            raise KeyError('the set is empty')
        element = self.last() if index else self.first()
        self.remove(element)
        return element

    def union(self, *others):
        """Returns the elements of this set and of all others, as `|` does of sets.

        >>> StringPatriciaSet(['a']).union(['b'])
        StringPatriciaSet(['a', 'b'])
        """
        both = self.copy()
        both.update(*others)
        return both

    def intersection(self, *others):
        """Returns the elements that are in all others, too, as `&` does of sets.

        >>> StringPatriciaSet(['a', 'b']).intersection(['b', 'c'])
        StringPatriciaSet(['b'])
        """
        both = self.copy()
        for other in others:
            both &= other if isinstance(other, Set) else type(self)(other)
        return both

    def difference(self, *others):
        """Returns the elements that are in no other, as `-` does of sets.

        >>> StringPatriciaSet(['a', 'b']).difference(['b', 'c'])
        StringPatriciaSet(['a'])
        """
        rest = self.copy()
        rest.difference_update(*others)
        return rest

    def symmetric_difference(self, other):
        """Returns the elements that are in this set or the other and not in both, as `^` does.

        >>> StringPatriciaSet(['a', 'b']).symmetric_difference(['b', 'c'])
        StringPatriciaSet(['a', 'c'])
        """
        return self ^ type(self)(other)

    def difference_update(self, *others):
        """Removes the elements that are in another, as `-=` does of sets.

        >>> words = StringPatriciaSet(['a', 'b'])
        >>> words.difference_update(['b'])
        >>> words
        StringPatriciaSet(['a'])
        """
        for other in others:
            for element in self.copy() if other is self else other:
                self.discard(element)

    def intersection_update(self, *others):
        """Keeps the elements that are in all others, too, as `&=` does of sets.

        >>> words = StringPatriciaSet(['a', 'b'])
        >>> words.intersection_update(['b', 'c'])
        >>> words
        StringPatriciaSet(['b'])
        """
        for other in others:
            self &= other if isinstance(other, Set) else type(self)(other)

    def symmetric_difference_update(self, other):
        """Removes the elements that are in the other, and adds those that only the other has, as
        `^=` does of sets.

        >>> words = StringPatriciaSet(['a', 'b'])
        >>> words.symmetric_difference_update(['b', 'c'])
        >>> words
        StringPatriciaSet(['a', 'c'])
        """
        self ^= type(self)(other)

    def issubset(self, other):
        """Returns whether each element is in the other, as `<=` does of sets.

        >>> StringPatriciaSet(['a']).issubset(['a', 'b'])
        True
        """
        return self <= (other if isinstance(other, Set) else set(other))

    def issuperset(self, other):
        """Returns whether each element of the other is in this set, as `>=` does of sets.

        >>> StringPatriciaSet(['a', 'b']).issuperset(['a'])
        True
        """
        return all(element in self for element in other)

    @classmethod
    def from_tree_bytes(cls, data, count, wide=False):
        """Makes a set of tree bytes and the number of its elements. Raises `DecodeError` where
        they are no whole tree.

        >>> PatriciaSet.from_tree_bytes(PatriciaSet([b'a']).tree_bytes(), 1)
        PatriciaSet([b'a'])
        """
        return _become(cls(), data, count, wide, cls._is_text)


class PatriciaMap(_patricia.Map, _Map):
    """A mapping from `bytes` to any objects, in the order of the keys.

    >>> PatriciaMap({b'b': 1, b'a': 2})
    PatriciaMap({b'a': 2, b'b': 1})
    """

    _is_text = False


class StringPatriciaMap(_patricia.TextMap, _Map):
    """A mapping from `str` to any objects, in the order of code points.

    >>> StringPatriciaMap(b=1, a=2)
    StringPatriciaMap({'a': 2, 'b': 1})
    """

    _is_text = True


class PatriciaSet(_patricia.Set, _Set):
    """A set of `bytes`, in order.

    >>> PatriciaSet([b'b', b'a'])
    PatriciaSet([b'a', b'b'])
    """

    _is_text = False


class StringPatriciaSet(_patricia.TextSet, _Set):
    """A set of `str`, in the order of code points.

    >>> StringPatriciaSet(['b', 'a'])
    StringPatriciaSet(['a', 'b'])
    """

    _is_text = True
