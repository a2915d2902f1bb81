//! A format that records which calls of serde a value makes: `serialize_tuple(2)` for the pair, and
//! bytes as bytes.

use patricia::{PatriciaMap, PatriciaSet};
use serde::de::value::{Error, SeqDeserializer};
use serde::de::{Deserialize, DeserializeSeed, Deserializer, SeqAccess, Visitor};
use serde::forward_to_deserialize_any;
use serde::ser::{Error as _, Impossible, Serialize, SerializeSeq, SerializeTuple, Serializer};

/// What was called.
#[derive(Debug, PartialEq)]
enum Token {
    Tuple(usize),
    Bytes(Vec<u8>),
    Seq(Option<usize>),
    Number(u32),
    Unit,
    End,
}

struct Recorder<'t>(&'t mut Vec<Token>);

macro_rules! not_called {
    ($($name:ident($kind:ty))*) => {$(
        fn $name(self, _: $kind) -> Result<(), Error> {
            Err(Error::custom(stringify!($name)))
        }
    )*};
}

impl<'t> Serializer for Recorder<'t> {
    type Ok = ();
    type Error = Error;
    type SerializeSeq = Self;
    type SerializeTuple = Self;
    type SerializeTupleStruct = Impossible<(), Error>;
    type SerializeTupleVariant = Impossible<(), Error>;
    type SerializeMap = Impossible<(), Error>;
    type SerializeStruct = Impossible<(), Error>;
    type SerializeStructVariant = Impossible<(), Error>;

    fn serialize_bytes(self, bytes: &[u8]) -> Result<(), Error> {
        self.0.push(Token::Bytes(bytes.to_vec()));
        Ok(())
    }

    fn serialize_u32(self, number: u32) -> Result<(), Error> {
        self.0.push(Token::Number(number));
        Ok(())
    }

    fn serialize_unit(self) -> Result<(), Error> {
        self.0.push(Token::Unit);
        Ok(())
    }

    fn serialize_tuple(self, len: usize) -> Result<Self, Error> {
        self.0.push(Token::Tuple(len));
        Ok(self)
    }

    fn serialize_seq(self, len: Option<usize>) -> Result<Self, Error> {
        self.0.push(Token::Seq(len));
        Ok(self)
    }

    not_called! {
        serialize_bool(bool) serialize_i8(i8) serialize_i16(i16) serialize_i32(i32)
        serialize_i64(i64) serialize_u8(u8) serialize_u16(u16) serialize_u64(u64)
        serialize_f32(f32) serialize_f64(f64) serialize_char(char) serialize_str(&str)
        serialize_unit_struct(&'static str)
    }

    fn serialize_none(self) -> Result<(), Error> {
        Err(Error::custom("none"))
    }

    fn serialize_some<T: ?Sized + Serialize>(self, _: &T) -> Result<(), Error> {
        Err(Error::custom("some"))
    }

    fn serialize_unit_variant(
        self,
        _: &'static str,
        _: u32,
        name: &'static str,
    ) -> Result<(), Error> {
        Err(Error::custom(name))
    }

    fn serialize_newtype_struct<T>(self, name: &'static str, _: &T) -> Result<(), Error>
    where
        T: ?Sized + Serialize,
    {
        Err(Error::custom(name))
    }

    fn serialize_newtype_variant<T>(
        self,
        _: &'static str,
        _: u32,
        name: &'static str,
        _: &T,
    ) -> Result<(), Error>
    where
        T: ?Sized + Serialize,
    {
        Err(Error::custom(name))
    }

    fn serialize_tuple_struct(
        self,
        name: &'static str,
        _: usize,
    ) -> Result<Impossible<(), Error>, Error> {
        Err(Error::custom(name))
    }

    fn serialize_tuple_variant(
        self,
        _: &'static str,
        _: u32,
        name: &'static str,
        _: usize,
    ) -> Result<Impossible<(), Error>, Error> {
        Err(Error::custom(name))
    }

    fn serialize_map(self, _: Option<usize>) -> Result<Impossible<(), Error>, Error> {
        Err(Error::custom("map"))
    }

    fn serialize_struct(
        self,
        name: &'static str,
        _: usize,
    ) -> Result<Impossible<(), Error>, Error> {
        Err(Error::custom(name))
    }

    fn serialize_struct_variant(
        self,
        _: &'static str,
        _: u32,
        name: &'static str,
        _: usize,
    ) -> Result<Impossible<(), Error>, Error> {
        Err(Error::custom(name))
    }
}

impl SerializeTuple for Recorder<'_> {
    type Ok = ();
    type Error = Error;

    fn serialize_element<T: ?Sized + Serialize>(&mut self, element: &T) -> Result<(), Error> {
        element.serialize(Recorder(self.0))
    }

    fn end(self) -> Result<(), Error> {
        self.0.push(Token::End);
        Ok(())
    }
}

impl SerializeSeq for Recorder<'_> {
    type Ok = ();
    type Error = Error;

    fn serialize_element<T: ?Sized + Serialize>(&mut self, element: &T) -> Result<(), Error> {
        element.serialize(Recorder(self.0))
    }

    fn end(self) -> Result<(), Error> {
        self.0.push(Token::End);
        Ok(())
    }
}

/// What a value writes.
fn tokens(value: &impl Serialize) -> Vec<Token> {
    let mut tokens = Vec::new();
    value
        .serialize(Recorder(&mut tokens))
        .expect("it is written");
    tokens
}

const ROOT_AND_A: [u8; 9] = [15, 0, 0, 0, 3, 1, 0, 1, 97];

#[test]
fn a_map_is_a_tuple_of_bytes_and_a_list() {
    let mut tokens = tokens(&PatriciaMap::from([("", 5u32), ("a", 6)]));
    // the number of values is a hint
    assert!(matches!(tokens.remove(2), Token::Seq(None | Some(2))));
    let bytes = Token::Bytes(ROOT_AND_A.to_vec());
    let numbers = [Token::Number(5), Token::Number(6)];
    let [five, six] = numbers;
    assert_eq!(
        tokens,
        [Token::Tuple(2), bytes, five, six, Token::End, Token::End]
    );
}

#[test]
fn a_set_is_a_tuple_of_bytes_and_units() {
    let mut tokens = tokens(&PatriciaSet::from(["", "a"]));
    assert!(matches!(tokens.remove(2), Token::Seq(None | Some(2))));
    let bytes = Token::Bytes(ROOT_AND_A.to_vec());
    let expected = [
        Token::Tuple(2),
        bytes,
        Token::Unit,
        Token::Unit,
        Token::End,
        Token::End,
    ];
    assert_eq!(tokens, expected);
}

/// How bytes are handed over.
#[derive(Clone, Copy, Debug)]
enum Hand {
    Borrowed,
    Short,
    Owned,
}

/// A pair whose first part hands its bytes over in one way, and which asserts how it is asked.
struct Pair(Hand, usize);

/// The bytes of a pair.
struct BytesOf(Hand);

impl<'de> Deserializer<'de> for Pair {
    type Error = Error;

    fn deserialize_any<V: Visitor<'de>>(self, _: V) -> Result<V::Value, Error> {
        Err(Error::custom("asked for no pair"))
    }

    fn deserialize_tuple<V: Visitor<'de>>(self, len: usize, v: V) -> Result<V::Value, Error> {
        assert_eq!(len, 2);
        v.visit_seq(self)
    }

    forward_to_deserialize_any! {
        bool i8 i16 i32 i64 u8 u16 u32 u64 f32 f64 char str string bytes byte_buf option unit
        unit_struct newtype_struct seq tuple_struct map struct enum identifier ignored_any
    }
}

impl<'de> SeqAccess<'de> for Pair {
    type Error = Error;

    fn next_element_seed<T>(&mut self, seed: T) -> Result<Option<T::Value>, Error>
    where
        T: DeserializeSeed<'de>,
    {
        self.1 += 1;
        match self.1 {
            1 => seed.deserialize(BytesOf(self.0)).map(Some),
            2 => seed
                .deserialize(SeqDeserializer::new([5u32, 6].into_iter()))
                .map(Some),
            _ => Ok(None),
        }
    }
}

impl<'de> Deserializer<'de> for BytesOf {
    type Error = Error;

    fn deserialize_any<V: Visitor<'de>>(self, _: V) -> Result<V::Value, Error> {
        Err(Error::custom("asked for no bytes"))
    }

    fn deserialize_bytes<V: Visitor<'de>>(self, visitor: V) -> Result<V::Value, Error> {
        static BYTES: [u8; 9] = ROOT_AND_A;
        match self.0 {
            Hand::Borrowed => visitor.visit_borrowed_bytes(&BYTES),
            Hand::Short => visitor.visit_bytes(&BYTES.to_vec()),
            Hand::Owned => visitor.visit_byte_buf(BYTES.to_vec()),
        }
    }

    forward_to_deserialize_any! {
        bool i8 i16 i32 i64 u8 u16 u32 u64 f32 f64 char str string byte_buf option unit
        unit_struct newtype_struct seq tuple tuple_struct map struct enum identifier ignored_any
    }
}

#[test]
fn a_map_asks_for_a_tuple_and_for_bytes() {
    for hand in [Hand::Borrowed, Hand::Short, Hand::Owned] {
        let map = PatriciaMap::<u32>::deserialize(Pair(hand, 0));
        assert_eq!(map, Ok(PatriciaMap::from([("", 5), ("a", 6)])), "{hand:?}");
    }
}
