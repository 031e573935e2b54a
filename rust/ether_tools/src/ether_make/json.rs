//! Values of JSON, which `serde_json` reads. Written by hand, not proved.
use crate::ether_make::memory::Global;
use serde::de::{Deserialize, Deserializer, MapAccess, SeqAccess, Visitor};
use std::fmt;

/// A value of JSON, as far as the program tells values apart.
pub enum Value {
    /// `null`.
    Null,
    /// A truth value.
    Bool(bool),
    /// A number from 0 on that has 64 bits.
    Number(u64),
    /// A text.
    Text(String),
    /// An array.
    Array(Vec<Value>),
    /// An object.
    Object(Map<String, Value>),
    /// Another number.
    Other,
}

/// The members of an object, in the order of their names.
pub struct Map<K, V> {
    members: Vec<(K, V)>,
    is_unique: bool,
}

/// A text is no value of JSON. `serde_json` ends the program if it gets no memory.
pub struct NoValue;

impl NoValue {
    /// Tests that memory was refused.
    pub fn is_memory(&self) -> bool {
        false
    }
}

/// The value of a text.
pub fn from_slice(_alloc: Global, text: &[u8]) -> Result<Value, NoValue> {
    serde_json::from_slice(text).map_err(|_| NoValue)
}

impl<V> Map<String, V> {
    /// The names of the members.
    pub fn keys(&self) -> impl Iterator<Item = &String> {
        self.members.iter().map(|(name, _)| name)
    }
}

impl Value {
    /// The value of a member of an object.
    pub fn get(&self, name: &str) -> Option<&Value> {
        let (_, value) = self.as_object()?.members.iter().find(|(other, _)| other == name)?;
        Some(value)
    }

    /// Tests that no object, at any depth, has two members of one name.
    pub fn is_unique(&self) -> bool {
        match self {
            Value::Array(values) => values.iter().all(Value::is_unique),
            Value::Object(map) => map.is_unique && map.members.iter().all(|(_, value)| value.is_unique()),
            _ => true,
        }
    }

    /// Tests that the value is `null`.
    pub fn is_null(&self) -> bool {
        matches!(self, Value::Null)
    }

    /// Tests that the value is an object.
    pub fn is_object(&self) -> bool {
        matches!(self, Value::Object(_))
    }

    /// A truth value.
    pub fn as_bool(&self) -> Option<bool> {
        if let Value::Bool(value) = self { Some(*value) } else { None }
    }

    /// A number from 0 on.
    pub fn as_u64(&self) -> Option<u64> {
        if let Value::Number(number) = self { Some(*number) } else { None }
    }

    /// A text.
    pub fn as_str(&self) -> Option<&str> {
        if let Value::Text(text) = self { Some(text) } else { None }
    }

    /// An array.
    pub fn as_array(&self) -> Option<&Vec<Value>> {
        if let Value::Array(values) = self { Some(values) } else { None }
    }

    /// An object.
    pub fn as_object(&self) -> Option<&Map<String, Value>> {
        if let Value::Object(map) = self { Some(map) } else { None }
    }
}

impl<'de> Deserialize<'de> for Value {
    fn deserialize<D: Deserializer<'de>>(from: D) -> Result<Value, D::Error> {
        from.deserialize_any(AnyValue)
    }
}

/// Takes each value of JSON.
struct AnyValue;

impl<'de> Visitor<'de> for AnyValue {
    type Value = Value;

    fn expecting(&self, f: &mut fmt::Formatter<'_>) -> fmt::Result {
        f.write_str("a value of JSON")
    }

    fn visit_unit<E>(self) -> Result<Value, E> {
        Ok(Value::Null)
    }

    fn visit_bool<E>(self, value: bool) -> Result<Value, E> {
        Ok(Value::Bool(value))
    }

    fn visit_u64<E>(self, number: u64) -> Result<Value, E> {
        Ok(Value::Number(number))
    }

    fn visit_i64<E>(self, _: i64) -> Result<Value, E> {
        Ok(Value::Other)
    }

    fn visit_f64<E>(self, _: f64) -> Result<Value, E> {
        Ok(Value::Other)
    }

    fn visit_str<E>(self, text: &str) -> Result<Value, E> {
        Ok(Value::Text(text.to_owned()))
    }

    fn visit_seq<A: SeqAccess<'de>>(self, mut from: A) -> Result<Value, A::Error> {
        let mut values = Vec::new();
        while let Some(value) = from.next_element()? {
            values.push(value);
        }
        Ok(Value::Array(values))
    }

    fn visit_map<A: MapAccess<'de>>(self, mut from: A) -> Result<Value, A::Error> {
        let mut members: Vec<(String, Value)> = Vec::with_capacity(16);
        while let Some((name, value)) = from.next_entry()? {
            members.push((name, value));
        }
        members.sort_by(|(name, _), (other, _)| name.cmp(other));
        let is_unique = members.windows(2).all(|two| two[0].0 != two[1].0);
        Ok(Value::Object(Map { members, is_unique }))
    }
}
