//! Members of an object.

use etherpeel::ether_fields::Field;
use crate::ether_make::json::{Map, Value};

/// The value of a member. `null` is a value that is missing.
///
/// <details><summary>Contract</summary>
///
/// ```text
/// ensures { option_map (λ v. view v.now) result ≡ given_in name.now (view object.now) }
/// ```
///
/// </details>
pub fn given<'v>(object: &'v Value, name: &str) -> Option<&'v Value> {
    let value = object.get(name)?;
    if value.is_null() { None } else { Some(value) }
}

/// The value of a field. That of a range is its first one.
///
/// <details><summary>Contract</summary>
///
/// ```text
/// ensures { option_map (λ v. view v.now) result ≡ first_given_in name.now (view object.now) }
/// ```
///
/// </details>
pub fn first_given<'v>(object: &'v Value, name: &str) -> Option<&'v Value> {
    let value = given(object, name)?;
    if value.is_object() {
        Some(given(value, "from").unwrap_or(value))
    } else {
        Some(value)
    }
}

/// A number from 0 on.
///
/// <details><summary>Contract</summary>
///
/// ```text
/// ensures { result ≡ number_in (view value.now) }
/// ```
///
/// </details>
pub fn number_of(value: &Value) -> Option<u64> {
    value.as_u64()
}

/// The name of the first member, in the order of an object, that is neither a field's nor one of some others.
///
/// <details><summary>Contract</summary>
///
/// ```text
/// ensures { option_map (λ k. k.now) result
///     ≡ unknown_member_in (map (λ r. r.name) (map field_view fields.now) ++ map (λ o. o.now) others.now)
///     (view object.now) }
/// ```
///
/// </details>
pub fn unknown_member<'v>(object: &'v Value, fields: &[Field], others: &[&str]) -> Option<&'v str> {
    unknown_key(object.as_object()?, fields, others)
}

/// .. in the map of an object.
fn unknown_key<'v>(
    object: &'v Map<String, Value>,
    fields: &[Field],
    others: &[&str],
) -> Option<&'v str> {
    for key in object.keys() {
        if !is_known(fields, others, key.as_str()) {
            return Some(key.as_str());
        }
    }
    None
}

/// Whether a field or one of some others has this name.
fn is_known(fields: &[Field], others: &[&str], name: &str) -> bool {
    is_field(fields, name) || is_other(others, name)
}

/// Whether a field has this name.
fn is_field(fields: &[Field], name: &str) -> bool {
    for field in fields {
        if field.name == name {
            return true;
        }
    }
    false
}

/// Whether one of some words is this name.
fn is_other(words: &[&str], name: &str) -> bool {
    for word in words {
        if *word == name {
            return true;
        }
    }
    false
}
