//! What a path finds in an object: by plain descent in logged fields, by joined names in context and
//! attributes (document 02, #103).

use crate::file::File;
use crate::variant::Variant;

/// Descends objects by name, at least one.
pub fn descended(file: File, object: u32, path: &[u32]) -> Option<u32> {
    let mut at = object;
    for name in path {
        at = members(file, at).iter().find(|[n, _]| n == name)?[1];
    }
    Some(at)
}

/// The value written last under the path's key.
pub fn joined(file: File, variant: Variant, object: u32, path: &[u32]) -> Option<u32> {
    let names: Vec<&[u8]> = path.iter().map(|&name| file.string(name)).collect();
    let key = names.join(&b'.');
    match variant {
        Variant::PlainDescent => descended(file, object, path),
        Variant::FirstWritten => written(file, object, &key).first().copied(),
        Variant::ShortestNameOnly => searched(file, object, &key, |fitting| &fitting[..fitting.len().min(1)]),
        Variant::NoWayBack => searched(file, object, &key, |fitting| &fitting[fitting.len().saturating_sub(1)..]),
        _ => written(file, object, &key).last().copied(),
    }
}

/// All values written under a key, in the order of writing: each member of an object in the order of
/// names, what is below it before itself. Members whose name the key does not begin with write nothing
/// under it.
fn written(file: File, object: u32, key: &[u8]) -> Vec<u32> {
    let mut values = Vec::new();
    for [name, value] in members(file, object) {
        let name = file.string(name);
        if let Some(rest) = below(key, name) {
            values.extend(written(file, value, rest));
        }
        if name == key {
            values.push(value);
        }
    }
    values
}

/// What a search finds that at each object takes some only of the members whose name the key is or
/// begins with, the shortest name first.
fn searched(file: File, object: u32, key: &[u8], taken: fn(&[[u32; 2]]) -> &[[u32; 2]]) -> Option<u32> {
    let mut fitting = members(file, object);
    fitting.retain(|[name, _]| file.string(*name) == key || below(key, file.string(*name)).is_some());
    taken(&fitting).iter().find_map(|&[name, value]| match below(key, file.string(name)) {
        Some(rest) => searched(file, value, rest, taken),
        None => Some(value),
    })
}

/// What is left of a key behind a name and a dot.
fn below<'a>(key: &'a [u8], name: &[u8]) -> Option<&'a [u8]> {
    key.strip_prefix(name)?.strip_prefix(b".")
}

/// The members of an object, in the order of names; other values have none.
fn members(file: File, value: u32) -> Vec<[u32; 2]> {
    match file.value(value) {
        [7, first, count, _] => file.members(first, count),
        _ => Vec::new(),
    }
}
