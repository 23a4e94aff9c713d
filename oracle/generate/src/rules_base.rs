//! The base case of the rule files: every value and node kind once, with the places of each.

use casefile::{Tables, NONE};

const STRINGS: [&str; 7] = ["A", "T", "a", "a.b", "b", "q\"", "request"];
pub const DOTTED: u32 = 3;
pub const QUOTED: u32 = 5;

pub const NULL: usize = 0;
pub const BOOL: usize = 1;
pub const INT: usize = 2;
pub const DECIMAL: usize = 3;
pub const STRING: usize = 4;
pub const ENTITY: usize = 5;
pub const ARRAY: usize = 6;
pub const EMPTY: usize = 7;
pub const OBJECT: usize = 8;
/// Objects and arrays with a dotted name in them.
pub const DOTTED_OBJECT: usize = 9;
pub const DOTTED_BELOW: usize = 10;
pub const DOTTED_ARRAY: usize = 11;
pub const DOTTED_UNDER_ARRAY: usize = 12;
/// An array of Null; the value after it is an array of this one.
pub const NULL_ARRAY: usize = 13;

/// Members: the array's item, and the object's first of two.
pub const ARRAY_ITEM: usize = 0;
pub const MEMBER_A: usize = 1;

/// Places in lists.
pub const NAMESPACE: usize = 0;
pub const ENTITIES: usize = 1;
pub const PATH: usize = 7;
pub const ARGUMENT: usize = 9;
pub const BINDERS: usize = 12;

pub const VARIABLE: usize = 0;
pub const LITERAL: usize = 1;
pub const CONTEXT: usize = 2;
pub const SCOPE: usize = 3;
pub const WILDCARD: usize = 4;
pub const PREDICATE: usize = 5;
pub const TP: usize = 6;
pub const AND: usize = 7;
pub const OR: usize = 8;
pub const NOT: usize = 9;
pub const FORMERLY: usize = 10;
pub const PREVIOUS: usize = 11;
pub const SINCE: usize = 12;
pub const EXISTS: usize = 13;
pub const COUNT: usize = 14;
pub const SUM: usize = 15;
pub const AGGREGATE: usize = 16;
pub const ARITHMETIC: usize = 17;
pub const COMPARISON: usize = 18;

/// Nodes with the number of operand words of their kind, where words are left over.
pub const USED_WORDS: [(usize, usize); 19] = [
    (VARIABLE, 1),
    (LITERAL, 1),
    (CONTEXT, 2),
    (SCOPE, 3),
    (WILDCARD, 0),
    (PREDICATE, 6),
    (TP, 1),
    (AND, 2),
    (OR, 2),
    (NOT, 1),
    (FORMERLY, 4),
    (PREVIOUS, 4),
    (SINCE, 5),
    (EXISTS, 2),
    (COUNT, 3),
    (SUM, 4),
    (AGGREGATE, 1),
    (ARITHMETIC, 3),
    (COMPARISON, 3),
];

/// A case that passes the check.
pub fn base() -> Tables {
    let mut tables = Tables { variables: 1, ..Tables::default() };
    for text in STRINGS {
        tables.strings.push([tables.text.len() as u32, text.len() as u32]);
        tables.text.extend(text.bytes());
    }
    tables.values = vec![
        [0, 0, 0, 0],
        [1, 1, 0, 0],
        [2, 3, 0, 0],
        [3, 2, 0, 0],
        [4, 2, 0, 0],
        [5, 1, 2, 0],
        [6, 0, 1, 0],
        [7, 0, 0, 0],
        [7, 1, 2, 0],
        [7, 3, 1, 0],
        [7, 4, 1, 0],
        [6, 5, 1, 0],
        [7, 6, 1, 0],
        [6, 7, 1, 0],
        [6, 8, 1, 0],
    ];
    tables.members = vec![[NONE, 2], [2, 2], [4, 4], [3, 2], [2, 9], [NONE, 9], [2, 11], [NONE, 0], [NONE, 13]];
    tables.points = vec![[100, 0, 0, 1, 0, 6, 9, 8, 5, NONE, 1, 2]];
    tables.lists = vec![1, 1, 2, 7, 1, 4, 8, 2, 4, 7, 1, 0, 0];
    tables.nodes = vec![
        [23, 0, 0, 0, 0, 0, 0, 0],
        [20, 2, 0, 0, 0, 0, 0, 0],
        [21, 7, 2, 0, 0, 0, 0, 0],
        [22, 0, 7, 1, 0, 0, 0, 0],
        [24, 0, 0, 0, 0, 0, 0, 0],
        [7, 0, 1, 0, 6, 9, 1, 0],
        [10, 0, 0, 0, 0, 0, 0, 0],
        [1, 5, 6, 0, 0, 0, 0, 0],
        [2, 5, 6, 0, 0, 0, 0, 0],
        [3, 5, 0, 0, 0, 0, 0, 0],
        [4, 10, 0, 0, 5, 0, 0, 0],
        [5, 10, 0, 0, 5, 0, 0, 0],
        [6, 5, 6, 10, 0, 0, 0, 0],
        [9, 0, 5, 0, 0, 0, 0, 0],
        [31, 12, 1, 5, 0, 0, 0, 0],
        [30, 0, 12, 1, 5, 0, 0, 0],
        [25, 14, 0, 0, 0, 0, 0, 0],
        [26, 0, 16, 1, 0, 0, 0, 0],
        [8, 4, 17, 0, 0, 0, 0, 0],
    ];
    tables
}
