//! An unsorted case: a case in all but the order of its strings.

use crate::tables::Tables;

/// Tables whose strings may stand in any order, and a mark for each list word: not 0 where it names a string.
#[derive(Clone, Debug, Default, PartialEq, Eq)]
pub struct Unsorted {
    pub tables: Tables,
    pub marks: Vec<u8>,
}

impl Unsorted {
    /// The case of different strings that lie in text and are numbered in range. The proved writer does the same of
    /// any; this is for what must not lean on it, and to hold the one to the other.
    pub fn sorted(self) -> Tables {
        let Unsorted { mut tables, marks } = self;
        let mut order: Vec<u32> = (0..tables.strings.len() as u32).collect();
        order.sort_by(|&a, &b| tables.string(a).cmp(tables.string(b)));
        let mut number = vec![0; order.len()];
        let (mut strings, mut text) = (Vec::new(), Vec::new());
        for (k, &old) in order.iter().enumerate() {
            number[old as usize] = k as u32;
            strings.push([text.len() as u32, tables.string(old).len() as u32]);
            text.extend(tables.string(old));
        }
        (tables.strings, tables.text) = (strings, text);
        // What is no string's number, as a member without a name, stays.
        let renumber = |word: &mut u32| *word = number.get(*word as usize).copied().unwrap_or(*word);
        for value in &mut tables.values {
            match value[0] {
                3 | 4 => renumber(&mut value[1]),
                5 => value[1..3].iter_mut().for_each(renumber),
                _ => {}
            }
        }
        tables.members.iter_mut().for_each(|member| renumber(&mut member[0]));
        tables.points.iter_mut().for_each(|point| point[4..6].iter_mut().for_each(renumber));
        tables.nodes.iter_mut().filter(|node| node[0] == 7).for_each(|node| node[3..5].iter_mut().for_each(renumber));
        tables.lists.iter_mut().zip(marks).filter(|(_, mark)| *mark != 0).for_each(|(word, _)| renumber(word));
        tables
    }
}
