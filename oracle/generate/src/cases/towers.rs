//! Plans of shared things: each level is made of levels below it and of leaves.

use crate::random::Random;

/// What a level is made of: a level below, or a leaf.
#[derive(Clone, Copy)]
enum Item {
    Level(usize),
    Leaf(usize),
}

/// The items of each level, the lowest first. One plan may be built more than once, over other leaves.
#[derive(Clone)]
pub struct Tower {
    levels: Vec<Vec<Item>>,
    /// What the highest level stands for, were nothing shared: its leaves and levels.
    pub size: u64,
}

impl Tower {
    /// Up to so many levels over so many leaves, of a size of at most `most`.
    pub fn random(random: &mut Random, levels: usize, widths: &[usize], leaves: usize, most: u64) -> Tower {
        let mut tower = Tower { levels: Vec::new(), size: 0 };
        let mut sizes: Vec<u64> = Vec::new();
        for level in 0..levels {
            let width = random.pick(widths);
            let mut items: Vec<Item> = (0..width).map(|_| item(random, level, leaves)).collect();
            let size = |items: &[Item]| 1 + items.iter().map(|item| item.size(&sizes)).sum::<u64>();
            if level > 0 {
                let place = random.below(width);
                items[place] = Item::Level(level - 1);
                if size(&items) > most {
                    // A chain in place of a branch.
                    items.iter_mut().for_each(|item| *item = Item::Leaf(random.below(leaves)));
                    items[place] = Item::Level(level - 1);
                }
            }
            tower.size = size(&items);
            sizes.push(tower.size);
            tower.levels.push(items);
        }
        tower
    }

    pub fn height(&self) -> usize {
        self.levels.len()
    }

    /// The same plan with one leaf, at any height, replaced by leaf number `leaf`.
    pub fn with_leaf(&self, random: &mut Random, leaf: usize) -> Tower {
        let mut other = self.clone();
        let leaves = |items: &Vec<Item>| items.iter().any(|item| matches!(item, Item::Leaf(_)));
        let levels: Vec<usize> = (0..self.levels.len()).filter(|&k| leaves(&self.levels[k])).collect();
        let level = &mut other.levels[random.pick(&levels)];
        let places: Vec<usize> = (0..level.len()).filter(|&k| matches!(level[k], Item::Leaf(_))).collect();
        level[random.pick(&places)] = Item::Leaf(leaf);
        other
    }

    /// Makes the levels in order, above those that are there already; gives all of them.
    pub fn build(&self, below: &[u32], leaves: &[u32], mut make: impl FnMut(usize, &[u32]) -> u32) -> Vec<u32> {
        let mut made = below.to_vec();
        for level in below.len()..self.levels.len() {
            let parts: Vec<u32> = self.levels[level]
                .iter()
                .map(|item| match *item {
                    Item::Level(k) => made[k],
                    Item::Leaf(k) => leaves[k],
                })
                .collect();
            made.push(make(level, &parts));
        }
        made
    }
}

impl Item {
    fn size(self, sizes: &[u64]) -> u64 {
        match self {
            Item::Level(k) => sizes[k],
            Item::Leaf(_) => 1,
        }
    }
}

/// Mostly the level right below, so that what is shared doubles.
fn item(random: &mut Random, level: usize, leaves: usize) -> Item {
    match random.below(10) {
        0..=4 if level > 0 => Item::Level(level - 1),
        5 | 6 if level > 0 => Item::Level(random.below(level)),
        _ => Item::Leaf(random.below(leaves)),
    }
}
