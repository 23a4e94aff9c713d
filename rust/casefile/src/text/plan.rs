//! Which values and nodes of a case get a name in its text.

use super::printer::{Printed, Printer};
use crate::records::Node;

/// A shared value with more parts than this gets a name of its own.
const INLINE_PARTS: usize = 8;

impl Printer<'_> {
    /// Names the values that nobody uses and the large ones that several use.
    pub fn plan_values(&mut self) -> Printed<()> {
        let mut uses = vec![0; self.values.len()];
        let mut used = |value: u32| match uses.get_mut(value as usize) {
            Some(count) => {
                *count += 1;
                Ok(())
            }
            None => Err(format!("there is no value {value}")),
        };
        for number in 0..self.values.len() as u32 {
            self.members(number)?.iter().try_for_each(|[_, value]| used(*value))?;
        }
        for point in &self.points {
            used(point.logged)?;
            used(point.context)?;
            point.principal.into_iter().chain(point.resource).try_for_each(&mut used)?;
            let entities = self.list(point.entities.first, 3 * point.entities.count as usize)?;
            entities.chunks(3).try_for_each(|entity| used(entity[2]))?;
        }
        for node in &self.nodes {
            if let Node::Literal { value } = node {
                used(*value)?;
            }
        }
        let mut parts: Vec<usize> = Vec::new();
        for (number, uses) in uses.into_iter().enumerate() {
            let below = self.members(number as u32)?.iter().map(|[_, value]| parts[*value as usize]).sum::<usize>();
            let named = uses == 0 || (uses > 1 && 1 + below > INLINE_PARTS);
            self.value_named[number] = named;
            parts.push(if named { 1 } else { 1 + below });
        }
        Ok(())
    }

    /// Names the nodes that cannot stand inside another's text: those used not exactly once,
    /// those that have a name of their own, and those that would not get their number back there, because packing numbers in text order.
    pub fn plan_nodes(&mut self) {
        let count = self.nodes.len();
        let operands: Vec<Vec<u32>> = (0..count as u32).map(|k| self.operands(k).unwrap_or_default()).collect();
        let mut uses = vec![0; count];
        operands.iter().flatten().for_each(|&child| uses[child as usize] += 1);
        let mut inline = vec![false; count];
        // The first number of the text that ends in this node, everything inline counted.
        let mut first = vec![0; count];
        for node in 0..count {
            let mut before = node;
            for &child in operands[node].iter().rev() {
                let child = child as usize;
                if uses[child] == 1 && child + 1 == before && !self.given.has(child as u32) {
                    inline[child] = true;
                    before = first[child];
                }
            }
            first[node] = before;
        }
        self.node_named = inline.iter().map(|inline| !inline).collect();
    }
}
