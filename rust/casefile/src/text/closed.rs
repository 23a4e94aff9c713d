//! Faults in the binding of variables, told with their places in the text.

use super::lexer::Place;
use super::{Fault, Keyword, Packed};
use crate::binding::{Binding, Misuse, Why};
use crate::Variables;

/// What is wrong with the variables of every rule and number that is not loose.
pub fn binding_faults(packed: &Packed) -> Vec<Fault> {
    let binding = Binding::of(&packed.tables);
    let mut faults = Vec::new();
    for (k, rule) in packed.rules.iter().enumerate() {
        if rule.loose || rule.keyword == Keyword::Term {
            continue;
        }
        let (name, node) = &packed.names[k];
        let parameters = Variables::of(rule.parameters.iter().copied());
        for misuse in binding.asked(*node, parameters) {
            let place = packed.place_in(k, misuse.node, &binding);
            faults.push(place.told(told(misuse, name, &packed.variables)));
        }
        for unused in parameters.but(binding.free(*node)).iter() {
            let variable = &packed.variables[unused as usize];
            let message = format!("the parameter `{variable}` does not stand free in `{name}`: leave it out");
            faults.push(packed.places.statements[k].name.told(message));
        }
    }
    faults
}

/// A misuse in words, with what to do.
pub fn told(misuse: Misuse, rule: &str, variables: &[String]) -> String {
    let unnamed = format!("x{}", misuse.variable);
    let variable = variables.get(misuse.variable as usize).unwrap_or(&unnamed);
    match misuse.why {
        Why::Free => format!(
            "nothing binds `{variable}` in `{rule}`: write `exists {variable} (..)` around all that speaks of it, or \
             make it a parameter, `{rule}({variable})`"
        ),
        Why::Early => format!(
            "`{variable}` is asked for here before anything binds it: put what binds it, an action with \
             `field: {variable}`, `tp {variable}` or `{variable} == ..`, before this, joined by `and`"
        ),
        Why::Unrestricted => format!(
            "not everything found here binds `{variable}`: an action with `field: {variable}`, `tp {variable}` or \
             `{variable} == ..` must stand in it outside of `not`, and on both sides of an `or`"
        ),
        Why::NotSummed => format!("`{variable}` is summed, so it must stand after `for`, too"),
    }
}

impl Packed {
    /// Where a node stands in the text of a rule: its own place, or that of the name that stands for it.
    pub fn place_in(&self, rule: usize, node: u32, binding: &Binding) -> Place {
        let statement = &self.places.statements[rule];
        if node >= statement.first {
            return self.places.nodes[node as usize];
        }
        let through = statement.references.iter().find(|(named, _)| binding.reaches(*named, node));
        through.map_or(statement.name, |(_, place)| *place)
    }
}
