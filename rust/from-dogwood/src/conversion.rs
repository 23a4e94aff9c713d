use std::collections::HashMap;

use casefile::{Builder, Node, Run};
use galivodern::{Bindings, Bound, Case, RuleNo, VariableNo};

use crate::error::Error;
use crate::theirs::{request_env, AggExpr, Condition, Env, Trace, Value};
use crate::values::Values;

const MOST_VARIABLES: usize = 16;

/// A case in the making: a trace, the rules that will be asked of it and what they are asked with.
///
/// ```
/// use from_dogwood::Conversion;
/// use galivodern::{Limits, PointNo};
/// # use dogwood::extension::temporal::ast::Condition;
/// # use dogwood::interpreter::eval::request_env;
/// # use dogwood::interpreter::value::Trace;
///
/// /// Whether a condition holds at the trace's last point.
/// fn holds(trace: &Trace, condition: &Condition) -> Result<bool, from_dogwood::Error> {
///     let last = trace.len() - 1;
///     let mut conversion = Conversion::up_to(trace, last)?;
///     let rule = conversion.condition(condition)?;
///     let start = conversion.bindings(&request_env(trace, last))?;
///     let case = conversion.finish()?;
///     Ok(case.ask(PointNo(last), rule, &start, Limits::default())?.verdict())
/// }
/// ```
pub struct Conversion {
    pub(crate) builder: Builder,
    pub(crate) values: Values,
    variables: Vec<String>,
    /// Nodes and lists that are there already, so that what is written twice is kept once.
    nodes: HashMap<Node, u32>,
    names: HashMap<Vec<String>, Run>,
    binders: HashMap<Vec<u32>, Run>,
    arguments: HashMap<Vec<(Run, u32)>, Run>,
    /// The request of the last point.
    request: Env,
}

impl Conversion {
    /// Of the points 0 to `i`: later ones change no answer at `i`.
    pub fn up_to(trace: &Trace, i: usize) -> Result<Conversion, Error> {
        if i >= trace.len() {
            return Err(Error::NoSuchPoint(i));
        }
        let mut conversion = Conversion {
            builder: Builder::new(0),
            values: Values::default(),
            variables: Vec::new(),
            nodes: HashMap::new(),
            names: HashMap::new(),
            binders: HashMap::new(),
            arguments: HashMap::new(),
            request: request_env(trace, i),
        };
        for point in 0..=i {
            conversion.point(trace, point)?;
        }
        Ok(conversion)
    }

    /// Adds a condition: a rule to be asked for a verdict or for rows.
    pub fn condition(&mut self, condition: &Condition) -> Result<RuleNo, Error> {
        self.condition_node(condition).map(RuleNo)
    }

    /// Adds a count or a sum: a rule to be asked for its number.
    pub fn aggregate(&mut self, aggregate: &AggExpr) -> Result<RuleNo, Error> {
        self.aggregate_node(aggregate).map(RuleNo)
    }

    /// What the variables of the rules so far are bound to in an environment of the last point.
    pub fn bindings(&mut self, env: &Env) -> Result<Bindings, Error> {
        let of_request = |name: &&String| is_request_key(name);
        let same = env.keys().filter(of_request).count() == self.request.len()
            && self.request.iter().all(|(name, value)| env.get(name) == Some(value));
        if !same {
            return Err(Error::OtherEnvironment);
        }
        let mut bindings = Bindings::new();
        for (number, name) in self.variables.clone().iter().enumerate() {
            if let Some(value) = env.get(name) {
                bindings = bindings.with(VariableNo(number as u16), self.bound(value));
            }
        }
        Ok(bindings)
    }

    fn bound(&mut self, value: &Value) -> Bound {
        match value {
            Value::Int(number) => Bound::Int(*number),
            other => Bound::Value(self.value(other)),
        }
    }

    /// The number of a variable of the rules so far.
    #[must_use]
    pub fn variable(&self, name: &str) -> Option<VariableNo> {
        self.variables.iter().position(|known| known == name).map(|number| VariableNo(number as u16))
    }

    /// Writes the case, which checks it.
    pub fn finish(self) -> Result<Case, Error> {
        let mut unsorted = self.builder.unsorted();
        unsorted.tables.variables = self.variables.len() as u32;
        Case::from_unsorted(&unsorted.tables.encode(), &unsorted.marks).map_err(Error::Case)
    }

    pub(crate) fn node(&mut self, node: Node) -> u32 {
        let builder = &mut self.builder;
        *self.nodes.entry(node).or_insert_with(|| builder.node(node))
    }

    pub(crate) fn value(&mut self, value: &Value) -> u32 {
        self.values.add(&mut self.builder, value)
    }

    /// A run of names: a namespace or a path.
    pub(crate) fn names(&mut self, names: &[String]) -> Run {
        if let Some(run) = self.names.get(names) {
            return *run;
        }
        let texts: Vec<&str> = names.iter().map(String::as_str).collect();
        let run = self.builder.names(&texts);
        self.names.insert(names.to_vec(), run);
        run
    }

    /// A run of variables.
    pub(crate) fn binder_run(&mut self, variables: Vec<u32>) -> Run {
        let builder = &mut self.builder;
        *self.binders.entry(variables).or_insert_with_key(|variables| builder.binders(variables))
    }

    /// A run of arguments: path and term each.
    pub(crate) fn argument_run(&mut self, arguments: Vec<(Run, u32)>) -> Run {
        let builder = &mut self.builder;
        *self.arguments.entry(arguments).or_insert_with_key(|arguments| builder.arguments(arguments))
    }

    /// A variable's number; it is given one where it has none.
    pub(crate) fn variable_of(&mut self, name: &str) -> Result<u32, Error> {
        if is_request_key(name) {
            return Err(Error::VariableName(name.to_string()));
        }
        if let Some(VariableNo(number)) = self.variable(name) {
            return Ok(u32::from(number));
        }
        if self.variables.len() == MOST_VARIABLES {
            return Err(Error::TooManyVariables);
        }
        self.variables.push(name.to_string());
        Ok(self.variables.len() as u32 - 1)
    }
}

/// Dogwood keeps context and scope in the same map as variables, under such keys.
fn is_request_key(name: &str) -> bool {
    name.starts_with("context.") || name.starts_with('@')
}
