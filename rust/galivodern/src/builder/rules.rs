//! Rules: conditions, aggregates and their terms.

use casefile::{Node, Run};

use super::error::BuildError;
use super::handles::{AggregateId, ConditionId, Handle, OperandId, TermId, ValueId, VariableId};
use super::parts::{ArithmeticOp, CompareOp, Predicate, Within};
use super::CaseBuilder;
use crate::numbers::RuleNo;

const PRINCIPAL: u32 = 0;
const RESOURCE: u32 = 1;

/// Rules over the log. docs/MEANING.md in the repository says what each means.
impl CaseBuilder {
    fn node<H: Handle>(&mut self, node: Node) -> H {
        let number = self.builder.node(node);
        self.made(number)
    }

    /// A variable; asked for again by the same name it is the same one.
    pub fn variable(&mut self, name: &str) -> VariableId {
        let known = self.variables.iter().position(|variable| variable == name);
        let number = known.unwrap_or_else(|| {
            self.variables.push(name.to_string());
            self.variables.len() - 1
        });
        self.made(number as u32)
    }

    /// Names a condition: [`Case::rule`](crate::Case::rule) finds it. Gives what it is asked by.
    pub fn rule(&mut self, name: &str, condition: ConditionId) -> RuleNo {
        let rule = RuleNo(self.number(condition));
        self.named(name, rule)
    }

    /// Names a count or a sum: [`Case::rule`](crate::Case::rule) finds it. Gives what it is asked by.
    pub fn number_rule(&mut self, name: &str, aggregate: AggregateId) -> RuleNo {
        let rule = RuleNo(self.number(aggregate));
        self.named(name, rule)
    }

    fn named(&mut self, name: &str, rule: RuleNo) -> RuleNo {
        if self.rules.iter().any(|(known, _)| known == name) {
            self.wrong(BuildError::RepeatedRule { name: name.to_string() });
        }
        self.rules.push((name.to_string(), rule));
        rule
    }

    /// Both hold. A predicate on the left lends what it binds to the right.
    pub fn and(&mut self, left: ConditionId, right: ConditionId) -> ConditionId {
        let (left, right) = (self.number(left), self.number(right));
        self.node(Node::And { left, right })
    }

    /// One of them holds.
    pub fn or(&mut self, left: ConditionId, right: ConditionId) -> ConditionId {
        let (left, right) = (self.number(left), self.number(right));
        self.node(Node::Or { left, right })
    }

    /// It does not hold.
    pub fn not(&mut self, inner: ConditionId) -> ConditionId {
        let inner = self.number(inner);
        self.node(Node::Not { inner })
    }

    /// It held at some point in the window, this one included.
    pub fn formerly(&mut self, within: Within, body: ConditionId) -> ConditionId {
        let body = self.number(body);
        self.node(Node::Formerly { within: within.0, body })
    }

    /// It held at the point before, if that lies in the window.
    pub fn previous(&mut self, within: Within, body: ConditionId) -> ConditionId {
        let body = self.number(body);
        self.node(Node::Previous { within: within.0, body })
    }

    /// `right` held at some point in the window, and `left` at each one after it.
    pub fn since(&mut self, left: ConditionId, right: ConditionId, within: Within) -> ConditionId {
        let (left, right) = (self.number(left), self.number(right));
        self.node(Node::Since { left, right, within: within.0 })
    }

    /// The point is such an event.
    pub fn predicate(&mut self, predicate: Predicate) -> ConditionId {
        let Predicate { event, arguments } = predicate;
        let namespace = self.names(&event.namespace);
        let arguments: Vec<(Run, u32)> =
            arguments.iter().map(|(path, term)| (self.path(path, 1), self.number(*term))).collect();
        let (action, kind) = (self.builder.string(&event.action), self.builder.string(&event.kind));
        let arguments = self.builder.arguments(&arguments);
        self.node(Node::Predicate { namespace, action, kind, arguments })
    }

    /// Compares two sides; where one has no value it is no.
    pub fn compare(&mut self, left: impl Into<OperandId>, op: CompareOp, right: impl Into<OperandId>) -> ConditionId {
        let (left, right) = (self.number(left.into()), self.number(right.into()));
        self.node(Node::Comparison { op: op as u32, left, right })
    }

    /// It holds for some value of the variable.
    pub fn exists(&mut self, variable: VariableId, body: ConditionId) -> ConditionId {
        let (variable, body) = (self.number(variable), self.number(body));
        self.node(Node::Exists { variable, body })
    }

    /// The variable is the number of the point.
    pub fn tp(&mut self, variable: VariableId) -> ConditionId {
        let variable = self.number(variable);
        self.node(Node::Tp { variable })
    }

    /// A value. It may hold neither Null nor an object.
    pub fn literal(&mut self, value: ValueId) -> TermId {
        let value = self.number(value);
        self.node(Node::Literal { value })
    }

    /// What the context of the point asked about has at this path, of at least one name.
    pub fn context(&mut self, path: &[&str]) -> TermId {
        let path = self.path(&owned(path), 1);
        self.node(Node::Context { path })
    }

    /// The principal of the point asked about or, with a path, an attribute of it.
    pub fn principal(&mut self, path: &[&str]) -> TermId {
        let path = self.path(&owned(path), 0);
        self.node(Node::Scope { root: PRINCIPAL, path })
    }

    /// The resource of the point asked about or, with a path, an attribute of it.
    pub fn resource(&mut self, path: &[&str]) -> TermId {
        let path = self.path(&owned(path), 0);
        self.node(Node::Scope { root: RESOURCE, path })
    }

    /// What the variable is bound to.
    pub fn value_of(&mut self, variable: VariableId) -> TermId {
        let variable = self.number(variable);
        self.node(Node::Variable { variable })
    }

    /// Anything.
    pub fn wildcard(&mut self) -> TermId {
        self.node(Node::Wildcard)
    }

    /// The number of a count or a sum, to be compared.
    pub fn number_of(&mut self, aggregate: AggregateId) -> OperandId {
        let aggregate = self.number(aggregate);
        self.node(Node::Aggregate { aggregate })
    }

    /// What is reckoned of two sides.
    pub fn arithmetic(
        &mut self,
        left: impl Into<OperandId>,
        op: ArithmeticOp,
        right: impl Into<OperandId>,
    ) -> OperandId {
        let (left, right) = (self.number(left.into()), self.number(right.into()));
        self.node(Node::Arithmetic { op: op as u32, left, right })
    }

    /// How many rows the condition has on these variables, each row once.
    pub fn count(&mut self, binders: &[VariableId], body: ConditionId) -> AggregateId {
        let (binders, body) = (self.binders(binders), self.number(body));
        self.node(Node::Count { binders, body })
    }

    /// The sum of a variable over the rows that the condition has on these variables, each row once.
    pub fn sum(&mut self, variable: VariableId, binders: &[VariableId], body: ConditionId) -> AggregateId {
        let (variable, binders, body) = (self.number(variable), self.binders(binders), self.number(body));
        self.node(Node::Sum { variable, binders, body })
    }

    fn binders(&mut self, variables: &[VariableId]) -> Run {
        let variables: Vec<u32> = variables.iter().map(|&variable| self.number(variable)).collect();
        self.builder.binders(&variables)
    }

    /// A path of at least so many names, none of them with a dot.
    fn path(&mut self, path: &[String], least: usize) -> Run {
        if path.len() < least {
            self.wrong(BuildError::EmptyPath);
        }
        if let Some(name) = path.iter().find(|name| name.contains('.')) {
            self.wrong(BuildError::DottedPath { name: name.clone() });
        }
        self.names(path)
    }
}

fn owned(path: &[&str]) -> Vec<String> {
    path.iter().map(|name| name.to_string()).collect()
}
