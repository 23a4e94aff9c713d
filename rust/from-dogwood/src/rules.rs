//! Dogwood's conditions, terms and aggregates as nodes.

use casefile::{Node, Run, Within};

use crate::conversion::Conversion;
use crate::error::Error;
use crate::theirs::{
    AggExpr, AggExprKind, ArithOp, BinderSlot, CmpOp, Condition, ConditionKind, NamedArg, Predicate, Term, TimeUnit,
    TypedBinder, Value, WithinSpec,
};

impl Conversion {
    pub(crate) fn condition_node(&mut self, condition: &Condition) -> Result<u32, Error> {
        let node = match &condition.kind {
            ConditionKind::And { left, right } => {
                Node::And { left: self.condition_node(left)?, right: self.condition_node(right)? }
            }
            ConditionKind::Or { left, right } => {
                Node::Or { left: self.condition_node(left)?, right: self.condition_node(right)? }
            }
            ConditionKind::Not { inner } => Node::Not { inner: self.condition_node(inner)? },
            ConditionKind::Formerly { within, body } => {
                Node::Formerly { within: window(within)?, body: self.condition_node(body)? }
            }
            ConditionKind::Previous { within, body } => {
                Node::Previous { within: window(within)?, body: self.condition_node(body)? }
            }
            ConditionKind::Since { left, within, right } => Node::Since {
                left: self.condition_node(left)?,
                right: self.condition_node(right)?,
                within: window(within)?,
            },
            ConditionKind::Predicate(predicate) => self.predicate(predicate)?,
            ConditionKind::Comparison { op, left, right } => {
                Node::Comparison { op: comparison(*op), left: self.term(left)?, right: self.term(right)? }
            }
            ConditionKind::Exists { var, body } => {
                Node::Exists { variable: self.slot(&var.slot)?, body: self.condition_node(body)? }
            }
            ConditionKind::Tp { var } => Node::Tp { variable: self.slot(var)? },
            ConditionKind::Call(_) | ConditionKind::SigilRef { .. } | ConditionKind::Refine { .. } => {
                return Err(Error::Unexpanded)
            }
        };
        Ok(self.node(node))
    }

    pub(crate) fn aggregate_node(&mut self, aggregate: &AggExpr) -> Result<u32, Error> {
        let node = match &aggregate.kind {
            AggExprKind::Sum { bound_var, for_vars, body } => Node::Sum {
                variable: self.slot(bound_var)?,
                binders: self.binders(for_vars)?,
                body: self.condition_node(body)?,
            },
            AggExprKind::Count { for_vars, body } => {
                Node::Count { binders: self.binders(for_vars)?, body: self.condition_node(body)? }
            }
            AggExprKind::Call(_) => return Err(Error::Unexpanded),
        };
        Ok(self.node(node))
    }

    fn predicate(&mut self, predicate: &Predicate) -> Result<Node, Error> {
        let mut arguments = Vec::new();
        for NamedArg { name, value } in &predicate.args {
            let path = segments(name);
            arguments.push((self.names(&path), self.term(value)?));
        }
        Ok(Node::Predicate {
            namespace: self.names(&predicate.namespace),
            action: self.builder.string(&predicate.action),
            kind: self.builder.string(&predicate.kind),
            arguments: self.argument_run(arguments),
        })
    }

    fn term(&mut self, term: &Term) -> Result<u32, Error> {
        let node = match term {
            Term::ContextField(path) => Node::Context { path: self.names(&segments(&path.join("."))) },
            Term::ScopeField(path) => self.scope(&segments(&path.join(".")))?,
            Term::Var(name) => Node::Variable { variable: self.variable_of(name)? },
            Term::Wildcard => Node::Wildcard,
            Term::Agg(aggregate) => Node::Aggregate { aggregate: self.aggregate_node(aggregate)? },
            Term::Arith { op, left, right } => {
                Node::Arithmetic { op: arithmetic(*op), left: self.term(left)?, right: self.term(right)? }
            }
            Term::ParamRef(_) | Term::BinderRef(_) => return Err(Error::Unexpanded),
            literal => Node::Literal { value: self.value(&literal_value(literal)?) },
        };
        Ok(self.node(node))
    }

    fn scope(&mut self, path: &[String]) -> Result<Node, Error> {
        let root = match path[0].as_str() {
            "principal" => 0,
            "resource" => 1,
            other => return Err(Error::NoSuchRoot(other.to_string())),
        };
        Ok(Node::Scope { root, path: self.names(&path[1..]) })
    }

    fn slot(&mut self, slot: &BinderSlot) -> Result<u32, Error> {
        match slot {
            BinderSlot::Name(name) => self.variable_of(name),
            BinderSlot::ParamRef(_) | BinderSlot::BinderRef(_) => Err(Error::Unexpanded),
        }
    }

    fn binders(&mut self, binders: &[TypedBinder]) -> Result<Run, Error> {
        let variables = binders.iter().map(|binder| self.slot(&binder.slot)).collect::<Result<_, _>>()?;
        Ok(self.binder_run(variables))
    }
}

/// Dogwood finds a path by its names joined with dots, so that is what they are split at again.
fn segments(path: &str) -> Vec<String> {
    path.split('.').map(str::to_string).collect()
}

fn literal_value(term: &Term) -> Result<Value, Error> {
    Ok(match term {
        Term::Bool(b) => Value::Bool(*b),
        Term::Integer(n) => Value::Int(*n),
        Term::Decimal(text) => Value::Decimal(text.clone()),
        Term::String(text) => Value::String(text.clone()),
        Term::Entity { ty, id } => Value::Entity { ty: ty.clone(), id: id.clone() },
        Term::Array(items) => Value::Array(items.iter().map(literal_value).collect::<Result<_, _>>()?),
        _ => return Err(Error::ArrayTerm),
    })
}

fn window(within: &WithinSpec) -> Result<Within, Error> {
    let WithinSpec::Concrete(interval) = within else { return Err(Error::Unexpanded) };
    let unit = match interval.unit {
        TimeUnit::Seconds => 0,
        TimeUnit::Minutes => 1,
        TimeUnit::Hours => 2,
        TimeUnit::Days => 3,
    };
    Ok(Within { amount: interval.amount, unit })
}

fn comparison(op: CmpOp) -> u32 {
    match op {
        CmpOp::Le => 0,
        CmpOp::Lt => 1,
        CmpOp::Ge => 2,
        CmpOp::Gt => 3,
        CmpOp::Eq => 4,
        CmpOp::NotEq => 5,
    }
}

fn arithmetic(op: ArithOp) -> u32 {
    match op {
        ArithOp::Add => 0,
        ArithOp::Sub => 1,
        ArithOp::Mul => 2,
    }
}
