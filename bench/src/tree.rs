//! A walk over a tree of boxed nodes with a stack of what is around the
//! node, as one writes it without tables: the port's steps are timed beside
//! it. It takes no goto, for which the stack would have to be made anew.

use oracle::{branch, kind, Body};
use zesthull::{Place, Walk};

pub struct Node {
    row: usize,
    statement: Statement,
}

/// Labels are name numbers, 0 for none.
enum Statement {
    Plain,
    Stop,
    Labeled(Box<Node>),
    /// A Block, Case or Comm.
    List(Vec<Node>),
    If {
        body: Box<Node>,
        other: Option<Box<Node>>,
    },
    Loop {
        label: u32,
        has_condition: bool,
        body: Box<Node>,
    },
    Switch {
        label: u32,
        clauses: Vec<Node>,
        has_default: bool,
    },
    Select {
        label: u32,
        clauses: Vec<Node>,
    },
    Break(u32),
    Continue(u32),
    Fallthrough,
}

impl Node {
    /// The tree of a body's row 0.
    pub fn of(body: &Body) -> Node {
        Node::at(body, 0, 0)
    }

    /// The tree of a row with this label directly on it.
    fn at(body: &Body, row: usize, label: u32) -> Node {
        let [kind, detail, _, name, _] = body.rows[row];
        let mut parts = body.children(row);
        let mut part = |label: u32| parts.next().map(|row| Box::new(Node::at(body, row, label)));
        let items = |row: usize| body.children(row).map(|item| Node::at(body, item, 0)).collect();
        let statement = match kind {
            kind::RETURN => Statement::Stop,
            kind::EXPR if detail == 1 => Statement::Stop,
            kind::LABELED => Statement::Labeled(part(name).unwrap()),
            kind::BLOCK | kind::CASE | kind::COMM => Statement::List(items(row)),
            kind::IF => Statement::If { body: part(0).unwrap(), other: part(0) },
            kind::FOR | kind::RANGE => {
                let has_condition = kind == kind::RANGE || detail == 1;
                Statement::Loop { label, has_condition, body: part(0).unwrap() }
            }
            kind::SWITCH | kind::TYPE_SWITCH => {
                let has_default = body.children(row + 1).any(|case| body.rows[case][1] == 1);
                Statement::Switch { label, clauses: items(row + 1), has_default }
            }
            kind::SELECT => Statement::Select { label, clauses: items(row + 1) },
            kind::BRANCH => match detail {
                branch::BREAK => Statement::Break(name),
                branch::CONTINUE => Statement::Continue(name),
                branch::FALLTHROUGH => Statement::Fallthrough,
                _ => panic!("no goto"),
            },
            _ => Statement::Plain,
        };
        Node { row, statement }
    }
}

/// A list, loop, switch or Select around the node, and which of its items or
/// clauses comes next.
struct Around<'a> {
    node: &'a Node,
    next: usize,
}

/// What a step leads to.
enum Step<'a> {
    To(&'a Node),
    Stopped,
    Brace,
}

/// The walk of a body without faults. None where a choice is out of range.
pub fn walk(root: &Node, choices: &[u32], limit: usize) -> Option<Walk> {
    let (mut node, mut around) = (root, vec![]);
    let (mut steps, mut used) = (0, 0);
    while steps < limit {
        let choice = match ways(node) {
            None => 0,
            Some(_) if used == choices.len() => break,
            Some(ways) if choices[used] as usize >= ways => return None,
            Some(_) => {
                used += 1;
                choices[used - 1] as usize
            }
        };
        steps += 1;
        match step(node, choice, &mut around) {
            Step::To(next) => node = next,
            Step::Stopped => return Some(Walk { place: Place::Stopped, steps, used }),
            Step::Brace => return Some(Walk { place: Place::Brace, steps, used }),
        }
    }
    Some(Walk { place: Place::Row(node.row), steps, used })
}

/// How many choices there are at a fork.
fn ways(node: &Node) -> Option<usize> {
    match &node.statement {
        Statement::If { .. } | Statement::Loop { has_condition: true, .. } => Some(2),
        Statement::Switch { clauses, has_default, .. } => {
            Some(if *has_default { clauses.len() } else { clauses.len() + 1 })
        }
        Statement::Select { clauses, .. } if !clauses.is_empty() => Some(clauses.len()),
        _ => None,
    }
}

fn step<'a>(node: &'a Node, choice: usize, around: &mut Vec<Around<'a>>) -> Step<'a> {
    match &node.statement {
        Statement::Plain => go_on(around),
        Statement::Stop => Step::Stopped,
        Statement::Labeled(statement) => Step::To(statement),
        Statement::List(items) => match items.first() {
            Some(item) => {
                around.push(Around { node, next: 1 });
                Step::To(item)
            }
            None => go_on(around),
        },
        Statement::If { body, .. } if choice == 1 => Step::To(body),
        Statement::If { other: Some(other), .. } => Step::To(other),
        Statement::If { .. } => go_on(around),
        Statement::Loop { has_condition: true, .. } if choice == 0 => go_on(around),
        Statement::Loop { body, .. } => {
            around.push(Around { node, next: 0 });
            Step::To(body)
        }
        Statement::Switch { clauses, .. } | Statement::Select { clauses, .. }
            if choice < clauses.len() =>
        {
            around.push(Around { node, next: choice + 1 });
            Step::To(&clauses[choice])
        }
        Statement::Switch { .. } => go_on(around),
        Statement::Select { .. } => Step::Stopped,
        Statement::Break(label) => {
            leave(around, *label, false);
            go_on(around)
        }
        Statement::Continue(label) => Step::To(leave(around, *label, true)),
        Statement::Fallthrough => fall_through(around),
    }
}

/// The next item; past a list's end, what is around it.
fn go_on<'a>(around: &mut Vec<Around<'a>>) -> Step<'a> {
    while let Some(top) = around.last_mut() {
        let node = top.node;
        match &node.statement {
            Statement::List(items) => {
                if let Some(item) = items.get(top.next) {
                    top.next += 1;
                    return Step::To(item);
                }
                around.pop();
            }
            Statement::Loop { .. } => {
                around.pop();
                return Step::To(node);
            }
            _ => _ = around.pop(),
        }
    }
    Step::Brace
}

/// Leaves all up to the innermost loop, or also switch or Select, with this
/// label if there is one; that statement too.
fn leave<'a>(around: &mut Vec<Around<'a>>, label: u32, only_loops: bool) -> &'a Node {
    loop {
        let Around { node, .. } = around.pop().expect("a statement to leave");
        let own = match node.statement {
            Statement::Loop { label, .. } => label,
            Statement::Switch { label, .. } | Statement::Select { label, .. } if !only_loops => {
                label
            }
            _ => continue,
        };
        if label == 0 || label == own {
            return node;
        }
    }
}

/// Into the clause after the one that the list is of.
fn fall_through<'a>(around: &mut Vec<Around<'a>>) -> Step<'a> {
    around.pop();
    match around.last_mut() {
        Some(Around { node: Node { statement: Statement::Switch { clauses, .. }, .. }, next }) => {
            *next += 1;
            Step::To(&clauses[*next - 1])
        }
        _ => panic!("no clause to fall into"),
    }
}
