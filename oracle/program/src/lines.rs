//! Document 01's lines of what `Lifter::lift` gives back.
use std::{collections::HashMap, fmt::Write as _};

use ast::{LValue, Literal, RValue, RcLocal, Select, Statement, Upvalue};
use cfg::{block::BranchType, function::Function as Graph};
use lua51_deserializer::{Function, Value};
use petgraph::{Direction, stable_graph::NodeIndex, visit::EdgeRef};

/// How a literal is printed.
#[derive(Clone, Copy, PartialEq)]
pub enum Literals {
    /// As it is: `2`, then kind and value as on a K line; a global as `6` and its name. Nil is `3`, a boolean `4`.
    Values,
    /// As the index that it tells (see `Given::constants`).
    Indexes,
}

pub fn line(out: &mut String, letter: char, numbers: &[usize]) {
    out.push(letter);
    for n in numbers {
        write!(out, "{n:7}").unwrap();
    }
    out.push('\n');
}

/// The numbers behind a constant's index on its K line.
fn value(v: &Value) -> Vec<usize> {
    match v {
        Value::Nil => vec![0],
        Value::Boolean(b) => vec![1, *b as usize],
        Value::Number(x) => number(*x),
        Value::String(s) => string(s),
    }
}

fn number(x: f64) -> Vec<usize> {
    let piece = |shift: u32| ((x.to_bits() >> shift) & 0xffff) as usize;
    vec![3, piece(48), piece(32), piece(16), piece(0)]
}

fn string(s: &[u8]) -> Vec<usize> {
    let mut out = vec![4, s.len()];
    out.extend(s.iter().map(|b| *b as usize));
    out
}

fn told(s: &[u8]) -> usize {
    std::str::from_utf8(s).unwrap().parse().unwrap()
}

pub fn constants(out: &mut String, f: &Function) {
    for (i, constant) in f.constants.iter().enumerate() {
        let mut row = vec![i];
        row.extend(value(constant));
        line(out, 'K', &row);
    }
}

pub struct Printer<'a, 'b> {
    pub function: &'b Function<'a>,
    pub literals: Literals,
    /// The number of the first `Arc` that the lift made.
    pub base: u64,
    /// The number of each closure's `Arc`, with its function's number in the chunk.
    pub closures: HashMap<u64, usize>,
}

impl Printer<'_, '_> {
    /// A register or an upvalue: `Lifter::allocate_locals` makes the upvalues first, then the registers, before any other `Arc`.
    pub fn local(&self, l: &RcLocal, out: &mut Vec<usize>) {
        let made = (triomphe::Arc::id(&l.0.0) - self.base) as usize;
        let upvalues = self.function.number_of_upvalues as usize;
        if made < upvalues {
            out.extend([5, made]);
        } else {
            assert!(made < upvalues + self.function.maximum_stack_size as usize);
            out.extend([1, made - upvalues]);
        }
    }

    pub fn register(&self, l: &RcLocal) -> usize {
        let mut run = vec![];
        self.local(l, &mut run);
        assert_eq!(run[0], 1);
        run[1]
    }

    fn global(&self, name: &[u8], out: &mut Vec<usize>) {
        out.push(6);
        match self.literals {
            Literals::Values => out.extend(&string(name)[1..]),
            Literals::Indexes => out.push(told(name)),
        }
    }

    fn literal(&self, l: &Literal, out: &mut Vec<usize>) {
        match (l, self.literals) {
            (Literal::Nil, _) => out.push(3),
            (Literal::Boolean(b), _) => out.extend([4, *b as usize]),
            (Literal::Number(x), Literals::Values) => {
                out.push(2);
                out.extend(number(*x));
            }
            (Literal::Number(x), Literals::Indexes) => out.extend([2, *x as usize]),
            (Literal::String(s), Literals::Values) => {
                out.push(2);
                out.extend(string(s));
            }
            (Literal::String(s), Literals::Indexes) => out.extend([2, told(s)]),
            _ => panic!("program: literal {l:?}"),
        }
    }

    fn index(&self, i: &ast::Index, out: &mut Vec<usize>) {
        out.push(7);
        self.rvalue(&i.left, out);
        self.rvalue(&i.right, out);
    }

    fn call(&self, c: &ast::Call, out: &mut Vec<usize>) {
        out.push(10);
        self.rvalue(&c.value, out);
        out.push(c.arguments.len());
        for a in &c.arguments {
            self.rvalue(a, out);
        }
    }

    fn lvalue(&self, l: &LValue, out: &mut Vec<usize>) {
        match l {
            LValue::Local(l) => self.local(l, out),
            LValue::Global(g) => self.global(&g.0, out),
            LValue::Index(i) => self.index(i, out),
        }
    }

    fn unary(u: &ast::Unary) -> usize {
        use ast::UnaryOperation::*;
        match u.operation {
            Not => 1,
            Negate => 2,
            Length => 3,
        }
    }

    fn binary(b: &ast::Binary) -> usize {
        use ast::BinaryOperation::*;
        match b.operation {
            Add => 1,
            Sub => 2,
            Mul => 3,
            Div => 4,
            Mod => 5,
            Pow => 6,
            Concat => 7,
            Equal => 8,
            NotEqual => 9,
            LessThan => 10,
            LessThanOrEqual => 11,
            other => panic!("program: operation {other}"),
        }
    }

    fn rvalue(&self, r: &RValue, out: &mut Vec<usize>) {
        match r {
            RValue::Local(l) => self.local(l, out),
            RValue::Global(g) => self.global(&g.0, out),
            RValue::Literal(l) => self.literal(l, out),
            RValue::Index(i) => self.index(i, out),
            RValue::Unary(u) => {
                out.extend([8, Self::unary(u)]);
                self.rvalue(&u.value, out);
            }
            RValue::Binary(b) => {
                out.extend([9, Self::binary(b)]);
                self.rvalue(&b.left, out);
                self.rvalue(&b.right, out);
            }
            RValue::Call(c) => self.call(c, out),
            RValue::VarArg(_) => out.push(11),
            RValue::Closure(c) => {
                let made = triomphe::Arc::id(&c.function.0);
                out.extend([12, self.closures[&made], c.upvalues.len()]);
                for u in &c.upvalues {
                    match u {
                        Upvalue::Ref(l) => self.local(l, out),
                        Upvalue::Copy(_) => panic!("program: copied upvalue"),
                    }
                }
            }
            RValue::Table(t) => {
                assert!(t.0.is_empty());
                out.push(13)
            }
            RValue::Select(s) => {
                out.push(14);
                match s {
                    Select::VarArg(_) => out.push(11),
                    Select::Call(c) => self.call(c, out),
                    Select::MethodCall(_) => panic!("program: method call"),
                }
            }
            other => panic!("program: rvalue {other:?}"),
        }
    }

    fn values(&self, values: &[RValue], out: &mut Vec<usize>) {
        out.push(values.len());
        for v in values {
            self.rvalue(v, out);
        }
    }

    fn statement(&self, s: &Statement) -> Vec<usize> {
        let mut run = vec![];
        let out = &mut run;
        match s {
            Statement::Assign(a) => {
                assert!(!a.prefix && !a.parallel);
                out.extend([1, a.left.len(), a.right.len()]);
                for l in &a.left {
                    self.lvalue(l, out);
                }
                for r in &a.right {
                    self.rvalue(r, out);
                }
            }
            Statement::Call(c) => {
                out.push(2);
                self.call(c, out);
            }
            Statement::If(i) => {
                assert!(i.then_block.lock().is_empty() && i.else_block.lock().is_empty());
                out.push(3);
                self.rvalue(&i.condition, out);
            }
            Statement::Return(r) => {
                out.push(4);
                self.values(&r.values, out);
            }
            Statement::NumForInit(f) => {
                out.push(5);
                for (left, right) in [&f.counter, &f.limit, &f.step] {
                    let register = self.register(left.as_local().unwrap());
                    assert_eq!(register, self.register(right.as_local().unwrap()));
                    out.push(register);
                }
            }
            Statement::NumForNext(f) => {
                let register = self.register(f.counter.0.as_local().unwrap());
                assert_eq!(register, self.register(f.counter.1.as_local().unwrap()));
                out.extend([6, register]);
                out.push(self.register(f.limit.as_local().unwrap()));
                out.push(self.register(f.step.as_local().unwrap()));
            }
            Statement::SetList(s) => {
                out.extend([7, self.register(&s.object_local), s.index]);
                self.values(&s.values, out);
                match &s.tail {
                    Some(tail) => {
                        out.push(1);
                        self.rvalue(tail, out);
                    }
                    None => out.push(0),
                }
            }
            Statement::Close(c) => {
                out.extend([8, c.locals.len()]);
                for l in &c.locals {
                    out.push(self.register(l));
                }
            }
            other => panic!("program: statement {other:?}"),
        }
        run
    }

    fn edges(&self, graph: &Graph, node: NodeIndex, number: &HashMap<NodeIndex, usize>) -> Vec<[usize; 2]> {
        graph
            .graph()
            .edges_directed(node, Direction::Outgoing)
            .map(|e| {
                assert!(e.weight().arguments.is_empty());
                let kind = match e.weight().branch_type {
                    BranchType::Unconditional => 0,
                    BranchType::Then => 1,
                    BranchType::Else => 2,
                };
                [kind, number[&e.target()]]
            })
            .collect()
    }

    /// The lines of a lifted graph. `firsts` has the first word of each code block, by its node's number. Where `found` is set
    /// the blocks come as the original numbered them, with their statements and edges as they stand there; else matched as
    /// document 01 says: blocks by first word, then the entry, its assignments sorted, then betweens by their loop's block.
    pub fn graph(&self, graph: &Graph, firsts: &[usize], found: bool) -> String {
        let n = self.function.code.len();
        let entry = graph.entry().unwrap();
        let mut codes: Vec<(usize, NodeIndex)> = firsts
            .iter()
            .enumerate()
            .map(|(node, first)| (*first, NodeIndex::new(node)))
            .collect();
        codes.sort();
        let mut blocks: Vec<(usize, usize, usize, NodeIndex)> = vec![];
        for (i, (first, node)) in codes.iter().enumerate() {
            let end = codes.get(i + 1).map_or(n, |next| next.0);
            blocks.push((*first, end, 0, *node));
        }
        blocks.push((n, n, 1, entry));
        let loops: HashMap<NodeIndex, usize> = blocks.iter().enumerate().map(|(i, b)| (b.3, i)).collect();
        let mut betweens: Vec<(usize, NodeIndex)> = graph
            .graph()
            .node_indices()
            .filter(|x| entry.index() < x.index())
            .map(|x| {
                let incoming = graph.graph().edges_directed(x, Direction::Incoming);
                let mut sources: Vec<usize> = incoming.map(|e| loops[&e.source()]).collect();
                sources.dedup();
                assert_eq!(sources.len(), 1);
                (sources[0], x)
            })
            .collect();
        betweens.sort();
        blocks.extend(betweens.iter().map(|(_, x)| (n, n, 2, *x)));
        assert_eq!(graph.graph().node_count(), blocks.len());
        if found {
            blocks.sort_by_key(|b| b.3);
        }
        let number: HashMap<NodeIndex, usize> = blocks.iter().enumerate().map(|(i, b)| (b.3, i)).collect();
        let mut out = String::new();
        for (i, (first, end, kind, node)) in blocks.iter().enumerate() {
            line(&mut out, 'B', &[i, *first, *end, *kind]);
            let block = graph.block(*node).unwrap();
            let mut runs: Vec<Vec<usize>> = block.iter().map(|s| self.statement(s)).collect();
            let mut edges = self.edges(graph, *node, &number);
            if !found {
                edges.sort();
                if *kind == 1 {
                    runs.sort();
                }
            }
            for run in &runs {
                line(&mut out, 'S', run);
            }
            for edge in &edges {
                line(&mut out, 'E', edge);
            }
        }
        out
    }
}
