//! Readable text as functions.
use crate::model::{Block, Constant, Does, Edge, Ends, Function, Instr, Term, Value};
use std::collections::HashMap;

pub struct Site {
    pub table: Vec<u64>,
    pub functions: Vec<Function>,
}

type Parsed<T> = Result<T, String>;

/// ir's operators in its order; the first nine may have an immediate.
const OPERATORS: [&str; 17] = [
    "iadd", "isub", "imul", "idiv", "imod", "iand", "ilt", "igt", "ieq", "dadd", "dsub", "dmul", "ddiv", "dlt", "dgt", "beq", "seq",
];

/// A line's words, each bracket, comma, colon and equals sign one of them, and its span.
struct Line<'t> {
    tokens: Vec<&'t str>,
    at: usize,
    span: u32,
}

impl<'t> Line<'t> {
    fn new(text: &'t str) -> Parsed<Self> {
        let text = text.split(';').next().unwrap();
        let (text, span) = match text.split_once('@') {
            Some((text, span)) => (text, span.trim().parse().map_err(|_| "no span")?),
            None => (text, 0),
        };
        let mut tokens = vec![];
        for word in text.split_whitespace() {
            let mut rest = word;
            while let Some(k) = rest.find(|c| "(){},:=".contains(c)) {
                tokens.extend([&rest[..k], &rest[k..k + 1]].into_iter().filter(|t| !t.is_empty()));
                rest = &rest[k + 1..];
            }
            tokens.extend(Some(rest).filter(|t| !t.is_empty()));
        }
        Ok(Self { tokens, at: 0, span })
    }

    fn peek(&self) -> Option<&'t str> {
        self.tokens.get(self.at).copied()
    }

    fn next(&mut self) -> Parsed<&'t str> {
        let token = self.peek().ok_or("the line ends too early")?;
        self.at += 1;
        Ok(token)
    }

    fn expect(&mut self, what: &str) -> Parsed<()> {
        match self.next()? {
            token if token == what => Ok(()),
            token => Err(format!("{token} where {what} was due")),
        }
    }

    fn number<T: std::str::FromStr>(&mut self) -> Parsed<T> {
        let token = self.next()?;
        token.parse().map_err(|_| format!("{token} is no number"))
    }

    fn end(&self) -> Parsed<()> {
        self.peek().map_or(Ok(()), |token| Err(format!("{token} past the line's end")))
    }
}

/// A function while its lines come; blocks are named before they are there.
#[derive(Default)]
struct Making {
    function: Function,
    values: HashMap<String, u32>,
    blocks: HashMap<String, u32>,
    functions: HashMap<String, u32>,
}

impl Making {
    fn value(&self, name: &str) -> Parsed<u32> {
        self.values.get(name).copied().ok_or(format!("{name} is no value"))
    }

    fn define(&mut self, name: &str) -> Parsed<u32> {
        let v = self.function.values.len() as u32;
        self.function.values.push(Value::default());
        match self.values.insert(name.to_string(), v) {
            None => Ok(v),
            Some(_) => Err(format!("{name} is there already")),
        }
    }

    fn operands(&self, line: &mut Line) -> Parsed<Vec<u32>> {
        let mut all = vec![];
        while line.peek().is_some() {
            all.push(self.value(line.next()?)?);
        }
        Ok(all)
    }

    fn callee(&self, line: &mut Line) -> Parsed<u32> {
        let name = line.next()?;
        let known = self.functions.get(name).copied();
        known.or_else(|| name.parse().ok()).ok_or(format!("{name} is no function"))
    }

    fn edge(&self, line: &mut Line) -> Parsed<Edge> {
        let name = line.next()?;
        let to = self.blocks.get(name).copied().ok_or(format!("{name} is no block"))?;
        line.expect("(")?;
        let mut args = vec![];
        while line.peek() != Some(")") {
            args.push(self.value(line.next()?)?);
            if line.peek() == Some(",") {
                line.next()?;
            }
        }
        line.expect(")")?;
        Ok(Edge { to, args })
    }

    /// `{ KEY: ITEM, .., else: ITEM }`
    fn cases<T>(&self, line: &mut Line, item: &dyn Fn(&mut Line) -> Parsed<T>) -> Parsed<(Vec<(Constant, T)>, T)> {
        let mut all = vec![];
        line.expect("{")?;
        while line.peek() != Some("else") {
            let key = Constant::Int(line.number()?);
            line.expect(":")?;
            all.push((key, item(line)?));
            line.expect(",")?;
        }
        line.next()?;
        line.expect(":")?;
        let default = item(line)?;
        line.expect("}")?;
        Ok((all, default))
    }

    fn does(&self, line: &mut Line) -> Parsed<(Does, Vec<u32>)> {
        if let Some(constant) = constant(line)? {
            return Ok((Does::LoadConst(constant), vec![]));
        }
        let name = line.next()?;
        if let Some(op) = OPERATORS.iter().position(|&o| o == name) {
            return self.operator(line, op as u32);
        }
        let does = match name {
            "call" => Does::Call { function: self.callee(line)? },
            "sys" => Does::Sys { builtin: line.number()? },
            "cast" => Does::Cast { to: kind(line)?, from: kind(line)? },
            "alloc" => Does::Alloc { kind: line.number()?, size: line.number()?, align: line.number()? },
            "assert" => Does::Assert,
            "load" | "addr" => {
                let base = self.value(line.next()?)?;
                let offset = line.number()?;
                return Ok((if name == "load" { Does::Load { offset } } else { Does::AddrOf { offset } }, vec![base]));
            }
            "lookup" => {
                let subject = self.value(line.next()?)?;
                let (entries, default) = self.cases(line, &|line| constant(line)?.ok_or("no constant".into()))?;
                return Ok((Does::Lookup { entries, default }, vec![subject]));
            }
            _ => return Err(format!("{name} is no instruction")),
        };
        Ok((does, self.operands(line)?))
    }

    fn operator(&self, line: &mut Line, op: u32) -> Parsed<(Does, Vec<u32>)> {
        let left = self.value(line.next()?)?;
        let right = line.next()?;
        match right.parse() {
            Ok(imm) if op < 9 => Ok((Does::BinImm { op, imm }, vec![left])),
            _ => Ok((Does::Bin { op }, vec![left, self.value(right)?])),
        }
    }

    /// Edges stand no before yes.
    fn choice(&self, line: &mut Line) -> Parsed<Vec<Edge>> {
        let yes = self.edge(line)?;
        line.expect("else")?;
        Ok(vec![self.edge(line)?, yes])
    }

    fn term(&self, line: &mut Line, name: &str) -> Parsed<Option<Term>> {
        let (ends, operands, edges) = match name {
            "return" => (Ends::Return, self.operands(line)?, vec![]),
            "jump" => (Ends::Jump, vec![], vec![self.edge(line)?]),
            "if" => (Ends::Branch, vec![self.value(line.next()?)?], self.choice(line)?),
            "ifeq" => {
                let left = vec![self.value(line.next()?)?];
                (Ends::BranchCmpImm { op: 8, imm: line.number()? }, left, self.choice(line)?)
            }
            "ifsame" => {
                let both = vec![self.value(line.next()?)?, self.value(line.next()?)?];
                (Ends::BranchCmp { op: 16 }, both, self.choice(line)?)
            }
            "tail" => (Ends::Tail { function: self.callee(line)? }, self.operands(line)?, vec![]),
            "switch" => {
                let subject = vec![self.value(line.next()?)?];
                let (cases, default) = self.cases(line, &|line| self.edge(line))?;
                let (keys, mut edges): (Vec<_>, Vec<_>) = cases.into_iter().unzip();
                edges.push(default);
                (Ends::Switch { keys }, subject, edges)
            }
            _ => return Ok(None),
        };
        Ok(Some(Term { span: line.span, operands, edges, ends }))
    }

    fn block(&mut self) -> Parsed<&mut Block> {
        self.function.blocks.last_mut().ok_or("no block yet".into())
    }

    fn header(&mut self, line: &mut Line) -> Parsed<()> {
        line.at = 2;
        let id = self.function.blocks.len() as u32;
        let mut params = vec![];
        while line.peek() != Some(")") {
            params.push(self.define(line.next()?)?);
            if line.peek() == Some(",") {
                line.next()?;
            }
        }
        self.function.blocks.push(Block { id, tombstone: false, params, instrs: vec![], term: None });
        line.expect(")")?;
        line.expect(":")
    }

    fn line(&mut self, line: &mut Line) -> Parsed<()> {
        if line.tokens.get(1) == Some(&"(") && line.tokens.last() == Some(&":") {
            return self.header(line);
        }
        if line.tokens.get(1) == Some(&"=") {
            let name = line.next()?;
            line.next()?;
            let (does, operands) = self.does(line)?;
            let dst = Some(self.define(name)?);
            let instr = Instr { span: line.span, dst, operands, does };
            self.block()?.instrs.push(instr);
            return line.end();
        }
        let name = line.next()?;
        if name == "store" {
            let operands = vec![self.value(line.next()?)?, self.value(line.next()?)?];
            let instr = Instr { span: line.span, dst: None, operands, does: Does::Store { offset: line.number()? } };
            self.block()?.instrs.push(instr);
            return line.end();
        }
        let term = self.term(line, name)?.ok_or(format!("{name}: no such line"))?;
        self.block()?.term = Some(term);
        line.end()
    }
}

fn kind(line: &mut Line) -> Parsed<u32> {
    match line.next()? {
        "int" => Ok(0),
        "double" => Ok(1),
        "bool" => Ok(2),
        other => Err(format!("{other} is no type")),
    }
}

fn constant(line: &mut Line) -> Parsed<Option<Constant>> {
    let constant = match line.peek() {
        Some("int") => (line.next()?, Constant::Int(line.number()?)).1,
        Some("double") => (line.next()?, Constant::Double(line.number::<f64>()?.to_bits())).1,
        Some("string") => (line.next()?, Constant::Str(line.number()?)).1,
        Some("true") => (line.next()?, Constant::True).1,
        Some("false") => (line.next()?, Constant::False).1,
        Some("undefined") => (line.next()?, Constant::Undefined).1,
        _ => return Ok(None),
    };
    Ok(Some(constant))
}

/// The lines of each function behind its first.
fn chapters(text: &str) -> Parsed<(Vec<u64>, Vec<Vec<(usize, Line<'_>)>>)> {
    let (mut table, mut all) = (vec![0; 16], vec![]);
    for (k, text) in text.lines().enumerate() {
        let mut line = Line::new(text).map_err(|e| format!("line {}: {e}", k + 1))?;
        match line.peek() {
            None => {}
            Some("native") => {
                line.at = 1;
                let id: usize = line.number()?;
                let number: u64 = line.number()?;
                *table.get_mut(id).ok_or("a native id above 15")? = number << 2 | if line.peek().is_some() { 3 } else { 2 };
            }
            Some("function") => all.push(vec![(k + 1, line)]),
            Some(_) => all.last_mut().ok_or(format!("line {}: no function yet", k + 1))?.push((k + 1, line)),
        }
    }
    Ok((table, all))
}

pub fn site(text: &str) -> Parsed<Site> {
    let (table, chapters) = chapters(text)?;
    let mut ids = HashMap::new();
    let mut functions = vec![];
    for lines in chapters {
        let head = &lines[0].1;
        let [_, id, name, ..] = head.tokens[..] else { return Err("function ID NAME".into()) };
        let id = id.parse().map_err(|_| format!("{id} is no id"))?;
        ids.insert(name.to_string(), id);
        let function = Function { id, span: head.span, unused: head.tokens.get(3) == Some(&"unused"), ..Function::default() };
        let mut making = Making { function, functions: ids.clone(), ..Making::default() };
        let names = lines.iter().filter(|(_, l)| l.tokens.get(1) == Some(&"(") && l.tokens.last() == Some(&":"));
        making.blocks = names.enumerate().map(|(b, (_, l))| (l.tokens[0].to_string(), b as u32)).collect();
        for (k, mut line) in lines.into_iter().skip(1) {
            making.line(&mut line).map_err(|e| format!("line {k}: {e}"))?;
        }
        functions.push(making.function);
    }
    Ok(Site { table, functions })
}
