//! The list of cases, and its words.
use crate::function::Function;

pub struct Case {
    pub number: u32,
    pub name: String,
    table: Vec<u64>,
    words: Vec<u32>,
}

impl Case {
    fn put(&self, out: &mut Vec<u32>) {
        out.extend([self.number, self.table.len() as u32]);
        out.extend(self.table.iter().flat_map(|&w| [w as u32, (w >> 32) as u32]));
        out.push(self.words.len() as u32);
        out.extend(&self.words);
    }
}

#[derive(Default)]
pub struct Cases(pub Vec<Case>);

impl Cases {
    /// A function with an empty table of functions, and the number that document 01 gives it.
    pub fn add(&mut self, number: u32, name: impl Into<String>, f: &Function) {
        self.with_table(number, name, f, &[]);
    }

    pub fn with_table(&mut self, number: u32, name: impl Into<String>, f: &Function, table: &[u64]) {
        self.0.push(Case { number, name: name.into(), table: table.to_vec(), words: f.words() });
    }

    pub fn words(&mut self, number: u32, name: impl Into<String>, words: &[u32]) {
        self.0.push(Case { number, name: name.into(), table: vec![], words: words.to_vec() });
    }

    pub fn file(&self) -> Vec<u32> {
        let mut out = vec![self.0.len() as u32];
        self.0.iter().for_each(|case| case.put(&mut out));
        out
    }

    /// One case many times, to time it.
    pub fn repeated(&self, name: &str, count: u32) -> Vec<u32> {
        let case = self.0.iter().find(|case| case.name == name).unwrap_or_else(|| panic!("no case is called {name}"));
        let mut out = vec![count];
        (0..count).for_each(|_| case.put(&mut out));
        out
    }
}
