//! Document 01's refusals 1 to 7, as far as the model can break them: what is fed to the Rust has to be what document 01 admits.
use crate::REGISTER_COUNT;
use crate::model::{BOOL, Block, Constant, DOUBLE, Does, Edge, Ends, Function, INT, Instr, Term};
use crate::rows::{Row, rows, value_rows};

const ARGUMENTS: usize = REGISTER_COUNT - 2;

/// The lowest number that applies, 0 for none. `known` says which functions the table has.
pub fn judge(f: &Function, known: &dyn Fn(u32) -> bool) -> u32 {
    let callee = |function: u32| function == f.id || known(function);
    // each is judged only where those before it hold
    let passes: [(u32, &dyn Fn() -> bool); 7] = [
        (1, &|| forms(f)),
        (2, &|| counts(f)),
        (3, &|| shape(f)),
        (4, &|| once(f)),
        (5, &|| intervals(f)),
        (6, &|| rows(f).iter().all(|row| callee_of(row).is_none_or(callee))),
        (7, &|| rows(f).iter().all(|row| keys_of(row).is_none_or(|keys| keys_fit(&keys)))),
    ];
    passes.iter().find(|(_, holds)| !holds()).map_or(0, |(number, _)| *number)
}

fn forms(f: &Function) -> bool {
    let instrs = f.blocks.iter().flat_map(|b| &b.instrs);
    let terms = f.blocks.iter().filter_map(|b| b.term.as_ref());
    f.values.iter().all(|v| v.hint.is_none_or(|r| r < 64)) && instrs.into_iter().all(instr_form) && terms.into_iter().all(term_form)
}

/// Whether it has a destination, and how many operands; a list of arguments has any number.
fn instr_form(instr: &Instr) -> bool {
    let (dst, operands) = match &instr.does {
        Does::Bin { .. } => (true, Some(2)),
        Does::LoadConst(_) | Does::Alloc { .. } => (true, Some(0)),
        Does::Call { .. } | Does::Sys { .. } => (true, None),
        Does::Store { .. } => (false, Some(2)),
        Does::Noop => (false, Some(0)),
        _ => (true, Some(1)),
    };
    let operator = !matches!(instr.does, Does::Bin { op } | Does::BinImm { op, .. } if op > 16);
    let span = instr.does != Does::Noop || instr.span == 0;
    instr.dst.is_some() == dst && operands.is_none_or(|n| instr.operands.len() == n) && operator && span
}

fn term_form(term: &Term) -> bool {
    let operands = term.operands.len();
    match &term.ends {
        Ends::Return => operands <= 1 && term.edges.is_empty(),
        Ends::Jump => operands == 0 && term.edges.len() == 1,
        Ends::Branch => operands == 1 && term.edges.len() == 2,
        Ends::BranchCmpImm { op, .. } => operands == 1 && term.edges.len() == 2 && *op <= 16,
        Ends::BranchCmp { op } => operands == 2 && term.edges.len() == 2 && *op <= 16,
        Ends::Tail { .. } => term.edges.is_empty(),
        Ends::Switch { keys } => operands == 1 && term.edges.len() == keys.len() + 1,
    }
}

fn counts(f: &Function) -> bool {
    let params = |(b, block): (usize, &Block)| block.params.len() <= if b == 0 { ARGUMENTS } else { 190 };
    let cases = |n: usize| (1..=1024).contains(&n);
    let instr = |i: &Instr| match &i.does {
        Does::Call { .. } | Does::Sys { .. } => i.operands.len() <= ARGUMENTS,
        Does::Lookup { entries, .. } => cases(entries.len()),
        _ => true,
    };
    let term = |t: &Term| match &t.ends {
        Ends::Tail { .. } => t.operands.len() <= ARGUMENTS,
        Ends::Switch { keys } => cases(keys.len()),
        _ => true,
    };
    f.values.len() <= 4096
        && f.blocks.len() <= 1024
        && rows(f).len() <= 16384
        && f.blocks.iter().enumerate().all(params)
        && f.blocks.iter().flat_map(|b| &b.instrs).all(instr)
        && f.blocks.iter().filter_map(|b| b.term.as_ref()).all(term)
}

fn shape(f: &Function) -> bool {
    let last = f.live_blocks().last().map(|(b, _)| b);
    let ids = f.live_blocks().all(|(b, block)| block.id as usize == b);
    let terms = f.live_blocks().all(|(b, block)| match &block.term {
        Some(term) => term_shape(f, term),
        None => f.id == 0 && last == Some(b),
    });
    let in_range = |row: &Row| row.defines().iter().chain(row.operands()).all(|&v| (v as usize) < f.values.len());
    f.blocks.first().is_some_and(|b| !b.tombstone)
        && ids
        && terms
        && rows(f).iter().all(in_range)
        && f.live_blocks().flat_map(|(_, b)| &b.instrs).all(instr_shape)
}

fn instr_shape(instr: &Instr) -> bool {
    match instr.does {
        Does::BinImm { op, .. } => op < 9,
        Does::Cast { to, from } => matches!((from, to), (INT, DOUBLE) | (DOUBLE, INT) | (INT, BOOL) | (BOOL, INT)),
        _ => true,
    }
}

fn term_shape(f: &Function, term: &Term) -> bool {
    let edge = |edge: &Edge| {
        let target = f.blocks.get(edge.to as usize);
        target.is_some_and(|b| !b.tombstone && b.params.len() == edge.args.len())
            && edge.args.iter().all(|&v| (v as usize) < f.values.len())
    };
    let operator = match term.ends {
        Ends::BranchCmpImm { op, .. } => op == 8,
        Ends::BranchCmp { op } => op == 16,
        _ => true,
    };
    operator && term.edges.iter().all(edge)
}

fn once(f: &Function) -> bool {
    let mut seen = vec![false; f.values.len()];
    let defined: Vec<u32> = rows(f).iter().flat_map(Row::defines).collect();
    defined.into_iter().all(|v| !std::mem::replace(&mut seen[v as usize], true))
}

fn intervals(f: &Function) -> bool {
    let at = value_rows(f);
    let defined = |(v, row): (usize, &Option<u32>)| {
        let (start, end) = (f.values[v].start, f.values[v].end);
        row.is_none_or(|row| start != u32::MAX && start <= end && (start < end) == (row < end))
    };
    let used = |v: u32, row: u32| at[v as usize].is_some_and(|r| r < row) && row <= f.values[v as usize].end;
    let fits = |(r, row): (usize, &Row)| {
        let passes = row.passes(f);
        // an argument for an unread parameter is exempt
        let mut read = passes.iter().filter(|(_, p)| f.values[*p as usize].is_read());
        row.operands().iter().all(|&v| used(v, r as u32)) && read.all(|&(v, _)| used(v, r as u32))
    };
    at.iter().enumerate().all(defined) && rows(f).iter().enumerate().all(fits)
}

fn callee_of(row: &Row) -> Option<u32> {
    match row {
        Row::Instr(Instr { does: Does::Call { function }, .. }) => Some(*function),
        Row::Term(_, Some(Term { ends: Ends::Tail { function }, .. })) => Some(*function),
        _ => None,
    }
}

fn keys_of(row: &Row) -> Option<Vec<Constant>> {
    match row {
        Row::Instr(Instr { does: Does::Lookup { entries, .. }, .. }) => Some(entries.iter().map(|&(key, _)| key).collect()),
        Row::Term(_, Some(Term { ends: Ends::Switch { keys }, .. })) => Some(keys.clone()),
        _ => None,
    }
}

fn keys_fit(keys: &[Constant]) -> bool {
    let ints: Vec<i128> = keys.iter().filter_map(|k| if let Constant::Int(i) = k { Some(*i as i128) } else { None }).collect();
    ints.len() == keys.len() && ints.iter().max().zip(ints.iter().min()).is_some_and(|(most, least)| most - least <= 4095)
}
