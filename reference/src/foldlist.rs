//! The lines that the program `foldlist` prints for a file.

use crate::build::room_for;
use crate::fold::fold;
use crate::record::{HEADER_BYTES, RecordFile, read_header, read_parts, statement};

/// The totals, then a line for each statement; or the refusal alone.
pub fn foldlist(file: &[u8]) -> String {
    let declarators = if file.len() < HEADER_BYTES { 0 } else { read_header(file).declarators };
    let answer = fold(file, room_for(file, usize::from(declarators)));
    if answer.number != 0 {
        return format!("refused {}\n", answer.number);
    }
    let records = read_parts(&read_header(&answer.result), &answer.result);
    let (statements, nodes) = (records.statements.len(), records.nodes.len());
    let mut out = format!("fold {} statements {statements} nodes {nodes}\n", answer.folds);
    for (number, nodes) in nodes_by_statement(&records).into_iter().enumerate() {
        let it = &records.statements[number];
        out += &format!("s {number} {} {} {nodes}\n", it.kind, it.declarators);
    }
    out
}

fn nodes_by_statement(records: &RecordFile) -> Vec<usize> {
    let mut declarators = records.declarators.iter();
    let mut nodes = records.nodes.iter();
    let mut out = Vec::new();
    for it in &records.statements {
        let own = declarators.by_ref().take(usize::from(it.declarators));
        let initializers = own.filter(|it| it.initializer == 1).count();
        let trees = if it.kind == statement::EXPRESSION { 1 } else { initializers };
        let before = nodes.len();
        skip_trees(&mut nodes, trees);
        out.push(before - nodes.len());
    }
    out
}

fn skip_trees(nodes: &mut std::slice::Iter<crate::record::Node>, trees: usize) {
    let mut wanted = trees;
    while wanted > 0 {
        let node = nodes.next().expect("the trees close");
        wanted += usize::from(node.children);
        wanted -= 1;
    }
}
