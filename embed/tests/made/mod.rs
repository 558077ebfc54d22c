//! Files put together byte by byte.

pub const LITERAL: u8 = 1;
pub const NAME: u8 = 4;

/// A node with label 0.
pub fn record(kind: u8, children: u8, position: u8) -> [u8; 12] {
    [kind, 0, 0, 0, children, 0, 0, 0, position, 0, 0, 0]
}

/// A file with so many names, each read once, one scope, and these nodes.
pub fn file(
    names: usize,
    nodes: &[[u8; 12]],
    declarators: &[[u8; 4]],
    statements: &[[u8; 4]],
) -> Vec<u8> {
    let mut file = b"WSF\0".to_vec();
    let counts = [1, names, 1, 0, nodes.len(), declarators.len(), statements.len()];
    for count in counts.into_iter().chain([0, 65535, 0]) {
        file.extend(u16::try_from(count).expect("a count fits").to_le_bytes());
    }
    file.extend([17, 0, 0, 0, 1, 0, 0, 0, 0, 0, 0, 0].repeat(names));
    file.extend([255, 255, 0, 0]);
    file.extend(nodes.as_flattened());
    file.extend(declarators.as_flattened());
    file.extend(statements.as_flattened());
    file
}
