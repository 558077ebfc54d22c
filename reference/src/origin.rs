//! Compares the carried functions with the crate they come from.

use std::path::Path;

const CARRIED: &str = include_str!("carried.rs");
const BEGIN: &str = "// origin: ";
const END: &str = "// end of origin";
const ADDED: &str = "// added";

/// The sum over the carried pieces as they were when last compared with the crate.
const COMPARED: u64 = 0x01d0_1b3b_6b2f_a481;

/// A piece of the crate between its marks.
struct Piece {
    /// The path in the crate, the first line and the last.
    mark: &'static str,
    path: &'static str,
    first: usize,
    last: usize,
    lines: Vec<&'static str>,
    added: Vec<&'static str>,
}

fn pieces() -> Vec<Piece> {
    let mut out: Vec<Piece> = Vec::new();
    let mut inside = false;
    for line in CARRIED.lines() {
        if let Some(mark) = line.trim_start().strip_prefix(BEGIN) {
            out.push(piece_at(mark));
            inside = true;
        } else if line.trim_start() == END {
            inside = false;
        } else if inside {
            let piece = out.last_mut().expect("a mark opened it");
            let list = if line.ends_with(ADDED) { &mut piece.added } else { &mut piece.lines };
            list.push(line);
        }
    }
    out
}

fn piece_at(mark: &'static str) -> Piece {
    let (path, lines) = mark.split_once(' ').expect("a mark has a path and lines");
    let (first, last) = lines.split_once('-').expect("lines have a first and a last");
    let number = |text: &str| text.parse().expect("a line has a number");
    let (first, last) = (number(first), number(last));
    Piece { mark, path, first, last, lines: Vec::new(), added: Vec::new() }
}

impl Piece {
    /// What the piece declares.
    fn name(&self) -> &str {
        let declared = |line: &&&str| line.contains("fn ") || line.contains("struct ");
        let code = |line: &&&str| !line.trim_start().starts_with("//");
        let line = self.lines.iter().filter(code).find(declared).expect("a piece declares");
        let line = line.trim_start().trim_start_matches("pub ");
        line.split(['(', ';']).next().expect("there is a first part")
    }

    /// An error tells the first line that differs.
    fn compare(&self, directory: &Path) -> Result<(), String> {
        let path = directory.join(self.path);
        let text = std::fs::read_to_string(&path)
            .map_err(|error| format!("{}: {error}", path.display()))?;
        let count = self.last + 1 - self.first;
        let origin: Vec<&str> = text.lines().skip(self.first - 1).take(count).collect();
        let differs = |(own, its): (&&str, &&str)| own != its;
        match self.lines.iter().zip(&origin).position(differs) {
            Some(line) => Err(format!("{}:{} differs", self.path, self.first + line)),
            None if self.lines.len() != origin.len() => Err(format!("{} is cut short", self.mark)),
            None => Ok(()),
        }
    }
}

/// A sum (FNV-1a) over the marks and the crate's lines.
fn sum_of(pieces: &[Piece]) -> u64 {
    let lines = pieces.iter().flat_map(|piece| std::iter::once(&piece.mark).chain(&piece.lines));
    let bytes = lines.flat_map(|line| line.bytes().chain(std::iter::once(b'\n')));
    bytes.fold(0xcbf2_9ce4_8422_2325, |sum, byte| {
        (sum ^ u64::from(byte)).wrapping_mul(0x0000_0100_0000_01b3)
    })
}

fn counted(pieces: &[Piece]) -> String {
    let lines: usize = pieces.iter().map(|piece| piece.lines.len()).sum();
    let added: usize = pieces.iter().map(|piece| piece.added.len()).sum();
    format!("{} pieces of the crate, {lines} lines, and {added} added", pieces.len())
}

/// Without the crate at hand: whether the pieces are those that were compared with it.
pub fn as_compared() -> Result<String, String> {
    let pieces = pieces();
    let sum = sum_of(&pieces);
    if sum == COMPARED {
        return Ok(format!("{}, as last compared with it", counted(&pieces)));
    }
    Err(format!("the pieces were changed since they were compared; their sum is {sum:#x}"))
}

/// Compares every piece with the crate, which stands unpacked in the directory, and prints it.
pub fn compare(directory: &Path) -> Result<(), String> {
    let pieces = pieces();
    for piece in &pieces {
        piece.compare(directory)?;
        println!("same: {} {}", piece.mark, piece.name());
        piece.added.iter().for_each(|line| println!("  added: {}", line.trim()));
    }
    println!("{}", counted(&pieces));
    as_compared().map(|_| ())
}
