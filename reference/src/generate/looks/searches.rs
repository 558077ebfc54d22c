//! Which searches are made, and over what.

use super::*;

const V: u16 = 0;
const R: u16 = 5;

fn r() -> Tree {
    Tree::name(R)
}

fn let_r(initializer: Tree) -> Line {
    Line::declare(statement::LET, R, initializer)
}

fn declaration<const N: usize>(kind: u8, declarators: [(u16, Option<Tree>); N]) -> Line {
    Line::Declaration { kind, declarators: declarators.into() }
}

/// The search ends before it enters anything.
pub fn none() -> Vec<Looked> {
    let none = |text: &'static str, first: Line| looked_over("", text, &[first, expression(v())]);
    let let_v_1 = || let_v(one());
    let pattern = declaration(statement::LET, [(NONE, Some(one()))]);
    let bare = declaration(statement::LET, [(V, None)]);
    let between = [let_v_1(), Line::Other, expression(v())];
    vec![
        none("let v=1; v, reads of v: 2", let_v_1()).with(|file| file.names[0].reads = 2),
        none("let v=1; v, v not recorded", let_v_1()).with(|file| {
            file.names[0] = Name { flags: name::BLOCK_SCOPED, reads: 0, ..file.names[0] };
        }),
        none("let v; v", bare),
        none("let [..]=1; v", pattern),
        none("using v=1; v", Line::declare(statement::USING, V, one())),
        none("let v=1; v, at a script's root", let_v_1())
            .with(|file| file.options = option::SCRIPT),
        none("let v=1; v, beside a direct eval", let_v_1())
            .with(|file| file.scopes[0].flags = scope::DIRECT_EVAL),
        none("let v=a; v, option bit 3", let_v(a())).with(literal_only),
        looked_over("", "let v=1; if..; v", &between),
    ]
}

fn literal_only(file: &mut RecordFile) {
    file.options = option::LITERAL_ONLY;
}

fn expression(tree: Tree) -> Line {
    Line::Expression(tree)
}

/// Several searches, or one behind others that aren't made.
pub fn several() -> Vec<Looked> {
    let empty = declaration(statement::LET, []);
    let two = declaration(statement::LET, [(V, Some(one())), (R, Some(one()))]);
    let within = declaration(statement::LET, [(V, Some(b())), (R, Some(v()))]);
    let both = || expression(array([v(), r()]));
    vec![
        looked_over("a", "let v=1; a; v", &[let_v(one()), expression(a()), expression(v())]),
        looked_over("v", "let v=1; let ; v", &[let_v(one()), empty, expression(v())]),
        looked_over(
            "v",
            "let v=1; using r=v; a",
            &[let_v(one()), Line::declare(statement::USING, R, v()), expression(a())],
        ),
        looked_over("v", "let v=b, r=v; a, option bit 3", &[within, expression(a())])
            .with(literal_only),
        looked_over("1 | [v,r] | v | r | [v,1] | v", "let v=1, r=1; [v,r]", &[two, both()]),
        looked_over(
            "f() | f | [v,r] | v | r | [v,f()] | v",
            "let v=f(); let r=f(); [v,r]",
            &[let_v(f()), let_r(f()), both()],
        ),
    ]
}

/// The second search enters what the first has placed.
pub fn of_what_was_folded() -> Vec<Looked> {
    let tagged = node(kind::TAGGED_TEMPLATE, [r()]);
    let short = property(flag::SHORTHAND | flag::PROTO, [r()]);
    let lines =
        |initializer: Tree, tree: Tree| [let_v(one()), let_r(initializer), expression(tree)];
    vec![
        looked_over(
            "[a,b] | a | b | [r,v] | r | [[a,b],v] | [a,b] | a | b | v",
            "let v=1; let r=[a,b]; [r,v]",
            &lines(array([a(), b()]), array([r(), v()])),
        ),
        looked_over(
            "a.x | a | [r``,v] | r`` | r | [(0,a.x)``,v] | (0,a.x)`` | (0,a.x) | 0 | a.x | a | v",
            "let v=1; let r=a.x; [r``,v]",
            &lines(member(a()), array([tagged, v()])),
        ),
        looked_over(
            "f() | f | ({__proto__,k:v}) | r | ({['__proto__']:f(),k:v}) | '__proto__'",
            "let v=1; let r=f(); ({__proto__,k:v}), __proto__ a shorthand of r",
            &lines(f(), object([short, property(0, [v()])])),
        ),
    ]
}
