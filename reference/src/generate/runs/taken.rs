//! A fold within a declaration leaves another declarator as its first one; the next run searches
//! that one for names declared before.

use super::*;

/// The example of docs/EMBEDDING.md, which is kept as a file too.
pub fn first_example() -> Vec<Repeat> {
    let of = |mut line: Line| {
        if let Line::Declaration { kind, .. } = &mut line {
            *kind = statement::CONST;
        }
        line
    };
    vec![repeat(
        (3, 2),
        ("const v=f(); const r=1, p=use(v,r)", "const p=use(f(),1)"),
        &[of(let_v()), of(declare([(R, one()), (P, call(USE, [read(V), read(R)]))]))],
        &[of(declare([(P, call(USE, [placed(V, f()), placed(R, one())]))]))],
    )]
}

/// What the second run takes.
pub fn from_declarations() -> Vec<Repeat> {
    let taken = || placed(V, f());
    let folded = || placed(R, one());
    vec![
        // Nothing shorter takes three runs: three declarators, of two names, five nodes.
        repeat(
            (3, 2),
            ("let v=1; let r=1, [..]=[r,v]", "let [..]=[1,1]"),
            &[declare([(V, one())]), declare([(R, one()), (NONE, array([read(R), read(V)]))])],
            &[declare([(NONE, array([folded(), placed(V, one())]))])],
        )
        .with(|file| file.names.truncate(2)),
        repeat(
            (3, 3),
            ("let v=f(); let w=f(); let r=1, p=[v,w,r]", "let p=[f(),f(),1]"),
            &[
                let_v(),
                declare([(W, f())]),
                declare([(R, one()), (P, array([read(V), read(W), read(R)]))]),
            ],
            &[declare([(P, array([taken(), placed(W, f()), folded()]))])],
        ),
        repeat(
            (3, 2),
            ("let w=f(), v=1; let r=1, p=[v,r]", "let w=f(); let p=[1,1]"),
            &[
                declare([(W, f()), (V, one())]),
                declare([(R, one()), (P, array([read(V), read(R)]))]),
            ],
            &[declare([(W, f())]), declare([(P, array([placed(V, one()), folded()]))])],
        ),
        repeat(
            (3, 3),
            ("let v=f(); let r=1, s=r, p=[v,s]", "let p=[f(),1]"),
            &[let_v(), declare([(R, one()), (S, read(R)), (P, array([read(V), read(S)]))])],
            &[declare([(P, array([taken(), placed(S, one())]))])],
        ),
        every_declaration(),
    ]
}

/// `let v1=1; .. let v253=1; let v0=1, [..]=[v0,v1,..,v253]`.
fn every_declaration() -> Repeat {
    const FIRST: u16 = 1;
    const LAST: u16 = 253;
    let items = |item: fn(u16) -> Tree| Tree::new(kind::ARRAY, (0..=LAST).map(item).collect());
    let declarator = |name: u16| declare([(name, one())]);
    let mut lines: Vec<Line> = (FIRST..=LAST).map(declarator).collect();
    lines.push(declare([(0, one()), (NONE, items(read))]));
    let result = [declare([(NONE, items(|name| placed(name, one())))])];
    let texts = ("253 literals taken by the second run", "an array of 254 literals");
    repeat((3, 254), texts, &lines, &result)
        .with(|file| file.names = vec![declared_name(1); usize::from(LAST) + 1])
}

/// More than one such declaration, or a statement between it and what reads it.
pub fn beside_others() -> Vec<Repeat> {
    let both = |v: Tree, r: Tree| (P, array([v, r]));
    vec![
        repeat(
            (3, 4),
            (
                "let v=f(); let r=1, p=[v,r]; let w=f(); let s=1, q=[w,s]",
                "let p=[f(),1]; let q=[f(),1]",
            ),
            &[
                let_v(),
                declare([(R, one()), both(read(V), read(R))]),
                declare([(W, f())]),
                declare([(S, one()), (Q, array([read(W), read(S)]))]),
            ],
            &[
                declare([both(placed(V, f()), placed(R, one()))]),
                declare([(Q, array([placed(W, f()), placed(S, one())]))]),
            ],
        ),
        repeat(
            (3, 2),
            ("let v=f(); let r=1, p=[v,r]; {..} use(p)", "let p=[f(),1]; {..} use(p)"),
            &[
                let_v(),
                declare([(R, one()), both(read(V), read(R))]),
                Line::Other,
                Line::Expression(call(USE, [read(P)])),
            ],
            &[
                declare([both(placed(V, f()), placed(R, one()))]),
                Line::Other,
                Line::Expression(call(USE, [read(P)])),
            ],
        ),
    ]
}

/// What the fold of the first run lets past in the second.
pub fn let_past() -> Vec<Repeat> {
    let function = || Tree::leaf(kind::FUNCTION);
    let call = |callee: Tree, argument: Tree| Tree::new(kind::CALL, vec![callee, argument]);
    vec![
        repeat(
            (3, 2),
            ("let v=f(); let r=1, p=[r,v], r and v of an outer function", "let p=[1,f()]"),
            &[let_v(), declare([(R, one()), (P, array([read(R), read(V)]))])],
            &[declare([(P, array([placed(R, one()), placed(V, f())]))])],
        )
        .with(in_a_function),
        repeat(
            (3, 2),
            ("let v=a.x; let r=function(){}, p=r(v)", "let p=(function(){})(a.x)"),
            &[
                declare([(V, member(Tree::name(A)))]),
                declare([(R, function()), (P, call(read(R), read(V)))]),
            ],
            &[declare([(P, call(placed(R, function()), placed(V, member(Tree::name(A)))))])],
        ),
    ]
}

/// The current scope is that of a function, and the names stand outside.
fn in_a_function(file: &mut RecordFile) {
    file.scopes.push(Scope { parent: 0, flags: scope::FUNCTION });
    file.current_scope = 1;
}
