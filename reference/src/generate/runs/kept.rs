//! Files that are steady, or that a run changes without a fold.

use super::*;

fn expression(tree: Tree) -> Line {
    Line::Expression(tree)
}

/// One run where nothing changes, and two where the first folds all.
pub fn at_once() -> Vec<Repeat> {
    let and = Tree::new(kind::LOGICAL, vec![Tree::name(A), read(V)]);
    vec![
        steady("f()", &[expression(f())]),
        steady("let v=f(); a&&v", &[let_v(), expression(and)]),
        repeat(
            (2, 1),
            ("let v=1; use(v)", "use(1)"),
            &[declare([(V, one())]), expression(call(USE, [read(V)]))],
            &[expression(call(USE, [placed(V, one())]))],
        ),
        repeat(
            (2, 3),
            ("let v=f(); let r=v, s=r; use(s)", "use(f())"),
            &[let_v(), declare([(R, read(V)), (S, read(R))]), expression(call(USE, [read(S)]))],
            &[expression(call(USE, [placed(S, f())]))],
        ),
        repeat(
            (2, 3),
            ("let v=f(); let r=1, p=use(v,r); use(p)", "use(use(f(),1))"),
            &[
                let_v(),
                declare([(R, one()), (P, call(USE, [read(V), read(R)]))]),
                expression(call(USE, [read(P)])),
            ],
            &[expression(call(USE, [placed(P, call(USE, [placed(V, f()), placed(R, one())]))]))],
        ),
    ]
}

/// No declarator: two runs are D + 2.
pub fn empty_declarations() -> Vec<Repeat> {
    let empty = |kind: u8| Line::Declaration { kind, declarators: vec![] };
    let (var, then, constant) = (statement::VAR, statement::LET, statement::CONST);
    let left = [expression(f())];
    vec![
        repeat((2, 0), ("let ; f()", "f()"), &[empty(then), expression(f())], &left),
        repeat(
            (2, 0),
            ("var ; let ; const ; f()", "f()"),
            &[empty(var), empty(then), empty(constant), expression(f())],
            &left,
        ),
        steady("f(); let ;", &[expression(f()), empty(then)]),
    ]
}

/// A search that an unresolved name stops leaves no shorthand there.
pub fn shorthands() -> Vec<Repeat> {
    let property = |flags: u8, value: Tree| Tree::new(kind::PROPERTY, vec![value]).flagged(flags);
    let unresolved = |flags: u8| property(flags, Tree::name(U));
    let object = |items: Vec<Tree>| Tree::new(kind::OBJECT, items);
    let with_v = |flags: u8| expression(object(vec![unresolved(flags), property(0, read(V))]));
    let with_both = |flags: u8, r: Tree| {
        (P, object(vec![unresolved(flags), property(0, read(V)), property(0, r)]))
    };
    let (short, proto, computed) = (flag::SHORTHAND, flag::PROTO, flag::COMPUTED);
    vec![
        repeat(
            (2, 0),
            ("let v=f(); ({u,k:v})", "let v=f(); ({u:u,k:v})"),
            &[let_v(), with_v(short)],
            &[let_v(), with_v(0)],
        ),
        repeat(
            (2, 0),
            ("let v=f(); ({__proto__,k:v})", "let v=f(); ({['__proto__']:__proto__,k:v})"),
            &[let_v(), with_v(short | proto)],
            &[let_v(), with_v(computed | proto)],
        ),
        repeat(
            (3, 1),
            ("let v=f(); let r=1, p={u,k:v,l:r}", "let v=f(); let p={u:u,k:v,l:1}"),
            &[let_v(), declare([(R, one()), with_both(short, read(R))])],
            &[let_v(), declare([with_both(0, placed(R, one()))])],
        ),
    ]
}

/// What the second run would take if a rule let it.
pub fn by_rules() -> Vec<Repeat> {
    let both = |r: Tree| (P, array([read(V), r]));
    let literal_only = |file: &mut RecordFile| file.options = option::LITERAL_ONLY;
    let bare = vec![(R, None), (P, Some(array([read(V), read(R)])))];
    let using = vec![(R, Some(one())), (P, Some(array([read(V), read(R)])))];
    let mut all = vec![
        steady(
            "let v=f(); let r, p=[v,r]",
            &[let_v(), Line::Declaration { kind: statement::LET, declarators: bare }],
        ),
        steady(
            "let v=f(); using r=1, p=[v,r]",
            &[let_v(), Line::Declaration { kind: statement::USING, declarators: using }],
        ),
        repeat(
            (2, 1),
            ("let v=a; let r=1, p=[v,r], option bit 3", "let v=a; let p=[v,1]"),
            &[declare([(V, Tree::name(A))]), declare([(R, one()), both(read(R))])],
            &[declare([(V, Tree::name(A))]), declare([both(placed(R, one()))])],
        )
        .with(literal_only),
        repeat(
            (3, 2),
            ("let v=1; let r=1, p=[v,r], option bit 3", "let p=[1,1]"),
            &[declare([(V, one())]), declare([(R, one()), both(read(R))])],
            &[declare([(P, array([placed(V, one()), placed(R, one())]))])],
        )
        .with(literal_only),
    ];
    all.extend(targets());
    all
}

/// `this` is initialised at 20.
fn targets() -> [Repeat; 2] {
    let assigned = |this: u32, items: [Tree; 2]| {
        let target = member(Tree::leaf(kind::THIS).at(this));
        (P, Tree::new(kind::ASSIGNMENT, vec![target, array(items)]))
    };
    let file = |this: u32| [let_v(), declare([(R, one()), assigned(this, [read(V), read(R)])])];
    let folded = || placed(R, one());
    let constructor = |file: &mut RecordFile| {
        file.this_scope = 0;
        file.frames.push(Frame { scope: 0, zero: 0, initialised: 20 });
    };
    [
        repeat(
            (3, 2),
            ("let v=f(); let r=1, p=(this.x=[v,r]), this at 20", "let p=(this.x=[f(),1])"),
            &file(20),
            &[declare([assigned(20, [placed(V, f()), folded()])])],
        )
        .with(constructor),
        repeat(
            (2, 1),
            ("the same, this at 19", "let v=f(); let p=(this.x=[v,1])"),
            &file(19),
            &[let_v(), declare([assigned(19, [read(V), folded()])])],
        )
        .with(constructor),
    ]
}
