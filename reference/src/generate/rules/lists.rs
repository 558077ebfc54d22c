//! Calls, arrays, objects and tags.

use super::*;

fn private() -> Tree {
    node(kind::PRIVATE_MEMBER, [a()])
}

/// Members and chains don't go below a call whose callee is a plain name.
pub fn calls() -> Vec<Rule> {
    let chained = || chain(optional(call([a()])));
    vec![
        rule(0, "let v=a.x; v(1)", member(a()), call([v(), one()])),
        rule(0, "let v=a.#x; v(1)", private(), call([v(), one()])),
        rule(0, "let v=a[a]; v(1)", keyed(a(), a()), call([v(), one()])),
        rule(0, "let v=a?.(); v(1)", chained(), call([v(), one()])),
        rule(1, "let v=f(); v(1)", f(), call([v(), one()])),
        rule(0, "let v=a.x; a(v)", member(a()), call([a(), v()])),
        rule(0, "let v=a.#x; a(v)", private(), call([a(), v()])),
        rule(0, "let v=a[a]; a(v)", keyed(a(), a()), call([a(), v()])),
        rule(0, "let v=a?.(); a(v)", chained(), call([a(), v()])),
        rule(1, "let v=b; a(v)", b(), call([a(), v()])),
        rule(1, "let v=a.x; a.x(v)", member(a()), call([member(a()), v()])),
        rule(1, "let v=a.x; [a(a),v]", member(a()), array([call([a(), a()]), v()])),
        rule(0, "let v=a.x; [f(),v]", member(a()), array([f(), v()])),
        rule(0, "let v=a.x; new v", member(a()), new([v()])),
        rule(0, "let v=a[a]; new v", keyed(a(), a()), new([v()])),
        rule(0, "let v=a?.(); new v", chained(), new([v()])),
        rule(1, "let v=f(); new v", f(), new([v()])),
        rule(0, "let v=a.x; new a(v)", member(a()), new([a(), v()])),
        rule(1, "let v=f(); new a(v)", f(), new([a(), v()])),
        rule(1, "let v=a.x; new a.x(v)", member(a()), new([member(a()), v()])),
        rule(0, "let v=f(); u(v)", f(), call([u(), v()])),
        rule(0, "let v=f(); new u(v)", f(), new([u(), v()])),
        rule(1, "let v=1; a(...v)", one(), call([a(), spread(v())])),
        rule(0, "let v=1; a(...a,v)", one(), call([a(), spread(a()), v()])),
        rule(1, "let v=1; new a(...v)", one(), new([a(), spread(v())])),
        rule(0, "let v=1; new a(...a,v)", one(), new([a(), spread(a()), v()])),
    ]
}

pub fn arrays() -> Vec<Rule> {
    vec![
        rule(1, "let v=f(); [,v]", f(), array([Tree::leaf(kind::ELISION), v()])),
        rule(1, "let v=f(); [...v]", f(), array([spread(v())])),
        rule(0, "let v=1; [...a,v]", one(), array([spread(a()), v()])),
        rule(1, "let v=b; [[a],v]", b(), array([array([a()]), v()])),
        rule(0, "let v=f(); [[a],v]", f(), array([array([a()]), v()])),
    ]
}

/// A computed key and a spread stop even a literal; a shorthand that gives an answer is one no
/// longer.
pub fn objects() -> Vec<Rule> {
    let (short, computed, proto) = (flag::SHORTHAND, flag::COMPUTED, flag::PROTO);
    let last = || property(0, [v()]);
    let over = |flags: u8, child: Tree| object([property(flags, [child])]);
    let behind = |first: Tree| object([first, last()]);
    vec![
        rule(1, "let v=f(); ({k:v})", f(), over(0, v())),
        rule(1, "let v=f(); ({__proto__:v})", f(), over(proto, v())),
        rule(1, "let v=f(); ({v})", f(), over(short, v())),
        rule(1, "let v=f(); ({__proto__})", f(), over(short | proto, v())),
        rule(1, "let v=f(); ({a,k:v})", f(), behind(property(short, [a()]))),
        rule(0, "let v=f(); ({u,k:v})", f(), behind(property(short, [u()]))),
        rule(0, "let v=f(); ({__proto__,k:v})", f(), behind(property(short | proto, [u()]))),
        rule(0, "let v=f(); ({k:u,l:v})", f(), behind(property(0, [u()]))),
        rule(1, "let v=f(); ({k:1,l:v})", f(), behind(property(0, [one()]))),
        rule(1, "let v=f(); ({[v]:a})", f(), object([property(computed, [v(), a()])])),
        rule(0, "let v=1; ({[a]:v})", one(), object([property(computed, [a(), v()])])),
        rule(0, "let v=1; ({[a]:1,k:v})", one(), behind(property(computed, [a(), one()]))),
        rule(0, "let v=1; ({['__proto__']:v})", one(), over(computed | proto, v())),
        rule(0, "let v=1; ({['__proto__']:1,k:v})", one(), behind(property(96, [one()]))),
        rule(1, "let v=f(); ({...v})", f(), object([spread(v())])),
        rule(0, "let v=1; ({...a,k:v})", one(), behind(spread(a()))),
        rule(1, "let v=b; [{k:a},v]", b(), array([over(0, a()), v()])),
        rule(0, "let v=1; [{[a]:1},v]", one(), array([object([property(32, [a(), one()])]), v()])),
        rule(0, "let v=1; [{['__proto__']:1},v]", one(), array([over(96, one()), v()])),
        rule(0, "let v=1; [{...a},v]", one(), array([object([spread(a())]), v()])),
    ]
}

/// A member that becomes a tag is kept indirect.
pub fn tags() -> Vec<Rule> {
    let tagged = |tag: Tree| node(kind::TAGGED_TEMPLATE, [tag]);
    let with = |tag: Tree, part: Tree| node(kind::TAGGED_TEMPLATE, [tag, part]);
    let chained = |tree: Tree| chain(optional(tree));
    vec![
        rule(1, "let v=a.x; v``", member(a()), tagged(v())),
        rule(1, "let v=a.#x; v``", private(), tagged(v())),
        rule(1, "let v=a[a]; v``", keyed(a(), a()), tagged(v())),
        rule(1, "let v=a?.x; v``", chained(member(a())), tagged(v())),
        rule(1, "let v=a?.#x; v``", chained(private()), tagged(v())),
        rule(1, "let v=a?.[a]; v``", chained(keyed(a(), a())), tagged(v())),
        rule(1, "let v=a?.(); v``", chained(call([a()])), tagged(v())),
        rule(1, "let v=f(); v``", f(), tagged(v())),
        rule(1, "let v=a.x; v.x``, the member labelled as v", member(a()), tagged(member(v()))),
        rule(1, "let v=a.x; a`${v}`", member(a()), with(a(), v())),
        rule(1, "let v=f(); v`${a}`", f(), with(v(), a())),
        rule(1, "let v=f(); a`${v}`", f(), with(a(), v())),
        rule(0, "let v=f(); a.x`${v}`", f(), with(member(a()), v())),
        rule(0, "let v=f(); u`${v}`", f(), with(u(), v())),
    ]
}
