//! What of a tree is entered: `let v = ..; <tree>`.

use super::*;

pub fn operators() -> Vec<Looked> {
    let unary = |label: u16, child: Tree| node(kind::UNARY, [child]).labelled(label);
    let plus = |left: Tree, right: Tree| node(kind::BINARY, [left, right]);
    vec![
        looked_at("v", "let v=1; v", one(), v()),
        looked_at("-v | v", "let v=1; -v", one(), unary(0, v())),
        looked_at("delete v", "let v=1; delete v", one(), unary(1, v())),
        looked_at("yield", "let v=1; yield", one(), Tree::leaf(kind::YIELD)),
        looked_at("a+v | a | v", "let v=f(); a+v", f(), plus(a(), v())),
        looked_at("u+v | u", "let v=f(); u+v", f(), plus(u(), v())),
    ]
}

pub fn branches() -> Vec<Looked> {
    let and = |left: Tree, right: Tree| node(kind::LOGICAL, [left, right]);
    let choice = |one: Tree, other: Tree| node(kind::CONDITIONAL, [a(), one, other]);
    vec![
        looked_at("f()&&v | f() | f", "let v=b; f()&&v", b(), and(f(), v())),
        looked_at("a?v:b | a", "let v=f(); a?v:b", f(), choice(v(), b())),
        looked_at("a?v:b | a | v", "let v=b; a?v:b", b(), choice(v(), b())),
        looked_at("a?f():v | a | f() | f | v", "let v=b; a?f():v", b(), choice(f(), v())),
        looked_at(
            "[a?f():f(),v] | a?f():f() | a | f() | f | f() | f",
            "let v=b; [a?f():f(),v]",
            b(),
            array([choice(f(), f()), v()]),
        ),
    ]
}

pub fn chains() -> Vec<Looked> {
    let optional_key = chain(optional(keyed(a(), v())));
    let later_key = chain(keyed(optional(member(a())), v()));
    let argument = chain(optional(call([a(), v()])));
    vec![
        looked_at("the chain | a?.(v) | a | v", "let v=b; a?.(v)", b(), argument),
        looked_at("the chain | a?.[v] | a", "let v=f(); a?.[v]", f(), optional_key),
        looked_at("the chain | a?.x[v] | a?.x | a", "let v=f(); a?.x[v]", f(), later_key),
    ]
}

/// A member isn't placed below a call of a plain name, and such a call isn't entered further.
pub fn calls() -> Vec<Looked> {
    let x = || member(a());
    vec![
        looked_at("a(v)", "let v=a.x; a(v)", x(), call([a(), v()])),
        looked_at("new a(v)", "let v=a.x; new a(v)", x(), new([a(), v()])),
        looked_at("new a(v) | a | v", "let v=1; new a(v)", one(), new([a(), v()])),
        looked_at(
            "[a(b),v] | a(b) | v",
            "let v=a.x; [a(b),v]",
            x(),
            array([call([a(), b()]), v()]),
        ),
        looked_at("a.x(v) | a.x | a | v", "let v=a.x; a.x(v)", x(), call([x(), v()])),
        looked_at("a(...v) | a | v", "let v=1; a(...v)", one(), call([a(), spread(v())])),
        looked_at("a(...b,v) | a | b", "let v=1; a(...b,v)", one(), call([a(), spread(b()), v()])),
    ]
}

pub fn lists() -> Vec<Looked> {
    let elision = || Tree::leaf(kind::ELISION);
    let template = node(kind::TEMPLATE, [a(), v()]);
    let tagged = |parts: [Tree; 2]| node(kind::TAGGED_TEMPLATE, parts);
    vec![
        looked_at("[]", "let v=1; []", one(), array([])),
        looked_at("[,,v] | v", "let v=1; [,,v]", one(), array([elision(), elision(), v()])),
        looked_at("[...a,v] | a", "let v=1; [...a,v]", one(), array([spread(a()), v()])),
        looked_at("`${a}${v}` | a | v", "let v=f(); `${a}${v}`", f(), template),
        looked_at("(1,v) | 1 | v", "let v=f(); (1,v)", f(), node(kind::SEQUENCE, [one(), v()])),
        looked_at("v`${a}` | v", "let v=f(); v`${a}`", f(), tagged([v(), a()])),
        looked_at("a`${v}` | a | v", "let v=f(); a`${v}`", f(), tagged([a(), v()])),
    ]
}

/// A computed key is entered, also the string `__proto__`, which has no node; its value isn't.
pub fn objects() -> Vec<Looked> {
    let (short, computed, string) = (flag::SHORTHAND, flag::COMPUTED, flag::COMPUTED | flag::PROTO);
    let over = |flags: u8, child: Tree| object([property(flags, [child])]);
    let key = |key: Tree, value: Tree| object([property(computed, [key, value])]);
    let before_string = object([property(0, [a()]), property(string, [v()])]);
    let behind_spread = object([spread(a()), property(0, [v()])]);
    vec![
        looked_at("({k:v}) | v", "let v=1; ({k:v})", one(), over(0, v())),
        looked_at("({v}) | v", "let v=1; ({v})", one(), over(short, v())),
        looked_at("({[v]:a}) | v", "let v=1; ({[v]:a})", one(), key(v(), a())),
        looked_at("({[a]:v}) | a", "let v=1; ({[a]:v})", one(), key(a(), v())),
        looked_at(
            "({['__proto__']:1}) | '__proto__'",
            "let v=1; ({['__proto__']:1})",
            one(),
            over(string, one()),
        ),
        looked_at(
            "({k:a,['__proto__']:v}) | a | '__proto__'",
            "let v=1; ({k:a,['__proto__']:v})",
            one(),
            before_string,
        ),
        looked_at("({...a,k:v}) | a", "let v=1; ({...a,k:v})", one(), behind_spread),
    ]
}

/// A target isn't entered, nor what is below it.
pub fn assignments() -> Vec<Looked> {
    let to_member = |object: Tree, value: Tree| assign(member(object), value);
    vec![
        looked_at("w=v | v", "let v=f(); w=v", f(), assign(w(), v())),
        looked_at("a.x=v | v", "let v=f(); a.x=v", f(), to_member(a(), v())),
        looked_at("f().x=v", "let v=1; f().x=v", one(), to_member(f(), v())),
        looked_at("u.x=v", "let v=f(); u.x=v", f(), to_member(u(), v())),
        looked_at("w+=v", "let v=f(); w+=v", f(), compound(w(), v())),
        looked_at("w+=v | v", "let v=1; w+=v", one(), compound(w(), v())),
        looked_at(
            "[w=1,v] | w=1 | 1 | v",
            "let v=1; [w=1,v]",
            one(),
            array([assign(w(), one()), v()]),
        ),
    ]
}
