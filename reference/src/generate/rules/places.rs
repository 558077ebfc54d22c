//! Where the name is found: in operators, branches and chains.

use super::*;

pub fn rules() -> Vec<Rule> {
    let unary = |label: u16, child: Tree| node(kind::UNARY, [child]).labelled(label);
    vec![
        rule(1, "let v=f(); v", f(), v()),
        rule(1, "let v=f(); -v", f(), unary(0, v())),
        rule(0, "let v=1; delete v", one(), unary(1, v())),
        rule(1, "let v=1; typeof v", one(), unary(2, v())),
        rule(1, "let v=f(); await v", f(), node(kind::AWAIT, [v()])),
        rule(1, "let v=f(); yield v", f(), node(kind::YIELD, [v()])),
        rule(1, "let v=f(); import(v)", f(), node(kind::IMPORT, [v()])),
        rule(1, "let v=f(); v.x", f(), member(v())),
        rule(1, "let v=f(); v.#x", f(), node(kind::PRIVATE_MEMBER, [v()])),
        rule(1, "let v=f(); v[a]", f(), node(kind::COMPUTED_MEMBER, [v(), a()])),
        rule(1, "let v=f(); a[v]", f(), node(kind::COMPUTED_MEMBER, [a(), v()])),
        rule(0, "let v=f(); u[v]", f(), node(kind::COMPUTED_MEMBER, [u(), v()])),
        rule(1, "let v=f(); #x in v", f(), node(kind::PRIVATE_IN, [v()])),
        rule(1, "let v=f(); v+a", f(), node(kind::BINARY, [v(), a()])),
        rule(1, "let v=f(); a+v", f(), node(kind::BINARY, [a(), v()])),
        rule(0, "let v=f(); u+v", f(), node(kind::BINARY, [u(), v()])),
        rule(1, "let v=f(); (1,v)", f(), node(kind::SEQUENCE, [one(), v()])),
        rule(1, "let v=f(); `${v}`", f(), node(kind::TEMPLATE, [v()])),
        rule(1, "let v=f(); `${1}${v}`", f(), node(kind::TEMPLATE, [one(), v()])),
        rule(0, "let v=f(); `${u}${v}`", f(), node(kind::TEMPLATE, [u(), v()])),
    ]
}

pub fn branches() -> Vec<Rule> {
    let and = |left: Tree, right: Tree| node(kind::LOGICAL, [left, right]);
    let choice = |one: Tree, other: Tree| node(kind::CONDITIONAL, [a(), one, other]);
    let spreads = || array([spread(a())]);
    vec![
        rule(1, "let v=f(); v&&a", f(), and(v(), a())),
        rule(0, "let v=f(); a&&v", f(), and(a(), v())),
        rule(1, "let v=b; a&&v", b(), and(a(), v())),
        rule(0, "let v=b; f()&&v", b(), and(f(), v())),
        rule(1, "let v=1; f()&&v", one(), and(f(), v())),
        rule(0, "let v=f(); [a&&a,v]", f(), then_v(and(a(), a()))),
        rule(1, "let v=b; [a&&a,v]", b(), then_v(and(a(), a()))),
        rule(1, "let v=f(); v?a:a", f(), node(kind::CONDITIONAL, [v(), a(), a()])),
        rule(0, "let v=f(); a?v:a", f(), choice(v(), a())),
        rule(0, "let v=f(); a?a:v", f(), choice(a(), v())),
        rule(1, "let v=b; a?v:f()", b(), choice(v(), f())),
        rule(1, "let v=b; a?f():v", b(), choice(f(), v())),
        rule(1, "let v=1; a?[...a]:v", one(), choice(spreads(), v())),
        rule(1, "let v=b; [a?a:a,v]", b(), then_v(choice(a(), a()))),
        rule(0, "let v=f(); [a?a:a,v]", f(), then_v(choice(a(), a()))),
        rule(0, "let v=b; [a?f():a,v]", b(), then_v(choice(f(), a()))),
        rule(0, "let v=b; [a?a:f(),v]", b(), then_v(choice(a(), f()))),
        rule(1, "let v=1; [a?f():f(),v]", one(), then_v(choice(f(), f()))),
        rule(0, "let v=1; [a?[...a]:a,v]", one(), then_v(choice(spreads(), a()))),
        rule(0, "let v=1; [a?a:[...a],v]", one(), then_v(choice(a(), spreads()))),
    ]
}

pub fn chains() -> Vec<Rule> {
    let call = |callee: Tree, argument: Tree| node(kind::CALL, [callee, argument]);
    let private = |object: Tree| node(kind::PRIVATE_MEMBER, [object]);
    vec![
        rule(1, "let v=f(); v?.x", f(), chain(optional(member(v())))),
        rule(1, "let v=f(); v?.#x", f(), chain(optional(private(v())))),
        rule(1, "let v=f(); v?.[a]", f(), chain(optional(keyed(v(), a())))),
        rule(1, "let v=f(); v?.(a)", f(), chain(optional(call(v(), a())))),
        rule(0, "let v=f(); a?.[v]", f(), chain(optional(keyed(a(), v())))),
        rule(1, "let v=b; a?.[v]", b(), chain(optional(keyed(a(), v())))),
        rule(0, "let v=f(); a?.(v)", f(), chain(optional(call(a(), v())))),
        rule(1, "let v=b; a?.(v)", b(), chain(optional(call(a(), v())))),
        rule(0, "let v=f(); a?.x[v]", f(), chain(keyed(optional(member(a())), v()))),
        rule(1, "let v=b; a?.x[v]", b(), chain(keyed(optional(member(a())), v()))),
        rule(1, "let v=f(); a(v)?.x", f(), chain(optional(member(call(a(), v()))))),
        rule(1, "let v=b; [a?.x,v]", b(), array([chain(optional(member(a()))), v()])),
        rule(0, "let v=f(); [a?.x,v]", f(), array([chain(optional(member(a()))), v()])),
    ]
}
