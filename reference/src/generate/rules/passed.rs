//! What is passed on the way to the name.

use super::*;

pub fn leaves() -> Vec<Rule> {
    let class = || Tree::leaf(kind::CLASS);
    let this = || Tree::leaf(kind::THIS);
    vec![
        rule(1, "let v=f(); [1,v]", f(), then_v(one())),
        rule(1, "let v=f(); [function(){},v]", f(), then_v(function())),
        rule(0, "let v=f(); [class{},v]", f(), then_v(class())),
        rule(1, "let v=b; [class{},v]", b(), then_v(class())),
        rule(0, "let v=f(); [this,v]", f(), then_v(this())),
        rule(1, "let v=b; [this,v]", b(), then_v(this())),
        rule(1, "let v=f(); [a,v]", f(), then_v(a())),
        rule(0, "let v=f(); [u,v]", f(), then_v(u())),
        rule(1, "let v=b; [u,v]", b(), then_v(u())),
        rule(0, "let v=b; [u!,v]", b(), then_v(u().marked())),
        rule(1, "let v=1; [u!,v]", one(), then_v(u().marked())),
        rule(1, "let v=1; [f(),v]", one(), then_v(f())),
        rule(1, "let v=function(){}; [f(),v]", function(), then_v(f())),
        rule(0, "let v=class{}; [f(),v]", class(), then_v(f())),
        rule(0, "let v=b; [f(),v]", b(), then_v(f())),
        rule(0, "let v=this; [f(),v]", this(), then_v(f())),
        rule(0, "let v=f(); [a.x,v]", f(), then_v(member(a()))),
        rule(1, "let v=b; [delete a,v]", b(), then_v(node(kind::UNARY, [a()]).labelled(1))),
    ]
}

/// Await, yield, import and assignment have an effect unmarked; only an import is passed all the
/// same.
pub fn effects() -> Vec<Rule> {
    let wait = |child: Tree| node(kind::AWAIT, [child]);
    let gives = |child: Tree| node(kind::YIELD, [child]);
    let import = |child: Tree| node(kind::IMPORT, [child]);
    let assign = || node(kind::ASSIGNMENT, [Tree::leaf(kind::TARGET_NAME).labelled(4), one()]);
    let and_v = || node(kind::LOGICAL, [a(), v()]);
    let minus = |child: Tree| node(kind::UNARY, [child]);
    let listed = |first: Tree| node(kind::SEQUENCE, [first, a()]);
    vec![
        rule(0, "let v=await a; a&&v", wait(a()), and_v()),
        rule(0, "let v=yield; a&&v", Tree::leaf(kind::YIELD), and_v()),
        rule(0, "let v=import(a); a&&v", import(a()), and_v()),
        rule(0, "let v=(w=1); a&&v", assign(), and_v()),
        rule(0, "let v=-(await a); a&&v", minus(wait(a())), and_v()),
        rule(0, "let v=-f(); a&&v", minus(f()), and_v()),
        rule(1, "let v=-a; a&&v", minus(a()), and_v()),
        rule(0, "let v=b; [await a,v]", b(), then_v(wait(a()))),
        rule(1, "let v=1; [await a,v]", one(), then_v(wait(a()))),
        rule(0, "let v=b; [yield,v]", b(), then_v(Tree::leaf(kind::YIELD))),
        rule(0, "let v=b; [yield a,v]", b(), then_v(gives(a()))),
        rule(1, "let v=b; [import(a),v]", b(), then_v(import(a()))),
        rule(0, "let v=f(); [import(a),v]", f(), then_v(import(a()))),
        rule(0, "let v=b; [import(f()),v]", b(), then_v(import(f()))),
        rule(1, "let v=1; [import(f()),v]", one(), then_v(import(f()))),
        rule(1, "let v=b; [import!(a),v]", b(), then_v(import(a()).marked())),
        rule(0, "let v=b; [(import(a),a),v]", b(), then_v(listed(import(a())))),
        rule(1, "let v=1; [(import(a),a),v]", one(), then_v(listed(import(a())))),
        rule(0, "let v=b; [-(w=1),v]", b(), then_v(minus(assign()))),
    ]
}

/// Parents that may be marked, over settled names: with a mark only a literal passes.
pub fn marked() -> Vec<Rule> {
    let property = || node(kind::PROPERTY, [a()]);
    let parents = [
        Tree::leaf(kind::OTHER),
        node(kind::UNARY, [a()]),
        member(a()),
        node(kind::PRIVATE_MEMBER, [a()]),
        node(kind::COMPUTED_MEMBER, [a(), a()]),
        node(kind::CALL, [a(), a()]),
        node(kind::NEW, [a(), a()]),
        node(kind::BINARY, [a(), a()]),
        node(kind::LOGICAL, [a(), a()]),
        node(kind::PRIVATE_IN, [a()]),
        node(kind::CONDITIONAL, [a(), a(), a()]),
        array([a()]),
        node(kind::OBJECT, [property()]),
        node(kind::TEMPLATE, [a()]),
        node(kind::TAGGED_TEMPLATE, [a(), a()]),
    ];
    let of = |parent: &Tree| {
        [
            rule(1, "let v=b; [<parent>,v]", b(), then_v(parent.clone())),
            rule(0, "let v=b; [<parent>!,v]", b(), then_v(parent.clone().marked())),
            rule(1, "let v=1; [<parent>!,v]", one(), then_v(parent.clone().marked())),
            rule(0, "let v=f(); [<parent>,v]", f(), then_v(parent.clone())),
        ]
    };
    parents.iter().flat_map(of).collect()
}
