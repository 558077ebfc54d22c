//! Assignments: what their target lets past.

use super::*;

fn unresolved() -> Tree {
    Tree::leaf(kind::TARGET_NAME).labelled(3)
}

fn opaque() -> Tree {
    Tree::leaf(kind::OPAQUE_TARGET)
}

/// Targets without children.
pub fn values() -> Vec<Rule> {
    vec![
        rule(1, "let v=f(); w=v", f(), assign(w(), v())),
        rule(0, "let v=f(); w+=v", f(), compound(w(), v())),
        rule(1, "let v=b; w+=v", b(), compound(w(), v())),
        rule(0, "let v=f(); [w+=1,v]", f(), then_v(compound(w(), one()))),
        rule(0, "let v=f(); [w=1,v]", f(), then_v(assign(w(), one()))),
        rule(0, "let v=b; [w=1,v]", b(), then_v(assign(w(), one()))),
        rule(1, "let v=1; [w=1,v]", one(), then_v(assign(w(), one()))),
        rule(1, "let v=1; [w+=1,v]", one(), then_v(compound(w(), one()))),
        rule(1, "let v=f(); u=v", f(), assign(unresolved(), v())),
        rule(0, "let v=1; (u!)=v", one(), assign(unresolved().marked(), v())),
        rule(0, "let v=1; [(u!)=1,v]", one(), then_v(assign(unresolved().marked(), one()))),
        rule(0, "let v=f(); [x]=v", f(), assign(opaque(), v())),
        rule(1, "let v=b; [x]=v", b(), assign(opaque(), v())),
        rule(0, "let v=f(); [[x]=1,v]", f(), then_v(assign(opaque(), one()))),
        rule(0, "let v=1; ([x]!)=v", one(), assign(opaque().marked(), v())),
    ]
}

/// Members as targets.
pub fn members() -> Vec<Rule> {
    let private = |object: Tree| node(kind::PRIVATE_MEMBER, [object]);
    let this = || Tree::leaf(kind::THIS);
    vec![
        rule(1, "let v=f(); a.x=v", f(), assign(member(a()), v())),
        rule(0, "let v=f(); u.x=v", f(), assign(member(u()), v())),
        rule(1, "let v=b; u.x=v", b(), assign(member(u()), v())),
        rule(0, "let v=f(); [u.x=1,v]", f(), then_v(assign(member(u()), one()))),
        rule(1, "let v=f(); this.x=v", f(), assign(member(this()), v())),
        rule(0, "let v=f(); a.x.x=v", f(), assign(member(member(a())), v())),
        rule(1, "let v=b; a.x.x=v", b(), assign(member(member(a())), v())),
        rule(0, "let v=f(); (1).x=v", f(), assign(member(one()), v())),
        rule(0, "let v=1; (a.x!)=v", one(), assign(member(a()).marked(), v())),
        rule(0, "let v=1; f().x=v", one(), assign(member(f()), v())),
        rule(0, "let v=1; [(a.x!)=1,v]", one(), then_v(assign(member(a()).marked(), one()))),
        rule(0, "let v=1; v.x=1", one(), assign(member(v()), one())),
        rule(1, "let v=f(); a.#x=v", f(), assign(private(a()), v())),
        rule(0, "let v=f(); u.#x=v", f(), assign(private(u()), v())),
        rule(1, "let v=f(); a[1]=v", f(), assign(keyed(a(), one()), v())),
        rule(1, "let v=f(); a[a]=v", f(), assign(keyed(a(), a()), v())),
        rule(1, "let v=f(); a[this]=v", f(), assign(keyed(a(), this()), v())),
        rule(0, "let v=f(); a[u]=v", f(), assign(keyed(a(), u()), v())),
        rule(0, "let v=f(); u[1]=v", f(), assign(keyed(u(), one()), v())),
        rule(0, "let v=f(); a[a.x]=v", f(), assign(keyed(a(), member(a())), v())),
        rule(0, "let v=f(); a[function(){}]=v", f(), assign(keyed(a(), function()), v())),
        rule(1, "let v=b; a[function(){}]=v", b(), assign(keyed(a(), function()), v())),
        rule(0, "let v=f(); a.x+=v", f(), compound(member(a()), v())),
        rule(1, "let v=b; a.x+=v", b(), compound(member(a()), v())),
    ]
}
