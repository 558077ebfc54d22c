//! Results between that are longer than the last one: the first run makes tags indirect, which adds
//! 8 bytes each, the second takes a declaration out.

use super::*;

pub fn longer_between() -> Vec<Repeat> {
    let one = ("let v=f(); let r=a.x, [..]=[v,r``]", "let [..]=[f(),(0,a.x)``]");
    let three = (
        "let v=f(); let r=a.x, s=r``.x, t=s``.x, [..]=[v,t``]",
        "let [..]=[f(),(0,(0,(0,a.x)``.x)``.x)``]",
    );
    let most = ("250 kept tags, then a fold", "as above, 250 times `(0, ..)`");
    vec![tagged_in_turn(one, 1), tagged_in_turn(three, 3), tagged_in_turn(most, 250)]
}

fn tagged(tag: Tree) -> Tree {
    Tree::new(kind::TAGGED_TEMPLATE, vec![tag]).marked()
}

/// `(0, tree)` where the name was the tag.
fn indirect(name: u16, tree: Tree) -> Tree {
    let zero = Tree::literal().labelled(65535);
    let parts = vec![placed(name, zero), placed(name, tree)];
    placed(name, Tree::new(kind::SEQUENCE, parts))
}

/// So many names, each but the first over a tag that is the one before. Behind them stands `a`.
fn tagged_in_turn(texts: (&'static str, &'static str), count: u16) -> Repeat {
    let a = count + 1;
    let first = || member(Tree::name(a));
    let call = || Tree::new(kind::CALL, vec![Tree::name(a)]).marked();
    let mut declarators = vec![(1, Some(first()))];
    let mut folded = first();
    for name in 1..count {
        declarators.push((name + 1, Some(member(tagged(read(name))))));
        folded = member(tagged(indirect(name, folded)));
    }
    declarators.push((NONE, Some(array([read(V), tagged(read(count))]))));
    let last = array([placed(V, call()), tagged(indirect(count, folded))]);
    let row = Line::Declaration { kind: statement::LET, declarators };
    let lines = [declare([(V, call())]), row];
    repeat((3, u32::from(count) + 1), texts, &lines, &[declare([(NONE, last)])]).with(|file| {
        file.names = vec![declared_name(1); usize::from(a)];
        file.names.push(PLAIN_NAME);
    })
}
