//! The two questions that the crate leaves to `oxc_ecmascript`, answered by the project's own rule:
//! a node has an effect if it is marked, if it is an await, a yield, an import or an assignment, or
//! if a child has one; a literal is a literal, and a function is one too where functions count.

use crate::arena::ArenaVec;
use crate::ast::*;
use crate::context::TraverseCtx;

pub trait IsLiteralValue<'a> {
    fn is_literal_value(&self, include_functions: bool, ctx: &TraverseCtx<'a>) -> bool;
}

impl<'a> IsLiteralValue<'a> for Expression<'a> {
    fn is_literal_value(&self, include_functions: bool, _ctx: &TraverseCtx<'a>) -> bool {
        match self {
            Self::Literal(_) | Self::ProtoString(_) => true,
            Self::FunctionExpression(_) => include_functions,
            _ => false,
        }
    }
}

pub trait MayHaveSideEffects<'a> {
    fn may_have_side_effects(&self, ctx: &TraverseCtx<'a>) -> bool;
}

impl<'a> MayHaveSideEffects<'a> for Expression<'a> {
    fn may_have_side_effects(&self, ctx: &TraverseCtx<'a>) -> bool {
        self.is_marked() || self.kind_has_effect() || self.child_has_effect(ctx)
    }
}

impl<'a> Expression<'a> {
    fn kind_has_effect(&self) -> bool {
        matches!(
            self,
            Self::AwaitExpression(_)
                | Self::YieldExpression(_)
                | Self::ImportExpression(_)
                | Self::AssignmentExpression(_)
        )
    }

    fn child_has_effect(&self, ctx: &TraverseCtx<'a>) -> bool {
        let of = |it: &Expression<'a>| it.may_have_side_effects(ctx);
        match self {
            Self::Other(_)
            | Self::Literal(_)
            | Self::ProtoString(_)
            | Self::FunctionExpression(_)
            | Self::ClassExpression(_)
            | Self::Identifier(_)
            | Self::ThisExpression(_) => false,
            Self::AwaitExpression(it) => of(&it.argument),
            Self::YieldExpression(it) => it.argument.as_ref().is_some_and(of),
            Self::ImportExpression(it) => of(&it.source),
            Self::UnaryExpression(it) => of(&it.argument),
            Self::StaticMemberExpression(it) => it.may_have_side_effects(ctx),
            Self::PrivateFieldExpression(it) => it.may_have_side_effects(ctx),
            Self::ComputedMemberExpression(it) => it.may_have_side_effects(ctx),
            Self::ChainExpression(it) => it.expression.may_have_side_effects(ctx),
            Self::CallExpression(it) => it.may_have_side_effects(ctx),
            Self::NewExpression(it) => of(&it.callee) || any_has_effect(&it.arguments, ctx),
            Self::BinaryExpression(it) => of(&it.left) || of(&it.right),
            Self::LogicalExpression(it) => of(&it.left) || of(&it.right),
            Self::PrivateInExpression(it) => of(&it.right),
            Self::ConditionalExpression(it) => {
                of(&it.test) || of(&it.consequent) || of(&it.alternate)
            }
            Self::AssignmentExpression(it) => it.left.may_have_side_effects(ctx) || of(&it.right),
            Self::ArrayExpression(it) => any_has_effect(&it.elements, ctx),
            Self::ObjectExpression(it) => any_has_effect(&it.properties, ctx),
            Self::TemplateLiteral(it) => any_has_effect(&it.expressions, ctx),
            Self::TaggedTemplateExpression(it) => {
                of(&it.tag) || any_has_effect(&it.quasi.expressions, ctx)
            }
            Self::SequenceExpression(it) => any_has_effect(&it.expressions, ctx),
        }
    }
}

fn any_has_effect<'a, T: MayHaveSideEffects<'a>>(
    items: &ArenaVec<'a, T>,
    ctx: &TraverseCtx<'a>,
) -> bool {
    items.iter().any(|item| item.may_have_side_effects(ctx))
}

impl<'a> MayHaveSideEffects<'a> for StaticMemberExpression<'a> {
    fn may_have_side_effects(&self, ctx: &TraverseCtx<'a>) -> bool {
        self.note.marked || self.object.may_have_side_effects(ctx)
    }
}

impl<'a> MayHaveSideEffects<'a> for PrivateFieldExpression<'a> {
    fn may_have_side_effects(&self, ctx: &TraverseCtx<'a>) -> bool {
        self.note.marked || self.object.may_have_side_effects(ctx)
    }
}

impl<'a> MayHaveSideEffects<'a> for ComputedMemberExpression<'a> {
    fn may_have_side_effects(&self, ctx: &TraverseCtx<'a>) -> bool {
        self.note.marked
            || self.object.may_have_side_effects(ctx)
            || self.expression.may_have_side_effects(ctx)
    }
}

impl<'a> MayHaveSideEffects<'a> for CallExpression<'a> {
    fn may_have_side_effects(&self, ctx: &TraverseCtx<'a>) -> bool {
        self.note.marked
            || self.callee.may_have_side_effects(ctx)
            || any_has_effect(&self.arguments, ctx)
    }
}

impl<'a> MayHaveSideEffects<'a> for SpreadElement<'a> {
    fn may_have_side_effects(&self, ctx: &TraverseCtx<'a>) -> bool {
        self.note.marked || self.argument.may_have_side_effects(ctx)
    }
}

impl<'a> MayHaveSideEffects<'a> for ChainElement<'a> {
    fn may_have_side_effects(&self, ctx: &TraverseCtx<'a>) -> bool {
        match self {
            Self::CallExpression(it) => it.may_have_side_effects(ctx),
            Self::StaticMemberExpression(it) => it.may_have_side_effects(ctx),
            Self::PrivateFieldExpression(it) => it.may_have_side_effects(ctx),
            Self::ComputedMemberExpression(it) => it.may_have_side_effects(ctx),
            Self::Dummy => unreachable!("the element was put back"),
        }
    }
}

impl<'a> MayHaveSideEffects<'a> for AssignmentTarget<'a> {
    fn may_have_side_effects(&self, ctx: &TraverseCtx<'a>) -> bool {
        match self {
            Self::AssignmentTargetIdentifier(it) => it.note.marked,
            Self::ComputedMemberExpression(it) => it.may_have_side_effects(ctx),
            Self::PrivateFieldExpression(it) => it.may_have_side_effects(ctx),
            Self::StaticMemberExpression(it) => it.may_have_side_effects(ctx),
            Self::ArrayAssignmentTarget(it)
            | Self::ObjectAssignmentTarget(it)
            | Self::TSAsExpression(it)
            | Self::TSNonNullExpression(it)
            | Self::TSSatisfiesExpression(it)
            | Self::TSTypeAssertion(it) => it.note.marked,
        }
    }
}

impl<'a> MayHaveSideEffects<'a> for Argument<'a> {
    fn may_have_side_effects(&self, ctx: &TraverseCtx<'a>) -> bool {
        match self {
            Self::SpreadElement(it) => it.may_have_side_effects(ctx),
            Self::Expression(it) => it.may_have_side_effects(ctx),
        }
    }
}

impl<'a> MayHaveSideEffects<'a> for ArrayExpressionElement<'a> {
    fn may_have_side_effects(&self, ctx: &TraverseCtx<'a>) -> bool {
        match self {
            Self::SpreadElement(it) => it.may_have_side_effects(ctx),
            Self::Elision(it) => it.note.marked,
            Self::Expression(it) => it.may_have_side_effects(ctx),
        }
    }
}

impl<'a> MayHaveSideEffects<'a> for ObjectPropertyKind<'a> {
    fn may_have_side_effects(&self, ctx: &TraverseCtx<'a>) -> bool {
        match self {
            Self::ObjectProperty(it) => {
                it.note.marked
                    || it.key.may_have_side_effects(ctx)
                    || it.value.may_have_side_effects(ctx)
            }
            Self::SpreadProperty(it) => it.may_have_side_effects(ctx),
        }
    }
}

impl<'a> MayHaveSideEffects<'a> for PropertyKey<'a> {
    fn may_have_side_effects(&self, ctx: &TraverseCtx<'a>) -> bool {
        match self {
            Self::StaticIdentifier { .. } => false,
            Self::Expression(it) => it.may_have_side_effects(ctx),
        }
    }
}
