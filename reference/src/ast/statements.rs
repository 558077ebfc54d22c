//! Statements and declarators.

use super::{Expression, Ident, Span};
use crate::arena::{ArenaBox, ArenaVec};
use crate::context::SymbolId;

#[derive(Clone, Copy, PartialEq, Eq)]
pub enum VariableDeclarationKind {
    Var,
    Let,
    Const,
    Using,
    AwaitUsing,
}

impl VariableDeclarationKind {
    pub fn is_var(self) -> bool {
        self == Self::Var
    }

    pub fn is_using(self) -> bool {
        matches!(self, Self::Using | Self::AwaitUsing)
    }
}

pub enum Statement<'a> {
    VariableDeclaration(ArenaBox<'a, VariableDeclaration<'a>>),
    ExpressionStatement(ArenaBox<'a, ExpressionStatement<'a>>),
    Other,
}

pub struct VariableDeclaration<'a> {
    pub kind: VariableDeclarationKind,
    pub declarations: ArenaVec<'a, VariableDeclarator<'a>>,
}

pub struct VariableDeclarator<'a> {
    pub id: BindingPattern<'a>,
    pub init: Option<Expression<'a>>,
}

pub enum BindingPattern<'a> {
    BindingIdentifier(BindingIdentifier<'a>),
    /// Any pattern that is no plain name.
    Pattern,
}

pub struct BindingIdentifier<'a> {
    pub name: Ident<'a>,
}

impl BindingIdentifier<'_> {
    pub fn symbol_id(&self) -> SymbolId {
        SymbolId(self.name.number())
    }
}

pub struct ExpressionStatement<'a> {
    pub span: Span,
    pub expression: Expression<'a>,
}
