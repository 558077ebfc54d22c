//! The smallest syntax tree over which the carried functions compile, with the names of `oxc_ast`.
//!
//! Each node has its place in the source (`span`) and a `note`: what the record file says of the
//! node and the fold only carries along.

mod statements;

use std::marker::PhantomData;

use crate::arena::{ArenaBox, ArenaVec, TakeIn};
use crate::context::{ReferenceId, TraverseCtx};
pub use crate::context::{ScopeId, SymbolId};
pub use statements::*;

/// The label of the inserted `0`.
pub const ZERO_LABEL: u16 = 65535;

/// A place in the source. The record file gives the start alone; the end repeats it.
#[derive(Clone, Copy, PartialEq, Eq, Debug)]
pub struct Span {
    pub start: u32,
    pub end: u32,
}

impl Span {
    pub fn at(position: u32) -> Self {
        Self { start: position, end: position }
    }

    /// The smallest span that holds both.
    pub fn merge(self, other: Self) -> Self {
        Self { start: self.start.min(other.start), end: self.end.max(other.end) }
    }
}

/// The label and the effect mark of a node.
#[derive(Clone, Copy, Default)]
pub struct Note {
    pub label: u16,
    pub marked: bool,
}

/// A name. Names are told apart by their number, not by their text.
#[derive(Clone, Copy, PartialEq, Eq)]
pub struct Ident<'a>(u16, PhantomData<&'a str>);

impl Ident<'_> {
    pub fn new(number: u16) -> Self {
        Self(number, PhantomData)
    }

    pub fn number(self) -> u16 {
        self.0
    }
}

pub enum Expression<'a> {
    Other(ArenaBox<'a, Leaf>),
    Literal(ArenaBox<'a, Leaf>),
    /// The string `__proto__` as a computed key; no record stands for it.
    ProtoString(Span),
    FunctionExpression(ArenaBox<'a, Definition>),
    ClassExpression(ArenaBox<'a, Definition>),
    Identifier(ArenaBox<'a, IdentifierReference<'a>>),
    ThisExpression(ArenaBox<'a, Leaf>),
    AwaitExpression(ArenaBox<'a, AwaitExpression<'a>>),
    YieldExpression(ArenaBox<'a, YieldExpression<'a>>),
    ImportExpression(ArenaBox<'a, ImportExpression<'a>>),
    UnaryExpression(ArenaBox<'a, UnaryExpression<'a>>),
    StaticMemberExpression(ArenaBox<'a, StaticMemberExpression<'a>>),
    PrivateFieldExpression(ArenaBox<'a, PrivateFieldExpression<'a>>),
    ComputedMemberExpression(ArenaBox<'a, ComputedMemberExpression<'a>>),
    ChainExpression(ArenaBox<'a, ChainExpression<'a>>),
    CallExpression(ArenaBox<'a, CallExpression<'a>>),
    NewExpression(ArenaBox<'a, NewExpression<'a>>),
    BinaryExpression(ArenaBox<'a, BinaryExpression<'a>>),
    LogicalExpression(ArenaBox<'a, LogicalExpression<'a>>),
    PrivateInExpression(ArenaBox<'a, PrivateInExpression<'a>>),
    ConditionalExpression(ArenaBox<'a, ConditionalExpression<'a>>),
    AssignmentExpression(ArenaBox<'a, AssignmentExpression<'a>>),
    ArrayExpression(ArenaBox<'a, ArrayExpression<'a>>),
    ObjectExpression(ArenaBox<'a, ObjectExpression<'a>>),
    TemplateLiteral(ArenaBox<'a, TemplateLiteral<'a>>),
    TaggedTemplateExpression(ArenaBox<'a, TaggedTemplateExpression<'a>>),
    SequenceExpression(ArenaBox<'a, SequenceExpression<'a>>),
}

/// What the `match_member_expression!` of `oxc_ast` stands for.
macro_rules! match_member_expression {
    ($kind:ident) => {
        $kind::ComputedMemberExpression(_)
            | $kind::StaticMemberExpression(_)
            | $kind::PrivateFieldExpression(_)
    };
}

/// What the `match_expression!` of `oxc_ast` stands for in lists of arguments and elements.
macro_rules! match_expression {
    ($kind:ident) => {
        $kind::Expression(_)
    };
}

pub(crate) use {match_expression, match_member_expression};

/// A node without children and without flags but the mark.
pub struct Leaf {
    pub span: Span,
    pub note: Note,
}

/// A function or a class.
pub struct Definition {
    pub span: Span,
    pub note: Note,
    pub anonymous: bool,
}

pub struct IdentifierReference<'a> {
    pub span: Span,
    pub note: Note,
    pub name: Ident<'a>,
}

impl IdentifierReference<'_> {
    pub fn reference_id(&self) -> ReferenceId {
        ReferenceId(self.name.number())
    }
}

pub struct AwaitExpression<'a> {
    pub span: Span,
    pub note: Note,
    pub argument: Expression<'a>,
}

pub struct YieldExpression<'a> {
    pub span: Span,
    pub note: Note,
    pub argument: Option<Expression<'a>>,
}

pub struct ImportExpression<'a> {
    pub span: Span,
    pub note: Note,
    pub source: Expression<'a>,
}

/// The operator is the label.
#[derive(Clone, Copy)]
pub struct UnaryOperator(pub u16);

impl UnaryOperator {
    const DELETE: u16 = 1;

    pub fn is_delete(self) -> bool {
        self.0 == Self::DELETE
    }
}

pub struct UnaryExpression<'a> {
    pub span: Span,
    pub note: Note,
    pub operator: UnaryOperator,
    pub argument: Expression<'a>,
}

pub struct StaticMemberExpression<'a> {
    pub span: Span,
    pub note: Note,
    pub object: Expression<'a>,
    pub optional: bool,
}

pub struct PrivateFieldExpression<'a> {
    pub span: Span,
    pub note: Note,
    pub object: Expression<'a>,
    pub optional: bool,
}

pub struct ComputedMemberExpression<'a> {
    pub span: Span,
    pub note: Note,
    pub object: Expression<'a>,
    pub expression: Expression<'a>,
    pub optional: bool,
}

pub struct ChainExpression<'a> {
    pub span: Span,
    pub note: Note,
    pub expression: ChainElement<'a>,
}

pub enum ChainElement<'a> {
    CallExpression(ArenaBox<'a, CallExpression<'a>>),
    StaticMemberExpression(ArenaBox<'a, StaticMemberExpression<'a>>),
    PrivateFieldExpression(ArenaBox<'a, PrivateFieldExpression<'a>>),
    ComputedMemberExpression(ArenaBox<'a, ComputedMemberExpression<'a>>),
    /// Left behind where an element was taken out.
    Dummy,
}

pub struct CallExpression<'a> {
    pub span: Span,
    pub note: Note,
    pub callee: Expression<'a>,
    pub arguments: ArenaVec<'a, Argument<'a>>,
    pub optional: bool,
}

pub struct NewExpression<'a> {
    pub span: Span,
    pub note: Note,
    pub callee: Expression<'a>,
    pub arguments: ArenaVec<'a, Argument<'a>>,
}

pub enum Argument<'a> {
    SpreadElement(ArenaBox<'a, SpreadElement<'a>>),
    Expression(Expression<'a>),
}

impl<'a> Argument<'a> {
    pub fn to_expression_mut(&mut self) -> &mut Expression<'a> {
        let Self::Expression(expression) = self else { panic!("a spread is no expression") };
        expression
    }
}

pub struct SpreadElement<'a> {
    pub span: Span,
    pub note: Note,
    pub argument: Expression<'a>,
}

pub struct BinaryExpression<'a> {
    pub span: Span,
    pub note: Note,
    pub left: Expression<'a>,
    pub right: Expression<'a>,
}

pub struct LogicalExpression<'a> {
    pub span: Span,
    pub note: Note,
    pub left: Expression<'a>,
    pub right: Expression<'a>,
}

pub struct PrivateInExpression<'a> {
    pub span: Span,
    pub note: Note,
    pub right: Expression<'a>,
}

pub struct ConditionalExpression<'a> {
    pub span: Span,
    pub note: Note,
    pub test: Expression<'a>,
    pub consequent: Expression<'a>,
    pub alternate: Expression<'a>,
}

#[derive(Clone, Copy, PartialEq, Eq)]
pub enum AssignmentOperator {
    Assign,
    /// Any operator that reads its target first.
    Compound,
}

pub struct AssignmentExpression<'a> {
    pub span: Span,
    pub note: Note,
    pub operator: AssignmentOperator,
    pub left: AssignmentTarget<'a>,
    pub right: Expression<'a>,
}

/// An opaque target is read as an array target; the carried functions treat the last six alike.
#[allow(dead_code)]
pub enum AssignmentTarget<'a> {
    AssignmentTargetIdentifier(ArenaBox<'a, IdentifierReference<'a>>),
    ComputedMemberExpression(ArenaBox<'a, ComputedMemberExpression<'a>>),
    PrivateFieldExpression(ArenaBox<'a, PrivateFieldExpression<'a>>),
    StaticMemberExpression(ArenaBox<'a, StaticMemberExpression<'a>>),
    ArrayAssignmentTarget(ArenaBox<'a, Leaf>),
    ObjectAssignmentTarget(ArenaBox<'a, Leaf>),
    TSAsExpression(ArenaBox<'a, Leaf>),
    TSNonNullExpression(ArenaBox<'a, Leaf>),
    TSSatisfiesExpression(ArenaBox<'a, Leaf>),
    TSTypeAssertion(ArenaBox<'a, Leaf>),
}

pub struct ArrayExpression<'a> {
    pub span: Span,
    pub note: Note,
    pub elements: ArenaVec<'a, ArrayExpressionElement<'a>>,
}

pub enum ArrayExpressionElement<'a> {
    SpreadElement(ArenaBox<'a, SpreadElement<'a>>),
    Elision(Leaf),
    Expression(Expression<'a>),
}

impl<'a> ArrayExpressionElement<'a> {
    pub fn to_expression_mut(&mut self) -> &mut Expression<'a> {
        let Self::Expression(expression) = self else {
            panic!("only an expression is wanted here")
        };
        expression
    }
}

pub struct ObjectExpression<'a> {
    pub span: Span,
    pub note: Note,
    pub properties: ArenaVec<'a, ObjectPropertyKind<'a>>,
}

pub enum ObjectPropertyKind<'a> {
    ObjectProperty(ArenaBox<'a, ObjectProperty<'a>>),
    SpreadProperty(ArenaBox<'a, SpreadElement<'a>>),
}

pub struct ObjectProperty<'a> {
    pub span: Span,
    pub note: Note,
    pub key: PropertyKey<'a>,
    pub value: Expression<'a>,
    pub shorthand: bool,
    pub computed: bool,
}

pub enum PropertyKey<'a> {
    /// A key that is written down, `__proto__` or another.
    StaticIdentifier {
        span: Span,
        proto: bool,
    },
    Expression(Expression<'a>),
}

impl<'a> PropertyKey<'a> {
    pub fn new_string_literal(
        span: Span,
        value: &str,
        _raw: Option<&str>,
        _ctx: &TraverseCtx<'a>,
    ) -> Self {
        assert_eq!(value, "__proto__");
        Self::Expression(Expression::ProtoString(span))
    }

    pub fn is_specific_id(&self, name: &str) -> bool {
        assert_eq!(name, "__proto__");
        matches!(self, Self::StaticIdentifier { proto: true, .. })
    }

    pub fn to_expression_mut(&mut self) -> &mut Expression<'a> {
        let Self::Expression(expression) = self else { panic!("a computed key is an expression") };
        expression
    }

    pub fn span(&self) -> Span {
        match self {
            Self::StaticIdentifier { span, .. } => *span,
            Self::Expression(expression) => expression.span(),
        }
    }
}

pub struct TemplateLiteral<'a> {
    pub span: Span,
    pub note: Note,
    pub expressions: ArenaVec<'a, Expression<'a>>,
}

pub struct TaggedTemplateExpression<'a> {
    pub span: Span,
    pub note: Note,
    pub tag: Expression<'a>,
    pub quasi: Quasi<'a>,
}

/// The substitutions behind a tag.
pub struct Quasi<'a> {
    pub expressions: ArenaVec<'a, Expression<'a>>,
}

pub struct SequenceExpression<'a> {
    pub span: Span,
    pub note: Note,
    pub expressions: ArenaVec<'a, Expression<'a>>,
}

impl<'a> Expression<'a> {
    pub fn new_sequence_expression(
        span: Span,
        expressions: impl Into<ArenaVec<'a, Expression<'a>>>,
        _ctx: &TraverseCtx<'a>,
    ) -> Self {
        let expressions = expressions.into();
        let sequence = SequenceExpression { span, note: Note::default(), expressions };
        Self::SequenceExpression(ArenaBox::new(sequence))
    }

    pub fn new_number_0(span: Span, _ctx: &TraverseCtx<'a>) -> Self {
        let note = Note { label: ZERO_LABEL, marked: false };
        Self::Literal(ArenaBox::new(Leaf { span, note }))
    }

    pub fn is_member_expression(&self) -> bool {
        matches!(self, match_member_expression!(Expression))
    }

    pub fn is_identifier_reference(&self) -> bool {
        matches!(self, Self::Identifier(_))
    }

    pub fn is_specific_id(&self, name: Ident<'_>) -> bool {
        matches!(self, Self::Identifier(id) if id.name == name)
    }

    pub fn is_anonymous_function_definition(&self) -> bool {
        match self {
            Self::FunctionExpression(it) | Self::ClassExpression(it) => it.anonymous,
            _ => false,
        }
    }

    /// The expression as an element of a chain, if its kind can be one.
    pub fn into_chain_element(self) -> Option<ChainElement<'a>> {
        match self {
            Self::CallExpression(it) => Some(ChainElement::CallExpression(it)),
            Self::StaticMemberExpression(it) => Some(ChainElement::StaticMemberExpression(it)),
            Self::PrivateFieldExpression(it) => Some(ChainElement::PrivateFieldExpression(it)),
            Self::ComputedMemberExpression(it) => Some(ChainElement::ComputedMemberExpression(it)),
            _ => None,
        }
    }
}

impl<'a> From<ChainElement<'a>> for Expression<'a> {
    fn from(element: ChainElement<'a>) -> Self {
        match element {
            ChainElement::CallExpression(it) => Self::CallExpression(it),
            ChainElement::StaticMemberExpression(it) => Self::StaticMemberExpression(it),
            ChainElement::PrivateFieldExpression(it) => Self::PrivateFieldExpression(it),
            ChainElement::ComputedMemberExpression(it) => Self::ComputedMemberExpression(it),
            ChainElement::Dummy => unreachable!("the element was put back"),
        }
    }
}

impl<'a> TakeIn<'a> for Expression<'a> {
    fn dummy() -> Self {
        Self::ProtoString(Span::at(0))
    }
}

impl<'a> TakeIn<'a> for ChainElement<'a> {
    fn dummy() -> Self {
        Self::Dummy
    }
}

/// One piece of code for every kind of expression, and another for the string key without a record.
macro_rules! each_kind {
    ($expression:expr, $string:ident => $of_string:expr, $it:ident => $of_node:expr) => {
        match $expression {
            Expression::ProtoString($string) => $of_string,
            Expression::Other($it) => $of_node,
            Expression::Literal($it) => $of_node,
            Expression::FunctionExpression($it) => $of_node,
            Expression::ClassExpression($it) => $of_node,
            Expression::Identifier($it) => $of_node,
            Expression::ThisExpression($it) => $of_node,
            Expression::AwaitExpression($it) => $of_node,
            Expression::YieldExpression($it) => $of_node,
            Expression::ImportExpression($it) => $of_node,
            Expression::UnaryExpression($it) => $of_node,
            Expression::StaticMemberExpression($it) => $of_node,
            Expression::PrivateFieldExpression($it) => $of_node,
            Expression::ComputedMemberExpression($it) => $of_node,
            Expression::ChainExpression($it) => $of_node,
            Expression::CallExpression($it) => $of_node,
            Expression::NewExpression($it) => $of_node,
            Expression::BinaryExpression($it) => $of_node,
            Expression::LogicalExpression($it) => $of_node,
            Expression::PrivateInExpression($it) => $of_node,
            Expression::ConditionalExpression($it) => $of_node,
            Expression::AssignmentExpression($it) => $of_node,
            Expression::ArrayExpression($it) => $of_node,
            Expression::ObjectExpression($it) => $of_node,
            Expression::TemplateLiteral($it) => $of_node,
            Expression::TaggedTemplateExpression($it) => $of_node,
            Expression::SequenceExpression($it) => $of_node,
        }
    };
}

impl Expression<'_> {
    pub fn span(&self) -> Span {
        each_kind!(self, span => *span, it => it.span)
    }

    pub fn span_mut(&mut self) -> &mut Span {
        each_kind!(self, span => span, it => &mut it.span)
    }

    /// Whether the node's record carries the effect mark.
    pub fn is_marked(&self) -> bool {
        each_kind!(self, _span => false, it => it.note.marked)
    }
}
