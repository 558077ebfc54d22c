//! The records of a file from its statements and trees. Facts, scopes, frames and options are
//! copied.

use crate::arena::ArenaVec;
use crate::ast::*;
use crate::record::{self, NONE, Node, RecordFile, flag, kind, statement};

/// The file with its statements, declarators and nodes replaced.
pub fn write_statements<'a>(
    file: &RecordFile,
    statements: &ArenaVec<'a, Statement<'a>>,
) -> RecordFile {
    let mut out = RecordFile {
        nodes: Vec::new(),
        declarators: Vec::new(),
        statements: Vec::new(),
        ..file.clone()
    };
    statements.iter().for_each(|it| write_statement(it, &mut out));
    out
}

fn write_statement(it: &Statement, out: &mut RecordFile) {
    let (kind, declarators) = match it {
        Statement::VariableDeclaration(it) => {
            it.declarations.iter().for_each(|it| write_declarator(it, out));
            (declaration_kind(it.kind), it.declarations.len())
        }
        Statement::ExpressionStatement(it) => {
            Trees { nodes: &mut out.nodes }.expression(&it.expression);
            (statement::EXPRESSION, 0)
        }
        Statement::Other => (statement::OTHER, 0),
    };
    let declarators = count(declarators);
    out.statements.push(record::Statement { kind, zero: 0, declarators });
}

fn count(length: usize) -> u16 {
    u16::try_from(length).expect("a list is no longer than the file had nodes")
}

fn declaration_kind(kind: VariableDeclarationKind) -> u8 {
    match kind {
        VariableDeclarationKind::Var => statement::VAR,
        VariableDeclarationKind::Let => statement::LET,
        VariableDeclarationKind::Const => statement::CONST,
        VariableDeclarationKind::Using => statement::USING,
        VariableDeclarationKind::AwaitUsing => statement::AWAIT_USING,
    }
}

fn write_declarator(it: &VariableDeclarator, out: &mut RecordFile) {
    let name = match &it.id {
        BindingPattern::BindingIdentifier(id) => id.name.number(),
        BindingPattern::Pattern => NONE,
    };
    let initializer = u16::from(it.init.is_some());
    out.declarators.push(record::Declarator { name, initializer });
    if let Some(init) = &it.init {
        Trees { nodes: &mut out.nodes }.expression(init);
    }
}

/// A flag that is set when the condition holds.
fn when(condition: bool, bit: u8) -> u8 {
    if condition { bit } else { 0 }
}

/// The nodes written so far.
struct Trees<'w> {
    nodes: &'w mut Vec<Node>,
}

impl Trees<'_> {
    fn node(&mut self, kind: u8, span: Span, note: Note, flags: u8, children: usize) {
        self.nodes.push(Node {
            kind,
            flags: flags | when(note.marked, flag::MARK),
            label: note.label,
            children: count(children),
            zero: 0,
            position: span.start,
        });
    }

    fn leaf(&mut self, kind: u8, it: &Leaf) {
        self.node(kind, it.span, it.note, 0, 0);
    }

    fn definition(&mut self, kind: u8, it: &Definition) {
        self.node(kind, it.span, it.note, when(it.anonymous, flag::ANONYMOUS), 0);
    }

    fn identifier(&mut self, kind: u8, it: &IdentifierReference) {
        self.node(kind, it.span, it.note, 0, 0);
    }

    /// A node whose children are expressions.
    fn parent(&mut self, kind: u8, span: Span, note: Note, children: &[&Expression]) {
        self.node(kind, span, note, 0, children.len());
        children.iter().for_each(|child| self.expression(child));
    }

    fn expression(&mut self, it: &Expression) {
        match it {
            Expression::ProtoString(_) => unreachable!("the string key has no record"),
            Expression::Other(it) => self.leaf(kind::OTHER, it),
            Expression::Literal(it) => self.leaf(kind::LITERAL, it),
            Expression::FunctionExpression(it) => self.definition(kind::FUNCTION, it),
            Expression::ClassExpression(it) => self.definition(kind::CLASS, it),
            Expression::Identifier(it) => self.identifier(kind::NAME, it),
            Expression::ThisExpression(it) => self.leaf(kind::THIS, it),
            Expression::StaticMemberExpression(it) => self.static_member(it),
            Expression::PrivateFieldExpression(it) => self.private_member(it),
            Expression::ComputedMemberExpression(it) => self.computed_member(it),
            Expression::ChainExpression(it) => self.chain(it),
            Expression::CallExpression(it) => self.call(it),
            Expression::NewExpression(it) => self.new_expression(it),
            Expression::AssignmentExpression(it) => self.assignment(it),
            Expression::ArrayExpression(it) => self.array(it),
            Expression::ObjectExpression(it) => self.object(it),
            Expression::TemplateLiteral(it) => {
                self.node(kind::TEMPLATE, it.span, it.note, 0, it.expressions.len());
                self.expressions(&it.expressions);
            }
            Expression::TaggedTemplateExpression(it) => self.tagged(it),
            Expression::SequenceExpression(it) => {
                self.node(kind::SEQUENCE, it.span, it.note, 0, it.expressions.len());
                self.expressions(&it.expressions);
            }
            _ => self.fixed(it),
        }
    }

    /// The kinds whose children are expressions at fixed places.
    fn fixed(&mut self, it: &Expression) {
        match it {
            Expression::AwaitExpression(it) => {
                self.parent(kind::AWAIT, it.span, it.note, &[&it.argument]);
            }
            Expression::YieldExpression(it) => {
                let argument: Vec<&Expression> = it.argument.iter().collect();
                self.parent(kind::YIELD, it.span, it.note, &argument);
            }
            Expression::ImportExpression(it) => {
                self.parent(kind::IMPORT, it.span, it.note, &[&it.source]);
            }
            Expression::UnaryExpression(it) => {
                self.parent(kind::UNARY, it.span, it.note, &[&it.argument]);
            }
            Expression::BinaryExpression(it) => {
                self.parent(kind::BINARY, it.span, it.note, &[&it.left, &it.right]);
            }
            Expression::LogicalExpression(it) => {
                self.parent(kind::LOGICAL, it.span, it.note, &[&it.left, &it.right]);
            }
            Expression::PrivateInExpression(it) => {
                self.parent(kind::PRIVATE_IN, it.span, it.note, &[&it.right]);
            }
            Expression::ConditionalExpression(it) => {
                let children = [&it.test, &it.consequent, &it.alternate];
                self.parent(kind::CONDITIONAL, it.span, it.note, &children);
            }
            _ => unreachable!("every other kind has a function of its own"),
        }
    }

    fn static_member(&mut self, it: &StaticMemberExpression) {
        let optional = when(it.optional, flag::OPTIONAL);
        self.node(kind::STATIC_MEMBER, it.span, it.note, optional, 1);
        self.expression(&it.object);
    }

    fn private_member(&mut self, it: &PrivateFieldExpression) {
        let optional = when(it.optional, flag::OPTIONAL);
        self.node(kind::PRIVATE_MEMBER, it.span, it.note, optional, 1);
        self.expression(&it.object);
    }

    fn computed_member(&mut self, it: &ComputedMemberExpression) {
        let optional = when(it.optional, flag::OPTIONAL);
        self.node(kind::COMPUTED_MEMBER, it.span, it.note, optional, 2);
        self.expression(&it.object);
        self.expression(&it.expression);
    }

    fn chain(&mut self, it: &ChainExpression) {
        self.node(kind::CHAIN, it.span, it.note, 0, 1);
        match &it.expression {
            ChainElement::CallExpression(it) => self.call(it),
            ChainElement::StaticMemberExpression(it) => self.static_member(it),
            ChainElement::PrivateFieldExpression(it) => self.private_member(it),
            ChainElement::ComputedMemberExpression(it) => self.computed_member(it),
            ChainElement::Dummy => unreachable!("the element was put back"),
        }
    }

    fn call(&mut self, it: &CallExpression) {
        let optional = when(it.optional, flag::OPTIONAL);
        self.node(kind::CALL, it.span, it.note, optional, 1 + it.arguments.len());
        self.expression(&it.callee);
        it.arguments.iter().for_each(|it| self.argument(it));
    }

    fn new_expression(&mut self, it: &NewExpression) {
        self.node(kind::NEW, it.span, it.note, 0, 1 + it.arguments.len());
        self.expression(&it.callee);
        it.arguments.iter().for_each(|it| self.argument(it));
    }

    fn argument(&mut self, it: &Argument) {
        match it {
            Argument::SpreadElement(it) => self.spread(it),
            Argument::Expression(it) => self.expression(it),
        }
    }

    fn spread(&mut self, it: &SpreadElement) {
        self.parent(kind::SPREAD, it.span, it.note, &[&it.argument]);
    }

    fn assignment(&mut self, it: &AssignmentExpression) {
        let compound = when(it.operator == AssignmentOperator::Compound, flag::COMPOUND);
        self.node(kind::ASSIGNMENT, it.span, it.note, compound, 2);
        self.target(&it.left);
        self.expression(&it.right);
    }

    fn target(&mut self, it: &AssignmentTarget) {
        match it {
            AssignmentTarget::AssignmentTargetIdentifier(it) => {
                self.identifier(kind::TARGET_NAME, it);
            }
            AssignmentTarget::ComputedMemberExpression(it) => self.computed_member(it),
            AssignmentTarget::PrivateFieldExpression(it) => self.private_member(it),
            AssignmentTarget::StaticMemberExpression(it) => self.static_member(it),
            AssignmentTarget::ArrayAssignmentTarget(it)
            | AssignmentTarget::ObjectAssignmentTarget(it)
            | AssignmentTarget::TSAsExpression(it)
            | AssignmentTarget::TSNonNullExpression(it)
            | AssignmentTarget::TSSatisfiesExpression(it)
            | AssignmentTarget::TSTypeAssertion(it) => self.leaf(kind::OPAQUE_TARGET, it),
        }
    }

    fn array(&mut self, it: &ArrayExpression) {
        self.node(kind::ARRAY, it.span, it.note, 0, it.elements.len());
        for element in &it.elements {
            match element {
                ArrayExpressionElement::SpreadElement(it) => self.spread(it),
                ArrayExpressionElement::Elision(it) => self.leaf(kind::ELISION, it),
                ArrayExpressionElement::Expression(it) => self.expression(it),
            }
        }
    }

    fn object(&mut self, it: &ObjectExpression) {
        self.node(kind::OBJECT, it.span, it.note, 0, it.properties.len());
        for property in &it.properties {
            match property {
                ObjectPropertyKind::ObjectProperty(it) => self.property(it),
                ObjectPropertyKind::SpreadProperty(it) => self.spread(it),
            }
        }
    }

    fn property(&mut self, it: &ObjectProperty) {
        let key_is_proto = matches!(
            it.key,
            PropertyKey::StaticIdentifier { proto: true, .. }
                | PropertyKey::Expression(Expression::ProtoString(_))
        );
        let flags = when(it.shorthand, flag::SHORTHAND)
            | when(it.computed, flag::COMPUTED)
            | when(key_is_proto, flag::PROTO);
        let children: Vec<&Expression> = match &it.key {
            PropertyKey::Expression(key) if !key_is_proto => vec![key, &it.value],
            _ => vec![&it.value],
        };
        self.node(kind::PROPERTY, it.span, it.note, flags, children.len());
        children.iter().for_each(|child| self.expression(child));
    }

    fn tagged(&mut self, it: &TaggedTemplateExpression) {
        let children = 1 + it.quasi.expressions.len();
        self.node(kind::TAGGED_TEMPLATE, it.span, it.note, 0, children);
        self.expression(&it.tag);
        self.expressions(&it.quasi.expressions);
    }

    fn expressions<'a>(&mut self, list: &ArenaVec<'a, Expression<'a>>) {
        list.iter().for_each(|it| self.expression(it));
    }
}
