//! Statements and trees from the flat records of an accepted file.

use crate::arena::{ArenaBox, ArenaVec};
use crate::ast::*;
use crate::record::{self, NONE, Node, RecordFile, flag, kind, statement};

pub fn read_statements<'a>(file: &RecordFile) -> ArenaVec<'a, Statement<'a>> {
    let mut trees = Trees { nodes: file.nodes.iter() };
    let mut declarators = file.declarators.iter();
    let statements = file.statements.iter();
    statements.map(|it| read_statement(it, &mut declarators, &mut trees)).collect()
}

fn read_statement<'a>(
    it: &record::Statement,
    declarators: &mut std::slice::Iter<record::Declarator>,
    trees: &mut Trees,
) -> Statement<'a> {
    match it.kind {
        statement::EXPRESSION => {
            let expression = trees.expression();
            let span = expression.span();
            Statement::ExpressionStatement(ArenaBox::new(ExpressionStatement { span, expression }))
        }
        statement::OTHER => Statement::Other,
        _ => {
            let own = declarators.take(usize::from(it.declarators));
            let declarations = own.map(|it| read_declarator(it, trees)).collect();
            let kind = declaration_kind(it.kind);
            Statement::VariableDeclaration(ArenaBox::new(VariableDeclaration {
                kind,
                declarations,
            }))
        }
    }
}

fn declaration_kind(number: u8) -> VariableDeclarationKind {
    match number {
        statement::VAR => VariableDeclarationKind::Var,
        statement::LET => VariableDeclarationKind::Let,
        statement::CONST => VariableDeclarationKind::Const,
        statement::USING => VariableDeclarationKind::Using,
        _ => VariableDeclarationKind::AwaitUsing,
    }
}

fn read_declarator<'a>(it: &record::Declarator, trees: &mut Trees) -> VariableDeclarator<'a> {
    let id = if it.name == NONE {
        BindingPattern::Pattern
    } else {
        BindingPattern::BindingIdentifier(BindingIdentifier { name: Ident::new(it.name) })
    };
    VariableDeclarator { id, init: (it.initializer == 1).then(|| trees.expression()) }
}

/// The nodes that are still to be read.
struct Trees<'r> {
    nodes: std::slice::Iter<'r, Node>,
}

fn span(it: &Node) -> Span {
    Span::at(it.position)
}

fn note(it: &Node) -> Note {
    Note { label: it.label, marked: it.has(flag::MARK) }
}

fn leaf(it: &Node) -> Leaf {
    Leaf { span: span(it), note: note(it) }
}

fn definition(it: &Node) -> Definition {
    Definition { span: span(it), note: note(it), anonymous: it.has(flag::ANONYMOUS) }
}

fn identifier<'a>(it: &Node) -> IdentifierReference<'a> {
    IdentifierReference { span: span(it), note: note(it), name: Ident::new(it.label) }
}

impl Trees<'_> {
    fn node(&mut self) -> Node {
        *self.nodes.next().expect("the trees close")
    }

    fn peek_kind(&self) -> u8 {
        self.nodes.as_slice()[0].kind
    }

    fn expression<'a>(&mut self) -> Expression<'a> {
        let it = self.node();
        match it.kind {
            kind::OTHER => Expression::Other(ArenaBox::new(leaf(&it))),
            kind::LITERAL => Expression::Literal(ArenaBox::new(leaf(&it))),
            kind::FUNCTION => Expression::FunctionExpression(ArenaBox::new(definition(&it))),
            kind::CLASS => Expression::ClassExpression(ArenaBox::new(definition(&it))),
            kind::NAME => Expression::Identifier(ArenaBox::new(identifier(&it))),
            kind::THIS => Expression::ThisExpression(ArenaBox::new(leaf(&it))),
            kind::STATIC_MEMBER => Expression::StaticMemberExpression(self.static_member(&it)),
            kind::PRIVATE_MEMBER => Expression::PrivateFieldExpression(self.private_member(&it)),
            kind::COMPUTED_MEMBER => {
                Expression::ComputedMemberExpression(self.computed_member(&it))
            }
            kind::CALL => Expression::CallExpression(self.call(&it)),
            kind::NEW => Expression::NewExpression(self.new_expression(&it)),
            kind::ASSIGNMENT => Expression::AssignmentExpression(self.assignment(&it)),
            kind::ARRAY => Expression::ArrayExpression(self.array(&it)),
            kind::OBJECT => Expression::ObjectExpression(self.object(&it)),
            kind::TEMPLATE => Expression::TemplateLiteral(self.template(&it)),
            kind::TAGGED_TEMPLATE => Expression::TaggedTemplateExpression(self.tagged(&it)),
            kind::SEQUENCE => Expression::SequenceExpression(self.sequence(&it)),
            kind::BINARY | kind::LOGICAL | kind::CONDITIONAL => self.operands(&it),
            _ => self.operand(&it),
        }
    }

    /// The kinds over a single expression.
    fn operand<'a>(&mut self, it: &Node) -> Expression<'a> {
        let (span, note) = (span(it), note(it));
        if it.kind == kind::YIELD {
            let argument = (it.children == 1).then(|| self.expression());
            let it = YieldExpression { span, note, argument };
            return Expression::YieldExpression(ArenaBox::new(it));
        }
        let argument = self.expression();
        match it.kind {
            kind::AWAIT => {
                Expression::AwaitExpression(ArenaBox::new(AwaitExpression { span, note, argument }))
            }
            kind::IMPORT => {
                let it = ImportExpression { span, note, source: argument };
                Expression::ImportExpression(ArenaBox::new(it))
            }
            kind::UNARY => {
                let operator = UnaryOperator(it.label);
                let it = UnaryExpression { span, note, operator, argument };
                Expression::UnaryExpression(ArenaBox::new(it))
            }
            kind::CHAIN => {
                let expression = argument.into_chain_element().expect("the child was checked");
                let it = ChainExpression { span, note, expression };
                Expression::ChainExpression(ArenaBox::new(it))
            }
            kind::PRIVATE_IN => {
                let it = PrivateInExpression { span, note, right: argument };
                Expression::PrivateInExpression(ArenaBox::new(it))
            }
            other => unreachable!("no expression has kind {other}"),
        }
    }

    /// The kinds over two or three expressions.
    fn operands<'a>(&mut self, it: &Node) -> Expression<'a> {
        let (span, note) = (span(it), note(it));
        let (first, second) = (self.expression(), self.expression());
        match it.kind {
            kind::BINARY => {
                let it = BinaryExpression { span, note, left: first, right: second };
                Expression::BinaryExpression(ArenaBox::new(it))
            }
            kind::LOGICAL => {
                let it = LogicalExpression { span, note, left: first, right: second };
                Expression::LogicalExpression(ArenaBox::new(it))
            }
            _ => {
                let (test, consequent, alternate) = (first, second, self.expression());
                let it = ConditionalExpression { span, note, test, consequent, alternate };
                Expression::ConditionalExpression(ArenaBox::new(it))
            }
        }
    }

    fn static_member<'a>(&mut self, it: &Node) -> ArenaBox<'a, StaticMemberExpression<'a>> {
        ArenaBox::new(StaticMemberExpression {
            span: span(it),
            note: note(it),
            object: self.expression(),
            optional: it.has(flag::OPTIONAL),
        })
    }

    fn private_member<'a>(&mut self, it: &Node) -> ArenaBox<'a, PrivateFieldExpression<'a>> {
        ArenaBox::new(PrivateFieldExpression {
            span: span(it),
            note: note(it),
            object: self.expression(),
            optional: it.has(flag::OPTIONAL),
        })
    }

    fn computed_member<'a>(&mut self, it: &Node) -> ArenaBox<'a, ComputedMemberExpression<'a>> {
        ArenaBox::new(ComputedMemberExpression {
            span: span(it),
            note: note(it),
            object: self.expression(),
            expression: self.expression(),
            optional: it.has(flag::OPTIONAL),
        })
    }

    fn call<'a>(&mut self, it: &Node) -> ArenaBox<'a, CallExpression<'a>> {
        ArenaBox::new(CallExpression {
            span: span(it),
            note: note(it),
            callee: self.expression(),
            arguments: self.arguments(it.children - 1),
            optional: it.has(flag::OPTIONAL),
        })
    }

    fn new_expression<'a>(&mut self, it: &Node) -> ArenaBox<'a, NewExpression<'a>> {
        ArenaBox::new(NewExpression {
            span: span(it),
            note: note(it),
            callee: self.expression(),
            arguments: self.arguments(it.children - 1),
        })
    }

    fn arguments<'a>(&mut self, count: u16) -> ArenaVec<'a, Argument<'a>> {
        (0..count).map(|_| self.argument()).collect()
    }

    fn argument<'a>(&mut self) -> Argument<'a> {
        if self.peek_kind() == kind::SPREAD {
            Argument::SpreadElement(self.spread())
        } else {
            Argument::Expression(self.expression())
        }
    }

    fn spread<'a>(&mut self) -> ArenaBox<'a, SpreadElement<'a>> {
        let it = self.node();
        let argument = self.expression();
        ArenaBox::new(SpreadElement { span: span(&it), note: note(&it), argument })
    }

    fn assignment<'a>(&mut self, it: &Node) -> ArenaBox<'a, AssignmentExpression<'a>> {
        let compound = it.has(flag::COMPOUND);
        let operator =
            if compound { AssignmentOperator::Compound } else { AssignmentOperator::Assign };
        let left = self.target();
        let right = self.expression();
        let (span, note) = (span(it), note(it));
        ArenaBox::new(AssignmentExpression { span, note, operator, left, right })
    }

    fn target<'a>(&mut self) -> AssignmentTarget<'a> {
        let it = self.node();
        match it.kind {
            kind::TARGET_NAME => {
                AssignmentTarget::AssignmentTargetIdentifier(ArenaBox::new(identifier(&it)))
            }
            kind::OPAQUE_TARGET => {
                AssignmentTarget::ArrayAssignmentTarget(ArenaBox::new(leaf(&it)))
            }
            kind::STATIC_MEMBER => {
                AssignmentTarget::StaticMemberExpression(self.static_member(&it))
            }
            kind::PRIVATE_MEMBER => {
                AssignmentTarget::PrivateFieldExpression(self.private_member(&it))
            }
            kind::COMPUTED_MEMBER => {
                AssignmentTarget::ComputedMemberExpression(self.computed_member(&it))
            }
            other => unreachable!("no target has kind {other}"),
        }
    }

    fn array<'a>(&mut self, it: &Node) -> ArenaBox<'a, ArrayExpression<'a>> {
        let elements = (0..it.children).map(|_| self.array_element()).collect();
        ArenaBox::new(ArrayExpression { span: span(it), note: note(it), elements })
    }

    fn array_element<'a>(&mut self) -> ArrayExpressionElement<'a> {
        match self.peek_kind() {
            kind::SPREAD => ArrayExpressionElement::SpreadElement(self.spread()),
            kind::ELISION => ArrayExpressionElement::Elision(leaf(&self.node())),
            _ => ArrayExpressionElement::Expression(self.expression()),
        }
    }

    fn object<'a>(&mut self, it: &Node) -> ArenaBox<'a, ObjectExpression<'a>> {
        let properties = (0..it.children).map(|_| self.object_item()).collect();
        ArenaBox::new(ObjectExpression { span: span(it), note: note(it), properties })
    }

    fn object_item<'a>(&mut self) -> ObjectPropertyKind<'a> {
        if self.peek_kind() == kind::SPREAD {
            ObjectPropertyKind::SpreadProperty(self.spread())
        } else {
            ObjectPropertyKind::ObjectProperty(self.property())
        }
    }

    fn property<'a>(&mut self) -> ArenaBox<'a, ObjectProperty<'a>> {
        let it = self.node();
        let computed = it.has(flag::COMPUTED);
        let key = match (computed, it.has(flag::PROTO)) {
            (false, proto) => PropertyKey::StaticIdentifier { span: span(&it), proto },
            (true, false) => PropertyKey::Expression(self.expression()),
            (true, true) => PropertyKey::Expression(Expression::ProtoString(span(&it))),
        };
        ArenaBox::new(ObjectProperty {
            span: span(&it),
            note: note(&it),
            key,
            value: self.expression(),
            shorthand: it.has(flag::SHORTHAND),
            computed,
        })
    }

    fn template<'a>(&mut self, it: &Node) -> ArenaBox<'a, TemplateLiteral<'a>> {
        let expressions = self.expressions(it.children);
        ArenaBox::new(TemplateLiteral { span: span(it), note: note(it), expressions })
    }

    fn tagged<'a>(&mut self, it: &Node) -> ArenaBox<'a, TaggedTemplateExpression<'a>> {
        let tag = self.expression();
        let quasi = Quasi { expressions: self.expressions(it.children - 1) };
        ArenaBox::new(TaggedTemplateExpression { span: span(it), note: note(it), tag, quasi })
    }

    fn sequence<'a>(&mut self, it: &Node) -> ArenaBox<'a, SequenceExpression<'a>> {
        let expressions = self.expressions(it.children);
        ArenaBox::new(SequenceExpression { span: span(it), note: note(it), expressions })
    }

    fn expressions<'a>(&mut self, count: u16) -> ArenaVec<'a, Expression<'a>> {
        (0..count).map(|_| self.expression()).collect()
    }
}
