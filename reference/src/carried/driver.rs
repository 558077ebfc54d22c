//! Takes the statements of a file through the carried functions, in order. It stands below
//! `carried` because those functions are private to their file, as in the crate.

use super::PeepholeOptimizations;
use crate::arena::{ArenaBox, ArenaVec};
use crate::ast::{ExpressionStatement, Statement, VariableDeclaration};
use crate::context::TraverseCtx;

/// The statements after the fold.
pub fn fold_statements<'a>(
    statements: ArenaVec<'a, Statement<'a>>,
    ctx: &mut TraverseCtx<'a>,
) -> ArenaVec<'a, Statement<'a>> {
    let mut result = ArenaVec::new();
    for statement in statements {
        match statement {
            Statement::VariableDeclaration(it) => handle_declaration(it, &mut result, ctx),
            Statement::ExpressionStatement(it) => handle_expression(it, &mut result, ctx),
            Statement::Other => result.push(Statement::Other),
        }
    }
    result
}

/// The head of the crate's `handle_variable_declaration` (src/peephole/minimize_statements.rs
/// 216-232), then the push. The merge between its two searches is left out, and where the crate
/// passes `false` the file's option decides.
fn handle_declaration<'a>(
    mut declaration: ArenaBox<'a, VariableDeclaration<'a>>,
    result: &mut ArenaVec<'a, Statement<'a>>,
    ctx: &mut TraverseCtx<'a>,
) {
    let literal_only = ctx.options().non_scoped_literal_only;
    if let Some(first) = declaration.declarations.first_mut()
        && let Some(init) = first.init.as_mut()
    {
        PeepholeOptimizations::substitute_single_use_symbol_in_statement(
            init,
            result,
            ctx,
            literal_only,
        );
    }
    PeepholeOptimizations::substitute_single_use_symbol_within_declaration(
        declaration.kind,
        &mut declaration.declarations,
        ctx,
    );
    result.push(Statement::VariableDeclaration(declaration));
}

/// The head of the crate's `handle_expression_statement` (src/peephole/minimize_statements.rs
/// 282-293), then the push.
fn handle_expression<'a>(
    mut statement: ArenaBox<'a, ExpressionStatement<'a>>,
    result: &mut ArenaVec<'a, Statement<'a>>,
    ctx: &mut TraverseCtx<'a>,
) {
    let literal_only = ctx.options().non_scoped_literal_only;
    PeepholeOptimizations::substitute_single_use_symbol_in_statement(
        &mut statement.expression,
        result,
        ctx,
        literal_only,
    );
    result.push(Statement::ExpressionStatement(statement));
}
