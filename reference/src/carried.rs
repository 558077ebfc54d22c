//! Functions of the Rust crate oxc_minifier 0.157.0, carried over with their text unchanged.
//!
//! Origin: <https://github.com/oxc-project/oxc>, licence MIT.
//! Copyright (c) 2024-present VoidZero Inc. & Contributors
//! Copyright (c) 2023 Boshen
//! The licence's text stands in the NOTICE file of this repository.
//!
//! Each function stands between a line `origin: <path in the crate> <first line>-<last line>` and a
//! line `end of origin`. A line that this project put in between ends with `// added`; there is
//! one, the count of looks. `reference origin <directory of the crate>` compares every function
//! with its origin.
//!
//! What the functions need of other crates is in `arena.rs`, `ast.rs`, `context.rs` and
//! `effects.rs`.
#![allow(dead_code)] // the functions for merging assignments and joining sequences are switched off

use crate::arena::{ArenaVec, TakeIn};
use crate::ast::*;
use crate::context::{ReferenceCounts, TraverseCtx};
use crate::effects::{IsLiteralValue, MayHaveSideEffects};

mod driver;

pub use driver::fold_statements;

// origin: src/peephole/mod.rs 34-36
/// Stateless peephole optimizer. Configuration and the per-pass
/// `PassChanges` accumulator live on `MinifierState`.
pub struct PeepholeOptimizations;
// end of origin

/// The search for the one use of a declared name.
impl<'a> PeepholeOptimizations {
    // origin: src/peephole/minimize_statements.rs 1112-1165
    /// Inline single-use variable declarations where possible:
    /// ```js
    /// // before
    /// let x = fn();
    /// return x.y();
    ///
    /// // after
    /// return fn().y();
    /// ```
    ///
    /// part of `mangleStmts`: <https://github.com/evanw/esbuild/blob/v0.25.9/internal/js_parser/js_parser.go#L9111-L9189>
    /// `substituteSingleUseSymbolInStmt`: <https://github.com/evanw/esbuild/blob/v0.25.9/internal/js_parser/js_parser.go#L9583>
    fn substitute_single_use_symbol_in_statement(
        expr_in_stmt: &mut Expression<'a>,
        stmts: &mut ArenaVec<'a, Statement<'a>>,
        ctx: &mut TraverseCtx<'a>,
        non_scoped_literal_only: bool,
    ) -> bool {
        if Self::is_script_root_scope(ctx) || ctx.current_scope_flags().contains_direct_eval() {
            return false;
        }

        let mut inlined = false;
        while let Some(Statement::VariableDeclaration(prev_var_decl)) = stmts.last_mut() {
            if prev_var_decl.kind.is_using() {
                break;
            }
            let old_len = prev_var_decl.declarations.len();
            let new_len = Self::substitute_single_use_symbol_in_expression_from_declarators(
                expr_in_stmt,
                &mut prev_var_decl.declarations,
                ctx,
                non_scoped_literal_only,
            );
            // The inlined declarators' inits were already taken out by the
            // substitution, but the discarded declarators themselves still
            // need a drop walk — their TS type annotations can hold resolved
            // references (computed keys in a type literal).
            if new_len == 0 {
                inlined = true;
                let dropped = stmts.pop().unwrap();
                ctx.drop_statement(&dropped);
            } else if old_len != new_len {
                inlined = true;
                for decl in prev_var_decl.declarations.drain(new_len..) {
                    ctx.drop_variable_declarator(&decl);
                }
                break;
            } else {
                break;
            }
        }
        inlined
    }
    // end of origin

    // origin: src/peephole/minimize_statements.rs 1167-1204
    fn substitute_single_use_symbol_within_declaration(
        kind: VariableDeclarationKind,
        declarations: &mut ArenaVec<'a, VariableDeclarator<'a>>,
        ctx: &mut TraverseCtx<'a>,
    ) -> bool {
        if Self::is_script_root_scope(ctx)
            || ctx.current_scope_flags().contains_direct_eval()
            || kind.is_using()
        {
            return false;
        }

        let mut changed = false;
        let mut i = 1;
        while i < declarations.len() {
            let (prev_decls, [decl, ..]) = declarations.split_at_mut(i) else { unreachable!() };
            let Some(decl_init) = &mut decl.init else {
                i += 1;
                continue;
            };
            let old_len = prev_decls.len();
            let new_len = Self::substitute_single_use_symbol_in_expression_from_declarators(
                decl_init, prev_decls, ctx, false,
            );
            if old_len != new_len {
                changed = true;
                let drop_count = old_len - new_len;
                // Same drop-walk requirement as the truncate above: the
                // drained declarators' type annotations can hold references.
                for decl in declarations.drain(i - drop_count..i) {
                    ctx.drop_variable_declarator(&decl);
                }
                i -= drop_count;
            }
            i += 1;
        }
        changed
    }
    // end of origin

    // origin: src/peephole/minimize_statements.rs 1206-1270
    /// Returns new length.
    ///
    /// CONTRACT: the consumed suffix `declarators[new_len..]` is the caller's
    /// to discard, and the caller must route each discarded declarator through
    /// `ctx.drop_variable_declarator` (or an enclosing `drop_statement`) — the
    /// inlined inits are already taken out, but binding patterns and TS type
    /// annotations can still hold resolved references that would otherwise
    /// leak past the incremental scoping refresh.
    fn substitute_single_use_symbol_in_expression_from_declarators(
        target_expr: &mut Expression<'a>,
        declarators: &mut [VariableDeclarator<'a>],
        ctx: &mut TraverseCtx<'a>,
        non_scoped_literal_only: bool,
    ) -> usize {
        let last_non_inlined_index = declarators.iter_mut().rposition(|prev_decl| {
            let Some(prev_decl_init) = &mut prev_decl.init else {
                return true;
            };
            let BindingPattern::BindingIdentifier(prev_decl_id) = &prev_decl.id else {
                return true;
            };
            // Don't inline `var e` inside `catch (e) { ... }`. Removing the var declarator
            // would lose the function-scoped hoisting that `var` provides. The catch parameter
            // and the var share one symbol (with CatchVariable flag) due to the redeclaration
            // semantics in https://tc39.es/ecma262/#sec-variablestatements-in-catch-blocks
            if ctx.scoping().symbol_flags(prev_decl_id.symbol_id()).is_catch_variable() {
                return true;
            }
            if ctx.is_expression_whose_name_needs_to_be_kept(prev_decl_init) {
                return true;
            }
            let Some(symbol_value) = ctx.state.symbols.value(prev_decl_id.symbol_id()) else {
                return true;
            };
            // Implicitly observable bindings remain live independently of
            // their resolved-reference count.
            // An `export { foo }` specifier also contributes a reference, but
            // consult the shared metadata explicitly for consistency with the
            // other count-based consumers.
            if ctx.state.symbols.is_implicitly_observable(prev_decl_id.symbol_id())
                || symbol_value.references.has_multiple_reads()
                || symbol_value.references.has_writes()
            {
                return true;
            }
            if non_scoped_literal_only && !prev_decl_init.is_literal_value(false, ctx) {
                return true;
            }
            let replaced = Self::substitute_single_use_symbol_in_expression(
                target_expr,
                prev_decl_id.name,
                prev_decl_init,
                prev_decl_init.may_have_side_effects(ctx),
                ctx,
            );
            if replaced != Some(true) {
                return true;
            }
            false
        });
        match last_non_inlined_index {
            None => 0,
            Some(last_non_inlined_index) => last_non_inlined_index + 1,
        }
    }
    // end of origin

    // origin: src/peephole/minimize_statements.rs 1272-1876
    /// Returns Some(true) when the expression is successfully replaced.
    /// Returns Some(false) when the expression is not replaced, and cannot try the subsequent expressions.
    /// Return None when the expression is not replaced, and can try the subsequent expressions.
    ///
    /// `substituteSingleUseSymbolInExpr`: <https://github.com/evanw/esbuild/blob/v0.25.9/internal/js_parser/js_parser.go#L9642>
    fn substitute_single_use_symbol_in_expression(
        target_expr: &mut Expression<'a>,
        search_for: Ident<'a>,
        replacement: &mut Expression<'a>,
        replacement_has_side_effect: bool,
        ctx: &mut TraverseCtx<'a>,
    ) -> Option<bool> {
        ctx.state.looks += 1; // added
        match target_expr {
            Expression::Identifier(id) => {
                if id.name == search_for {
                    // Preserve the span of the target identifier so that comments
                    // attached to it (via `attached_to`) remain correctly associated
                    // with the replacement expression.
                    // https://github.com/rolldown/rolldown/issues/8248
                    let target_span = target_expr.span();
                    let mut new_expr = replacement.take_in(ctx);
                    // Span fix-up on the still-owned new node before the slot replacement, not the slot replacement itself.
                    *new_expr.span_mut() = target_span;
                    ctx.replace_expression(target_expr, new_expr);
                    return Some(true);
                }
                // If the identifier is not a getter and the identifier is read-only,
                // we know that the value is same even if we reordered the expression.
                // Imported names are live bindings, so local read-only status is
                // insufficient for them.
                //
                // But a lexical binding that is closed over from an enclosing
                // function/module scope may still be in its Temporal Dead Zone
                // when this function runs (e.g. the function is called before the
                // binding's declaration executes). Reordering its read earlier —
                // in particular before a side-effecting replacement such as an
                // `await` — can surface a `ReferenceError` that the original order
                // avoids. https://github.com/rolldown/rolldown/issues/9959
                if !Self::identifier_read_blocks_reorder(id, ctx) {
                    return None;
                }
            }
            Expression::AwaitExpression(await_expr) => {
                if let Some(changed) = Self::substitute_single_use_symbol_in_expression(
                    &mut await_expr.argument,
                    search_for,
                    replacement,
                    replacement_has_side_effect,
                    ctx,
                ) {
                    return Some(changed);
                }
            }
            Expression::YieldExpression(yield_expr) => {
                if let Some(argument) = &mut yield_expr.argument
                    && let Some(changed) = Self::substitute_single_use_symbol_in_expression(
                        argument,
                        search_for,
                        replacement,
                        replacement_has_side_effect,
                        ctx,
                    )
                {
                    return Some(changed);
                }
            }
            Expression::ImportExpression(import_expr) => {
                if let Some(changed) = Self::substitute_single_use_symbol_in_expression(
                    &mut import_expr.source,
                    search_for,
                    replacement,
                    replacement_has_side_effect,
                    ctx,
                ) {
                    return Some(changed);
                }

                // The "import()" expression has side effects but the side effects are
                // always asynchronous so there is no way for the side effects to modify
                // the replacement value. So it's ok to reorder the replacement value
                // past the "import()" expression assuming everything else checks out.
                if !replacement_has_side_effect && !import_expr.source.may_have_side_effects(ctx) {
                    return None;
                }
            }
            Expression::UnaryExpression(unary_expr) => {
                if !unary_expr.operator.is_delete()
                    && let Some(changed) = Self::substitute_single_use_symbol_in_expression(
                        &mut unary_expr.argument,
                        search_for,
                        replacement,
                        replacement_has_side_effect,
                        ctx,
                    )
                {
                    return Some(changed);
                }
            }
            Expression::StaticMemberExpression(member_expr) => {
                if let Some(changed) = Self::substitute_single_use_symbol_in_expression(
                    &mut member_expr.object,
                    search_for,
                    replacement,
                    replacement_has_side_effect,
                    ctx,
                ) {
                    return Some(changed);
                }
            }
            Expression::BinaryExpression(binary_expr) => {
                if let Some(changed) = Self::substitute_single_use_symbol_in_expression(
                    &mut binary_expr.left,
                    search_for,
                    replacement,
                    replacement_has_side_effect,
                    ctx,
                ) {
                    return Some(changed);
                }
                if let Some(changed) = Self::substitute_single_use_symbol_in_expression(
                    &mut binary_expr.right,
                    search_for,
                    replacement,
                    replacement_has_side_effect,
                    ctx,
                ) {
                    return Some(changed);
                }
            }
            Expression::AssignmentExpression(assign_expr) => {
                if assign_expr.left.may_have_side_effects(ctx) {
                    // Do not reorder past a side effect in an assignment target, as that may
                    // change the replacement value. For example, "fn()" may change "a" here:
                    // ```js
                    // let a = 1;
                    // foo[fn()] = a;
                    // ```
                    return Some(false);
                }
                if assign_expr.operator != AssignmentOperator::Assign && replacement_has_side_effect
                {
                    // If this is a read-modify-write assignment and the replacement has side
                    // effects, don't reorder it past the assignment target. The assignment
                    // target is being read so it may be changed by the side effect. For
                    // example, "fn()" may change "foo" here:
                    // ```js
                    // let a = fn();
                    // foo += a;
                    // ```
                    return Some(false);
                }
                if replacement_has_side_effect {
                    // If the assignment target may depend on side effects of the replacement,
                    // don't reorder it past the assignment target. The non-last part of the
                    // assignment target is evaluated before the assignment evaluation so that
                    // part may be changed by the side effect. For example, "fn()" may change
                    // "foo" here:
                    // ```js
                    // let a = fn();
                    // foo.bar = a;
                    // ```
                    let may_depend_on_side_effect = match &assign_expr.left {
                        AssignmentTarget::AssignmentTargetIdentifier(_) => false,
                        AssignmentTarget::ComputedMemberExpression(member_expr) => {
                            Self::member_part_blocks_reorder(&member_expr.object, ctx)
                                || Self::computed_key_blocks_reorder(
                                    &member_expr.expression,
                                    ctx,
                                )
                        }
                        AssignmentTarget::PrivateFieldExpression(member_expr) => {
                            Self::member_part_blocks_reorder(&member_expr.object, ctx)
                        }
                        AssignmentTarget::StaticMemberExpression(member_expr) => {
                            Self::member_part_blocks_reorder(&member_expr.object, ctx)
                        }
                        AssignmentTarget::ArrayAssignmentTarget(_)
                        | AssignmentTarget::ObjectAssignmentTarget(_)
                        | AssignmentTarget::TSAsExpression(_)
                        | AssignmentTarget::TSNonNullExpression(_)
                        | AssignmentTarget::TSSatisfiesExpression(_)
                        | AssignmentTarget::TSTypeAssertion(_) => true,
                    };
                    if may_depend_on_side_effect {
                        return Some(false);
                    }
                }
                // If we get here then it should be safe to attempt to substitute the
                // replacement past the left operand into the right operand.
                if let Some(changed) = Self::substitute_single_use_symbol_in_expression(
                    &mut assign_expr.right,
                    search_for,
                    replacement,
                    replacement_has_side_effect,
                    ctx,
                ) {
                    return Some(changed);
                }
            }
            Expression::LogicalExpression(logical_expr) => {
                if let Some(changed) = Self::substitute_single_use_symbol_in_expression(
                    &mut logical_expr.left,
                    search_for,
                    replacement,
                    replacement_has_side_effect,
                    ctx,
                ) {
                    return Some(changed);
                }
                // Do not substitute our unconditionally-executed value into a branch
                // unless the value itself has no side effects
                if !replacement_has_side_effect
                    && let Some(changed) = Self::substitute_single_use_symbol_in_expression(
                        &mut logical_expr.right,
                        search_for,
                        replacement,
                        replacement_has_side_effect,
                        ctx,
                    )
                {
                    return Some(changed);
                }
            }
            Expression::PrivateInExpression(private_in_expr) => {
                if let Some(changed) = Self::substitute_single_use_symbol_in_expression(
                    &mut private_in_expr.right,
                    search_for,
                    replacement,
                    replacement_has_side_effect,
                    ctx,
                ) {
                    return Some(changed);
                }
            }
            Expression::ConditionalExpression(cond_expr) => {
                if let Some(changed) = Self::substitute_single_use_symbol_in_expression(
                    &mut cond_expr.test,
                    search_for,
                    replacement,
                    replacement_has_side_effect,
                    ctx,
                ) {
                    return Some(changed);
                }
                // Do not substitute our unconditionally-executed value into a branch
                // unless the value itself has no side effects
                if !replacement_has_side_effect {
                    // Unlike other branches in this function such as "a && b" or "a?.[b]",
                    // the "a ? b : c" form has potential code evaluation along both control
                    // flow paths. Handle this by allowing substitution into either branch.
                    // Side effects in one branch should not prevent the substitution into
                    // the other branch.

                    let consequent_changed = Self::substitute_single_use_symbol_in_expression(
                        &mut cond_expr.consequent,
                        search_for,
                        replacement,
                        replacement_has_side_effect,
                        ctx,
                    );
                    if consequent_changed == Some(true) {
                        return consequent_changed;
                    }
                    let alternate_changed = Self::substitute_single_use_symbol_in_expression(
                        &mut cond_expr.alternate,
                        search_for,
                        replacement,
                        replacement_has_side_effect,
                        ctx,
                    );
                    if alternate_changed == Some(true) {
                        return alternate_changed;
                    }
                    // Side effects in either branch should stop us from continuing to try to
                    // substitute the replacement after the control flow branches merge again.
                    if consequent_changed == Some(false) || alternate_changed == Some(false) {
                        return Some(false);
                    }
                }
            }
            Expression::ComputedMemberExpression(member_expr) => {
                if let Some(changed) = Self::substitute_single_use_symbol_in_expression(
                    &mut member_expr.object,
                    search_for,
                    replacement,
                    replacement_has_side_effect,
                    ctx,
                ) {
                    return Some(changed);
                }
                // Do not substitute our unconditionally-executed value into a branch
                // unless the value itself has no side effects
                if (!replacement_has_side_effect || !member_expr.optional)
                    && let Some(changed) = Self::substitute_single_use_symbol_in_expression(
                        &mut member_expr.expression,
                        search_for,
                        replacement,
                        replacement_has_side_effect,
                        ctx,
                    )
                {
                    return Some(changed);
                }
            }
            Expression::PrivateFieldExpression(private_field_expr) => {
                if let Some(changed) = Self::substitute_single_use_symbol_in_expression(
                    &mut private_field_expr.object,
                    search_for,
                    replacement,
                    replacement_has_side_effect,
                    ctx,
                ) {
                    return Some(changed);
                }
            }
            Expression::CallExpression(call_expr)
                // Don't substitute something into a call target that could change "this"
                if !((replacement.is_member_expression()
                    || matches!(replacement, Expression::ChainExpression(_)))
                    && call_expr.callee.is_identifier_reference())
                => {
                    if let Some(changed) = Self::substitute_single_use_symbol_in_expression(
                        &mut call_expr.callee,
                        search_for,
                        replacement,
                        replacement_has_side_effect,
                        ctx,
                    ) {
                        return Some(changed);
                    }

                    // Do not substitute our unconditionally-executed value into a branch
                    // unless the value itself has no side effects
                    if !replacement_has_side_effect || !call_expr.optional {
                        for arg in &mut call_expr.arguments {
                            match arg {
                                Argument::SpreadElement(spread_elem) => {
                                    if let Some(changed) =
                                        Self::substitute_single_use_symbol_in_expression(
                                            &mut spread_elem.argument,
                                            search_for,
                                            replacement,
                                            replacement_has_side_effect,
                                            ctx,
                                        )
                                    {
                                        return Some(changed);
                                    }
                                    // spread element may have sideeffects
                                    return Some(false);
                                }
                                match_expression!(Argument) => {
                                    if let Some(changed) =
                                        Self::substitute_single_use_symbol_in_expression(
                                            arg.to_expression_mut(),
                                            search_for,
                                            replacement,
                                            replacement_has_side_effect,
                                            ctx,
                                        )
                                    {
                                        return Some(changed);
                                    }
                                }
                            }
                        }
                    }
                }
            Expression::NewExpression(new_expr)
                // Don't substitute something into a call target that could change "this"
                if !((replacement.is_member_expression()
                    || matches!(replacement, Expression::ChainExpression(_)))
                    && new_expr.callee.is_identifier_reference())
                => {
                    if let Some(changed) = Self::substitute_single_use_symbol_in_expression(
                        &mut new_expr.callee,
                        search_for,
                        replacement,
                        replacement_has_side_effect,
                        ctx,
                    ) {
                        return Some(changed);
                    }

                    for arg in &mut new_expr.arguments {
                        match arg {
                            Argument::SpreadElement(spread_elem) => {
                                if let Some(changed) =
                                    Self::substitute_single_use_symbol_in_expression(
                                        &mut spread_elem.argument,
                                        search_for,
                                        replacement,
                                        replacement_has_side_effect,
                                        ctx,
                                    )
                                {
                                    return Some(changed);
                                }
                                // spread element may have sideeffects
                                return Some(false);
                            }
                            match_expression!(Argument) => {
                                if let Some(changed) =
                                    Self::substitute_single_use_symbol_in_expression(
                                        arg.to_expression_mut(),
                                        search_for,
                                        replacement,
                                        replacement_has_side_effect,
                                        ctx,
                                    )
                                {
                                    return Some(changed);
                                }
                            }
                        }
                    }
                }
            Expression::ArrayExpression(array_expr) => {
                for elem in &mut array_expr.elements {
                    match elem {
                        ArrayExpressionElement::SpreadElement(spread_elem) => {
                            if let Some(changed) = Self::substitute_single_use_symbol_in_expression(
                                &mut spread_elem.argument,
                                search_for,
                                replacement,
                                replacement_has_side_effect,
                                ctx,
                            ) {
                                return Some(changed);
                            }
                            // spread element may have sideeffects
                            return Some(false);
                        }
                        ArrayExpressionElement::Elision(_) => {}
                        match_expression!(ArrayExpressionElement) => {
                            if let Some(changed) = Self::substitute_single_use_symbol_in_expression(
                                elem.to_expression_mut(),
                                search_for,
                                replacement,
                                replacement_has_side_effect,
                                ctx,
                            ) {
                                return Some(changed);
                            }
                        }
                    }
                }
            }
            Expression::ObjectExpression(obj_expr) => {
                for prop in &mut obj_expr.properties {
                    match prop {
                        ObjectPropertyKind::ObjectProperty(prop) => {
                            if prop.computed {
                                if let Some(changed) =
                                    Self::substitute_single_use_symbol_in_expression(
                                        prop.key.to_expression_mut(),
                                        search_for,
                                        replacement,
                                        replacement_has_side_effect,
                                        ctx,
                                    )
                                {
                                    return Some(changed);
                                }
                                // Stop now because computed keys have side effects
                                return Some(false);
                            }

                            if let Some(changed) = Self::substitute_single_use_symbol_in_expression(
                                &mut prop.value,
                                search_for,
                                replacement,
                                replacement_has_side_effect,
                                ctx,
                            ) {
                                if prop.shorthand && prop.key.is_specific_id("__proto__") {
                                    // { __proto__ } -> { ['__proto__']: value }
                                    prop.computed = true;
                                    prop.key = PropertyKey::new_string_literal(prop.key.span(), "__proto__", None, ctx);
                                }
                                prop.shorthand = false;
                                return Some(changed);
                            }
                        }
                        ObjectPropertyKind::SpreadProperty(prop) => {
                            if let Some(changed) = Self::substitute_single_use_symbol_in_expression(
                                &mut prop.argument,
                                search_for,
                                replacement,
                                replacement_has_side_effect,
                                ctx,
                            ) {
                                return Some(changed);
                            }
                            // Stop now because spread properties have side effects
                            return Some(false);
                        }
                    }
                }
            }
            Expression::TaggedTemplateExpression(tagged_expr) => {
                // A member tag would change `this`: `let c = a.b; c``` => `(0, a.b)```
                let keep_indirect = tagged_expr.tag.is_specific_id(search_for)
                    && match &*replacement {
                        match_member_expression!(Expression) => true,
                        Expression::ChainExpression(chain) => {
                            matches!(&chain.expression, match_member_expression!(ChainElement))
                        }
                        _ => false,
                    };
                if let Some(changed) = Self::substitute_single_use_symbol_in_expression(
                    &mut tagged_expr.tag,
                    search_for,
                    replacement,
                    replacement_has_side_effect,
                    ctx,
                ) {
                    if changed && keep_indirect {
                        ctx.replace_expression_with(&mut tagged_expr.tag, |tag, ctx| {
                            Self::preserve_indirect_access(tag.span(), tag, ctx)
                        });
                    }
                    return Some(changed);
                }
                for elem in &mut tagged_expr.quasi.expressions {
                    if let Some(changed) = Self::substitute_single_use_symbol_in_expression(
                        elem,
                        search_for,
                        replacement,
                        replacement_has_side_effect,
                        ctx,
                    ) {
                        return Some(changed);
                    }
                }
            }
            Expression::TemplateLiteral(template_literal) => {
                for elem in &mut template_literal.expressions {
                    if let Some(changed) = Self::substitute_single_use_symbol_in_expression(
                        elem,
                        search_for,
                        replacement,
                        replacement_has_side_effect,
                        ctx,
                    ) {
                        return Some(changed);
                    }
                }
            }
            Expression::ChainExpression(chain_expr) => {
                let mut expr = Expression::from(chain_expr.expression.take_in(ctx));
                let changed = Self::substitute_single_use_symbol_in_expression(
                    &mut expr,
                    search_for,
                    replacement,
                    replacement_has_side_effect,
                    ctx,
                );
                chain_expr.expression = expr.into_chain_element().expect("should be chain element");
                return changed;
            }
            Expression::SequenceExpression(sequence_expr) => {
                for expr in &mut sequence_expr.expressions {
                    if let Some(changed) = Self::substitute_single_use_symbol_in_expression(
                        expr,
                        search_for,
                        replacement,
                        replacement_has_side_effect,
                        ctx,
                    ) {
                        return Some(changed);
                    }
                }
            }
            _ => {}
        }

        // If both the replacement and this expression have no observable side
        // effects, then we can reorder the replacement past this expression
        //
        // ```js
        // // Substitution is ok
        // let replacement = 123;
        // return x + replacement;
        //
        // // Substitution is not ok because "fn()" may change "x"
        // let replacement = fn();
        // return x + replacement;
        //
        // // Substitution is not ok because "x == x" may change "x" due to "valueOf()" evaluation
        // let replacement = [x];
        // return (x == x) + replacement;
        // ```
        if !replacement_has_side_effect && !target_expr.may_have_side_effects(ctx) {
            return None;
        }

        // We can always reorder past literal values
        if replacement.is_literal_value(true, ctx) || target_expr.is_literal_value(true, ctx) {
            return None;
        }

        // Otherwise we should stop trying to substitute past this point
        Some(false)
    }
    // end of origin
}

/// The checks that say whether a read may change places with an effect.
impl<'a> PeepholeOptimizations {
    // origin: src/peephole/mod.rs 194-218
    /// Whether reading a resolved symbol again could produce a different value.
    /// Imported bindings and Script-root globals can change externally.
    ///
    /// Uses the O(1) cached reference counts from `SymbolValue` when available,
    /// falling back to the O(num_refs) scan in `Scoping::symbol_is_mutated` for
    /// symbols without cached values.
    ///
    /// Only variable declarators have cached values (populated during
    /// `exit_variable_declarator` → `init_symbol_value`); function declarations
    /// and other binding kinds still take the fallback path.
    fn symbol_value_may_change(symbol_id: SymbolId, ctx: &TraverseCtx<'a>) -> bool {
        let scoping = ctx.scoping();
        if scoping.symbol_flags(symbol_id).is_import()
            || (ctx.source_type().is_script()
                && scoping.symbol_scope_id(symbol_id) == scoping.root_scope_id())
        {
            return true;
        }

        if let Some(sv) = ctx.state.symbols.value(symbol_id) {
            sv.references.has_writes()
        } else {
            scoping.symbol_is_mutated(symbol_id)
        }
    }
    // end of origin

    // origin: src/peephole/mod.rs 220-236
    /// Whether the current read closes over a block-scoped binding.
    ///
    /// This is a structural test, not proof that the binding is currently in its
    /// Temporal Dead Zone. Moving such a read before an `await`/`yield` can expose
    /// the TDZ while outer code is still initializing the binding. A same-function
    /// binding cannot be initialized mid-suspension, so it stays inlinable.
    ///
    /// <https://github.com/rolldown/rolldown/issues/9959>
    fn is_closed_over_block_scoped_read(symbol_id: SymbolId, ctx: &TraverseCtx<'a>) -> bool {
        let scoping = ctx.scoping();
        if !scoping.symbol_flags(symbol_id).is_block_scoped() {
            return false;
        }

        let binding_scope = scoping.symbol_scope_id(symbol_id);
        Self::read_crosses_function_boundary(ctx.current_scope_id(), binding_scope, ctx)
    }
    // end of origin

    // origin: src/peephole/mod.rs 238-246
    /// Whether moving this identifier read earlier could observe a different
    /// value or enter a closed-over lexical's TDZ.
    fn identifier_read_blocks_reorder(id: &IdentifierReference<'a>, ctx: &TraverseCtx<'a>) -> bool {
        let symbol_id = ctx.scoping().get_reference(id.reference_id()).symbol_id();
        symbol_id.is_none_or(|symbol_id| {
            Self::symbol_value_may_change(symbol_id, ctx)
                || Self::is_closed_over_block_scoped_read(symbol_id, ctx)
        })
    }
    // end of origin

    // origin: src/peephole/mod.rs 248-279
    /// Whether evaluating a member assignment-target part earlier could observe
    /// a different binding value. This includes ordinary mutation and closed-over
    /// lexicals that could still be in their TDZ (e.g. `v.x = await f()` or
    /// `obj[v] = await f()`).
    fn member_part_blocks_reorder(expr: &Expression<'a>, ctx: &TraverseCtx<'a>) -> bool {
        match expr {
            Expression::Identifier(id) => Self::identifier_read_blocks_reorder(id, ctx),
            Expression::ThisExpression(this_expr) => {
                let Some(this_scope) = Self::derived_constructor_this_scope(ctx) else {
                    return false;
                };
                // Parameter defaults are visited before their function body, so a missing
                // owner frame means this derived constructor's `this` is uninitialized.
                let Some(owner_index) =
                    ctx.state.body_frames.iter().rposition(|frame| frame.scope_id == this_scope)
                else {
                    return true;
                };
                // Source offsets stand in for execution order here. This assumes upstream
                // transforms do not reorder `super()` and `this` without updating their spans;
                // the current Rolldown and oxc-minify pipelines satisfy this assumption.
                // Arrow body frames above the owner share its lexical `this`, so `super()`
                // in any of those frames initializes the same binding.
                !ctx.state.body_frames[owner_index..].iter().any(|frame| {
                    frame
                        .this_initialized_at
                        .is_some_and(|initialized_at| this_expr.span.start >= initialized_at)
                })
            }
            _ => true,
        }
    }
    // end of origin

    // origin: src/peephole/mod.rs 281-290
    /// Whether evaluating a computed member key before a side-effecting
    /// replacement could observe a different value.
    ///
    /// The key expression and `GetValue` move before the assignment RHS, but
    /// `ToPropertyKey` still happens afterward. A scope-independent literal or
    /// a stable simple reference is therefore safe regardless of its value type.
    /// <https://tc39.es/ecma262/#sec-evaluate-property-access-with-expression-key>
    fn computed_key_blocks_reorder(key: &Expression<'a>, ctx: &TraverseCtx<'a>) -> bool {
        !key.is_literal_value(false, ctx) && Self::member_part_blocks_reorder(key, ctx)
    }
    // end of origin

    // origin: src/peephole/mod.rs 292-305
    /// True if the scope chain from `read_scope` up to (excluding) `stop_scope`
    /// crosses a function boundary — i.e. the read is in a closure relative to
    /// `stop_scope`. Async/generator/arrow scopes are all `Function`.
    fn read_crosses_function_boundary(
        read_scope: ScopeId,
        stop_scope: ScopeId,
        ctx: &TraverseCtx<'a>,
    ) -> bool {
        let scoping = ctx.scoping();
        scoping
            .scope_ancestors(read_scope)
            .take_while(|&scope_id| scope_id != stop_scope)
            .any(|scope_id| scoping.scope_flags(scope_id).is_function())
    }
    // end of origin
}

/// What the search asks of other files of the crate.
impl<'a> PeepholeOptimizations {
    // origin: src/peephole/remove_dead_code.rs 731-748
    /// Wrap `expr` as `(0, expr)` so an access that
    /// [`Self::should_keep_indirect_access`] flagged stays indirect.
    ///
    /// The shape is load-bearing: `remove_sequence_expression`'s idempotency
    /// gate recognizes exactly a 2-element sequence whose head `is_number_0`.
    /// Sibling fold sites in `fold_constants.rs` / `try_fold_conditional_expression`
    /// still build it inline; migrating them here is welcome.
    pub fn preserve_indirect_access(
        span: Span,
        expr: Expression<'a>,
        ctx: &TraverseCtx<'a>,
    ) -> Expression<'a> {
        Expression::new_sequence_expression(
            span.merge(expr.span()),
            [Expression::new_number_0(span, ctx), expr],
            ctx,
        )
    }
    // end of origin

    // origin: src/peephole/remove_unused_declaration.rs 223-227
    /// Whether bindings in the current scope are visible to later scripts.
    pub fn is_script_root_scope(ctx: &TraverseCtx<'a>) -> bool {
        ctx.scoping.current_scope_id() == ctx.scoping().root_scope_id()
            && ctx.source_type().is_script()
    }
    // end of origin
}

impl<'a> TraverseCtx<'a> {
    // origin: src/traverse_context/ecma_context.rs 422-433
    /// Whether the assignment expression needs to be kept to preserve the name
    pub fn is_expression_whose_name_needs_to_be_kept(&self, expr: &Expression) -> bool {
        let options = &self.options().keep_names;
        if !options.class && !options.function {
            return false;
        }
        if !expr.is_anonymous_function_definition() {
            return false;
        }
        let is_class = matches!(expr, Expression::ClassExpression(_));
        (options.class && is_class) || (options.function && !is_class)
    }
    // end of origin
}

impl ReferenceCounts {
    // origin: src/symbol_value.rs 61-64
    #[inline]
    pub fn has_writes(self) -> bool {
        self.writes > 0
    }
    // end of origin

    // origin: src/symbol_value.rs 71-74
    #[inline]
    pub fn has_multiple_reads(self) -> bool {
        self.reads > 1
    }
    // end of origin
}

/// Merging assignments and joining sequences. The driver doesn't call these yet.
impl<'a> PeepholeOptimizations {
    // origin: src/peephole/minimize_statements.rs 194-210
    /// Fold `target` expression into previous expression as sequence
    /// `a; b` -> `a, b`.
    fn merge_last_expression_into_sequence(
        target: &mut Expression<'a>,
        result: &mut ArenaVec<'a, Statement<'a>>,
        ctx: &mut TraverseCtx<'a>,
    ) {
        if !ctx.options().sequences
            || !matches!(result.last(), Some(Statement::ExpressionStatement(_)))
        {
            return;
        }
        let last_epr = result.pop().unwrap();
        let Statement::ExpressionStatement(prev_expr_stmt) = last_epr else { unreachable!() };
        let ExpressionStatement { span, expression: a, .. } = prev_expr_stmt.unbox();
        ctx.replace_expression_with(target, |b, ctx| Self::join_sequence(span, a, b, ctx));
    }
    // end of origin

    // origin: src/peephole/minimize_statements.rs 332-384
    /// Merge a single assignment into a matching uninitialized declarator of the
    /// variable declaration that immediately precedes it in `result`.
    fn merge_assignment_to_declaration(
        assign_expr: &mut AssignmentExpression<'a>,
        result: &mut ArenaVec<'a, Statement<'a>>,
        ctx: &TraverseCtx<'a>,
    ) -> bool {
        if assign_expr.operator != AssignmentOperator::Assign {
            return false;
        }
        let AssignmentTarget::AssignmentTargetIdentifier(id) = &assign_expr.left else {
            return false;
        };
        let Some(Statement::VariableDeclaration(var_decl)) = result.last_mut() else {
            return false;
        };
        if !matches!(&var_decl.kind, VariableDeclarationKind::Var | VariableDeclarationKind::Let) {
            return false;
        }
        let declaration_kind = var_decl.kind;
        for decl in var_decl.declarations.iter_mut().rev() {
            let BindingPattern::BindingIdentifier(kind) = &decl.id else {
                break;
            };
            if kind.name == id.name {
                if decl.init.is_none()
                    && (declaration_kind.is_var() || assign_expr.right.is_literal_value(true, ctx))
                {
                    // "var a; a = b();" => "var a = b();"
                    decl.init = Some(assign_expr.right.take_in(ctx));
                    return true;
                }
                // Note it is not possible to compress like:
                // - "var a = b(); a = c();" => "var a = (b(), c());"
                //   This is not possible as we need to consider cases when `c()` accesses `a`
                // - "var a = 1; a = b();" => "var a = b();"
                //   This is not possible as we need to consider cases when `b()` accesses `a`
                // - "let a; a = foo(a);" => "let a = foo(a);"
                //   This is not possible as TDZ error would be introduced
                break;
            }
            // should not move assignment above variables with initializer to keep the execution order
            if decl.init.is_some() {
                break;
            }
            // should not move assignment above other variables for let
            // this could cause TDZ errors (e.g. `let a, b; b = a;`)
            if declaration_kind == VariableDeclarationKind::Let {
                break;
            }
        }
        false
    }
    // end of origin

    // origin: src/peephole/minimize_statements.rs 386-438
    /// Fold leading assignments in `expr` into the variable declaration.
    fn merge_leading_assignments_to_declaration(
        expr: &mut Expression<'a>,
        value_is_discarded: bool,
        result: &mut ArenaVec<'a, Statement<'a>>,
        ctx: &mut TraverseCtx<'a>,
    ) -> bool {
        let Some(Statement::VariableDeclaration(_)) = result.last() else {
            return false;
        };

        match expr {
            // "var a; a = b();" => "var a = b();"
            Expression::AssignmentExpression(assign_expr) if value_is_discarded => {
                Self::merge_assignment_to_declaration(assign_expr, result, ctx)
            }
            // "var a; return a = b(), c;" => "var a = b(); return c;"
            Expression::SequenceExpression(sequence_expr) => {
                // The value of the last expression is observed unless discarded.
                let limit = sequence_expr.expressions.len() - usize::from(!value_is_discarded);
                let first_non_merged_index =
                    sequence_expr.expressions.iter_mut().take(limit).position(|expr| match expr {
                        Expression::AssignmentExpression(assign_expr) => {
                            !Self::merge_assignment_to_declaration(assign_expr, result, ctx)
                        }
                        _ => true,
                    });
                // `None` means every candidate merged, so the whole prefix is taken.
                let taken = first_non_merged_index.unwrap_or(limit);
                if taken == 0 {
                    return false;
                }
                match sequence_expr.expressions.len() - taken {
                    // all elements are merged
                    0 => true,
                    // all elements are merged except for the last expression
                    1 => {
                        let only_expr = sequence_expr.expressions.pop().unwrap();
                        ctx.replace_expression(expr, only_expr);
                        false
                    }
                    // The sequence stays in the AST, so remove the targets here.
                    _ => {
                        for dropped in sequence_expr.expressions.drain(0..taken) {
                            ctx.drop_expression(&dropped);
                        }
                        false
                    }
                }
            }
            _ => false,
        }
    }
    // end of origin

    // origin: src/peephole/minimize_sequences.rs 10-31
    /// Joins two expressions into a sequence, preserving evaluation order.
    pub fn join_sequence(
        span: Span,
        a: Expression<'a>,
        b: Expression<'a>,
        ctx: &TraverseCtx<'a>,
    ) -> Expression<'a> {
        if let Expression::SequenceExpression(mut sequence_expr) = a {
            // `(a, b); c`
            sequence_expr.expressions.push(b);
            sequence_expr.span = span;
            return Expression::SequenceExpression(sequence_expr);
        }
        let exprs = if let Expression::SequenceExpression(sequence_expr) = b {
            // `a; (b, c)`
            ArenaVec::from_iter_in(std::iter::once(a).chain(sequence_expr.unbox().expressions), ctx)
        } else {
            // `a; b`
            ArenaVec::from_array_in([a, b], ctx)
        };
        Expression::new_sequence_expression(span, exprs, ctx)
    }
    // end of origin
}
