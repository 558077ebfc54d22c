//! Stand-ins for the traverse context: the facts of the record file behind the questions that the
//! carried functions ask of `oxc_semantic`, `oxc_span` and the crate's own state.

use std::marker::PhantomData;

use crate::arena::TakeIn;
use crate::ast::Expression;
use crate::carried::PeepholeOptimizations;

/// The number of a resolved name.
#[derive(Clone, Copy, PartialEq, Eq, Debug)]
pub struct SymbolId(pub u16);

/// The number of a scope.
#[derive(Clone, Copy, PartialEq, Eq, Debug)]
pub struct ScopeId(pub u16);

/// A reference is known by the number of the name that it reads.
#[derive(Clone, Copy, PartialEq, Eq, Debug)]
pub struct ReferenceId(pub u16);

/// What `Scoping::get_reference` gives.
pub struct Reference(Option<SymbolId>);

impl Reference {
    pub fn symbol_id(&self) -> Option<SymbolId> {
        self.0
    }
}

/// The kinds of binding that the checks ask for.
#[derive(Clone, Copy)]
pub struct SymbolFlags {
    pub block_scoped: bool,
    pub import: bool,
    pub catch_variable: bool,
}

impl SymbolFlags {
    pub fn is_block_scoped(self) -> bool {
        self.block_scoped
    }

    pub fn is_import(self) -> bool {
        self.import
    }

    pub fn is_catch_variable(self) -> bool {
        self.catch_variable
    }
}

#[derive(Clone, Copy)]
pub struct ScopeFlags {
    pub function: bool,
    pub direct_eval: bool,
}

impl ScopeFlags {
    pub fn is_function(self) -> bool {
        self.function
    }

    pub fn contains_direct_eval(self) -> bool {
        self.direct_eval
    }
}

/// A resolved name.
pub struct Symbol {
    pub flags: SymbolFlags,
    pub scope: ScopeId,
    pub mutated: bool,
}

pub struct Scope {
    pub parent: Option<ScopeId>,
    pub flags: ScopeFlags,
}

/// Names and scopes. An unresolved name has no symbol.
pub struct Scoping {
    pub symbols: Vec<Option<Symbol>>,
    pub scopes: Vec<Scope>,
}

impl Scoping {
    fn symbol(&self, id: SymbolId) -> &Symbol {
        self.symbols[usize::from(id.0)].as_ref().expect("a symbol id is of a resolved name")
    }

    fn scope(&self, id: ScopeId) -> &Scope {
        &self.scopes[usize::from(id.0)]
    }

    pub fn get_reference(&self, id: ReferenceId) -> Reference {
        Reference(self.symbols[usize::from(id.0)].as_ref().map(|_| SymbolId(id.0)))
    }

    pub fn symbol_flags(&self, id: SymbolId) -> SymbolFlags {
        self.symbol(id).flags
    }

    pub fn symbol_scope_id(&self, id: SymbolId) -> ScopeId {
        self.symbol(id).scope
    }

    pub fn symbol_is_mutated(&self, id: SymbolId) -> bool {
        self.symbol(id).mutated
    }

    pub fn root_scope_id(&self) -> ScopeId {
        ScopeId(0)
    }

    pub fn scope_flags(&self, id: ScopeId) -> ScopeFlags {
        self.scope(id).flags
    }

    /// The scope itself, then its parent, up to scope 0.
    pub fn scope_ancestors(&self, id: ScopeId) -> impl Iterator<Item = ScopeId> + '_ {
        std::iter::successors(Some(id), |&scope| self.scope(scope).parent)
    }
}

/// The scope part of the context.
pub struct TraverseScoping {
    pub scoping: Scoping,
    pub current_scope_id: ScopeId,
}

impl TraverseScoping {
    pub fn current_scope_id(&self) -> ScopeId {
        self.current_scope_id
    }

    pub fn current_scope_flags(&self) -> ScopeFlags {
        self.scoping.scope_flags(self.current_scope_id)
    }
}

#[derive(Clone, Copy)]
pub struct SourceType {
    pub script: bool,
}

impl SourceType {
    pub fn is_script(self) -> bool {
        self.script
    }
}

pub struct KeepNames {
    pub function: bool,
    pub class: bool,
}

pub struct CompressOptions {
    pub keep_names: KeepNames,
    pub sequences: bool,
    /// The argument of that name at statement level.
    pub non_scoped_literal_only: bool,
}

/// The counts of a value record; its two questions stand in `carried.rs`.
#[derive(Clone, Copy)]
pub struct ReferenceCounts {
    pub reads: u32,
    pub writes: u32,
}

pub struct SymbolValue<'a> {
    pub references: ReferenceCounts,
    pub lifetime: PhantomData<&'a ()>,
}

/// What is known of a name's value.
pub struct SymbolFacts<'a> {
    pub value: Option<SymbolValue<'a>>,
    pub implicitly_observable: bool,
}

pub struct SymbolTable<'a>(pub Vec<SymbolFacts<'a>>);

impl<'a> SymbolTable<'a> {
    pub fn value(&self, id: SymbolId) -> Option<&SymbolValue<'a>> {
        self.0[usize::from(id.0)].value.as_ref()
    }

    pub fn is_implicitly_observable(&self, id: SymbolId) -> bool {
        self.0[usize::from(id.0)].implicitly_observable
    }
}

pub struct BodyFrame {
    pub scope_id: ScopeId,
    pub this_initialized_at: Option<u32>,
}

pub struct MinifierState<'a> {
    pub symbols: SymbolTable<'a>,
    pub body_frames: Vec<BodyFrame>,
    pub options: CompressOptions,
    pub source_type: SourceType,
    /// The answer of `derived_constructor_this_scope`, which the record file gives.
    pub this_scope: Option<ScopeId>,
    /// Calls of `substitute_single_use_symbol_in_expression`.
    pub looks: u64,
}

pub struct TraverseCtx<'a> {
    pub scoping: TraverseScoping,
    pub state: MinifierState<'a>,
}

impl<'a> TraverseCtx<'a> {
    pub fn scoping(&self) -> &Scoping {
        &self.scoping.scoping
    }

    pub fn current_scope_id(&self) -> ScopeId {
        self.scoping.current_scope_id()
    }

    pub fn current_scope_flags(&self) -> ScopeFlags {
        self.scoping.current_scope_flags()
    }

    pub fn source_type(&self) -> SourceType {
        self.state.source_type
    }

    pub fn options(&self) -> &CompressOptions {
        &self.state.options
    }

    pub fn replace_expression(&mut self, slot: &mut Expression<'a>, new: Expression<'a>) {
        *slot = new;
    }

    pub fn replace_expression_with(
        &mut self,
        slot: &mut Expression<'a>,
        replacer: impl FnOnce(Expression<'a>, &mut Self) -> Expression<'a>,
    ) {
        let old = std::mem::replace(slot, Expression::dummy());
        *slot = replacer(old, self);
    }

    /// The Rust records dropped parts here; change records are left out.
    pub fn drop_expression<T>(&mut self, _dropped: &T) {}

    pub fn drop_statement<T>(&mut self, _dropped: &T) {}

    pub fn drop_variable_declarator<T>(&mut self, _dropped: &T) {}
}

impl<'a> PeepholeOptimizations {
    /// The Rust climbs to the constructor and asks whether its class extends another; the record
    /// file has the answer.
    pub fn derived_constructor_this_scope(ctx: &TraverseCtx<'a>) -> Option<ScopeId> {
        ctx.state.this_scope
    }
}
