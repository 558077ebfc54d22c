//! The context that the facts, scopes, frames and options of a file make up.

use std::marker::PhantomData;

use crate::context::*;
use crate::record::{self, NEVER, NONE, RecordFile, name, option, scope};

pub fn context_of<'a>(file: &RecordFile) -> TraverseCtx<'a> {
    TraverseCtx {
        scoping: TraverseScoping {
            scoping: Scoping {
                symbols: file.names.iter().map(symbol).collect(),
                scopes: file.scopes.iter().map(scope_of).collect(),
            },
            current_scope_id: ScopeId(file.current_scope),
        },
        state: MinifierState {
            symbols: SymbolTable(file.names.iter().map(symbol_facts).collect()),
            body_frames: file.frames.iter().map(body_frame).collect(),
            options: compress_options(file.options),
            source_type: SourceType { script: file.options & option::SCRIPT != 0 },
            this_scope: scope_id(file.this_scope),
            looks: 0,
        },
    }
}

fn scope_id(number: u16) -> Option<ScopeId> {
    (number != NONE).then_some(ScopeId(number))
}

fn symbol(it: &record::Name) -> Option<Symbol> {
    let has = |bit: u16| it.flags & bit != 0;
    (!it.is_unresolved()).then(|| Symbol {
        flags: SymbolFlags {
            block_scoped: has(name::BLOCK_SCOPED),
            import: has(name::IMPORT),
            catch_variable: has(name::CATCH),
        },
        scope: ScopeId(it.scope),
        mutated: has(name::MUTATED),
    })
}

fn symbol_facts<'a>(it: &record::Name) -> SymbolFacts<'a> {
    let references = ReferenceCounts { reads: it.reads, writes: it.writes };
    SymbolFacts {
        value: it.is_recorded().then_some(SymbolValue { references, lifetime: PhantomData }),
        implicitly_observable: it.flags & name::OBSERVABLE != 0,
    }
}

fn scope_of(it: &record::Scope) -> Scope {
    Scope {
        parent: scope_id(it.parent),
        flags: ScopeFlags {
            function: it.flags & scope::FUNCTION != 0,
            direct_eval: it.flags & scope::DIRECT_EVAL != 0,
        },
    }
}

fn body_frame(it: &record::Frame) -> BodyFrame {
    BodyFrame {
        scope_id: ScopeId(it.scope),
        this_initialized_at: (it.initialised != NEVER).then_some(it.initialised),
    }
}

fn compress_options(bits: u8) -> CompressOptions {
    CompressOptions {
        keep_names: KeepNames {
            function: bits & option::KEEP_FUNCTION_NAMES != 0,
            class: bits & option::KEEP_CLASS_NAMES != 0,
        },
        sequences: false,
        non_scoped_literal_only: bits & option::LITERAL_ONLY != 0,
    }
}
