// Stands in for the modules that the original sources name and that are not among them. Only the types matter: nothing of
// this is reached by the analysis or by the allocator.

pub mod target {
    pub const XRAM_BANK_LAST_OFFSET: u8 = u8::MAX;

    // A file carries these offsets without judging them, so every one passes.
    pub fn xram_offset_is_addressable(_offset: u8) -> bool {
        true
    }
}

pub mod walrus {
    #[derive(Clone, Copy)]
    pub struct FunctionId;
    #[derive(Clone, Copy)]
    pub struct ImportId;
    #[derive(Clone, Copy)]
    pub struct TypeId;
    #[derive(Clone)]
    pub struct ValType;

    pub struct ImportedFunction {
        pub import: ImportId,
    }

    pub enum FunctionKind {
        Import(ImportedFunction),
        Local,
    }

    pub struct Function {
        pub kind: FunctionKind,
    }

    impl Function {
        pub fn ty(&self) -> TypeId {
            TypeId
        }
    }

    pub struct Functions(Vec<Function>);

    impl Functions {
        pub fn get(&self, _id: FunctionId) -> &Function {
            &self.0[0]
        }
    }

    pub struct Import {
        pub name: String,
    }

    pub struct Imports(Vec<Import>);

    impl Imports {
        pub fn get(&self, _id: ImportId) -> &Import {
            &self.0[0]
        }
    }

    pub struct Types;

    impl Types {
        pub fn params(&self, _id: TypeId) -> &[ValType] {
            &[]
        }

        pub fn results(&self, _id: TypeId) -> &[ValType] {
            &[]
        }
    }

    pub struct Module {
        pub funcs: Functions,
        pub imports: Imports,
        pub types: Types,
    }
}

pub mod analysis {
    pub mod calls {
        use super::super::walrus::{FunctionId, Module, ValType};

        pub enum PointerBehavior {
            NotAPointer,
            ReadOnly,
            ReadWrite,
        }

        pub enum MemoryEffects {
            None,
            Read,
            Write,
            ReadWrite,
        }

        pub struct ArgumentSummary {
            pub observed_bits: Option<u64>,
            pub pointer: PointerBehavior,
        }

        #[derive(Default)]
        pub struct ResultPointerSummary;

        pub struct CallSummary {
            pub parameters: Vec<ValType>,
            pub results: Vec<ValType>,
            pub arguments: Vec<ArgumentSummary>,
            pub result_pointers: Vec<ResultPointerSummary>,
            pub memory: MemoryEffects,
        }

        impl CallSummary {
            pub fn conservative(_module: &Module, _function: FunctionId) -> Self {
                Self {
                    parameters: Vec::new(),
                    results: Vec::new(),
                    arguments: Vec::new(),
                    result_pointers: Vec::new(),
                    memory: MemoryEffects::ReadWrite,
                }
            }
        }

        pub trait CallResolver {
            fn resolve(&self, module: &Module, function: FunctionId) -> CallSummary;
        }
    }
}
