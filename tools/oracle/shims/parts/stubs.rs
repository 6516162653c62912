// Types that the given sources name on paths no table of document 01 can
// reach (host functions, arrays, byte arrays, dictionaries, the core
// library). They exist so that the given files type-check.

pub mod array { pub struct Array; }
pub mod dict { pub struct Dict; }

pub mod bytearray
{
    use crate::{alloc::Alloc, value::Value};
    pub struct ByteArray;
    impl ByteArray
    {
        pub fn alloc_size(_n: usize) -> usize { unreachable!() }
        pub fn with_size(_n: usize, _alloc: &mut Alloc) -> Value { unreachable!() }
        pub unsafe fn get_slice_mut(&mut self, _at: usize, _n: usize) -> &mut [u8] { unreachable!() }
    }
}

pub mod host
{
    use crate::ast::{Expr, Function, Program};

    // A field-less enum of 16 bits: codegen.rs casts it with `as u16` and
    // value.rs transmutes into it.
    #[derive(Copy, Clone, PartialEq, Eq, Default, Debug)]
    #[repr(u16)]
    pub enum HostFnId { #[default] Never }

    pub const NUM_HOST_FNS: usize = 1;
    #[derive(Debug)]
    pub struct HostFn { pub name: &'static str }
    impl HostFn { pub fn num_params(&self) -> usize { unreachable!() } }
    impl HostFnId { pub fn get(self) -> &'static HostFn { unreachable!() } }
    pub fn get_host_const(_name: &str, _fun: &Function, _prog: &Program) -> Option<Expr> { unreachable!() }
}

pub mod libcore
{
    use crate::{ast::Program, host::HostFnId, value::Value};
    pub fn init_runtime(_prog: &mut Program) {}
    pub fn get_method(_val: Value, _name: &str) -> Option<HostFnId> { unreachable!() }
}
