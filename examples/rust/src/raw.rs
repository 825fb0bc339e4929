//! The six calls as C sees them: include/cart.h, name by name.

/// `struct cart_compiled`.
#[repr(C)]
#[derive(Clone, Copy, Debug, PartialEq, Eq)]
pub struct Compiled {
    /// 0, or the refusal's number.
    pub number: usize,
    /// The place of the refusal.
    pub place: usize,
    /// The table's states.
    pub states: usize,
    /// The table's bytes.
    pub size: usize,
}

/// `struct cart_table`.
#[repr(C)]
#[derive(Clone, Copy, Debug, PartialEq, Eq)]
pub struct Stepped {
    /// 0, or the refusal's number.
    pub number: usize,
    /// Always 0.
    pub place: usize,
    /// The next state.
    pub state: usize,
    /// One order for each module, zeros up to eight.
    pub orders: [u8; 8],
}

/// `struct cart_live`.
#[repr(C)]
#[derive(Clone, Copy, Debug, PartialEq, Eq)]
pub struct Lived {
    /// 0, or the refusal's number.
    pub number: usize,
    /// The place of the refusal.
    pub place: usize,
    /// One order for each module, zeros up to eight.
    pub orders: [u8; 8],
}

/// `cart_compile_basic` and `cart_compile_adaptive`.
pub type Compile = unsafe extern "C" fn(
    file: *const u8,
    file_size: usize,
    output: *mut u8,
    output_size: usize,
    work: *mut u8,
    work_size: usize,
) -> Compiled;

extern "C" {
    /// Compiles a file for Basic.
    pub fn cart_compile_basic(
        file: *const u8,
        file_size: usize,
        output: *mut u8,
        output_size: usize,
        work: *mut u8,
        work_size: usize,
    ) -> Compiled;

    /// Compiles a file for Adaptive.
    pub fn cart_compile_adaptive(
        file: *const u8,
        file_size: usize,
        output: *mut u8,
        output_size: usize,
        work: *mut u8,
        work_size: usize,
    ) -> Compiled;

    /// The start of a table.
    pub fn cart_table_start(table: *const u8, table_size: usize) -> Stepped;

    /// The step of a table.
    pub fn cart_table_step(
        table: *const u8,
        table_size: usize,
        state: usize,
        letter: u8,
    ) -> Stepped;

    /// The live start.
    pub fn cart_live_start(
        file: *const u8,
        file_size: usize,
        live: *mut u8,
        live_size: usize,
    ) -> Lived;

    /// The live step.
    pub fn cart_live_step(
        file: *const u8,
        file_size: usize,
        live: *mut u8,
        live_size: usize,
        letter: u8,
    ) -> Lived;
}
