//! The same algorithms in Rust, for bench.c: fdlibm's logarithm and exponential as oracle/shim/fm.rs has them, and the library's root.
#[path = "../../oracle/shim/fm.rs"]
#[allow(dead_code)] // its root is the hardware's
mod fm;
mod root;

#[no_mangle]
pub extern "C" fn same_log(x: f64) -> f64 {
    fm::ln(x)
}

#[no_mangle]
pub extern "C" fn same_exp(x: f64) -> f64 {
    fm::exp(x)
}

#[no_mangle]
pub extern "C" fn same_root(x: f64) -> f64 {
    root::root(x)
}
