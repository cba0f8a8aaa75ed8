/// doc
export//
fn f(// none
)u32{return 7;}//!