//! Stands in for the crate `log`: says nothing.
#[macro_export]
macro_rules! error { ($($a:tt)*) => { { let _ = format!($($a)*); } } }
#[macro_export]
macro_rules! warn { ($($a:tt)*) => { { let _ = format!($($a)*); } } }
