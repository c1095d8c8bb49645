//! What revc's files use of three crates that are not at hand.

/// Stands for num_traits::AsPrimitive, the cast in `run_filter`.
pub trait AsPrimitive<T>: Copy {
    fn as_(self) -> T;
}

impl AsPrimitive<i32> for u16 {
    fn as_(self) -> i32 {
        self.into()
    }
}

impl AsPrimitive<i32> for i16 {
    fn as_(self) -> i32 {
        self.into()
    }
}

/// Stands for num_traits::FromPrimitive, which api/mod.rs imports and never calls.
pub trait FromPrimitive {}

/// Stands for lazy_static, with the one form that tbl.rs writes.
#[macro_export]
macro_rules! lazy_static {
    ($(pub(crate) static ref $name:ident: $t:ty = $init:expr;)*) => {
        $(pub(crate) static $name: std::sync::LazyLock<$t> = std::sync::LazyLock::new(|| $init);)*
    };
}

/// Stands for cfg_if, with the one form that api/frame.rs writes.
#[macro_export]
macro_rules! cfg_if {
    (if #[cfg($c:meta)] { $yes:item } else { $no:item }) => {
        #[cfg($c)]
        $yes
        #[cfg(not($c))]
        $no
    };
}
