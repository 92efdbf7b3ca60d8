//! The macros that are given an allocator.

/// `vec![in alloc; ..]`: a `Result`.
macro_rules! rattle_vec {
    (in $alloc:expr; $item:expr; $count:expr) => {
        $crate::rattle_std::vec::Vec::from_elem($alloc, $item, $count)
    };
    (in $alloc:expr; $($item:expr),* $(,)?) => {
        $crate::rattle_std::vec::Vec::from_array($alloc, [$($item),*])
    };
}

/// `format!(in alloc; ..)`: a `Result`.
macro_rules! rattle_format {
    (in $alloc:expr; $($text:tt)*) => {{
        let mut made = $crate::rattle_std::string::String::new($alloc);
        made.write_fmt(format_args!($($text)*)).map(|()| made)
    }};
}

pub(crate) use {rattle_format, rattle_vec};
