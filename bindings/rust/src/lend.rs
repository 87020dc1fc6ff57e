//! The C functions as safe ones over slices. The crate's one `unsafe` block stands here.

/// Makes safe functions of C functions of `raw`, under the same names: a slice stands for each pointer and its length.
macro_rules! lend {
    ($(fn $name:ident($($parameters:tt)*) -> $answer:ty;)*) => {
        $(lend!(@ $name [$answer] [] [] $($parameters)*,);)*
    };
    (@ $name:ident [$answer:ty] [$($p:tt)*] [$($a:tt)*] $x:ident: &mut [$t:ty], $($rest:tt)*) => {
        lend!(@ $name [$answer] [$($p)* $x: &mut [$t],] [$($a)* $x.as_mut_ptr(), $x.len(),] $($rest)*);
    };
    (@ $name:ident [$answer:ty] [$($p:tt)*] [$($a:tt)*] $x:ident: &[$t:ty], $($rest:tt)*) => {
        lend!(@ $name [$answer] [$($p)* $x: &[$t],] [$($a)* $x.as_ptr(), $x.len(),] $($rest)*);
    };
    (@ $name:ident [$answer:ty] [$($p:tt)*] [$($a:tt)*] $x:ident: $t:ty, $($rest:tt)*) => {
        lend!(@ $name [$answer] [$($p)* $x: $t,] [$($a)* $x,] $($rest)*);
    };
    (@ $name:ident [$answer:ty] [$($p:tt)*] [$($a:tt)*]) => {
        #[allow(unsafe_code, clippy::too_many_arguments)]
        fn $name($($p)*) -> $answer {
            // SAFETY: each pointer is a slice's own, so aligned and not null, and its slice's length follows it. What is
            // written is borrowed mutably until the call is over, so nothing overlaps it and no other thread uses it.
            // Of slices that are only read, all but one are the settings, the state or the stream's own history. The
            // header asks for nothing else: every value is tested by the function itself.
            unsafe { crate::raw::$name($($a)*) }
        }
    };
}
