//! The C functions of a subject as a table of pointers, so that the product and the baseline are
//! called in the same way.

/// Makes the table from the C signatures, and the product's own table: the functions of libccfb.a,
/// if this build has the library and the subject's feature. A function returns the number of its
/// refusal, if no other type is given.
macro_rules! c_functions {
    (@returned) => { u8 };
    (@returned $returned:ty) => { $returned };
    (
        $table:ident, $feature:tt:
        $($field:ident = $symbol:ident($($argument:ty),*) $(-> $returned:ty)?;)*
    ) => {
        #[derive(Clone, Copy)]
        pub struct $table {
            $(
                pub $field: unsafe extern "C" fn($($argument),*)
                    -> $crate::ffi::c_functions!(@returned $($returned)?),
            )*
        }

        impl $table {
            #[cfg(all(product, feature = $feature))]
            pub fn product() -> Option<$table> {
                extern "C" {
                    $(
                        fn $symbol($(_: $argument),*)
                            -> $crate::ffi::c_functions!(@returned $($returned)?);
                    )*
                }
                Some($table { $($field: $symbol),* })
            }

            #[cfg(not(all(product, feature = $feature)))]
            pub fn product() -> Option<$table> {
                None
            }
        }
    };
}

pub(crate) use c_functions;
