//! stand-in, not the oracle: the crate enum_dispatch: hands its item back, so no dispatch is made (none is called).

extern crate proc_macro;

#[proc_macro_attribute]
pub fn enum_dispatch(_: proc_macro::TokenStream, item: proc_macro::TokenStream) -> proc_macro::TokenStream {
    item
}
