//! Stand-in for the crate `borsh`. Its two derives run in the module of the type, where private fields can be seen, so
//! they read and build a value exactly: `BorshSerialize` writes it as words, `BorshDeserialize` makes it of words.
mod expand;
mod parse;
use proc_macro::TokenStream;

#[proc_macro_derive(BorshSerialize, attributes(borsh))]
pub fn serialize(item: TokenStream) -> TokenStream {
    derive(item, expand::put)
}

#[proc_macro_derive(BorshDeserialize, attributes(borsh))]
pub fn deserialize(item: TokenStream) -> TokenStream {
    derive(item, expand::take)
}

fn derive(item: TokenStream, expand: fn(&parse::Item) -> String) -> TokenStream {
    let text = match parse::item(item) {
        Ok(item) => expand(&item),
        Err(reason) => format!("::core::compile_error!({reason:?});"),
    };
    text.parse().expect("the text of a derive is Rust")
}
