//! Stands for the crate derive_deref: a struct of one unnamed field is read through as that field.
//!
//! No rule speaks of it. The reverb's parameters hold the three times (R1.3) this way.

use proc_macro::{Delimiter, TokenStream, TokenTree};

#[proc_macro_derive(Deref)]
pub fn deref(item: TokenStream) -> TokenStream {
    let (name, field) = name_and_field(item);
    format!(
        "impl ::core::ops::Deref for {name} {{
             type Target = {field};
             fn deref(&self) -> &{field} {{ &self.0 }}
         }}"
    )
    .parse()
    .unwrap()
}

#[proc_macro_derive(DerefMut)]
pub fn deref_mut(item: TokenStream) -> TokenStream {
    let (name, field) = name_and_field(item);
    format!(
        "impl ::core::ops::DerefMut for {name} {{
             fn deref_mut(&mut self) -> &mut {field} {{ &mut self.0 }}
         }}"
    )
    .parse()
    .unwrap()
}

/// The name of `struct NAME(pub FIELD);` and the type of its field.
fn name_and_field(item: TokenStream) -> (String, String) {
    let mut words = item.into_iter().skip_while(|word| word.to_string() != "struct").skip(1);
    let name = words.next().expect("a struct has a name").to_string();
    let Some(TokenTree::Group(fields)) = words.next() else {
        panic!("{name} is no struct of unnamed fields");
    };
    assert!(fields.delimiter() == Delimiter::Parenthesis, "{name} has named fields");
    let field = fields.stream().into_iter().skip_while(|word| word.to_string() == "pub");
    (name, TokenStream::from_iter(field).to_string())
}
