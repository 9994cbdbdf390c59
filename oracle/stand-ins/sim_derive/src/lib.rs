//! Stand-in for the derive `SerializableModel`: the struct's name as its
//! type, and its fields as a YAML value.

use proc_macro::{TokenStream, TokenTree};

#[proc_macro_derive(SerializableModel)]
pub fn serializable_model(item: TokenStream) -> TokenStream {
    let mut words = item.into_iter().filter_map(|token| match token {
        TokenTree::Ident(word) => Some(word.to_string()),
        _ => None,
    });
    words.find(|word| word == "struct").expect("a struct");
    let name = words.next().expect("a name");
    format!(
        "impl SerializableModel for {name} {{
            fn get_type(&self) -> &'static str {{ \"{name}\" }}
            fn serialize(&self) -> serde_yaml::Value {{
                serde_yaml::to_value(self).unwrap_or_default()
            }}
        }}"
    )
    .parse()
    .expect("an impl")
}
