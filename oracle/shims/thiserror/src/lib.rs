//! Stands for the crate `thiserror`: the derive, for a plain struct whose message is one field and which has a field `source`.

use proc_macro::{TokenStream, TokenTree};

/// Derives `Display` from `#[error("{field}")]` and `Error` with the field `source`.
#[proc_macro_derive(Error, attributes(error, source))]
pub fn derive_error(input: TokenStream) -> TokenStream {
    let name = struct_name(&input);
    let field = message_field(&input);
    let code = format!(
        "impl ::std::fmt::Display for {name} {{
            fn fmt(&self, f: &mut ::std::fmt::Formatter<'_>) -> ::std::fmt::Result {{
                ::std::fmt::Display::fmt(&self.{field}, f)
            }}
        }}
        impl ::std::error::Error for {name} {{
            fn source(&self) -> Option<&(dyn ::std::error::Error + 'static)> {{
                self.source.as_ref().map(|e| &**e as &(dyn ::std::error::Error + 'static))
            }}
        }}"
    );
    code.parse().expect("generated code")
}

fn struct_name(input: &TokenStream) -> String {
    let mut tokens = input.clone().into_iter();
    tokens
        .find(|t| t.to_string() == "struct")
        .expect("a struct");
    tokens.next().expect("a name").to_string()
}

fn message_field(input: &TokenStream) -> String {
    for token in input.clone() {
        if let TokenTree::Group(group) = token {
            let text = group.to_string();
            if let Some(rest) = text.strip_prefix("[error(\"{") {
                return rest.split('}').next().expect("a field").to_string();
            }
        }
    }
    panic!("no #[error(\"{{field}}\")]")
}
