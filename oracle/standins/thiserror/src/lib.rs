//! Stand-in for the derive macro: `Display` writes the `Debug` text, `Error` is empty, and a variant whose one field is
//! marked `#[from]` gets its `From`. Enums without type parameters only.

use proc_macro::{Delimiter, TokenStream, TokenTree};

#[proc_macro_derive(Error, attributes(error, source, from))]
pub fn derive_error(input: TokenStream) -> TokenStream {
    let tokens: Vec<TokenTree> = input.into_iter().collect();
    let at = tokens.iter().position(|t| matches!(t, TokenTree::Ident(i) if i.to_string() == "enum")).expect("an enum");
    let name = tokens[at + 1].to_string();
    let body: Vec<TokenTree> = match &tokens[at + 2] {
        TokenTree::Group(g) if g.delimiter() == Delimiter::Brace => g.stream().into_iter().collect(),
        other => panic!("expected the enum's body, found {other}"),
    };

    let mut out = format!(
        "impl ::core::fmt::Display for {name} {{
            fn fmt(&self, f: &mut ::core::fmt::Formatter<'_>) -> ::core::fmt::Result {{
                ::core::write!(f, \"{{self:?}}\")
            }}
        }}
        impl ::core::error::Error for {name} {{}}\n"
    );
    for pair in body.windows(2) {
        let (TokenTree::Ident(variant), TokenTree::Group(fields)) = (&pair[0], &pair[1]) else {
            continue;
        };
        if fields.delimiter() != Delimiter::Parenthesis {
            continue;
        }
        let inner: Vec<TokenTree> = fields.stream().into_iter().collect();
        let marked = matches!(&inner[..], [TokenTree::Punct(p), TokenTree::Group(g), ..]
            if p.as_char() == '#' && g.stream().to_string() == "from");
        if marked {
            let ty: TokenStream = inner[2..].iter().cloned().collect();
            out.push_str(&format!(
                "impl ::core::convert::From<{ty}> for {name} {{
                    fn from(value: {ty}) -> Self {{ {name}::{variant}(value) }}
                }}\n"
            ));
        }
    }
    out.parse().expect("own text parses")
}
