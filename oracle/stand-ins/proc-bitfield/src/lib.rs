//! Stand-in for `proc_bitfield`: the part of `bitfield!` that the message types use, without a parser library.
//!
//! For each field there is a getter `name` and a setter `with_name`. A field is declared as
//! `pub name: raw [options] @ low..=high`, or `@ bit`; the options are `Type`, `get Type`, `set Type`, `try_get Type`.

use std::iter::Peekable;

use proc_macro::token_stream::IntoIter;
use proc_macro::{Delimiter, Group, TokenStream, TokenTree};

type Tokens = Peekable<IntoIter>;

/// Define a structure over one number, with accessors for its bit fields.
#[proc_macro]
pub fn bitfield(input: TokenStream) -> TokenStream {
    let mut tokens = input.into_iter().peekable();
    let attributes = attributes(&mut tokens);
    expect(&mut tokens, "pub");
    expect(&mut tokens, "struct");
    let name = next(&mut tokens).to_string();
    let storage = last_token(&group(&mut tokens, Delimiter::Parenthesis));
    // The traits named after the colon are the same three everywhere, and are all written below.
    let body = loop {
        if let TokenTree::Group(body) = next(&mut tokens) {
            break body;
        }
    };
    let fields = fields(&body, &storage);
    let code = format!(
        "{attributes} pub struct {name}(pub {storage});
        impl {name} {{ {fields} }}
        impl ::core::fmt::Debug for {name} {{
            fn fmt(&self, f: &mut ::core::fmt::Formatter<'_>) -> ::core::fmt::Result {{
                write!(f, \"{name}({{:#x}})\", self.0)
            }}
        }}
        impl From<{storage}> for {name} {{ fn from(raw: {storage}) -> Self {{ Self(raw) }} }}
        impl From<{name}> for {storage} {{ fn from(value: {name}) -> Self {{ value.0 }} }}"
    );
    code.parse().expect("generated code")
}

/// The accessors of all fields.
fn fields(body: &Group, storage: &str) -> String {
    let mut tokens = body.stream().into_iter().peekable();
    let mut code = String::new();
    while tokens.peek().is_some() {
        code += &field(&mut tokens, storage);
    }
    code
}

/// The accessors of one field, read up to and with its comma.
fn field(tokens: &mut Tokens, storage: &str) -> String {
    let attributes = attributes(tokens);
    expect(tokens, "pub");
    let name = next(tokens).to_string();
    expect(tokens, ":");
    let raw = next(tokens).to_string();
    let options = match tokens.peek() {
        Some(TokenTree::Group(_)) => options(&group(tokens, Delimiter::Bracket)),
        _ => Options::default(),
    };
    expect(tokens, "@");
    let low: u32 = next(tokens).to_string().parse().expect("a bit number");
    let mut high = low;
    for token in tokens.by_ref() {
        match token.to_string().as_str() {
            "," => break,
            "." | "=" => {}
            number => high = number.parse().expect("a bit number"),
        }
    }
    let mask = (1u64 << (high - low + 1)) - 1;
    accessors(&attributes, &name, &raw, &options, storage, low, mask)
}

fn accessors(attributes: &str, name: &str, raw: &str, options: &Options, storage: &str, low: u32, mask: u64) -> String {
    let bits = format!("((self.0 >> {low}) & {mask})");
    let value = if raw == "bool" { format!("({bits} != 0)") } else { format!("({bits} as {raw})") };
    let (output, result) = match (&options.get, &options.try_get) {
        (Some(ty), _) => (ty.clone(), format!("<{ty}>::from({value})")),
        (_, Some(ty)) => {
            (format!("Result<{ty}, <{ty} as TryFrom<{raw}>>::Error>"), format!("<{ty} as TryFrom<{raw}>>::try_from({value})"))
        }
        _ => (raw.to_string(), value),
    };
    let input = options.set.clone().unwrap_or_else(|| raw.to_string());
    format!(
        "{attributes} pub fn {name}(&self) -> {output} {{ {result} }}
        {attributes} pub fn with_{name}(self, value: {input}) -> Self {{
            let bits = (<{raw}>::from(value) as {storage}) & ({mask} as {storage});
            Self((self.0 & !(({mask} as {storage}) << {low})) | (bits << {low}))
        }}"
    )
}

/// The types in the brackets of a field.
#[derive(Default)]
struct Options {
    get: Option<String>,
    try_get: Option<String>,
    set: Option<String>,
}

fn options(brackets: &Group) -> Options {
    let mut options = Options::default();
    for option in brackets.stream().to_string().split(',') {
        let words: Vec<&str> = option.split_whitespace().collect();
        match words[..] {
            ["get", ty] => options.get = Some(ty.to_string()),
            ["try_get", ty] => options.try_get = Some(ty.to_string()),
            ["set", ty] => options.set = Some(ty.to_string()),
            [ty] => {
                options.get = Some(ty.to_string());
                options.set = Some(ty.to_string());
            }
            _ => panic!("unknown option `{option}`"),
        }
    }
    options
}

/// The attributes that stand next, documentation included.
fn attributes(tokens: &mut Tokens) -> String {
    let mut text = TokenStream::new();
    while matches!(tokens.peek(), Some(TokenTree::Punct(p)) if p.as_char() == '#') {
        text.extend(tokens.by_ref().take(2));
    }
    text.to_string()
}

fn next(tokens: &mut Tokens) -> TokenTree {
    tokens.next().expect("more tokens")
}

fn expect(tokens: &mut Tokens, text: &str) {
    let token = next(tokens).to_string();
    assert_eq!(token, text);
}

fn group(tokens: &mut Tokens, delimiter: Delimiter) -> Group {
    match next(tokens) {
        TokenTree::Group(group) if group.delimiter() == delimiter => group,
        token => panic!("unexpected `{token}`"),
    }
}

fn last_token(group: &Group) -> String {
    group.stream().into_iter().last().expect("a type").to_string()
}
