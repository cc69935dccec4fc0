//! The little of Rust's grammar that the derived types need: structs and enums of plain types, one constant parameter.
use proc_macro::{Delimiter, Group, TokenStream, TokenTree};
use std::iter::Peekable;

type Tokens = Peekable<proc_macro::token_stream::IntoIter>;

pub struct Field {
    /// The name, or the place in a tuple.
    pub name: String,
    pub kind: String,
    pub skip: bool,
}

/// A struct is a single shape whose path is its name; an enum has one for each variant.
pub struct Shape {
    pub path: String,
    pub fields: Vec<Field>,
}

pub struct Item {
    pub name: String,
    /// The parameter as it is declared, and its name.
    pub parameter: Option<(String, String)>,
    pub init: Option<String>,
    pub is_enum: bool,
    pub shapes: Vec<Shape>,
}

/// What the `borsh` attributes before an item or a field ask for.
#[derive(Default)]
struct Asked {
    skip: bool,
    init: Option<String>,
}

pub fn item(stream: TokenStream) -> Result<Item, String> {
    let mut tokens = stream.into_iter().peekable();
    let asked = attributes(&mut tokens);
    visibility(&mut tokens);
    let is_enum = match word(&mut tokens)?.as_str() {
        "struct" => false,
        "enum" => true,
        other => return Err(format!("neither a struct nor an enum: {other}")),
    };
    let name = word(&mut tokens)?;
    let parameter = parameter(&mut tokens)?;
    let body = match tokens.next() {
        Some(TokenTree::Group(body)) => body,
        _ => return Err(format!("{name} has no fields")),
    };
    let shapes =
        if is_enum { variants(&name, body)? } else { vec![Shape { path: name.clone(), fields: fields(body)? }] };
    Ok(Item { name, parameter, init: asked.init, is_enum, shapes })
}

fn variants(name: &str, body: Group) -> Result<Vec<Shape>, String> {
    let mut tokens = body.stream().into_iter().peekable();
    let mut shapes = Vec::new();
    loop {
        attributes(&mut tokens);
        if tokens.peek().is_none() {
            return Ok(shapes);
        }
        let path = format!("{name}::{}", word(&mut tokens)?);
        let fields = match tokens.peek() {
            Some(TokenTree::Group(body)) => fields(body.clone())?,
            _ => Vec::new(),
        };
        shapes.push(Shape { path, fields });
        until_comma(&mut tokens);
    }
}

fn fields(body: Group) -> Result<Vec<Field>, String> {
    let named = body.delimiter() == Delimiter::Brace;
    let mut tokens = body.stream().into_iter().peekable();
    let mut fields = Vec::new();
    loop {
        let asked = attributes(&mut tokens);
        if tokens.peek().is_none() {
            return Ok(fields);
        }
        visibility(&mut tokens);
        let name = if named {
            let name = word(&mut tokens)?;
            tokens.next();
            name
        } else {
            fields.len().to_string()
        };
        fields.push(Field { name, kind: until_comma(&mut tokens), skip: asked.skip });
    }
}

fn attributes(tokens: &mut Tokens) -> Asked {
    let mut asked = Asked::default();
    while is_punct(tokens, '#') {
        tokens.next();
        let text = tokens.next().map(|t| t.to_string()).unwrap_or_default();
        let text: String = text.split_whitespace().collect();
        if text == "[borsh(skip)]" {
            asked.skip = true;
        }
        if let Some(init) = text.strip_prefix("[borsh(init=") {
            asked.init = init.strip_suffix(")]").map(str::to_string);
        }
    }
    asked
}

fn visibility(tokens: &mut Tokens) {
    if matches!(tokens.peek(), Some(TokenTree::Ident(word)) if word.to_string() == "pub") {
        tokens.next();
        if matches!(tokens.peek(), Some(TokenTree::Group(_))) {
            tokens.next();
        }
    }
}

fn parameter(tokens: &mut Tokens) -> Result<Option<(String, String)>, String> {
    if !is_punct(tokens, '<') {
        return Ok(None);
    }
    tokens.next();
    let mut text = String::new();
    while !is_punct(tokens, '>') {
        match tokens.next() {
            Some(token) => text.push_str(&format!("{token} ")),
            None => return Err("a list of parameters without an end".to_string()),
        }
    }
    tokens.next();
    match text.split_whitespace().collect::<Vec<_>>().as_slice() {
        ["const", name, ":", _] => Ok(Some((text.clone(), name.to_string()))),
        _ => Err(format!("not one constant parameter: {text}")),
    }
}

fn word(tokens: &mut Tokens) -> Result<String, String> {
    match tokens.next() {
        Some(TokenTree::Ident(word)) => Ok(word.to_string()),
        other => Err(format!("a name was expected: {other:?}")),
    }
}

fn is_punct(tokens: &mut Tokens, mark: char) -> bool {
    matches!(tokens.peek(), Some(TokenTree::Punct(p)) if p.as_char() == mark)
}

/// The tokens before the next comma outside of `<` and `>`, as text; the comma goes too.
fn until_comma(tokens: &mut Tokens) -> String {
    let mut depth = 0;
    let mut taken = TokenStream::new();
    for token in tokens.by_ref() {
        if let TokenTree::Punct(p) = &token {
            match p.as_char() {
                '<' => depth += 1,
                '>' => depth -= 1,
                ',' if depth == 0 => break,
                _ => {}
            }
        }
        taken.extend([token]);
    }
    taken.to_string()
}
