//! The text of the two implementations. Every value of a type takes the same number of words: an enum writes the number
//! of its variant first and fills up with zeros to the widest.
use crate::parse::{Field, Item, Shape};

pub fn put(item: &Item) -> String {
    let counts: Vec<String> = item.shapes.iter().map(count).collect();
    let first = usize::from(item.is_enum);
    let arms: String = item.shapes.iter().enumerate().map(|(i, s)| put_arm(i, s, item)).collect();
    format!(
        "impl{} ::words::Put for {} {{
            const COUNT: usize = {first} + ::words::most(&[{}]);
            fn put(&self, out: &mut Vec<u64>) {{
                let end = out.len() + Self::COUNT;
                match self {{ {arms} }}
                out.resize(end, 0);
            }}
        }}",
        declared(item),
        applied(item),
        counts.join(", "),
    )
}

fn put_arm(index: usize, shape: &Shape, item: &Item) -> String {
    let names = |prefix: &str| -> String {
        let name = |(i, f): (usize, &Field)| format!("{}: {prefix}{i}, ", f.name);
        kept(shape).map(name).collect()
    };
    let mark = if item.is_enum { format!("out.push({index});") } else { String::new() };
    let puts: String = kept(shape).map(|(i, _)| format!("::words::Put::put(f{i}, out);")).collect();
    format!("{} {{ {} .. }} => {{ {mark} {puts} }}\n", shape.path, names("f"))
}

pub fn take(item: &Item) -> String {
    let value = if item.is_enum {
        let arm = |(i, s): (usize, &Shape)| format!("{i} => {},\n", made(s));
        let arms: String = item.shapes.iter().enumerate().map(arm).collect();
        format!("match from.word() {{ {arms} n => panic!(\"{} has no variant {{n}}\") }}", item.name)
    } else {
        item.shapes.iter().map(made).collect()
    };
    let init = item.init.as_ref().map_or(String::new(), |call| format!("value.{call}();"));
    format!(
        "impl{} ::words::Take for {} {{
            fn take(from: &mut ::words::Reader) -> Self {{
                let end = from.at() + <Self as ::words::Put>::COUNT;
                #[allow(unused_mut)]
                let mut value = {value};
                {init}
                from.seek(end);
                value
            }}
        }}",
        declared(item),
        applied(item),
    )
}

fn made(shape: &Shape) -> String {
    let field = |f: &Field| {
        let value = if f.skip { "Default::default()" } else { "::words::Take::take(from)" };
        format!("{}: {value}, ", f.name)
    };
    let fields: String = shape.fields.iter().map(field).collect();
    format!("{} {{ {fields} }}", shape.path)
}

fn count(shape: &Shape) -> String {
    let one = |(_, f): (usize, &Field)| format!(" + <{} as ::words::Put>::COUNT", f.kind);
    let fields: String = kept(shape).map(one).collect();
    format!("0{fields}")
}

fn kept(shape: &Shape) -> impl Iterator<Item = (usize, &Field)> {
    shape.fields.iter().enumerate().filter(|(_, f)| !f.skip)
}

fn declared(item: &Item) -> String {
    item.parameter.as_ref().map_or(String::new(), |(declared, _)| format!("<{declared}>"))
}

fn applied(item: &Item) -> String {
    let name = &item.name;
    item.parameter.as_ref().map_or(name.clone(), |(_, p)| format!("{name}<{p}>"))
}
