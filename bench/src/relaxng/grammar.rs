//! A schema as a RELAX NG grammar: a named pattern for each type, its content a regular expression, which eliminating the states of the type's
//! automaton one by one gives.
use plain::Schema;
use std::ops::Range;

#[derive(Clone, PartialEq)]
enum Pattern {
    Nothing,
    Empty,
    Type(u8),
    Choice(Vec<Pattern>),
    Group(Vec<Pattern>),
    Many(Box<Pattern>),
}

use Pattern::{Choice, Empty, Group, Many, Nothing, Type};

fn or(a: Pattern, b: Pattern) -> Pattern {
    match (a, b) {
        (Nothing, x) | (x, Nothing) => x,
        (a, b) if a == b => a,
        (Choice(mut all), b) => {
            if !all.contains(&b) {
                all.push(b);
            }
            Choice(all)
        }
        (a, b) => Choice(vec![a, b]),
    }
}

fn then(a: Pattern, b: Pattern) -> Pattern {
    match (a, b) {
        (Nothing, _) | (_, Nothing) => Nothing,
        (Empty, x) | (x, Empty) => x,
        (Group(mut all), b) => {
            all.push(b);
            Group(all)
        }
        (a, b) => Group(vec![a, b]),
    }
}

fn many(a: Pattern) -> Pattern {
    match a {
        Nothing | Empty => Empty,
        a => Many(Box::new(a)),
    }
}

/// What leads from the start state to an accepting one.
fn content(schema: &Schema, a: usize, own: Range<usize>) -> Pattern {
    let states = schema.states[a] as usize;
    let end = states;
    let mut to = vec![vec![Nothing; states + 1]; states];
    for step in schema.steps_at(own) {
        let (p, q) = (usize::from(step.from), usize::from(step.to));
        to[p][q] = or(to[p][q].clone(), Type(step.by));
    }
    for p in schema.accepting[a].iter() {
        to[usize::from(p)][end] = Empty;
    }
    for out in (1..states).rev() {
        let around = many(to[out][out].clone());
        for p in 0..out {
            let into = then(to[p][out].clone(), around.clone());
            for q in (0..out).chain([end]) {
                let past = then(into.clone(), to[out][q].clone());
                to[p][q] = or(to[p][q].clone(), past);
            }
        }
    }
    then(many(to[0][0].clone()), to[0][end].clone())
}

fn write(p: &Pattern, out: &mut String) {
    let all = |name: &str, parts: &[Pattern], out: &mut String| {
        *out += &format!("<{name}>");
        parts.iter().for_each(|part| write(part, out));
        *out += &format!("</{name}>\n");
    };
    match p {
        Nothing => *out += "<notAllowed/>",
        Empty => *out += "<empty/>",
        Type(j) => *out += &format!("<ref name=\"t{j}\"/>"),
        Choice(parts) => all("choice", parts, out),
        Group(parts) => all("group", parts, out),
        Many(part) => all("zeroOrMore", std::slice::from_ref(part), out),
    }
}

pub fn grammar(schema: &Schema) -> String {
    let mut out = "<grammar xmlns=\"http://relaxng.org/ns/structure/1.0\">\n<start>".to_string();
    let roots = schema.root_types().iter().map(|&root| Type(root));
    write(&roots.fold(Nothing, or), &mut out);
    out += "</start>\n";
    for (a, own) in schema.blocks() {
        out += &format!(
            "<define name=\"t{a}\"><element name=\"e{}\">",
            schema.tag[a]
        );
        write(&content(schema, a, own), &mut out);
        out += "</element></define>\n";
    }
    out + "</grammar>\n"
}
