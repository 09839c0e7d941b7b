//! The queries of the table, each by hand. Their texts and forms are those of `bench/cases.py`.

use crate::lines::Lines;
use regex::Regex;
use serde_json::Value;

/// What is done with a document.
pub enum Query {
    /// The nodes that the query selects are printed.
    Prints(Printing),
    /// The line is printed as it came, where the query selects a node.
    Keeps(fn(&Value) -> bool),
}

type Printing = Box<dyn Fn(&Value, &mut Lines) + Send + Sync>;

/// The query of this text in this form, where it is written by hand.
pub fn query(form: &str, text: &str) -> Option<Query> {
    Some(match (form, text) {
        ("nodes", _) => Query::Prints(nodes(text)?),
        ("values", "$..*") => Query::Prints(Box::new(values_below)),
        ("values", "$.items[*].price") => Query::Prints(Box::new(prices)),
        ("lines", "$[?$.level==\"error\"]") => Query::Keeps(|value| value["level"] == "error"),
        _ => return None,
    })
}

fn nodes(text: &str) -> Option<Printing> {
    Some(match text {
        "$" => Box::new(|value, lines| lines.node(value)),
        "$.id" => Box::new(|value, lines| print_member(value, "id", lines)),
        "$.duration" => Box::new(|value, lines| print_member(value, "duration", lines)),
        "$.user.id" => Box::new(|value, lines| {
            at_member(value, "user", lines, |user, lines| {
                print_member(user, "id", lines)
            })
        }),
        "$.trace.spans[1].attrs.host" => Box::new(host_of_second_span),
        "$[*]" => Box::new(|value, lines| {
            at_children(value, lines, |_| true, |child, lines| lines.node(child))
        }),
        "$..*" => Box::new(|value, lines| {
            descend(value, lines, &mut |value, lines| {
                at_children(value, lines, |_| true, |child, lines| lines.node(child))
            })
        }),
        "$..id" => Box::new(|value, lines| {
            descend(value, lines, &mut |value, lines| {
                print_member(value, "id", lines)
            })
        }),
        "$[?@.v>990000].k" => Box::new(|value, lines| {
            at_children(
                value,
                lines,
                |child| above(member(child, "v"), 990000),
                |child, lines| print_member(child, "k", lines),
            )
        }),
        "$.items[*].price" => of_items("price", |_| true),
        "$.items[?@.price>5000].name" => {
            of_items("name", |item| above(member(item, "price"), 5000))
        }
        "$.items[?@.price<10]" => Box::new(|value, lines| {
            at_member(value, "items", lines, |items, lines| {
                let test = |item: &Value| below(member(item, "price"), 10.0);
                at_children(items, lines, test, |item, lines| lines.node(item))
            })
        }),
        "$.items[?@.recalled].id" => of_items("id", |item| member(item, "recalled").is_some()),
        "$.items[?match(@.sku,'[A-M][A-Z]-[0-9]{3}[02468]')].qty" => {
            let pattern = Regex::new(r"\A(?:[A-M][A-Z]-[0-9]{3}[02468])\z").expect("a pattern");
            of_items("qty", move |item| fits(member(item, "sku"), &pattern))
        }
        "$.paragraphs[?search(@,'(error|timeout|refused) [0-9]{3}')]" => {
            let pattern = Regex::new(r"(?:error|timeout|refused) [0-9]{3}").expect("a pattern");
            Box::new(move |value, lines| {
                at_member(value, "paragraphs", lines, |value, lines| {
                    let test = |child: &Value| fits(Some(child), &pattern);
                    at_children(value, lines, test, |child, lines| lines.node(child))
                })
            })
        }
        _ => return None,
    })
}

/// `$.items[?TEST].NAME`
fn of_items(name: &'static str, test: impl Fn(&Value) -> bool + Send + Sync + 'static) -> Printing {
    Box::new(move |value, lines| {
        at_member(value, "items", lines, |items, lines| {
            at_children(items, lines, &test, |item, lines| {
                print_member(item, name, lines)
            })
        })
    })
}

fn host_of_second_span(value: &Value, lines: &mut Lines) {
    at_member(value, "trace", lines, |trace, lines| {
        at_member(trace, "spans", lines, |spans, lines| {
            if let Some(span) = spans.as_array().and_then(|spans| spans.get(1)) {
                lines.at_index(1, |lines| {
                    at_member(span, "attrs", lines, |attrs, lines| {
                        print_member(attrs, "host", lines)
                    })
                })
            }
        })
    })
}

fn member<'a>(value: &'a Value, name: &str) -> Option<&'a Value> {
    match value {
        Value::Object(members) => members.get(name),
        _ => None,
    }
}

fn at_member(value: &Value, name: &str, lines: &mut Lines, go: impl FnOnce(&Value, &mut Lines)) {
    if let Some(inner) = member(value, name) {
        lines.at_name(name, |lines| go(inner, lines));
    }
}

fn print_member(value: &Value, name: &str, lines: &mut Lines) {
    at_member(value, name, lines, |inner, lines| lines.node(inner));
}

/// Goes on at each child for which the test holds; the path of the others is never made.
fn at_children(
    value: &Value,
    lines: &mut Lines,
    test: impl Fn(&Value) -> bool,
    mut go: impl FnMut(&Value, &mut Lines),
) {
    match value {
        Value::Array(items) => {
            for (index, inner) in items.iter().enumerate().filter(|(_, inner)| test(inner)) {
                lines.at_index(index, |lines| go(inner, lines));
            }
        }
        Value::Object(members) => {
            for (name, inner) in members.iter().filter(|(_, inner)| test(inner)) {
                lines.at_name(name, |lines| go(inner, lines));
            }
        }
        _ => {}
    }
}

/// The value, and then each array and object inside it, each before what it holds.
fn descend(value: &Value, lines: &mut Lines, go: &mut dyn FnMut(&Value, &mut Lines)) {
    go(value, lines);
    let holds = |inner: &Value| inner.is_array() || inner.is_object();
    at_children(value, lines, holds, |inner, lines| {
        descend(inner, lines, go)
    });
}

/// The values of `$..*`
fn values_below(value: &Value, lines: &mut Lines) {
    for_children(value, |child| lines.value(child));
    for_children(value, |child| values_below(child, lines));
}

/// The values of `$.items[*].price`
fn prices(value: &Value, lines: &mut Lines) {
    if let Some(items) = member(value, "items") {
        for_children(items, |item| {
            if let Some(price) = member(item, "price") {
                lines.value(price)
            }
        })
    }
}

fn for_children(value: &Value, go: impl FnMut(&Value)) {
    match value {
        Value::Array(items) => items.iter().for_each(go),
        Value::Object(members) => members.values().for_each(go),
        _ => {}
    }
}

fn above(value: Option<&Value>, bound: i64) -> bool {
    match value {
        Some(Value::Number(number)) => match number.as_i64() {
            Some(number) => number > bound,
            None => number.is_u64(),
        },
        _ => false,
    }
}

fn below(value: Option<&Value>, bound: f64) -> bool {
    value
        .and_then(Value::as_f64)
        .map_or(false, |number| number < bound)
}

fn fits(value: Option<&Value>, pattern: &Regex) -> bool {
    value
        .and_then(Value::as_str)
        .map_or(false, |text| pattern.is_match(text))
}
