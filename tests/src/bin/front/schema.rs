//! JSON Schema, as much of it as docs/tugcaphi.schema.json uses: `$ref` into
//! `$defs`, `oneOf`, `type`, `const`, `enum`, `properties`, `required`,
//! `additionalProperties: false`, `items`. Any other keyword is an error.

use super::json::Value;

const KEYWORDS: [&str; 13] = [
    "$schema",
    "$defs",
    "$ref",
    "title",
    "description",
    "oneOf",
    "type",
    "const",
    "enum",
    "properties",
    "required",
    "additionalProperties",
    "items",
];

pub struct Schema {
    root: Value,
}

impl Schema {
    pub fn new(root: Value) -> Schema {
        Schema { root }
    }

    /// Whether a value is as the schema says, or where it is not.
    pub fn check(&self, value: &Value) -> Result<(), String> {
        self.valid(&self.root, value, "answer")
    }

    fn valid(&self, schema: &Value, value: &Value, at: &str) -> Result<(), String> {
        let Value::Object(fields) = schema else {
            return Err(format!("{at}: the schema is no object"));
        };
        if let Some(odd) = fields.keys().find(|key| !KEYWORDS.contains(&key.as_str())) {
            return Err(format!("{at}: keyword {odd}"));
        }
        if let Some(reference) = schema.get("$ref").and_then(Value::text) {
            let name = reference.strip_prefix("#/$defs/").unwrap_or(reference);
            let defined = self.root.get("$defs").and_then(|all| all.get(name));
            let defined = defined.ok_or_else(|| format!("{at}: no {name} in $defs"))?;
            return self.valid(defined, value, at);
        }
        if let Some(choices) = schema.get("oneOf") {
            return self.one_of(choices.list(), value, at);
        }
        if let Some(only) = schema.get("const") {
            return is(only == value, at, &format!("not {only:?}: {value:?}"));
        }
        if let Some(some) = schema.get("enum") {
            return is(
                some.list().contains(value),
                at,
                &format!("not listed: {value:?}"),
            );
        }
        self.typed(schema, value, at)
    }

    fn one_of(&self, choices: &[Value], value: &Value, at: &str) -> Result<(), String> {
        let failures: Vec<String> = choices
            .iter()
            .filter_map(|choice| self.valid(choice, value, at).err())
            .collect();
        let valid = choices.len() - failures.len();
        is(
            valid == 1,
            at,
            &format!("{valid} of oneOf are met: {}", failures.join(" | ")),
        )
    }

    fn typed(&self, schema: &Value, value: &Value, at: &str) -> Result<(), String> {
        let wanted = schema.get("type").and_then(Value::text).unwrap_or("?");
        let given = match value {
            Value::Null => "null",
            Value::Bool(_) => "boolean",
            Value::Number(_) => "integer",
            Value::Text(_) => "string",
            Value::List(_) => "array",
            Value::Object(_) => "object",
        };
        is(
            wanted == given,
            at,
            &format!("{given} where {wanted} should be"),
        )?;
        match value {
            Value::Object(_) => self.object(schema, value, at),
            Value::List(items) => {
                let of = schema
                    .get("items")
                    .ok_or_else(|| format!("{at}: items of what"))?;
                let mut items = items.iter().enumerate();
                items.try_for_each(|(i, item)| self.valid(of, item, &format!("{at}[{i}]")))
            }
            _ => Ok(()),
        }
    }

    fn object(&self, schema: &Value, value: &Value, at: &str) -> Result<(), String> {
        let (Value::Object(fields), Some(Value::Object(properties))) =
            (value, schema.get("properties"))
        else {
            return Err(format!("{at}: an object of what"));
        };
        let closed = schema.get("additionalProperties") == Some(&Value::Bool(false));
        is(closed, at, "the schema lets other fields in")?;
        for required in schema.get("required").map_or(&[][..], Value::list) {
            let name = required.text().unwrap_or("?");
            is(fields.contains_key(name), at, &format!("{name} is missing"))?;
        }
        for (name, field) in fields {
            let of = properties.get(name);
            let of = of.ok_or_else(|| format!("{at}: {name} is not in the schema"))?;
            self.valid(of, field, &format!("{at}.{name}"))?;
        }
        Ok(())
    }
}

fn is(good: bool, at: &str, wrong: &str) -> Result<(), String> {
    match good {
        true => Ok(()),
        false => Err(format!("{at}: {wrong}")),
    }
}
