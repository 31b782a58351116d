//! JSON Schema, as much of it as `schema/outline.json` uses. A word that is not known here is refused, so that none is
//! passed over.

use crate::parse::Json;

/// Words that say nothing about a value.
const SAYING: [&str; 5] = ["$schema", "$defs", "title", "description", "anyOf"];

/// What is wrong with a value; nothing if the schema allows it.
pub fn faults(schema: &Json, value: &Json) -> Vec<String> {
    Validator { root: schema }.faults(schema, value, "$")
}

struct Validator<'a> {
    root: &'a Json,
}

impl Validator<'_> {
    fn faults(&self, schema: &Json, value: &Json, at: &str) -> Vec<String> {
        let Json::Object(words) = schema else { panic!("a schema is an object") };
        let mut all: Vec<String> = Vec::new();
        for (word, says) in words {
            all.extend(self.word(schema, word, says, value, at));
        }
        if let Some(ways) = schema.get("anyOf") {
            let tried: Vec<Vec<String>> =
                ways.list().iter().map(|way| self.faults(way, value, at)).collect();
            if tried.iter().all(|faults| !faults.is_empty()) {
                let nearest = tried.into_iter().min_by_key(Vec::len).unwrap_or_default();
                all.push(format!("{at}: fits no way; the nearest: {}", nearest.join("; ")));
            }
        }
        all
    }

    fn word(&self, schema: &Json, word: &str, says: &Json, value: &Json, at: &str) -> Vec<String> {
        let fault = |wrong: bool| {
            let told = format!("{at}: {word} {says:?}, found {value:?}");
            if wrong {
                vec![told]
            } else {
                Vec::new()
            }
        };
        match word {
            "type" => fault(!has_type(says, value)),
            "const" => fault(says != value),
            "enum" => fault(!says.list().contains(value)),
            "minimum" => fault(value.number() < says.number() && value.number().is_some()),
            "maximum" => fault(value.number() > says.number()),
            "minItems" => fault(is_list(value) && (value.list().len() as i64) < number(says)),
            "maxItems" => fault(is_list(value) && value.list().len() as i64 > number(says)),
            "items" => {
                let items = value.list().iter().enumerate();
                items.flat_map(|(n, v)| self.faults(says, v, &format!("{at}[{n}]"))).collect()
            }
            "required" => {
                let missing = says.list().iter().filter_map(Json::text);
                let missing = missing.filter(|name| value.get(name).is_none());
                missing.map(|name| format!("{at}: {name} is missing")).collect()
            }
            "properties" => self.members(says, value, at),
            "additionalProperties" => {
                assert_eq!(*says, Json::Bool(false), "the one way that is used");
                let known = schema.get("properties").expect("properties are listed");
                let Json::Object(members) = value else { return Vec::new() };
                let more = members.iter().filter(|(name, _)| known.get(name).is_none());
                more.map(|(name, _)| format!("{at}: {name} is not known")).collect()
            }
            "$ref" => self.faults(self.meant(says), value, at),
            word => {
                assert!(SAYING.contains(&word), "{word} is not known to this test");
                Vec::new()
            }
        }
    }

    fn members(&self, properties: &Json, value: &Json, at: &str) -> Vec<String> {
        let Json::Object(members) = value else { return Vec::new() };
        let known = members.iter().filter_map(|(name, v)| Some((name, v, properties.get(name)?)));
        known
            .flat_map(|(name, v, schema)| self.faults(schema, v, &format!("{at}.{name}")))
            .collect()
    }

    /// The definition that a reference names.
    fn meant(&self, reference: &Json) -> &Json {
        let name = reference.text().and_then(|text| text.strip_prefix("#/$defs/"));
        let name = name.expect("references are to definitions");
        self.root.get("$defs").and_then(|all| all.get(name)).unwrap_or_else(|| panic!("{name}"))
    }
}

fn has_type(says: &Json, value: &Json) -> bool {
    let name = match value {
        Json::Null => "null",
        Json::Bool(_) => "boolean",
        Json::Number(_) => "integer",
        Json::Text(_) => "string",
        Json::List(_) => "array",
        Json::Object(_) => "object",
    };
    match says {
        Json::List(names) => names.iter().any(|n| n.text() == Some(name)),
        one => one.text() == Some(name),
    }
}

fn is_list(value: &Json) -> bool {
    matches!(value, Json::List(_))
}

fn number(value: &Json) -> i64 {
    value.number().expect("a number")
}
