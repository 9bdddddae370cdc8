use std::collections::HashMap;
pub enum Json {
    Null,
    Text(String),
    List(Vec<Json>),
    Map(HashMap<String, Json>),
}
impl Json {
    pub fn get(&mut self, path: &[&str]) -> Option<&mut Json> {
        let mut here = self;
        for key in path {
            here = match here {
                Json::Map(map) => map.get_mut(*key)?,
                Json::List(list) => list.get_mut(0)?,
                _ => return None,
            };
        }
        Some(here)
    }
    pub fn make(&mut self, key: &str) -> &mut Json {
        match self {
            Json::Map(map) => {
                if let Some(found) = map.get_mut(key) {
                    return found;
                }
                map.insert(key.to_string(), Json::Null);
                map.get_mut(key).unwrap()
            }
            other => {
                *self = Json::Map(HashMap::new());
                other.make(key)
            }
        }
    }
    pub fn text(self) -> Result<String, Json> {
        match self {
            Json::Text(text) => Ok(text),
            Json::List(mut list) if list.len() == 1 => list.remove(0).text(),
            Json::List(list) => {
                drop(list);
                Err(self)
            }
            other => Err(other),
        }
    }
    pub fn first(&self) -> &str {
        match self {
            Json::Text(text) => text,
            Json::List(list) => match &list[..] {
                [] => "",
                [one] => one.first(),
                [one, rest @ ..] => {
                    let joined = one.first().to_string() + rest[0].first();
                    &joined
                }
            },
            Json::Map(map) => map.keys().next().map_or("", |key| key),
            Json::Null => "",
        }
    }
    pub fn longest<'j>(&'j self, other: &Json) -> &'j str {
        match (self, other) {
            (Json::Text(one), Json::Text(two)) if one.len() > two.len() => one,
            (Json::Text(_), Json::Text(two)) => two,
            _ => "",
        }
    }
    pub fn clear(&mut self) {
        match self {
            Json::Text(text) => {
                let part = &text[1..];
                text.clear();
                drop(part);
            }
            Json::List(list) => {
                for one in list.iter_mut() {
                    if let Json::Null = one {
                        list.clear();
                        break;
                    }
                }
            }
            Json::Map(map) => {
                for (key, value) in map.iter_mut() {
                    value.clear();
                    map.remove(key);
                }
            }
            Json::Null => *self = Json::List(vec![]),
        }
    }
    pub fn merge(&mut self, other: Json) {
        match (&mut *self, other) {
            (Json::List(one), Json::List(two)) => one.extend(two),
            (Json::Map(one), Json::Map(two)) => {
                for (key, value) in two {
                    one.insert(key, value);
                }
                self.clear();
                one.clear();
                drop(two);
            }
            (one, two) => *one = two,
        }
    }
    pub fn into_list(self) -> Vec<Json> {
        if let Json::List(list) = self {
            return list;
        }
        if let Json::Map(ref map) = self {
            let values = map.values();
            let list = self.into_values();
            drop(values);
            return list;
        }
        vec![self]
    }
    fn into_values(self) -> Vec<Json> {
        match self {
            Json::Map(map) => map.into_values().collect(),
            _ => vec![],
        }
    }
}
