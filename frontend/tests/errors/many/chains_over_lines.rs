use std::collections::BTreeMap;
#[derive(Default, Clone)]
pub struct Config {
    names: Vec<String>,
    map: BTreeMap<String, Vec<usize>>,
}
impl Config {
    pub fn name(
        &mut self,
        name: &str,
    ) -> &mut Self {
        self.names
            .push(name.to_string());
        self
    }
    pub fn build(self) -> Config {
        self
    }
    pub fn first(&self) -> Option<&String> {
        self.names
            .iter()
            .filter(|name| {
                !name.is_empty()
            })
            .next()
    }
    pub fn grow(&mut self) {
        let first = self
            .names
            .iter()
            .map(|name| name.as_str())
            .filter(|name| {
                name.len() > 1
            })
            .next();
        self.names
            .push(
                String::from("a"),
            );
        match first {
            Some(name) => {
                println!("{}", name);
            }
            None => {}
        }
    }
    pub fn chain(&mut self) -> Config {
        let this = self
            .name("a")
            .name("b");
        self.name("c");
        this.name("d")
            .clone()
            .build()
    }
    pub fn temporary() -> usize {
        let config = Config::default()
            .name("a")
            .name("b");
        config
            .names
            .len()
    }
    pub fn moved(self) -> usize {
        let built = self
            .build();
        let length = self
            .names
            .iter()
            .map(|name| name.len())
            .sum::<usize>();
        built.names.len()
            + length
    }
    pub fn entry(&mut self, key: &str) -> &mut Vec<usize> {
        let found = self
            .map
            .entry(
                key.to_string(),
            )
            .or_insert_with(
                || {
                    vec![
                        self.names.len(),
                        self.map.len(),
                    ]
                },
            );
        found
    }
    pub fn inserted(&mut self) -> usize {
        let list = self
            .map
            .get_mut("a")
            .unwrap();
        let count = self
            .names
            .iter()
            .map(
                |name| {
                    self.map
                        .insert(
                            name.clone(),
                            vec![],
                        )
                        .map_or(0, |old| old.len())
                },
            )
            .count();
        list.push(
            count,
        );
        count
    }
    pub fn call(
        &mut self,
    ) {
        pair(
            &mut self.names,
            &self.map,
        );
        pair(
            &mut self.names,
            &{
                self.names
                    .clear();
                BTreeMap::new()
            },
        );
        both(
            &mut self.names,
            &self.names,
        );
        both(
            self.names
                .as_mut(),
            self.names
                .as_ref(),
        );
    }
}
fn pair(_: &mut Vec<String>, _: &BTreeMap<String, Vec<usize>>) {}
fn both(_: &mut Vec<String>, _: &Vec<String>) {}
