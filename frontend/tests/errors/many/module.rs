// in a module and in an impl
pub mod inner {
    pub struct Bag {
        pub items: Vec<String>,
    }
    impl Bag {
        pub fn first(&mut self) -> &String {
            let first = &self.items[0];
            self.items.clear();
            first
        }
    }
    impl Iterator for Bag {
        type Item = String;
        fn next(&mut self) -> Option<String> {
            let last = self.items.last()?;
            self.items.truncate(1);
            Some(last.clone())
        }
    }
}
