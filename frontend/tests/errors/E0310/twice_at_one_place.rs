// two errors begin at one place and have the same words
pub struct Store<K, V> {
    pub all: Vec<(K, V)>,
}
impl<K, V> Store<K, V> {
    fn inner(&mut self) -> Option<[&'static mut (K, V); 1]> {
        None
    }
    pub fn values(&mut self) -> Option<[&'static mut V; 1]> {
        self.inner().map(|all| all.map(|(_, value)| value))
    }
}
