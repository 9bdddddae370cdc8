use std::collections::HashMap;
use std::future::Future;
use std::sync::Arc;
pub struct Client {
    cache: HashMap<String, String>,
    log: Vec<String>,
}
async fn fetch(url: &str) -> String {
    url.to_string()
}
impl Client {
    pub async fn get(&mut self, url: &str) -> &str {
        if let Some(found) = self.cache.get(url) {
            return found;
        }
        let body = fetch(url).await;
        self.cache.insert(url.to_string(), body);
        &self.cache[url]
    }
    pub async fn all(&mut self, urls: &[String]) -> Vec<&str> {
        let mut found = vec![];
        for url in urls {
            found.push(self.get(url).await);
        }
        found
    }
    pub async fn logged(&mut self, url: &str) -> String {
        let log = &mut self.log;
        let body = self.get(url).await;
        log.push(body.to_string());
        body.to_string()
    }
    pub fn later(&self, url: String) -> impl Future<Output = usize> {
        async move { self.cache[&url].len() }
    }
    pub fn spawned(self: Arc<Self>) -> impl Future<Output = usize> + 'static {
        let this = &self;
        async move { this.log.len() }
    }
    pub async fn take(self) -> Vec<String> {
        let log = self.log;
        fetch("a").await;
        self.log.len();
        log
    }
}
pub async fn joined(mut client: Client) -> usize {
    let one = client.get("a");
    let two = client.get("b");
    one.await.len() + two.await.len()
}
pub async fn closures(mut text: String) -> String {
    let mut add = async |more: &str| {
        text.push_str(more);
    };
    add("a").await;
    text.push('b');
    add("c").await;
    text
}
pub async fn moved(text: String) -> usize {
    let first = async move { text.len() };
    let second = async move { text.len() };
    first.await + second.await
}
pub async fn borrowed() -> impl Future<Output = usize> {
    let text = String::new();
    async { text.len() }
}
pub fn boxed<'a>(text: &'a str) -> Box<dyn Future<Output = usize>> {
    Box::new(async move { text.len() })
}
pub async fn looped(texts: Vec<String>) -> usize {
    let mut all = vec![];
    for text in texts {
        all.push(fetch(&text));
    }
    let mut count = 0;
    for one in all {
        count += one.await.len();
    }
    count
}
pub async fn matched(mut text: Option<String>) -> usize {
    match &mut text {
        Some(own) => {
            text = None;
            fetch(own).await.len()
        }
        None => 0,
    }
}
