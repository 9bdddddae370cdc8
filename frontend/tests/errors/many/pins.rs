use std::future::Future;
use std::pin::Pin;
use std::task::{Context, Poll};
pub struct Join<A: Future, B: Future> {
    a: A,
    b: B,
    x: Option<A::Output>,
    y: Option<B::Output>,
}
impl<A: Future + Unpin, B: Future + Unpin> Future
    for Join<A, B>
where
    A::Output: Unpin,
    B::Output: Unpin,
{
    type Output = (A::Output, B::Output);
    fn poll(
        mut self: Pin<&mut Self>,
        cx: &mut Context<'_>,
    ) -> Poll<Self::Output> {
        let a = Pin::new(&mut self.a);
        let b = Pin::new(&mut self.b);
        if let Poll::Ready(x) = a.poll(cx) {
            self.x = Some(x);
        }
        if let Poll::Ready(y) = b.poll(cx) {
            self.y = Some(y);
        }
        match (self.x.take(), self.y.take()) {
            (Some(x), Some(y)) => Poll::Ready((x, y)),
            (x, y) => {
                self.x = x;
                self.y = y;
                Poll::Pending
            }
        }
    }
}
pub fn taken_twice(p: Pin<&mut String>) -> &mut String {
    let r = p.get_mut();
    r.push('a');
    p.get_mut()
}
pub fn lent_pin(p: &mut Pin<Box<String>>) {
    let r = p.as_mut();
    p.len();
    drop(r);
}
pub fn moved_pin(p: Pin<&mut Vec<u32>>) {
    let q = p;
    q.get_mut().push(1);
    p.get_mut().push(2);
}
pub fn part<'a>(
    p: Pin<&'a mut (String, u32)>,
) -> Pin<&'a mut String> {
    unsafe { p.map_unchecked_mut(|x| &mut x.0) }
}
pub fn of_a_local() -> Pin<&'static mut u32> {
    let x = std::pin::pin!(1);
    x
}
pub fn boxed_block() -> Pin<Box<dyn Future<Output = usize>>> {
    let s = String::new();
    Box::pin(async { s.len() })
}
pub fn boxed_forever(s: &str) -> Pin<Box<dyn Future<Output = usize>>> {
    Box::pin(async move { s.len() })
}
pub fn boxed_lent(
    s: &str,
) -> Pin<Box<dyn Future<Output = usize> + '_>> {
    Box::pin(async { s.len() })
}
pub async fn awaited_list(
    v: Vec<Pin<Box<dyn Future<Output = u32>>>>,
) -> u32 {
    let mut n = 0;
    for f in v {
        n += f.await;
    }
    n + v.len() as u32
}
pub async fn awaited_move(mut s: String) -> String {
    let r = &mut s;
    let f = async move {
        r.push('a');
    };
    s.push('b');
    f.await;
    s
}
pub async fn two_blocks(s: &mut String) -> &mut String {
    let f = async {
        s.push('a');
    };
    f.await;
    let g = async { &mut *s };
    g.await
}
