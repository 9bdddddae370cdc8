pub struct Buf<const N: usize> {
    data: [String; N],
}
impl<const N: usize> Buf<N> {
    pub fn get(&mut self, i: usize) -> &mut String {
        &mut self.data[i]
    }
    pub fn two(&mut self) {
        let a = self.get(0);
        let b = self.get(1);
        a.push_str(b);
    }
    pub fn take(&self) -> [String; N] {
        self.data
    }
    pub fn first(self) -> String {
        let [a, ..] = &self.data[..] else {
            panic!()
        };
        let d = self.data;
        drop(d);
        a.clone()
    }
    pub fn long<'a>(
        &'a self,
        o: &Buf<N>,
    ) -> &'a [String; N] {
        if N > 1 {
            &self.data
        } else {
            &o.data
        }
    }
}
pub fn sum<'a, const N: usize>(
    xs: [&'a mut u32; N],
    ys: &mut [&'a mut u32; N],
) -> u32 {
    for x in xs {
        *x += 1;
    }
    *xs[0] + *ys[0]
}
pub fn chunk<const N: usize>(v: &mut [u32]) -> [&mut u32; N]
where
    [(); N]: Sized,
{
    let mut i = 0;
    [(); N].map(|_| {
        i += 1;
        &mut v[i]
    })
}
pub fn local<const N: usize>() -> &'static [u8; N] {
    let x = [0; N];
    &x
}
