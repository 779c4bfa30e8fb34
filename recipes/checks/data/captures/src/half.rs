fn half<T: Copy + PartialOrd + std::ops::Div<Output = T> + From<u8>>(x: T) -> T {
    if x > T::from(1) { x / T::from(2) } else { x }
}

fn main() {
    let never = |x: i32| {
        x * 2
    };
    if half(3) > 5 || half(0.5) > 9.0 {
        println!("{}", never(1));
    }
}
