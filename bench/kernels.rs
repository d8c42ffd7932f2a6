// The kernels as plain Rust loops: what `kernels.py` times beside the program's. A line a method,
// `rust NAME PICOSECONDS`, of the quickest of 200 rounds over 65,536 numbers.
use std::hint::black_box;
use std::time::Instant;

const N: usize = 65536;

fn report<T>(name: &str, mut round: impl FnMut(usize) -> T) {
    let mut least = u128::MAX;
    for i in 0..200 {
        let start = Instant::now();
        black_box(round(i));
        least = least.min(start.elapsed().as_nanos());
    }
    println!("rust {name} {}", least * 1000 / N as u128);
}

fn pointwise<A: Copy, B: Copy, C>(a: &[A], b: &[B], out: &mut [C], f: impl Fn(A, B) -> C) {
    for ((x, y), z) in a.iter().zip(b).zip(out) {
        *z = f(*x, *y);
    }
}

fn checked<A: Copy>(
    a: &[A],
    b: &[A],
    out: &mut [A],
    f: impl Fn(A, A) -> Option<A>,
) -> Option<usize> {
    for (i, ((x, y), z)) in a.iter().zip(b).zip(out).enumerate() {
        match f(*x, *y) {
            Some(value) => *z = value,
            None => return Some(i),
        }
    }
    None
}

fn floor_div(x: i64, y: i64) -> Option<i64> {
    let q = x.checked_div(y)?;
    Some(if x % y != 0 && (x < 0) != (y < 0) { q - 1 } else { q })
}

fn floor_rem(x: i64, y: i64) -> Option<i64> {
    let r = x.checked_rem(y)?;
    Some(if r != 0 && (r < 0) != (y < 0) { r + y } else { r })
}

fn choose<A: Copy>(mask: &[u8], a: &[A], b: &[A], out: &mut [A]) {
    for (((m, x), y), z) in mask.iter().zip(a).zip(b).zip(out) {
        *z = if *m != 0 { *x } else { *y };
    }
}

fn first_least(xs: &[i64]) -> Option<usize> {
    let mut place = 0;
    let mut least = *xs.first()?;
    for (i, x) in xs.iter().enumerate() {
        if *x < least {
            place = i;
            least = *x;
        }
    }
    Some(place)
}

fn first_greatest(xs: &[i64]) -> Option<usize> {
    let mut place = 0;
    let mut greatest = *xs.first()?;
    for (i, x) in xs.iter().enumerate() {
        if *x > greatest {
            place = i;
            greatest = *x;
        }
    }
    Some(place)
}

fn prefix_sums(xs: &[u64], out: &mut [u64]) -> Option<usize> {
    out[0] = 0;
    let mut sum: u64 = 0;
    for (i, x) in xs.iter().enumerate() {
        sum = match sum.checked_add(*x) {
            Some(sum) => sum,
            None => return Some(i),
        };
        out[i + 1] = sum;
    }
    None
}

fn main() {
    let (mut a, mut b, mut mask) = (vec![], vec![], vec![]);
    let mut seed = 12345u64;
    for _ in 0..N {
        seed = seed.wrapping_mul(6364136223846793005).wrapping_add(1442695040888963407);
        a.push((seed >> 34) as i64);
        b.push((seed >> 44) as i64 + 1);
        mask.push((seed >> 63) as u8);
    }
    let stops: Vec<i64> = b.iter().map(|x| x + 1).collect();
    let nat_a: Vec<u64> = a.iter().map(|x| *x as u64 + 10000000).collect();
    let nat_b: Vec<u64> = b.iter().map(|x| *x as u64).collect();
    let (mut out, mut nat_out) = (vec![0i64; N], vec![0u64; N]);
    let (mut sums, mut flags) = (vec![0u64; N + 1], vec![0u8; N]);
    let (lo, hi, most) = (black_box(i64::MIN), black_box(i64::MAX), black_box(u64::MAX));

    report("first_out_of_order", |i| {
        let (starts, stops) = (&b[i % 8..], &stops[i % 8..]);
        let broken = |(start, stop): (&i64, &i64)| start != stop && (start > stop || *start < 0);
        starts.iter().zip(stops).position(broken)
    });
    report("first_outside", |i| b[i % 8..].iter().position(|x| *x < 0 || *x >= hi));
    report("greatest", |i| b[i % 8..].iter().max());
    report("first_greatest", |i| first_greatest(&b[i % 8..]));
    report("first_least", |i| first_least(&a[i % 8..]));
    report("count_true", |i| mask[i % 8..].iter().filter(|x| **x != 0).count());
    report("sum_i64", |i| a[i % 8..].iter().map(|x| *x as i128).sum::<i128>());
    report("sum_u64", |i| nat_a[i % 8..].iter().map(|x| *x as u128).sum::<u128>());
    report("prefix_sums", |_| prefix_sums(&nat_a, &mut sums));
    report("compare_i64_lt", |_| pointwise(&a, &b, black_box(&mut flags), |x, y| (x < y) as u8));
    report("compare_u64_lt", |_| {
        pointwise(&nat_a, &nat_b, black_box(&mut flags), |x, y| (x < y) as u8)
    });
    report("compare_mixed_lt", |_| {
        pointwise(&a, &nat_b, black_box(&mut flags), |x, y| (x < 0 || (x as u64) < y) as u8)
    });
    report("compare_i64_eq", |_| pointwise(&a, &b, black_box(&mut flags), |x, y| (x == y) as u8));
    report("compare_u64_eq", |_| {
        pointwise(&nat_a, &nat_b, black_box(&mut flags), |x, y| (x == y) as u8)
    });
    report("compare_mixed_eq", |_| {
        pointwise(&a, &nat_b, black_box(&mut flags), |x, y| (x >= 0 && x as u64 == y) as u8)
    });
    report("select_i64", |_| choose(&mask, &a, &b, black_box(&mut out)));
    report("select_u64", |_| choose(&mask, &nat_a, &nat_b, black_box(&mut nat_out)));
    let within = |z: i64| if z < lo || z > hi { None } else { Some(z) };
    let at_most = |z: u64| if z > most { None } else { Some(z) };
    report("add_i64", |_| {
        checked(&a, &b, &mut out, |x, y| x.checked_add(y).and_then(within))
    });
    report("add_u64", |_| {
        checked(&nat_a, &nat_b, &mut nat_out, |x, y| x.checked_add(y).and_then(at_most))
    });
    report("subtract_i64", |_| {
        checked(&a, &b, &mut out, |x, y| x.checked_sub(y).and_then(within))
    });
    report("subtract_u64", |_| {
        checked(&nat_a, &nat_b, &mut nat_out, |x, y| x.checked_sub(y).and_then(at_most))
    });
    report("multiply_i64", |_| {
        checked(&a, &b, &mut out, |x, y| x.checked_mul(y).and_then(within))
    });
    report("multiply_u64", |_| {
        checked(&nat_a, &nat_b, &mut nat_out, |x, y| x.checked_mul(y).and_then(at_most))
    });
    report("floor_div_i64", |_| {
        checked(&a, &b, &mut out, |x, y| floor_div(x, y).and_then(within))
    });
    report("floor_div_u64", |_| {
        checked(&nat_a, &nat_b, &mut nat_out, |x, y| x.checked_div(y).and_then(at_most))
    });
    report("rem_i64", |_| {
        checked(&a, &b, &mut out, |x, y| floor_rem(x, y).and_then(within))
    });
    report("rem_u64", |_| {
        checked(&nat_a, &nat_b, &mut nat_out, |x, y| x.checked_rem(y).and_then(at_most))
    });
}
