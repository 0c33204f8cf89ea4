//! The library's root in Rust, step for step, so that the benchmark compares compilers and not algorithms.

fn by_digits(m: u64) -> u64 {
    let (mut q, mut rest, mut low) = (0u64, 0u64, m << 10);
    for _ in 0..53 {
        let next = rest * 4 + (low >> 62);
        let trial = q * 4 + 1;
        low <<= 2;
        if trial <= next {
            rest = next - trial;
            q = q * 2 + 1;
        } else {
            rest = next;
            q *= 2;
        }
    }
    q + (q < rest) as u64
}

fn closer(w: f64, y: f64) -> f64 {
    1.5 * y - w * y * (y * y)
}

fn guess(b: u64) -> u64 {
    let v = f64::from_bits(b);
    let w = 0.5 * v;
    let start = f64::from_bits(0x5fe6_eb50_c7b5_37a9 - b / 2);
    let y = closer(w, closer(w, closer(w, start)));
    let r = v * y;
    let below = r + ((v - r * r) * (0.5 * y) - 1.1102230246251565e-16);
    (below.to_bits() % 0x40_0000_0000_0000 + 0x20_0000_0000_0000) % 0x40_0000_0000_0000
}

fn excess(m: u64, q: u64) -> u64 {
    let (h, l) = (q >> 26, q & 0x3ff_ffff);
    let c = 2 * h * l;
    let high = h * h + (c >> 26);
    let low = ((c & 0x3ff_ffff) << 26) + l * l;
    let e = (m + 2).wrapping_sub(high);
    if e > 8 {
        return 0;
    }
    ((e + 2) << 52) - low
}

fn settled(m: u64, q: u64) -> u64 {
    let s = excess(m, q);
    if s + q > 1 << 54 && s <= (1 << 54) + 3 * q + 2 {
        return q + (s > (1 << 54) + q) as u64;
    }
    by_digits(m)
}

pub fn root(x: f64) -> f64 {
    if x > 0.0 {
        let b = x.to_bits();
        if b >= 0x7ff0_0000_0000_0000 {
            return x;
        }
        let (mut sig, mut ex) = ((1 << 52) + b % (1 << 52), (b >> 52) + 1023);
        if b < 1 << 52 {
            let s = b.leading_zeros() as u64 - 11;
            (sig, ex) = (b << s, 1024 - s);
        }
        let odd = ex % 2;
        let q = guess(0x3fe0_0000_0000_0000 + (odd << 52) + sig);
        return f64::from_bits(((ex / 2 - 1) << 52) + settled(sig << odd, q));
    }
    if x == 0.0 {
        return x;
    }
    f64::NAN
}
