// The kernel of rows, compiled by rustc -O: what `pq_bench rows` does, for comparison.
use std::arch::x86_64::{
    __m128i, _mm_add_epi8, _mm_loadu_si128, _mm_min_epu8, _mm_mullo_epi16, _mm_packus_epi16,
    _mm_set1_epi8, _mm_set1_epi16, _mm_setr_epi16, _mm_shuffle_epi8, _mm_storeu_si128, _mm_sub_epi8,
};

fn next(seed: u32) -> u32 {
    seed.wrapping_mul(1_103_515_245).wrapping_add(12_345) & 0x7fff_ffff
}

fn filled(width: usize, first: u32) -> Vec<u8> {
    let mut seed = first;
    (0..width)
        .map(|_| {
            seed = next(seed);
            ((seed >> 16) % 7) as u8
        })
        .collect()
}

fn less(n: u8, m: u8) -> u8 {
    n.min(n.wrapping_sub(m))
}

fn remainder(n: u8, p: u8) -> u8 {
    less(less(less(less(n, 8 * p), 4 * p), 2 * p), p)
}

#[inline(always)]
unsafe fn load(xs: &[u8], i: usize) -> __m128i {
    unsafe { _mm_loadu_si128(xs[i..i + 16].as_ptr().cast()) }
}

#[inline(always)]
unsafe fn store(xs: &mut [u8], i: usize, lanes: __m128i) {
    unsafe { _mm_storeu_si128(xs[i..i + 16].as_mut_ptr().cast(), lanes) }
}

#[inline(always)]
unsafe fn remainders(xs: __m128i, m: u8) -> __m128i {
    unsafe { _mm_min_epu8(xs, _mm_sub_epi8(xs, _mm_set1_epi8(m as i8))) }
}

#[inline(always)]
unsafe fn multiples(p: u8, k: u8) -> __m128i {
    unsafe {
        let k = _mm_set1_epi16(i16::from(k));
        let low = _mm_mullo_epi16(_mm_setr_epi16(0, 1, 2, 3, 4, 5, 6, 7), k);
        let high = _mm_mullo_epi16(_mm_setr_epi16(8, 9, 10, 11, 12, 13, 14, 15), k);
        let products = remainders(_mm_packus_epi16(low, high), 8 * p);
        remainders(remainders(remainders(products, 4 * p), 2 * p), p)
    }
}

#[target_feature(enable = "ssse3")]
unsafe fn add_scaled_by_lanes(p: u8, xs: &mut [u8], ys: &[u8], k: u8) {
    unsafe {
        let table = multiples(p, k);
        let sums = |xs: &[u8], i| {
            let products = _mm_shuffle_epi8(table, load(ys, i));
            remainders(_mm_add_epi8(load(xs, i), products), p)
        };
        let last = xs.len() - 16;
        let last_sums = sums(xs, last);
        let mut i = 0;
        while i < last {
            let lanes = sums(xs, i);
            store(xs, i, lanes);
            i += 16;
        }
        store(xs, last, last_sums);
    }
}

fn add_scaled(p: u8, xs: &mut [u8], ys: &[u8], k: u8) {
    assert_eq!(xs.len(), ys.len());
    if xs.len() >= 16 && is_x86_feature_detected!("ssse3") {
        unsafe { add_scaled_by_lanes(p, xs, ys, k) }
    } else {
        for (x, y) in xs.iter_mut().zip(ys) {
            *x = remainder(*x + k * *y, p);
        }
    }
}

fn main() {
    let count: u32 = std::env::args().nth(1).unwrap().parse().unwrap();
    let width: usize = std::env::args().nth(2).map_or(5_082, |w| w.parse().unwrap());
    let other = filled(width, 1);
    let mut row = filled(width, 2);
    for n in 0..count {
        add_scaled(std::hint::black_box(7), &mut row, &other, 1 + (n % 6) as u8);
    }
    println!("{}", row.iter().map(|&x| u32::from(x)).sum::<u32>());
}
