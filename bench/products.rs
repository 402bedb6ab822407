// Products by the plain rule, compiled by rustc -O: what `pq_bench products` does, for comparison.
fn next(seed: u32) -> u32 {
    seed.wrapping_mul(1_103_515_245).wrapping_add(12_345) & 0x7fff_ffff
}

#[derive(Clone, Copy)]
struct Syllable {
    generator: u16,
    exponent: u8,
}

// The right sides of a presentation in one list, each by its first and last place.
struct Presentation {
    prime: u8,
    rank: usize,
    syllables: Vec<Syllable>,
    powers: Vec<(usize, usize)>,
    commutators: Vec<(usize, usize)>,
}

impl Presentation {
    fn power(&self, i: usize) -> &[Syllable] {
        let (from, to) = self.powers[i];
        &self.syllables[from..to]
    }

    fn commutator(&self, j: usize, i: usize) -> &[Syllable] {
        let (from, to) = self.commutators[j * (j - 1) / 2 + i];
        &self.syllables[from..to]
    }
}

// The unitriangular matrices: a generator for each place above the diagonal, ordered by diagonals.
fn unitriangular(size: usize, prime: u8) -> Presentation {
    let mut places = Vec::new();
    for diagonal in 1..size {
        for row in 0..size - diagonal {
            places.push((row, row + diagonal));
        }
    }
    let rank = places.len();
    let mut syllables = Vec::new();
    let mut commutators = Vec::new();
    for j in 0..rank {
        for i in 0..j {
            let (a, b) = places[j];
            let (c, d) = places[i];
            let from = syllables.len();
            let found = if b == c {
                Some(((a, d), 1))
            } else if d == a {
                Some(((c, b), prime - 1))
            } else {
                None
            };
            if let Some((place, exponent)) = found {
                let generator = places.iter().position(|x| *x == place).unwrap() as u16;
                syllables.push(Syllable { generator, exponent });
            }
            commutators.push((from, syllables.len()));
        }
    }
    Presentation {
        prime,
        rank,
        syllables,
        powers: vec![(0, 0); rank],
        commutators,
    }
}

fn push(pres: &Presentation, at: &mut [u8], i: usize) {
    let mut later = [0u8; 100];
    later[..pres.rank].copy_from_slice(at);
    at[i + 1..].fill(0);
    at[i] += 1;
    if at[i] == pres.prime {
        at[i] = 0;
        push_word(pres, at, pres.power(i));
    }
    for j in i + 1..pres.rank {
        for _ in 0..later[j] {
            push(pres, at, j);
            push_word(pres, at, pres.commutator(j, i));
        }
    }
}

fn push_word(pres: &Presentation, at: &mut [u8], word: &[Syllable]) {
    for syllable in word {
        for _ in 0..syllable.exponent {
            push(pres, at, usize::from(syllable.generator));
        }
    }
}

fn random(pres: &Presentation, mut seed: u32) -> (Vec<u8>, u32) {
    let exponents = (0..pres.rank)
        .map(|_| {
            seed = next(seed);
            ((seed >> 16) % u32::from(pres.prime)) as u8
        })
        .collect();
    (exponents, seed)
}

fn main() {
    let numbers: Vec<u32> = std::env::args().skip(1).map(|n| n.parse().unwrap()).collect();
    let pres = unitriangular(numbers[0] as usize, numbers[1] as u8);
    let (mut product, seed) = random(&pres, 1);
    let (factor, _) = random(&pres, seed);
    for _ in 0..numbers[2] {
        for (i, &exponent) in factor.iter().enumerate() {
            for _ in 0..exponent {
                push(&pres, &mut product, i);
            }
        }
    }
    println!("{}", product.iter().map(|&e| u32::from(e)).sum::<u32>());
}
