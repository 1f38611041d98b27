// Writes the two years of the benchmark: 4,000 traders with random lists of up to 40 stands, and 4,000 traders whose exchange
// takes 2,000 rounds, since each pair first wants the stands of the pair before it.
use std::fs;

const TRADERS: usize = 4000;
const MOST_STANDS: usize = 40;

struct Random(u64);

impl Random {
    // xorshift64*, from a fixed seed, so that every run has the same years
    fn below(&mut self, bound: usize) -> usize {
        self.0 ^= self.0 >> 12;
        self.0 ^= self.0 << 25;
        self.0 ^= self.0 >> 27;
        ((self.0.wrapping_mul(0x2545_f491_4f6c_dd1d) >> 33) as usize) % bound
    }
}

fn random_lists() -> Vec<Vec<usize>> {
    let mut random = Random(2026);
    (0..TRADERS)
        .map(|own| {
            let count = random.below(MOST_STANDS + 1);
            let mut list: Vec<usize> = Vec::new();
            while list.len() < count {
                let stand = random.below(TRADERS);
                if stand != own && !list.contains(&stand) {
                    list.push(stand);
                }
            }
            list
        })
        .collect()
}

// Traders 2k and 2k + 1 want the stands of the pair before, and then each other's.
fn pairs_in_a_row() -> Vec<Vec<usize>> {
    (0..TRADERS)
        .map(|own| {
            let first = own & !1;
            let partner = own ^ 1;
            if first == 0 { vec![partner] } else { vec![first - 2, first - 1, partner] }
        })
        .collect()
}

fn encode(lists: &[Vec<usize>]) -> Vec<u8> {
    let mut bytes = (lists.len() as u16).to_le_bytes().to_vec();
    for list in lists {
        bytes.push(list.len() as u8);
        for stand in list {
            bytes.extend((*stand as u16).to_le_bytes());
        }
    }
    bytes
}

fn main() -> std::io::Result<()> {
    let folder = std::env::args().nth(1).expect("usage: make_years FOLDER");
    fs::write(format!("{folder}/random.lists"), encode(&random_lists()))?;
    fs::write(format!("{folder}/pairs.lists"), encode(&pairs_in_a_row()))
}
