// The exchange in plain Rust and linear time, to measure the proved program against: it takes rings out one at a time with the
// path kept, and a ring's round is one more than the highest round among the holders of its members' dearer stands.
use std::fmt::Write as _;
use std::io::Write as _;

const MOST_SHOWN: usize = 20;

// The number and the place of a refusal.
type Refusal = (u8, usize);

fn number_at(bytes: &[u8], at: usize) -> Option<u16> {
    let part = bytes.get(at..at + 2)?;
    Some(u16::from_le_bytes([part[0], part[1]]))
}

fn read(bytes: &[u8]) -> Result<Vec<Vec<u16>>, Refusal> {
    let short = (1, bytes.len());
    let n = number_at(bytes, 0).ok_or(short)?;
    if n == 0 || n > 4000 {
        return Err((2, 0));
    }
    let mut seen = vec![0u16; n as usize];
    let mut lists = Vec::with_capacity(n as usize);
    let mut at = 2;
    for own in 0..n {
        let count = *bytes.get(at).ok_or(short)?;
        if count > 40 {
            return Err((3, at));
        }
        at += 1;
        let mut list = Vec::with_capacity(count as usize);
        for _ in 0..count {
            let stand = number_at(bytes, at).ok_or(short)?;
            if stand >= n || stand == own || seen[stand as usize] == own + 1 {
                return Err((4, at));
            }
            seen[stand as usize] = own + 1;
            list.push(stand);
            at += 2;
        }
        lists.push(list);
    }
    if at < bytes.len() {
        return Err((1, at));
    }
    Ok(lists)
}

// What each trader gets, and the round in which it goes out.
fn exchange(lists: &[Vec<u16>]) -> (Vec<usize>, Vec<usize>) {
    let n = lists.len();
    let (mut got, mut round) = (vec![0; n], vec![0; n]);
    let (mut out, mut place, mut on_path) = (vec![false; n], vec![0; n], vec![usize::MAX; n]);
    let mut path: Vec<usize> = Vec::new();
    for start in 0..n {
        if !out[start] {
            on_path[start] = 0;
            path.push(start);
        }
        while let Some(&top) = path.last() {
            let list = &lists[top];
            while place[top] < list.len() && out[list[place[top]] as usize] {
                place[top] += 1;
            }
            let next = list.get(place[top]).map_or(top, |stand| *stand as usize);
            got[top] = next;
            if on_path[next] == usize::MAX {
                on_path[next] = path.len();
                path.push(next);
                continue;
            }
            let from = on_path[next];
            let ring_round = path[from..]
                .iter()
                .flat_map(|member| lists[*member][..place[*member]].iter())
                .map(|stand| round[*stand as usize] + 1)
                .max()
                .unwrap_or(0);
            for member in path.drain(from..) {
                out[member] = true;
                round[member] = ring_round;
            }
        }
    }
    (got, round)
}

fn report(got: &[usize], round: &[usize]) -> String {
    let mut text = String::new();
    let rounds = round.iter().max().map_or(0, |last| last + 1);
    let moved = got.iter().enumerate().filter(|(i, stand)| i != *stand).count();
    let _ = writeln!(text, "rounds {rounds} moved {moved}");
    for (i, stand) in got.iter().enumerate() {
        if *stand == i {
            let _ = writeln!(text, "trader {i} keeps");
            continue;
        }
        let _ = write!(text, "trader {i} gets {stand} ring {i}");
        let (mut next, mut length) = (*stand, 1);
        while next != i {
            if length < MOST_SHOWN {
                let _ = write!(text, " {next}");
            }
            length += 1;
            next = got[next];
        }
        if length > MOST_SHOWN {
            let _ = write!(text, " and {} more", length - MOST_SHOWN);
        }
        text.push('\n');
    }
    text
}

fn main() {
    let name = std::env::args().nth(1).expect("usage: linear LISTS");
    let bytes = std::fs::read(name).expect("the lists can be read");
    let text = match read(&bytes) {
        Ok(lists) => {
            let (got, round) = exchange(&lists);
            report(&got, &round)
        }
        Err((number, place)) => format!("refused {number} at {place}\n"),
    };
    std::io::stdout().write_all(text.as_bytes()).expect("the report can be written");
}
