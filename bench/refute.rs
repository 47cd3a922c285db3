// Plain Rust beside the program: the same files, the same algorithm, no proofs.
//   refute generate DIR          writes long.clauses and long.proof
//   refute check CLAUSES PROOF N checks the proof N times, reading both files each time
mod shared;
use shared::*;
use std::fs;

#[derive(Clone, Copy)]
enum Step {
    Take(usize),
    Resolve(usize, usize, u32),
}

fn read_clauses(bytes: &[u8]) -> Option<(Vec<u32>, Vec<Span>)> {
    let (mut literals, mut spans, mut at, mut start) = (Vec::new(), Vec::new(), 0, 0);
    while at < bytes.len() {
        match bytes[at] {
            2 if at + 5 <= bytes.len() => {
                let literal = word(bytes, at + 1);
                if literals.len() > start && *literals.last()? >= literal {
                    return None;
                }
                literals.push(literal);
                at += 5;
            }
            3 => {
                spans.push(Span { start: start as u32, length: (literals.len() - start) as u32 });
                start = literals.len();
                at += 1;
            }
            _ => return None,
        }
    }
    if start == literals.len() { Some((literals, spans)) } else { None }
}

fn read_steps(bytes: &[u8]) -> Option<Vec<Step>> {
    let (mut steps, mut at) = (Vec::new(), 0);
    loop {
        match *bytes.get(at)? {
            5 if at + 5 <= bytes.len() => {
                steps.push(Step::Take(word(bytes, at + 1) as usize));
                at += 5;
            }
            6 if at + 13 <= bytes.len() => {
                steps.push(Step::Resolve(word(bytes, at + 1) as usize, word(bytes, at + 5) as usize, word(bytes, at + 9)));
                at += 13;
            }
            7 if at + 1 == bytes.len() => return Some(steps),
            _ => return None,
        }
    }
}

fn check(table: &[u32], list: &[Span], steps: &[Step], literals: &mut [u32], spans: &mut [Span]) -> Option<usize> {
    literals.fill(0);
    spans.fill(Span::default());
    let (mut used, mut made) = (0, 0);
    for step in steps {
        let end = match *step {
            Step::Take(number) => {
                let new = clause(table, *list.get(number)?);
                literals.get_mut(used..used + new.len())?.copy_from_slice(new);
                used + new.len()
            }
            Step::Resolve(left, right, pivot) => {
                if left >= made || right >= made {
                    return None;
                }
                let (a, b) = (spans[left], spans[right]);
                if !clause(literals, a).contains(&pivot) || !clause(literals, b).contains(&(pivot ^ 1)) {
                    return None;
                }
                join(literals, used, a, b, pivot, pivot ^ 1)?
            }
        };
        *spans.get_mut(made)? = Span { start: used as u32, length: (end - used) as u32 };
        made += 1;
        used = end;
    }
    if made == 0 || spans[made - 1].length > 0 {
        return None;
    }
    literals.fill(0);
    spans.fill(Span::default());
    Some(steps.len() + 1)
}

// A chain that goes round a ring of clauses 601 times: 60,100 resolves over clauses of ten literals, then ten units.
fn generate(dir: &str) {
    const RING: u32 = 100;
    const ROUNDS: u32 = 601;
    let (mut clauses, mut proof) = (Vec::new(), Vec::new());
    let mut seed = 12345u32;
    // clause 0: nine literals and the first of the ring
    for k in 0..9u32 {
        literal(&mut clauses, 2 * k);
    }
    literal(&mut clauses, 2 * 100);
    clauses.push(3);
    // clause 1 + r: some of the nine, the ring's literal r denied, the next one
    for r in 0..RING {
        seed = seed.wrapping_mul(1664525).wrapping_add(1013904223);
        for k in 0..9u32 {
            if seed >> (k + 8) & 1 == 1 {
                literal(&mut clauses, 2 * k);
            }
        }
        let (here, next) = (2 * (100 + r) + 1, 2 * (100 + (r + 1) % RING));
        literal(&mut clauses, here.min(next));
        literal(&mut clauses, here.max(next));
        clauses.push(3);
    }
    for v in (0..9u32).chain([100]) {
        literal(&mut clauses, 2 * v + 1);
        clauses.push(3);
    }
    for number in 0..RING + 11 {
        take(&mut proof, number);
    }
    let (mut last, mut made) = (0, RING + 11);
    for _ in 0..ROUNDS {
        for r in 0..RING {
            resolve(&mut proof, last, 1 + r, 2 * (100 + r));
            last = made;
            made += 1;
        }
    }
    for (k, v) in (0..9u32).chain([100]).enumerate() {
        resolve(&mut proof, last, RING + 1 + k as u32, 2 * v);
        last = made;
        made += 1;
    }
    proof.push(7);
    fs::write(format!("{dir}/long.clauses"), clauses).unwrap();
    fs::write(format!("{dir}/long.proof"), proof).unwrap();
}

fn main() {
    let args: Vec<String> = std::env::args().collect();
    if args[1] == "generate" {
        return generate(&args[2]);
    }
    for _ in 0..args[4].parse::<usize>().unwrap() {
        let (table, list) = read_clauses(&fs::read(&args[2]).unwrap()).unwrap();
        let steps = read_steps(&fs::read(&args[3]).unwrap()).unwrap();
        let mut literals = vec![0u32; 1_048_576];
        let mut spans = vec![Span::default(); 65_536];
        let records = check(&table, &list, &steps, &mut literals, &mut spans).unwrap();
        println!("refute {} {} -> refuted, {records} records", args[2], args[3]);
    }
}
