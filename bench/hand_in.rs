// Plain Rust beside the program: a whole trace checked, the same files, the same algorithm, no proofs.
//   hand_in generate DIR            writes hold.aag and hold.cert
//   hand_in check CIRCUIT CERT N    checks the trace for rule 0 N times, reading both files each time
mod shared;
use shared::*;
use std::fs;

struct Circuit {
    inputs: usize,
    latches: usize,
    gates: usize,
    next: Vec<u32>,
    outputs: Vec<u32>,
    operands: Vec<(u32, u32)>,
}

impl Circuit {
    fn read(text: &str) -> Option<Circuit> {
        let mut lines = text.lines().map(|line| line.split(' ').filter_map(|word| word.parse().ok()).collect::<Vec<u32>>());
        let header = lines.next()?;
        let [_, inputs, latches, outputs, gates] = header[..] else { return None };
        lines.by_ref().take(inputs as usize).for_each(drop);
        Some(Circuit {
            inputs: inputs as usize,
            latches: latches as usize,
            gates: gates as usize,
            next: lines.by_ref().take(latches as usize).map(|line| line[1]).collect(),
            outputs: lines.by_ref().take(outputs as usize).map(|line| line[0]).collect(),
            operands: lines.by_ref().take(gates as usize).map(|line| (line[1], line[2])).collect(),
        })
    }

    fn variables(&self) -> usize {
        1 + self.inputs + self.latches + self.gates
    }

    fn clauses(&self) -> usize {
        1 + 3 * self.gates
    }

    fn clause(&self, number: usize) -> ([u32; 3], usize) {
        if number == 0 {
            return ([1, 0, 0], 1);
        }
        let (j, place) = ((number - 1) / 3, (number - 1) % 3);
        let gate = 2 * (1 + self.inputs + self.latches + j) as u32;
        let (a, b) = self.operands[j];
        match place {
            0 => ([a, gate + 1, 0], 2),
            1 => ([b, gate + 1, 0], 2),
            _ if a ^ 1 == b ^ 1 => ([a ^ 1, gate, 0], 2),
            _ => ([(a ^ 1).min(b ^ 1), (a ^ 1).max(b ^ 1), gate], 3),
        }
    }
}

#[derive(Clone, Copy)]
enum Question {
    Step(usize, usize),
    Safe(usize),
    Closing,
}

// Both areas, how much of each is used, and where each frame ends.
struct Areas {
    literals: Vec<u32>,
    spans: Vec<Span>,
    used: usize,
    made: usize,
    ends: Vec<(usize, usize)>,
}

impl Areas {
    fn start_of(&self, frame: usize) -> (usize, usize) {
        if frame == 0 { (0, 0) } else { self.ends[frame - 1] }
    }

    fn push(&mut self, literals: &[u32]) -> Option<()> {
        self.literals.get_mut(self.used..self.used + literals.len())?.copy_from_slice(literals);
        self.used += literals.len();
        Some(())
    }

    fn push_span(&mut self, span: Span) -> Option<()> {
        let (start, end) = (span.start as usize, (span.start + span.length) as usize);
        if self.used + (end - start) > self.literals.len() {
            return None;
        }
        self.literals.copy_within(start..end, self.used);
        self.used += end - start;
        Some(())
    }

    fn note(&mut self, start: usize) -> Option<()> {
        *self.spans.get_mut(self.made)? = Span { start: start as u32, length: (self.used - start) as u32 };
        self.made += 1;
        Some(())
    }

    // Copies a clause of a question onto the literals by its number.
    fn copy(&mut self, circuit: &Circuit, question: Question, mut number: usize) -> Option<()> {
        let v = circuit.variables() as u32;
        let (frame, rows) = match question {
            Question::Step(frame, _) => (frame, 2),
            Question::Safe(frame) => (frame, 1),
            Question::Closing => return self.copy_closing(v, number),
        };
        if number < rows * circuit.clauses() {
            let (mut clause, length) = circuit.clause(number % circuit.clauses());
            let by = 2 * v * (number / circuit.clauses()) as u32;
            clause[..length].iter_mut().for_each(|l| *l += by);
            return self.push(&clause[..length]);
        }
        number -= rows * circuit.clauses();
        if rows == 2 {
            if number < 2 * circuit.latches {
                let (x, y) = (circuit.next[number / 2], 2 * (1 + circuit.inputs + number / 2) as u32 + 2 * v);
                return self.push(&if number % 2 == 0 { [x, y ^ 1] } else { [x ^ 1, y] });
            }
            number -= 2 * circuit.latches;
        }
        let (start, end) = (self.start_of(frame).0, self.ends[frame].0);
        if number < end - start {
            return self.push_span(self.spans[start + number]);
        }
        number -= end - start;
        match question {
            Question::Step(frame, clause) => {
                let span = self.spans[self.ends[frame].0 + clause];
                if number >= span.length as usize {
                    return None;
                }
                let literal = (self.literals[span.start as usize + number] + 2 * v) ^ 1;
                self.push(&[literal])
            }
            _ if number == 0 => self.push(&[circuit.outputs[0]]),
            _ => None,
        }
    }

    fn copy_closing(&mut self, v: u32, mut number: usize) -> Option<()> {
        let last = self.ends.len() - 1;
        let (start, end) = (self.start_of(last).0, self.ends[last].0);
        if number < end - start {
            return self.push_span(self.spans[start + number]);
        }
        number -= end - start;
        if number < last {
            let (from, to) = (self.start_of(number).0, self.ends[number].0);
            for m in from..to {
                self.push(&[2 * (v + m as u32)])?;
            }
            return Some(());
        }
        number -= last;
        if number >= self.start_of(last).1 {
            return None;
        }
        let owner = self.spans[..start].partition_point(|span| span.start as usize <= number) - 1;
        let literal = self.literals[number] ^ 1;
        self.push(&[literal, 2 * (v + owner as u32) + 1])
    }
}

fn state_literal(circuit: &Circuit, literal: u32) -> bool {
    let first = 1 + circuit.inputs as u32;
    literal / 2 >= first && literal / 2 < first + circuit.latches as u32
}

fn read_frames(circuit: &Circuit, bytes: &[u8], at: &mut usize, areas: &mut Areas) -> Option<usize> {
    let (frames, mut records, mut start) = (word(bytes, 2) as usize + 1, 1, 0);
    *at = 6;
    while areas.ends.len() < frames {
        records += 1;
        match *bytes.get(*at)? {
            2 => {
                let literal = word(bytes, *at + 1);
                if !state_literal(circuit, literal) || (areas.used > start && areas.literals[areas.used - 1] >= literal) {
                    return None;
                }
                areas.push(&[literal])?;
                *at += 5;
            }
            3 => {
                if areas.ends.is_empty() && !areas.literals[start..areas.used].iter().any(|l| l & 1 == 1) {
                    return None;
                }
                areas.note(start)?;
                start = areas.used;
                *at += 1;
            }
            4 if areas.used == start => {
                areas.ends.push((areas.made, areas.used));
                *at += 1;
            }
            _ => return None,
        }
    }
    Some(records)
}

fn refute(circuit: &Circuit, question: Question, bytes: &[u8], at: &mut usize, areas: &mut Areas) -> Option<usize> {
    let (floor, first, mut records) = (areas.used, areas.made, 0);
    loop {
        records += 1;
        let start = areas.used;
        match *bytes.get(*at)? {
            5 => {
                areas.copy(circuit, question, word(bytes, *at + 1) as usize)?;
                areas.note(start)?;
                *at += 5;
            }
            6 => {
                let (left, right, pivot) = (word(bytes, *at + 1) as usize, word(bytes, *at + 5) as usize, word(bytes, *at + 9));
                if first + left >= areas.made || first + right >= areas.made {
                    return None;
                }
                let (a, b) = (areas.spans[first + left], areas.spans[first + right]);
                if !clause(&areas.literals, a).contains(&pivot) || !clause(&areas.literals, b).contains(&(pivot ^ 1)) {
                    return None;
                }
                areas.used = join(&mut areas.literals, start, a, b, pivot, pivot ^ 1)?;
                areas.note(start)?;
                *at += 13;
            }
            7 => {
                if areas.made == first || areas.spans[areas.made - 1].length > 0 {
                    return None;
                }
                (areas.used, areas.made) = (floor, first);
                *at += 1;
                return Some(records);
            }
            _ => return None,
        }
    }
}

fn check(circuit: &Circuit, bytes: &[u8], areas: &mut Areas) -> Option<usize> {
    let mut at = 0;
    let mut records = read_frames(circuit, bytes, &mut at, areas)?;
    let last = areas.ends.len() - 1;
    for frame in 0..last {
        for number in 0..areas.ends[frame + 1].0 - areas.ends[frame].0 {
            records += refute(circuit, Question::Step(frame, number), bytes, &mut at, areas)?;
        }
    }
    for frame in 0..=last {
        records += refute(circuit, Question::Safe(frame), bytes, &mut at, areas)?;
    }
    records += refute(circuit, Question::Closing, bytes, &mut at, areas)?;
    if bytes[at..] != [10] { None } else { Some(records + 1) }
}

// A thousand latches that hold their zeros, and a trace of nine frames that say so.
fn generate(dir: &str) {
    const L: u32 = 1000;
    const N: u32 = 8;
    let mut text = format!("aag {L} 0 {L} 1 0\n");
    (1..=L).for_each(|v| text += &format!("{} {}\n", 2 * v, 2 * v));
    text += "2\n";
    let mut cert = vec![1, 1];
    cert.extend(N.to_le_bytes());
    for _ in 0..=N {
        for v in 1..=L {
            literal(&mut cert, 2 * v + 1);
            cert.push(3);
        }
        cert.push(4);
    }
    // step: the latch at frame 1, its tie, the frame's clause
    for _ in 0..N {
        for v in 0..L {
            take(&mut cert, 2 + 2 * L + L);
            take(&mut cert, 2 + 2 * v);
            take(&mut cert, 2 + 2 * L + v);
            let at_one = 2 * (v + 1) + 2 * (L + 1);
            resolve(&mut cert, 0, 1, at_one);
            resolve(&mut cert, 3, 2, 2 * (v + 1));
            cert.push(7);
        }
    }
    for _ in 0..=N {
        take(&mut cert, 1 + L);
        take(&mut cert, 1);
        resolve(&mut cert, 0, 1, 2);
        cert.push(7);
    }
    // closing: the selectors of frame 0, one after another
    take(&mut cert, L);
    let (mut latest, mut made) = (0, 1);
    for v in 0..L {
        take(&mut cert, L + N + v);
        take(&mut cert, v);
        resolve(&mut cert, made, made + 1, 2 * (v + 1));
        resolve(&mut cert, latest, made + 2, 2 * (L + 1 + v));
        latest = made + 3;
        made += 4;
    }
    cert.push(7);
    cert.push(10);
    fs::write(format!("{dir}/hold.aag"), text).unwrap();
    fs::write(format!("{dir}/hold.cert"), cert).unwrap();
}

fn main() {
    let args: Vec<String> = std::env::args().collect();
    if args[1] == "generate" {
        return generate(&args[2]);
    }
    let circuit = Circuit::read(&fs::read_to_string(&args[2]).unwrap()).unwrap();
    for _ in 0..args[4].parse::<usize>().unwrap() {
        let bytes = fs::read(&args[3]).unwrap();
        let mut areas = Areas { literals: vec![0; 1_048_576], spans: vec![Span::default(); 65_536], used: 0, made: 0, ends: Vec::new() };
        let records = check(&circuit, &bytes, &mut areas).unwrap();
        areas.literals.fill(0);
        areas.spans.fill(Span::default());
        println!("hand in 0 {} -> accepted trace, {records} records", args[3]);
    }
}
