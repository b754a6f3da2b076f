// record SEED CALLS: random lists of calls with what they must answer and leave, for the program `replay`. The port has no part in it: the
// crate judges where it can, and the plain reading of document 01 elsewhere.
// Little-endian words, cases to the end; a case is the numbers of words of the list, of the answers and of the store afterwards, and those words.
mod judges;
mod list;
#[allow(dead_code)]
mod original;
#[allow(dead_code)]
mod plain;
#[allow(dead_code)]
mod port;
#[allow(dead_code)]
mod random;
use judges::Judges;
use random::Random;
use std::io::Write;

// Accepted and refused calls of each code.
type Counts = [[u64; 2]; 18];

fn case(r: &mut Random, calls: u64, counts: &mut Counts) -> Vec<u64> {
    let length = 13 + r.below(589);
    let mut judges = Judges::new(length as usize);
    let (mut words, mut answers) = (Vec::new(), Vec::new());
    for _ in 0..calls {
        let call = r.call(&judges.machine);
        let (e, _) = judges.edit(&call);
        let call = list::words(&call);
        counts[call[0] as usize][(e.result != 0) as usize] += 1;
        words.extend(call);
        answers.extend([e.result, e.found, e.removed]);
    }
    let store = plain::lay_out(&judges.machine, judges.length);
    let header = [&words, &answers, &store].map(|part| part.len() as u64);
    [&header[..], &words, &answers, &store].concat()
}

fn main() {
    let args: Vec<u64> = std::env::args().skip(1).map(|a| a.parse().expect("a number")).collect();
    let [seed, least] = args[..] else { panic!("record SEED CALLS") };
    let mut r = Random::new(seed);
    let mut counts = Counts::default();
    let mut words = Vec::new();
    while counts.as_flattened().iter().sum::<u64>() < least {
        let calls = 10 + r.below(31);
        words.extend(case(&mut r, calls, &mut counts));
    }
    let bytes: Vec<u8> = words.iter().flat_map(|w: &u64| w.to_le_bytes()).collect();
    std::io::stdout().write_all(&bytes).expect("output");
    for (code, [accepted, refused]) in counts.iter().enumerate().skip(1) {
        eprintln!("code {code}: accepted {accepted}, refused {refused}");
    }
}
