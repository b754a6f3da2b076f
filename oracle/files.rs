// PDB files of other programs, brought to the writer's form by bindings/to_lines: the port reads them and writes the same bytes. One is
// made by hand, oracle/usual.pdb, with what files of the wwPDB usually have: TER, ligands and waters behind all chains, alternate locations
// in turn, anisotropic factors, segment ids and lines of under 80 columns. The other is what gemmi, where its program is given, writes of
// the first.
use crate::random::Random;
use crate::reading_lines::{self, shown, written, Counts};
use crate::{lines_in, plain, port};
use std::io::Write;
use std::process::{Command, Output, Stdio};

const SCRIPT: &str = "bindings/to_lines";
const BY_HAND: &str = "oracle/usual.pdb";

// What a program answers to an input.
fn run(program: &str, arguments: &[&str], input: &[u8]) -> Output {
    let mut command = Command::new(program);
    command.args(arguments).stdin(Stdio::piped()).stdout(Stdio::piped()).stderr(Stdio::piped());
    let mut child = command.spawn().unwrap_or_else(|error| panic!("{program} can't be run in this folder: {error}"));
    child.stdin.take().unwrap().write_all(input).expect("its input");
    child.wait_with_output().expect("its output")
}

fn output(program: &str, arguments: &[&str], input: &[u8]) -> Vec<u8> {
    let output = run(program, arguments, input);
    assert!(output.status.success(), "{program} refuses\n{}{}", shown(input), shown(&output.stderr));
    output.stdout
}

fn atoms(text: &[u8]) -> usize {
    text.split(|b| *b == b'\n').filter(|line| line.starts_with(b"ATOM  ") || line.starts_with(b"HETATM")).count()
}

// A file brought to the writer's form has all its atoms, is read, and is written back as it was.
fn compare_file(r: &mut Random, name: &str, file: &[u8]) {
    let text = output(SCRIPT, &[], file);
    assert_eq!(atoms(&text), atoms(file));
    reading_lines::compare(r, &text, &mut Counts::default());
    let m = lines_in::machine(&text, 1_200_001).unwrap_or_else(|refused| panic!("{refused} for\n{}", shown(&text)));
    let mut store = vec![7; plain::records(&m).len() + 1];
    assert_eq!(port::read_pdb(&text, &mut store), 0);
    let again = written(&store);
    assert!(again == text, "written back as\n{}in place of\n{}", shown(&again), shown(&text));
    println!("a file {name}, {} atoms: read and written back, the same bytes", atoms(file));
}

// The file's atoms as two models.
fn in_two_models(file: &[u8]) -> Vec<u8> {
    let file = shown(file);
    let is_kept = |line: &&str| atoms(line.as_bytes()) == 1 || line.starts_with("TER");
    let atoms: String = file.lines().filter(is_kept).map(|line| format!("{line}\n")).collect();
    format!("MODEL        1\n{atoms}ENDMDL\nMODEL        2\r\n{atoms}ENDMDL\nEND\n").into_bytes()
}

// What the script must refuse, and the line that it names: what stands in the file made by hand, and what in its place.
const REFUSED: [(&str, &str, usize); 16] = [
    ("ATOM      2  CA  GLY A", "ATOM      2  CA  GLY  ", 9),
    ("ATOM      2  CA  GLY", "ATOM      2  CA     ", 9),
    ("ATOM      2  CA  GLY ", "ATOM      2  CA  GLYC", 9),
    ("ATOM      2  CA", "ATOM  A0000  CA", 9),
    ("ATOM      2  CA", "ATOM  *****  CA", 9),
    ("ATOM      2  CA", "ATOM      21 CA", 9),
    ("ATOM      2  CA", "Atom      2  CA", 9),
    ("  -9.052", " -9.0525", 9),
    ("  -9.052", "     nan", 9),
    ("  1.00 16.57", "       16.57", 9),
    ("  1.00 16.57", "  1.00      ", 9),
    ("16.57           C", "16.57           D", 9),
    ("16.57           C", "16.57           C  +", 9),
    ("20.00          CA2+", "20.00", 29),
    ("TER      16", "ENDMDL     ", 23),
    ("TITLE     MADE BY HAND: WHAT FILES OF THE WWPDB USUALLY HAVE", "MODEL        1", 40),
];

fn compare_refused(file: &str) {
    for (good, bad, line) in REFUSED {
        assert!(file.contains(good), "{BY_HAND} has no {good:?}");
        let output = run(SCRIPT, &[], file.replacen(good, bad, 1).as_bytes());
        let sentence = shown(&output.stderr);
        assert!(!output.status.success() && output.stdout.is_empty(), "{SCRIPT} takes {bad:?}");
        assert!(sentence.starts_with(&format!("line {line}: ")), "of {bad:?} it says: {sentence}");
    }
    println!("{} files that {SCRIPT} can't bring to that form: refused by their lines", REFUSED.len());
}

pub fn compare(gemmi: Option<&String>, r: &mut Random) {
    let by_hand = std::fs::read(BY_HAND).expect(BY_HAND);
    compare_file(r, "made by hand", &by_hand);
    compare_file(r, "made by hand, with two models", &in_two_models(&by_hand));
    if let Some(gemmi) = gemmi {
        compare_file(r, "that gemmi wrote", &output(gemmi, &["write"], &by_hand));
        compare_file(r, "that gemmi wrote, with two models", &output(gemmi, &["write"], &in_two_models(&by_hand)));
    }
    compare_refused(&shown(&by_hand));
}
