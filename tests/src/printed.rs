//! "One session, printed": the program as a function from its input to its output.
use crate::rules::{Answer, Description, Kind, Lent, Session, DONE, END_REACHED};

const NAMES: [(&[u8], Kind); 9] = [
    (b"CREATE", Kind::Create),
    (b"OPEN", Kind::Open),
    (b"CLOSE", Kind::Close),
    (b"SEEK", Kind::Seek),
    (b"ADV", Kind::Adv),
    (b"NSERT", Kind::Nsert),
    (b"DLETE", Kind::Dlete),
    (b"UPDAT", Kind::Updat),
    (b"XTEND", Kind::Xtend),
];

/// The lines of the input; the line feed that ends the last one starts no new line.
fn lines(input: &[u8]) -> Vec<&[u8]> {
    let mut lines: Vec<&[u8]> = input.split(|&c| c == b'\n').collect();
    if lines.last().is_some_and(|last| last.is_empty()) {
        lines.pop();
    }
    lines
}

fn is_blank(c: &u8) -> bool {
    matches!(c, b' ' | b'\t' | b'\r' | 0x0c)
}

fn words(line: &[u8]) -> Vec<&[u8]> {
    line.split(is_blank).filter(|w| !w.is_empty()).collect()
}

fn number(word: &[u8]) -> Option<u32> {
    let mut value: u64 = 0;
    for c in word {
        if !c.is_ascii_digit() {
            return None;
        }
        value = value * 10 + (c - b'0') as u64;
        if value > u32::MAX as u64 {
            return None;
        }
    }
    (!word.is_empty()).then_some(value as u32)
}

fn numbers(words: &[&[u8]]) -> Option<Vec<u32>> {
    words.iter().map(|w| number(w)).collect()
}

fn name(word: &[u8]) -> Option<Kind> {
    NAMES.iter().find(|(text, _)| *text == word).map(|(_, kind)| *kind)
}

fn name_of(kind: Kind) -> String {
    let (text, _) = NAMES.iter().find(|(_, k)| *k == kind).expect("every kind has a name");
    String::from_utf8_lossy(text).into_owned()
}

fn parameters(line: &[u8]) -> Option<Description> {
    let six = numbers(&words(line))?;
    (six.len() == 6).then(|| Description::from_words(&six))
}

/// A call's line: its kind, and the key or record that kind carries.
fn parse(p: &Description, line: &[u8]) -> Option<(Kind, Vec<u32>)> {
    let words = words(line);
    let kind = name(words.first()?)?;
    let carried = numbers(&words[1..])?;
    let wanted = match kind {
        Kind::Seek | Kind::Dlete => p.k(),
        Kind::Nsert | Kind::Updat | Kind::Xtend => p.wpr(),
        _ => 0,
    };
    (carried.len() == wanted).then_some((kind, carried))
}

fn shown(kind: Kind, answer: &Answer, workspace: &[u32]) -> String {
    let mut line = format!("{} {:06o} {}", name_of(kind), answer.number, answer.moves.len());
    if matches!(kind, Kind::Seek | Kind::Adv) && matches!(answer.number, DONE | END_REACHED) {
        for word in workspace {
            line.push_str(&format!(" {word}"));
        }
    }
    line
}

/// With parameters out of range only the first word of a line is looked at.
fn refuse_all(lines: &[&[u8]]) -> Vec<String> {
    let mut out = Vec::new();
    for line in lines {
        match words(line).first().and_then(|w| name(w)) {
            Some(kind) => out.push(format!("{} 020007 0", name_of(kind))),
            None => {
                out.push("BAD LINE".to_string());
                break;
            }
        }
    }
    out
}

fn play(p: Description, lines: &[&[u8]]) -> Vec<String> {
    let mut session = Session::new(p);
    let mut lent = Lent { file: vec![0; p.file_size()], buffer: vec![0; p.wpb()], workspace: vec![0; p.wpr()], marks: vec![0; p.n as usize] };
    let mut out = Vec::new();
    for line in lines {
        let Some((kind, carried)) = parse(&p, line) else {
            out.push("BAD LINE".to_string());
            break;
        };
        lent.workspace[..carried.len()].copy_from_slice(&carried);
        let answer = session.call(kind, &mut lent);
        out.push(shown(kind, &answer, &lent.workspace));
    }
    out
}

fn output(input: &[u8]) -> Vec<String> {
    let lines = lines(input);
    let Some(p) = lines.first().and_then(|line| parameters(line)) else { return vec!["BAD LINE".to_string()] };
    if !p.in_range() {
        refuse_all(&lines[1..])
    } else if p.file_size() > 8192 {
        vec!["TOO LARGE".to_string()]
    } else {
        play(p, &lines[1..])
    }
}

/// What the printed program writes for this input.
pub fn printed(input: &[u8]) -> Vec<u8> {
    output(input).iter().flat_map(|line| format!("{line}\n").into_bytes()).collect()
}
