//! The lists of `crates/plays`: a line of parameters, then a call a line, or words made up; what each leaves is printed.
use crate::rules::{Answer, Description, Kind, Lent, Part, Session};

/// The words of a line: those given, three at least; the others are 0.
fn carried(words: &[&str]) -> Option<Vec<u32>> {
    let mut given: Vec<u32> = words.iter().map(|w| w.parse().ok()).collect::<Option<_>>()?;
    if given.len() < 3 {
        given.resize(3, 0);
    }
    Some(given)
}

fn shown(label: &str, words: &[u32]) -> String {
    let mut line = label.to_string();
    for word in words {
        line.push_str(&format!(" {word}"));
    }
    line
}

fn put(words: &mut [u32], place: u32, word: u32) {
    if let Some(held) = words.get_mut(place as usize) {
        *held = word;
    }
}

fn viewed<'a>(part: Part, lent: &'a Lent, wpb: usize) -> &'a [u32] {
    match part {
        Part::Empty => &[],
        Part::File(start) => &lent.file[start..start + wpb],
        Part::Buffer => &lent.buffer,
    }
}

/// A keyed call, the words of its line put into the workspace first.
fn keyed(session: &mut Session, lent: &mut Lent, kind: Kind, given: &[u32]) -> Answer {
    for (place, word) in given.iter().enumerate() {
        put(&mut lent.workspace, place as u32, *word);
    }
    session.call(kind, lent)
}

/// A SEEK that is lent no workspace.
fn short(session: &mut Session, lent: &mut Lent, given: &[u32]) -> Answer {
    for (place, word) in given.iter().enumerate() {
        put(&mut lent.workspace, place as u32, *word);
    }
    let kept = std::mem::take(&mut lent.workspace);
    let answer = session.call(Kind::Seek, lent);
    lent.workspace = kept;
    answer
}

/// Words and sessions that no call would leave.
fn made_up(session: &mut Session, lent: &mut Lent, what: &str, given: &[u32]) {
    let (a, b) = (given[0], given[1]);
    match what {
        "FILE" => put(&mut lent.file, a, b),
        "BUFFER" => put(&mut lent.buffer, a, b),
        "CURRENT" => {
            session.current = a;
            session.flag = b == 1;
        }
        _ => {
            session.given = a == 1;
            session.position[0] = b;
        }
    }
}

fn heading(name: &str) -> &str {
    match name {
        "SHORT" => "SEEK, short workspace",
        "FILE" | "BUFFER" | "CURRENT" | "POSITION" => "made up:",
        _ => name,
    }
}

fn left(answer: &Answer, s: &Session, lent: &Lent) -> Vec<String> {
    let (open, flag, given) = (s.open as u32, s.flag as u32, s.given as u32);
    vec![
        format!(" {:06o} {}  open {open} current {} flag {flag} position {given} {}", answer.number, answer.moves.len(), s.current, s.position[0]),
        shown("  workspace", &lent.workspace),
        shown("  buffer", &lent.buffer),
        shown("  file", &lent.file),
    ]
}

/// One line: what it does, and what it leaves.
fn line(session: &mut Session, lent: &mut Lent, name: &str, given: &[u32]) -> Vec<String> {
    let mut out = vec![shown(heading(name), given)];
    let answer = match name {
        "CREATE" => session.call(Kind::Create, lent),
        "OPEN" => session.call(Kind::Open, lent),
        "CLOSE" => session.call(Kind::Close, lent),
        "ADV" => session.call(Kind::Adv, lent),
        "SEEK" => keyed(session, lent, Kind::Seek, given),
        "NSERT" => keyed(session, lent, Kind::Nsert, given),
        "DLETE" => keyed(session, lent, Kind::Dlete, given),
        "UPDAT" => keyed(session, lent, Kind::Updat, given),
        "XTEND" => keyed(session, lent, Kind::Xtend, given),
        "SHORT" => short(session, lent, given),
        "TURN" => {
            let answer = session.turn(&mut lent.file, &mut lent.marks);
            let marks: Vec<u32> = lent.marks.iter().map(|&mark| mark.into()).collect();
            out.push(shown(&format!("  form {} marks", session.p.form), &marks));
            answer
        }
        "FORM" => {
            session.p.form = given[0];
            Answer::refused(0)
        }
        "VIEW" => {
            let part = session.view(lent, given[0] as usize);
            out.push(shown("  lent", viewed(part, lent, session.p.wpb())));
            Answer::refused(0)
        }
        "FILE" | "BUFFER" | "CURRENT" | "POSITION" => {
            made_up(session, lent, name, given);
            Answer::refused(0)
        }
        _ => return vec![shown(&format!("no such line: {name}"), given)],
    };
    out.extend(left(&answer, session, lent));
    out
}

/// What the program `plays` writes for this list.
pub fn played(list: &str) -> Option<String> {
    let mut lines = list.lines();
    let six: Vec<u32> = lines.next()?.split_whitespace().map(|w| w.parse().ok()).collect::<Option<_>>()?;
    let p = (six.len() == 6).then(|| Description::from_words(&six))?;
    let mut session = Session::new(p);
    let mut lent = Lent { file: vec![0; p.file_size()], buffer: vec![0; p.wpb()], workspace: vec![0; p.wpr()], marks: vec![0; p.n as usize] };
    let mut out = String::new();
    for text in lines {
        let words: Vec<&str> = text.split_whitespace().collect();
        let Some(name) = words.first().filter(|name| **name != "#") else { continue };
        for told in line(&mut session, &mut lent, name, &carried(&words[1..])?) {
            out.push_str(&told);
            out.push('\n');
        }
    }
    Some(out)
}
