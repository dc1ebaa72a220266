//! Makes a file of names, finds one, walks the file in order, and turns it to the second block form.
#[allow(dead_code)]
mod nasturakh;

use nasturakh::{Answer, Parameters, Session, DONE};

const P: Parameters = Parameters {
    wpb: 64,
    wpr: 6,
    k: 5,
    space: 0,
    control: 4,
    n: 20,
};
const K: usize = P.k as usize;
const LETTERS: usize = 3 * K;

/// The last three are refused: cut after fifteen letters the first two would be one name, and the third has a sign that no key holds.
const PEOPLE: [(&str, u32); 15] = [
    ("LOVELACE ADA", 1815),
    ("HOPPER GRACE", 1906),
    ("TURING ALAN", 1912),
    ("ZUSE KONRAD", 1910),
    ("NOETHER EMMY", 1882),
    ("BARTIK JEAN", 1924),
    ("ECKERT PRESPER", 1919),
    ("MAUCHLY JOHN", 1907),
    ("PETER ROZSA", 1905),
    ("BOOLE GEORGE", 1815),
    ("HAMILTON M", 1936),
    ("WILKES MAURICE", 1913),
    ("BARTHOLOMEW CHRISTINE", 1901),
    ("BARTHOLOMEW CHRISTOPHER", 1902),
    ("D'OCAGNE M", 1862),
];

/// A session with all that it is lent.
struct Directory {
    session: Session,
    file: Vec<u32>,
    buffer: Vec<u32>,
    work: Vec<u32>,
    marks: Vec<u8>,
}

const SIGNS: &[u8] = b" ABCDEFGHIJKLMNOPQRSTUVWXYZ";

/// A record: three letters a word, six bits each, and a blank is 0, so names sort as in a directory; then the year. A name that is too long, or
/// has another sign, is none: nothing is cut, so names that differ have keys that differ (but for blanks at their end).
fn record(name: &str, born: u32) -> Result<Vec<u32>, String> {
    let mut words = vec![0; P.wpr as usize];
    for (i, sign) in name.bytes().enumerate() {
        if i == LETTERS {
            return Err(format!("{name}: longer than {LETTERS} letters"));
        }
        let Some(six) = SIGNS.iter().position(|&s| s == sign) else {
            return Err(format!(
                "{name}: sign {} is neither a letter A to Z nor a blank",
                i + 1
            ));
        };
        words[i / 3] |= (six as u32) << (12 - 6 * (i % 3));
    }
    words[K] = born;
    Ok(words)
}

fn print_record(work: &[u32]) {
    let six = |i: usize| work[i / 3] >> (12 - 6 * (i % 3)) & 63;
    let letter = |i: usize| SIGNS.get(six(i) as usize).map_or('?', |&s| char::from(s));
    let name: String = (0..LETTERS).map(letter).collect();
    println!("{name} {}", work[K]);
}

fn say(call: &str, answer: Answer) -> bool {
    println!(
        "{call} {:06o}, transfers {}",
        answer.number, answer.transfers
    );
    answer.number == DONE
}

impl Directory {
    fn new() -> Self {
        Self {
            session: Session::new(P),
            file: vec![0; P.file_words()],
            buffer: vec![0; P.wpb as usize],
            work: vec![0; P.wpr as usize],
            marks: vec![0; P.n as usize],
        }
    }

    fn open(&mut self) -> bool {
        say(
            "OPEN ",
            self.session.open(&self.file, &self.buffer, &mut self.marks),
        )
    }

    fn close(&mut self) -> bool {
        say("CLOSE", self.session.close(&mut self.file, &self.buffer))
    }

    /// Puts a record into the workspace, or says why its name is none.
    fn put(&mut self, name: &str, born: u32) -> bool {
        match record(name, born) {
            Ok(words) => self.work = words,
            Err(fault) => {
                println!("{fault}");
                return false;
            }
        }
        true
    }

    fn store(&mut self, name: &str, born: u32) {
        if self.put(name, born) {
            say(
                "NSERT",
                self.session
                    .nsert(&mut self.file, &mut self.buffer, &self.work),
            );
        }
    }

    fn find(&mut self, name: &str) {
        if !self.put(name, 0) {
            return;
        }
        if say(
            "SEEK ",
            self.session
                .seek(&mut self.file, &mut self.buffer, &mut self.work),
        ) {
            print_record(&self.work);
        }
    }

    /// For a desk whose blocks say what they are: the closed file in the second form.
    fn turn(&mut self) {
        if say("TURN ", self.session.turn(&mut self.file, &mut self.marks)) {
            let word = self.file[P.file_words() - (P.n * P.wpb) as usize];
            println!("form {}, block 1 begins with {word}", self.session.form());
        }
    }

    /// From the start of the file: OPEN has left the session without a position.
    fn walk(&mut self) {
        while self
            .session
            .adv(&mut self.file, &mut self.buffer, &mut self.work)
            .number
            == DONE
        {
            print_record(&self.work);
        }
    }
}

fn main() {
    let mut d = Directory::new();
    say("CREATE", d.session.create(&mut d.file));
    assert!(d.open());
    for (name, born) in PEOPLE {
        d.store(name, born);
    }
    d.find("NOETHER EMMY");
    d.find("NOETHER FRITZ");
    d.close();
    assert!(d.open());
    d.walk();
    d.close();
    d.turn();
}
