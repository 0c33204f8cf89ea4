//! The cases as text. README.md has the lines.
use std::str::SplitAsciiWhitespace;
use tsecon_regime::MsarSpec;

/// A part of the parameters: how many numbers there are said to be, and as many of them as its fixed array has room for.
#[derive(Default)]
pub struct Part {
    pub count: usize,
    pub values: Vec<f64>,
}

pub struct Case {
    pub id: String,
    pub call: String,
    pub spec: MsarSpec,
    pub y: Vec<f64>,
    pub means: Part,
    pub transition: Part,
    pub blocks: usize,
    pub order: usize,
    pub ar: Part,
    pub variances: Part,
    pub rule: usize,
    pub max_iter: usize,
    pub tol: f64,
}

type Words<'a> = SplitAsciiWhitespace<'a>;

fn word<'a>(words: &mut Words<'a>) -> &'a str {
    words.next().expect("a word more in this line")
}

fn whole(words: &mut Words) -> usize {
    word(words).parse().expect("a whole number")
}

fn flag(words: &mut Words) -> bool {
    whole(words) == 1
}

fn number(w: &str) -> f64 {
    f64::from_bits(u64::from_str_radix(w, 16).expect("16 hexadecimal digits"))
}

fn numbers(words: &mut Words) -> Vec<f64> {
    words.map(number).collect()
}

fn part(words: &mut Words, room: usize) -> Part {
    let count = whole(words);
    let values = numbers(words);
    assert_eq!(values.len(), count.min(room), "the count of numbers in a line");
    Part { count, values }
}

fn named(words: &mut Words) -> Case {
    Case {
        id: word(words).to_string(),
        call: word(words).to_string(),
        spec: MsarSpec { k_regimes: 0, order: 0, switching_ar: false, switching_variance: false },
        y: Vec::new(),
        means: Part::default(),
        transition: Part::default(),
        blocks: 0,
        order: 0,
        ar: Part::default(),
        variances: Part::default(),
        rule: 1,
        max_iter: 0,
        tol: 0.0,
    }
}

fn spec(words: &mut Words) -> MsarSpec {
    MsarSpec {
        k_regimes: whole(words),
        order: whole(words),
        switching_ar: flag(words),
        switching_variance: flag(words),
    }
}

/// Takes the lines one by one, and gives the case that the line `run` ends.
#[derive(Default)]
pub struct Reader {
    open: Option<Case>,
}

impl Reader {
    pub fn line(&mut self, text: &str) -> Option<Case> {
        let mut words = text.split_ascii_whitespace();
        let name = words.next()?;
        if name == "case" {
            self.open = Some(named(&mut words));
            return None;
        }
        if name == "run" {
            return self.open.take();
        }
        let c = self.open.as_mut().expect("a line `case` before this one");
        match name {
            "spec" => c.spec = spec(&mut words),
            "memory" => (), // the Rust makes its own
            "y" => c.y = part(&mut words, usize::MAX).values,
            "means" => c.means = part(&mut words, 16),
            "trans" => c.transition = part(&mut words, 256),
            "ar" => {
                c.blocks = whole(&mut words);
                c.order = whole(&mut words);
                c.ar = part(&mut words, 112);
            }
            "var" => c.variances = part(&mut words, 16),
            "rule" => c.rule = whole(&mut words),
            "fit" => {
                c.max_iter = whole(&mut words);
                c.tol = number(word(&mut words));
            }
            other => panic!("no such line: {other}"),
        }
        None
    }
}
