//! The program `survey` on whole and damaged texts of both editions, judged by a reader that shares no
//! code with it.
use checking::cases::{rounds, worked_texts};
use checking::random::Random;
use checking::text::{judge, read};
use std::collections::BTreeMap;
use std::io::Write;
use std::path::PathBuf;
use std::process::{Command, Stdio};

/// The examples of the two editions: section 6's, and the one of document 02, N5.
const EXAMPLES: [&str; 2] =
    [include_str!("../../../examples/plate.txt"), include_str!("../../../examples/ends.txt")];

/// The page that shows the format.
const FORMAT: &str = include_str!("../../../docs/FORMAT.md");

/// A closing with levels below 0, so that minus signs are printed, in two rows and two directions.
const DARK: &str = "plate=1\nwidth=3\nheight=2\nlength=3\ngaps=1\nways=6\nmode=1\nat=4\n\
    row=9,7,12\nrow=4,0,300\ncor=0,65534,65000\ncor=49152,65530,16383\n";

/// The examples, and the closing in both editions.
fn whole_texts() -> [String; 4] {
    let second = DARK.replace("plate=1\n", "plate=2\n").replace("ways=", "ends=1\nways=");
    [EXAMPLES[0].into(), EXAMPLES[1].into(), DARK.into(), second]
}

fn survey(text: &[u8]) -> Vec<u8> {
    let program = PathBuf::from(env!("CARGO_MANIFEST_DIR")).join("../../crates/survey/out/survey");
    let mut running = Command::new(&program)
        .stdin(Stdio::piped())
        .stdout(Stdio::piped())
        .spawn()
        .unwrap_or_else(|fault| panic!("{program:?}: {fault}"));
    running.stdin.take().unwrap().write_all(text).unwrap();
    let output = running.wait_with_output().unwrap();
    assert!(output.status.success());
    output.stdout
}

/// How many texts were judged.
fn hold(texts: impl IntoIterator<Item = Vec<u8>>) -> usize {
    let judged = |text: Vec<u8>| {
        if let Err(fault) = judge(&text, &survey(&text)) {
            panic!("{:?}: {fault}", String::from_utf8_lossy(&text));
        }
    };
    texts.into_iter().map(judged).count()
}

#[test]
fn examples_byte_for_byte() {
    let answers = [
        "width=4\nheight=1\nout=8,5,8,8\nway=2\nlevel=8\npath=0,1,2,3\n",
        "width=4\nheight=1\nout=5,5,5,5\nway=2\nlevel=5\npath=0,1,2,3\n",
    ];
    for (text, answer) in EXAMPLES.into_iter().zip(answers) {
        assert_eq!(String::from_utf8_lossy(&survey(text.as_bytes())), answer);
    }
}

#[test]
fn worked_texts_byte_for_byte() {
    for (text, answer) in worked_texts() {
        assert_eq!(String::from_utf8_lossy(&survey(text.as_bytes())), answer, "{text}");
    }
}

/// The judge itself: an example's answer with any byte changed is refused, there being one path only.
#[test]
fn spoilt_answers() {
    for text in EXAMPLES.map(str::as_bytes) {
        let answer = survey(text);
        for i in 0..answer.len() {
            let mut spoilt = answer.clone();
            spoilt[i] ^= 1;
            assert!(judge(text, &spoilt).is_err(), "byte {i}");
            assert!(judge(text, &answer[..i]).is_err(), "{i} bytes");
        }
    }
}

/// The page shows both examples, and the rows of its table of refusals are changes of them: the edition
/// of the example, the change, and the answer to it.
#[test]
fn every_refusal() {
    fn quoted(cell: &str) -> Vec<&str> {
        cell.split('`').skip(1).step_by(2).collect()
    }
    for text in EXAMPLES {
        let shown: String = text.lines().map(|line| format!("    {line}\n")).collect();
        assert!(FORMAT.contains(&shown), "{text}");
    }
    let mut numbers = Vec::new();
    for row in FORMAT.lines().filter(|row| row.contains("`refused=")) {
        let cells: Vec<&str> = row.split('|').map(str::trim).collect();
        let edition: usize = cells[1].parse().unwrap_or_else(|_| panic!("{row}"));
        let example = EXAMPLES[edition - 1];
        let (change, expected) = (quoted(cells[2])[0], quoted(cells[3]));
        let name = change.split_inclusive('=').next().unwrap();
        let changed = |line: &str| if line.starts_with(name) { change } else { line }.to_string();
        let text: String = example.lines().map(|line| changed(line) + "\n").collect();
        assert_ne!(text, example, "{row}");
        let answer = String::from_utf8(survey(text.as_bytes())).unwrap();
        let (refusal, map) = match expected[..] {
            ["out=", number, place] => ([number, place], "width=4\nheight=1\nout="),
            [number, place] => ([number, place], "refused="),
            _ => panic!("{row}"),
        };
        assert!(answer.starts_with(map), "{row}: {answer}");
        assert!(answer.ends_with(&(refusal.join("\n") + "\n")), "{row}: {answer}");
        numbers.push(refusal[0].strip_prefix("refused=").unwrap());
    }
    assert_eq!(numbers.join(" "), "1 2 3 4 5 18 9 10 11 12 13 13 13 13 13 14");
}

#[test]
fn cut_off_at_every_byte() {
    for bytes in whole_texts().map(String::into_bytes) {
        let count = hold((0..=bytes.len()).map(|end| bytes[..end].to_vec()));
        println!("{count} texts cut off");
    }
}

#[test]
fn every_byte_replaced() {
    for bytes in whole_texts().map(String::into_bytes) {
        let count = hold((0..bytes.len()).flat_map(|i| {
            [b',', b'\n', b'\r', b'-', b'0', b'1', b'2', b'7', 0, 200].map(|byte| {
                let mut damaged = bytes.clone();
                damaged[i] = byte;
                damaged
            })
        }));
        println!("{count} texts with a byte replaced");
    }
}

/// Every line left out, given twice, and exchanged with the next.
#[test]
fn lines_moved() {
    for text in whole_texts() {
        let lines: Vec<&str> = text.split_inclusive('\n').collect();
        let count = hold((0..lines.len()).flat_map(|i| {
            let (mut without, mut twice, mut moved) = (lines.clone(), lines.clone(), lines.clone());
            without.remove(i);
            twice.insert(i, lines[i]);
            moved.swap(i, (i + 1) % lines.len());
            [without, twice, moved].map(|lines| lines.concat().into_bytes())
        }));
        println!("{count} texts with a line moved");
    }
}

/// A small plate's text in either edition, whose setting and pixels are now and then out of bounds.
fn any_text(random: &mut Random) -> String {
    let (width, height) = (random.within(1, 5), random.within(1, 4));
    let mut any = |right: [usize; 2], wrong: &[usize], one_in: usize| match random.below(one_in) {
        0 => random.pick(wrong),
        _ => random.within(right[0], right[1]),
    };
    let edition = any([1, 2], &[0, 3, 12], 40);
    let length = any([1, 6], &[0, 1025], 20);
    let gaps = any([0, length.clamp(1, 9) - 1], &[length, 9], 20);
    let mut text = format!("plate={edition}\nwidth={width}\nheight={height}\n");
    text += &format!("length={length}\ngaps={gaps}\n");
    // The line that goes with the edition, but now and then that of the other.
    if (edition == 2) != (any([1, 1], &[0], 20) == 0) {
        text += &format!("ends={}\n", any([0, 1], &[2, 65_535], 8));
    }
    text += &format!("ways={}\n", any([1, 15], &[0, 16], 20));
    text += &format!("mode={}\n", any([0, 1], &[2], 20));
    text += &format!("at={}\n", any([0, width * height - 1], &[width * height], 20));
    for (name, right, wrong) in
        [("row", [0, 12], [16_384, 65_535]), ("cor", [0, 3], [16_384, 49_151])]
    {
        for _ in 0..height {
            let numbers: Vec<String> =
                (0..width).map(|_| any(right, &wrong, 200).to_string()).collect();
            text += &format!("{name}={}\n", numbers.join(","));
        }
    }
    text
}

#[test]
fn random_texts() {
    let mut random = Random(60);
    let mut came_up = BTreeMap::new();
    let count = hold((0..rounds(1_500, 50_000)).map(|_| {
        let text = any_text(&mut random).into_bytes();
        let refused = read(&text).err().map_or(0, |refusal| refusal.number);
        *came_up.entry((text.starts_with(b"plate=2"), refused)).or_insert(0) += 1;
        text
    }));
    println!("{count} random texts, by the second edition and the refusal: {came_up:?}");
    for refusal in [0, 2, 3, 4, 5, 9, 10, 13] {
        assert!([false, true].iter().all(|&second| came_up.contains_key(&(second, refusal))));
    }
    assert!(came_up.contains_key(&(true, 18)) && !came_up.contains_key(&(false, 18)));
}

/// The length is judged before the lines: 16,384 bytes are read, one more is refused.
#[test]
fn longest_texts() {
    for text in EXAMPLES {
        let long =
            |length: usize| text.bytes().chain(std::iter::repeat(b'0')).take(length).collect();
        hold([long(16_384), long(16_385), long(20_000)]);
    }
}
