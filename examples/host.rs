//! The host of host.c once more, in Rust: the same three things and the same text. The module `shonduxihi`, to copy whole, is the library made safe.
//!   rustc --edition 2021 -O -L target/library/lib examples/host.rs

/// What the header asks of a caller, and who sees to it here:
///   1. a length is true: a slice's pointer is lent with the slice's own length;
///   2. a run that is lent to a write overlaps nothing in use: it is a `&mut` slice, which nothing else may use meanwhile;
///   3. null only with length 0: a slice's pointer is never null. That of an empty slice dangles, and may: of length 0 no element is read or written;
///   4. the machine and the layout: for another machine the archive does not link, and `places` holds each struct to the header's table.
#[allow(dead_code)] // every call stands here, and a program need not make them all
mod shonduxihi {
    /// Declares the structs, and a function that gives for each size and place its name, what the compiler makes it and what the header says.
    macro_rules! structs {
        ($($vis:vis $name:ident as $c_name:literal of $size:literal { $($field:ident: $type:ty = $place:literal),+ })+) => {
            $(#[repr(C)] #[derive(Clone, Copy, Debug, Default, PartialEq)] $vis struct $name { $($vis $field: $type),+ })+
            pub fn places() -> Vec<(&'static str, usize, usize)> {
                vec![$(($c_name, std::mem::size_of::<$name>(), $size), $((concat!($c_name, ".", stringify!($field)),
                    { let whole = $name::default(); std::ptr::addr_of!(whole.$field) as usize - std::ptr::addr_of!(whole) as usize }, $place)),+),+]
            }
        };
    }
    structs! {
        pub Picture as "shx_picture_t" of 5 { hours: u8 = 0, minutes: u8 = 1, seconds: u8 = 2, frames: u8 = 3, place: u8 = 4 }
        pub Record as "shx_record_t" of 19 {
            hours: u8 = 0, minutes: u8 = 1, seconds: u8 = 2, frames: u8 = 3, drop: u8 = 4, colour: u8 = 5, mark: u8 = 6, bgf0: u8 = 7, bgf1: u8 = 8,
            bgf2: u8 = 9, group1: u8 = 10, group2: u8 = 11, group3: u8 = 12, group4: u8 = 13, group5: u8 = 14, group6: u8 = 15, group7: u8 = 16,
            group8: u8 = 17, place: u8 = 18
        }
        pub Contents as "shx_contents_t" of 21 { record: Record = 0, payload_type: u8 = 19, second: u8 = 20 }
        State as "shx_reader_t" of 16 { info: u64 = 0, sync: u16 = 8, mode: u8 = 10, ways: u8 = 11, held: u8 = 12 }
        NumberAnswer as "shx_number_answer_t" of 8 { code: u8 = 0, number: u32 = 4 }
        SecondAnswer as "shx_second_answer_t" of 4 { code: u8 = 0, number: u16 = 2 }
        PictureAnswer as "shx_picture_answer_t" of 6 { code: u8 = 0, picture: Picture = 1 }
        DistanceAnswer as "shx_distance_answer_t" of 8 { code: u8 = 0, pictures: i32 = 4 }
        WordAnswer as "shx_word_answer_t" of 21 { code: u8 = 0, found: u8 = 1, record: Record = 2 }
        LineAnswer as "shx_line_answer_t" of 20 { code: u8 = 0, record: Record = 1 }
        PacketAnswer as "shx_packet_answer_t" of 22 { code: u8 = 0, contents: Contents = 1 }
        HeardAnswer as "shx_heard_t" of 22 { code: u8 = 0, found: u8 = 1, way: u8 = 2, record: Record = 3 }
        StepAnswer as "shx_step_answer_t" of 40 { heard: HeardAnswer = 0, reader: State = 24 }
        BlockAnswer as "shx_block_answer_t" of 48 { heard: HeardAnswer = 0, reader: State = 24, taken: usize = 40 }
    }

    #[link(name = "shonduxihi", kind = "static")]
    extern "C" {
        fn shx_number(mode: u8, drop: u8, picture: Picture) -> NumberAnswer;
        fn shx_number_in_second(mode: u8, drop: u8, picture: Picture) -> SecondAnswer;
        fn shx_picture(mode: u8, drop: u8, number: u32) -> PictureAnswer;
        fn shx_distance(mode: u8, drop: u8, from: Picture, to: Picture) -> DistanceAnswer;
        fn shx_add(mode: u8, drop: u8, picture: Picture, pictures: i32) -> PictureAnswer;
        fn shx_ltc_read(mode: u8, word: *const u8, length: usize) -> WordAnswer;
        fn shx_ltc_write(mode: u8, record: Record, make: u8, start: usize, run: *mut u8, length: usize) -> u8;
        fn shx_vitc_read(mode: u8, line: *const u8, length: usize) -> LineAnswer;
        fn shx_vitc_write(mode: u8, record: Record, start: usize, run: *mut u8, length: usize) -> u8;
        fn shx_atc_read(mode: u8, interface: u8, words: *const u16, length: usize) -> PacketAnswer;
        fn shx_atc_write(mode: u8, interface: u8, contents: Contents, start: usize, run: *mut u16, length: usize) -> u8;
        fn shx_fresh(mode: u8, ways: u8) -> State;
        fn shx_step(reader: State, element: u8) -> StepAnswer;
        fn shx_block(reader: State, limit: usize, run: *const u8, length: usize) -> BlockAnswer;
    }

    #[derive(Clone, Copy, Debug, PartialEq)] pub enum Polarity { Corrected, Uncorrected }
    #[derive(Clone, Copy, Debug, PartialEq)] pub enum Ways { ForwardOnly, BothWays }
    #[derive(Clone, Copy, Debug, PartialEq)] pub enum Interface { Lines525, Lines625, HighDefinition }
    #[derive(Clone, Copy, Debug, PartialEq)] pub struct Report { pub found: Polarity, pub backward: bool, pub record: Record }
    #[derive(Clone, Copy, Debug, PartialEq)] pub enum Heard { Nothing, Accepted(Report), Refused(u8) }
    #[derive(Clone, Copy, Debug, PartialEq)] pub struct Refused(pub u8);
    fn polarity(found: u8) -> Polarity { if found == 0 { Polarity::Corrected } else { Polarity::Uncorrected } }
    fn heard(answer: HeardAnswer) -> Heard {
        match answer.code {
            0 => Heard::Nothing,
            100 => Heard::Accepted(Report { found: polarity(answer.found), backward: answer.way == 1, record: answer.record }),
            number => Heard::Refused(number),
        }
    }
    /// Done (0) and accepted (100) are no refusals; every other code is.
    fn given<A, T>(answer: A, parts: fn(A) -> (u8, T)) -> Result<T, Refused> {
        match parts(answer) { (0 | 100, given) => Ok(given), (number, _) => Err(Refused(number)) }
    }
    fn written(code: u8) -> Result<(), Refused> { given(code, |code| (code, ())) }

    pub fn number(mode: u8, drop: bool, picture: Picture) -> Result<u32, Refused> {
        given(unsafe { shx_number(mode, drop as u8, picture) }, |a| (a.code, a.number)) // SAFETY: 4; nothing is lent
    }
    pub fn number_in_second(mode: u8, drop: bool, picture: Picture) -> Result<u16, Refused> {
        given(unsafe { shx_number_in_second(mode, drop as u8, picture) }, |a| (a.code, a.number)) // SAFETY: 4; nothing is lent
    }
    pub fn picture(mode: u8, drop: bool, number: u32) -> Result<Picture, Refused> {
        given(unsafe { shx_picture(mode, drop as u8, number) }, |a| (a.code, a.picture)) // SAFETY: 4; nothing is lent
    }
    pub fn distance(mode: u8, drop: bool, from: Picture, to: Picture) -> Result<i32, Refused> {
        given(unsafe { shx_distance(mode, drop as u8, from, to) }, |a| (a.code, a.pictures)) // SAFETY: 4; nothing is lent
    }
    pub fn add(mode: u8, drop: bool, picture: Picture, pictures: i32) -> Result<Picture, Refused> {
        given(unsafe { shx_add(mode, drop as u8, picture, pictures) }, |a| (a.code, a.picture)) // SAFETY: 4; nothing is lent
    }
    pub fn ltc_read(mode: u8, word: &[u8]) -> Result<(Record, Polarity), Refused> {
        given(unsafe { shx_ltc_read(mode, word.as_ptr(), word.len()) }, |a| (a.code, (a.record, polarity(a.found)))) // SAFETY: 1 and 3, a slice; 4
    }
    pub fn ltc_write(mode: u8, record: Record, make: Polarity, start: usize, run: &mut [u8]) -> Result<(), Refused> {
        written(unsafe { shx_ltc_write(mode, record, make as u8, start, run.as_mut_ptr(), run.len()) }) // SAFETY: 1 to 3, a `&mut` slice; 4
    }
    pub fn vitc_read(mode: u8, line: &[u8]) -> Result<Record, Refused> {
        given(unsafe { shx_vitc_read(mode, line.as_ptr(), line.len()) }, |a| (a.code, a.record)) // SAFETY: 1 and 3, a slice; 4
    }
    pub fn vitc_write(mode: u8, record: Record, start: usize, run: &mut [u8]) -> Result<(), Refused> {
        written(unsafe { shx_vitc_write(mode, record, start, run.as_mut_ptr(), run.len()) }) // SAFETY: 1 to 3, a `&mut` slice; 4
    }
    pub fn atc_read(mode: u8, interface: Interface, words: &[u16]) -> Result<Contents, Refused> {
        given(unsafe { shx_atc_read(mode, interface as u8, words.as_ptr(), words.len()) }, |a| (a.code, a.contents)) // SAFETY: 1 and 3, a slice; 4
    }
    pub fn atc_write(mode: u8, interface: Interface, contents: Contents, start: usize, run: &mut [u16]) -> Result<(), Refused> {
        written(unsafe { shx_atc_write(mode, interface as u8, contents, start, run.as_mut_ptr(), run.len()) }) // SAFETY: 1 to 3, a `&mut` slice; 4
    }

    /// Its state is out of reach, so that it is never one that no feeding reaches (13).
    pub struct Reader(State);
    impl Reader {
        pub fn fresh(mode: u8, ways: Ways) -> Reader { Reader(unsafe { shx_fresh(mode, ways as u8) }) } // SAFETY: 4; nothing is lent
        pub fn step(&mut self, element: u8) -> Heard {
            let answer = unsafe { shx_step(self.0, element) }; // SAFETY: 4; nothing is lent
            self.0 = answer.reader;
            heard(answer.heard)
        }
        /// What was heard, and how many bits of the run were taken.
        pub fn block(&mut self, limit: usize, run: &[u8]) -> (Heard, usize) {
            let answer = unsafe { shx_block(self.0, limit, run.as_ptr(), run.len()) }; // SAFETY: 1 and 3, a slice; 4
            self.0 = answer.reader;
            (heard(answer.heard), answer.taken)
        }
    }
}

use shonduxihi::{Interface::HighDefinition, Polarity::Corrected, *};
use std::{fs::File, io::{self, BufWriter, Read, Write}, process::ExitCode};
const PIECE: usize = 4096;
const MODE: u8 = 2;
const START: usize = 10;

fn line_of(bits: usize, heard: Heard) -> String {
    let r = match heard {
        Heard::Nothing => return String::new(),
        Heard::Refused(number) => return format!("{} refused {}\n", bits, number),
        Heard::Accepted(report) => report.record,
    };
    let groups = [r.group1, r.group2, r.group3, r.group4, r.group5, r.group6, r.group7, r.group8].map(|group| format!("{:X}", group)).concat();
    let before_frames = if r.drop == 1 { ';' } else { ':' };
    format!("{} {:02}:{:02}:{:02}{}{:02} {}\n", bits, r.hours, r.minutes, r.seconds, before_frames, r.frames, groups)
}

/// The bits that the characters stand for, and whether one of them ends the reading.
fn sift(piece: &[u8]) -> (Vec<u8>, bool) {
    let came = piece.iter().take_while(|character| matches!(character, b'0' | b'1' | b' ' | b'\n'));
    let bits = came.clone().filter(|character| matches!(character, b'0' | b'1')).map(|digit| digit - b'0').collect();
    (bits, came.count() < piece.len())
}

/// A read gives what is there and does not wait for a full piece, so a line comes as soon as its last bit. A read that fails ends the track.
fn host_read(mut input: impl Read) -> io::Result<()> {
    let mut out = BufWriter::new(io::stdout().lock());
    let mut reader = Reader::fresh(MODE, Ways::ForwardOnly);
    let (mut bits, mut left, mut piece) = (0, 16_777_216, [0; PIECE]);
    while left > 0 {
        let count = input.read(&mut piece[..left.min(PIECE)]).unwrap_or(0);
        let (run, ended) = sift(&piece[..count]);
        let mut rest = &run[..];
        while let (heard, taken @ 1..) = reader.block(rest.len(), rest) { // none is taken at the end; nor with 2, 3 or 13, which would come again
            bits += taken;
            rest = &rest[taken..];
            out.write_all(line_of(bits, heard).as_bytes())?;
        }
        out.flush()?;
        left = if ended || count == 0 { 0 } else { left - count };
    }
    writeln!(out, "end {}", bits)?;
    out.flush()
}

fn tell(so: bool, what: &str) -> bool { println!("{}{}", if so { "" } else { "NOT SO: " }, what); so }

fn host_write() -> bool {
    let picture = Picture { hours: 10, minutes: 1, frames: 2, ..Picture::default() };
    let made = Record { hours: 10, minutes: 1, frames: 2, drop: 1, ..Record::default() };
    let sent = Contents { record: made, payload_type: 1, second: 0 };
    let (mut run, mut words) = ([0; START + 90 + START], [0; START + 23 + START]);
    let on = add(MODE, true, picture, 1);
    let back = on.and_then(|on| distance(MODE, true, on, picture));
    let mut so = tell(number(MODE, true, picture) == Ok(1_080_720), "10:01:00;02 is picture 1080720 of the day");
    so &= tell(on == Ok(Picture { frames: 3, ..picture }), "one picture on is 10:01:00;03");
    so &= tell(back == Ok(-1), "from there back it is -1");

    let word = ltc_write(MODE, made, Corrected, START, &mut run).and_then(|()| ltc_read(MODE, &run[START..START + 80]));
    println!("{}", run[START..START + 80].iter().map(u8::to_string).collect::<String>());
    so &= tell(word == Ok((made, Corrected)), "word as it was made");
    let line = vitc_write(MODE, made, START, &mut run).and_then(|()| vitc_read(MODE, &run[START..START + 90]));
    so &= tell(line == Ok(made), "line as it was made");
    let packet = atc_write(MODE, HighDefinition, sent, START, &mut words).and_then(|()| atc_read(MODE, HighDefinition, &words[START..START + 23]));
    so &= tell(packet == Ok(sent), "packet as it was made");
    let before = run;
    let short = ltc_write(MODE, made, Corrected, run.len() - 80 + 1, &mut run);
    so & tell(short == Err(Refused(12)) && run == before, "without room refused 12, and the run as it was")
}

fn host_places() -> bool {
    let (right, wrong): (Vec<_>, Vec<_>) = places().into_iter().partition(|(_, found, wanted)| found == wanted);
    wrong.iter().for_each(|(name, found, wanted)| println!("{} is {} and must be {}", name, found, wanted));
    if wrong.is_empty() { println!("{} places as they must be", right.len()); }
    wrong.is_empty()
}

fn main() -> ExitCode {
    let arguments: Vec<_> = std::env::args_os().skip(1).collect();
    let so = match (arguments.first().and_then(|what| what.to_str()), arguments.get(1), arguments.len()) {
        (Some("read"), None, _) => host_read(io::stdin()).is_ok(),
        (Some("read"), Some(file), 2) => File::open(file).map_or_else(|_| { eprintln!("host: there is no such file, or it may not be read"); false },
            |track| host_read(track).is_ok()),
        (Some("write"), None, _) => host_write(),
        (Some("places"), None, _) => host_places(),
        _ => { eprintln!("usage: host read [FILE], or host write, or host places"); return ExitCode::from(2); }
    };
    if so { ExitCode::SUCCESS } else { ExitCode::FAILURE }
}
