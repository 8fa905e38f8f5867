//! Does what the lines of standard input say, by the crate; tests/test_bindings.py tells what each line means.

use std::fmt::Display;
use std::io::{stdin, stdout, BufWriter, ErrorKind, Read, Write};
use std::time::Instant;
use std::{fs, panic, thread};

use fbcheck::{Options, Path, Reason, Schema, StreamError, Value, Verdict};

type Told = Result<String, Box<dyn std::error::Error>>;

/// A reader of bytes in pieces of a size, the first of another one.
struct Pieces {
    bytes: Vec<u8>,
    at: usize,
    first: usize,
    size: usize,
}

impl Read for Pieces {
    fn read(&mut self, to: &mut [u8]) -> std::io::Result<usize> {
        let size = if self.at == 0 { self.first } else { self.size };
        let piece = &self.bytes[self.at..];
        let length = size.min(piece.len()).min(to.len());
        to[..length].copy_from_slice(&piece[..length]);
        self.at += length;
        Ok(length)
    }
}

/// A reader that has an error before each piece.
struct Hindered(Pieces, bool);

impl Read for Hindered {
    fn read(&mut self, to: &mut [u8]) -> std::io::Result<usize> {
        self.1 = !self.1;
        match self.1 {
            true => Err(ErrorKind::TimedOut.into()),
            false => self.0.read(to),
        }
    }
}

/// Goes through a stream whose reader is hindered.
fn patient(schema: &Schema, words: &[&str], to: &mut impl Write) -> Told {
    let (bytes, at, size) = (fs::read(words[0])?, 0, words[1].parse()?);
    let first = size;
    let mut messages = schema.messages(Hindered(
        Pieces {
            bytes,
            at,
            first,
            size,
        },
        false,
    ));
    let (mut number, mut hindered) = (0, false);
    loop {
        match messages.next_message() {
            Ok(None) => return Ok(format!("end deadline={hindered} idle=false")),
            Ok(Some((_, verdict))) => {
                number += 1;
                writeln!(to, "{number} {}", line(&verdict))?;
            }
            Err(StreamError::Read(error)) if error.kind() == ErrorKind::TimedOut => hindered = true,
            Err(error) => return Err(error.into()),
        }
    }
}

fn options(words: &[&str]) -> Result<Options, Box<dyn std::error::Error>> {
    let mut asked = Options::new();
    for word in words {
        let (name, value) = word.split_once('=').ok_or("no option")?;
        asked = match name {
            "root" => asked.root(value),
            "max_depth" => asked.max_depth(value.parse()?),
            "max_tables" => asked.max_tables(value.parse()?),
            "max_reads" => asked.max_reads(value.parse()?),
            "reads_per_byte" => asked.reads_per_byte(value.parse()?),
            "ident" if value == "own" => asked.own_ident(),
            "ident" => asked.ident(value.as_bytes().try_into()?),
            "prefixed" => asked.prefixed(value == "1"),
            "alignment" => asked.alignment(value == "1"),
            "inline_size" => asked.inline_size(value == "1"),
            "strict" => asked.strict(value == "1"),
            "known_fields" => asked.known_fields(value == "1"),
            "utf8" => asked.utf8(value == "1"),
            "plain_bytes" => asked.plain_bytes(value == "1"),
            _ => return Err("no such option".into()),
        };
    }
    Ok(asked)
}

fn line(verdict: &Verdict) -> String {
    if let Err(fault) = verdict {
        assert!(fault.reason >= Reason::TooLong);
    }
    match verdict {
        Ok(report) => format!("ok {report}"),
        Err(fault) => format!("bad {fault}"),
    }
}

fn hex(bytes: &[u8]) -> String {
    bytes.iter().map(|byte| format!("{byte:02x}")).collect()
}

fn value(value: &Value) -> String {
    match *value {
        Value::NoElement => "no-element".to_owned(),
        Value::OtherMember => "other-member".to_owned(),
        Value::Float(number) => format!("float:{}", hex(&number.to_le_bytes())),
        Value::Text(bytes) => format!("text:{}", hex(bytes)),
        Value::Struct(bytes) => format!("struct:{}", hex(bytes)),
        Value::Vector(length, bytes) => format!("vector:{length}:{}", hex(bytes)),
        Value::Union(number) => format!("union:{number}"),
        _ => value.to_string().to_lowercase(),
    }
}

fn stream(schema: &Schema, words: &[&str], to: &mut impl Write) -> Told {
    let &[file, first, size, most] = words else {
        return Err("stream FILE FIRST SIZE MOST".into());
    };
    let (first, size) = (first.parse()?, size.parse()?);
    let (bytes, at) = (fs::read(file)?, 0);
    let reader = Pieces {
        bytes,
        at,
        first,
        size,
    };
    let most = most.parse()?;
    let begun = quietly(|| schema.messages(reader).max_bytes(most));
    let mut messages = begun?;
    let (mut number, mut next) = (0, 0);
    loop {
        match messages.next_message() {
            Ok(None) => return Ok("end".to_owned()),
            Ok(Some((message, verdict))) => {
                let begin = next;
                number += 1;
                next += message.len() as u64;
                assert_eq!((messages.count(), messages.begin()), (number, begin));
                writeln!(to, "{number} {}", line(&verdict))?;
            }
            Err(error) => {
                let again = messages.next_message().map(|_| "a message");
                let again = again.expect_err("it can't go on").to_string();
                let lasts = matches!(error, StreamError::NoMemory { .. });
                match error {
                    StreamError::Truncated {
                        number: at,
                        begin,
                        held,
                        size,
                    } => {
                        assert_eq!((at, begin), (number + 1, next));
                        assert!(size.map_or(held < 4, |size| held < size));
                    }
                    StreamError::Oversize {
                        number: at,
                        begin,
                        declared,
                        max_bytes,
                    } => {
                        assert_eq!((at, begin, max_bytes), (number + 1, next, most));
                        assert!(declared as usize + 4 > most);
                    }
                    _ => {}
                }
                assert_eq!(again == error.to_string(), lasts, "{again}");
                return Err(error.into());
            }
        }
    }
}

fn read(schema: &Schema, words: &[&str]) -> Told {
    let bytes = fs::read(words[0])?;
    let paths = words[1..].iter().map(|text| schema.path(text));
    let paths: Vec<Path> = paths.collect::<Result<_, _>>()?;
    let read = schema.read_all(&bytes, &paths);
    let values = read.map_err(|fault| format!("bad {fault}"))?;
    for (path, told) in paths.iter().zip(&values) {
        let [one] = schema.read(&bytes, &[*path])?;
        assert_eq!(value(&one), value(told));
    }
    Ok(values.iter().map(value).collect::<Vec<_>>().join(" "))
}

/// Values as each kind of number, where they fit.
fn numbers(schema: &Schema, words: &[&str]) -> Told {
    let bytes = fs::read(words[0])?;
    let mut told = Vec::new();
    for name in &words[1..] {
        let [path, _] = schema.paths([name, name])?;
        let [one] = schema.read(&bytes, &[path])?;
        told.extend([text(one.as_u64()), text(one.as_i64()), text(one.as_f64())]);
    }
    Ok(told.join(" "))
}

/// The values that are read without a check, each alone and all that fit an array.
fn again(schema: &Schema, words: &[&str]) -> Told {
    let bytes = fs::read(words[0])?;
    let mut told = Vec::new();
    for text in &words[1..] {
        let path = schema.path(text)?;
        let [one, same] = schema.read_again(&bytes, &[path, path])?;
        assert_eq!(value(&one), value(&same));
        told.push(value(&one));
    }
    Ok(told.join(" "))
}

/// The elements of a vector and one more, each without a check.
fn each(schema: &Schema, words: &[&str]) -> Told {
    let bytes = fs::read(words[0])?;
    let (vector, element) = (schema.path(words[1])?, schema.path(words[2])?);
    let [Value::Vector(count, _)] = schema.read(&bytes, &[vector])? else {
        return Err("no vector".into());
    };
    let mut told = Vec::new();
    for index in (0..=count).chain([1 << 32]) {
        let [one] = schema.read_again(&bytes, &[element.at(index)])?;
        told.push(value(&one));
    }
    quietly(|| vector.at(0)).expect_err("it has no [n]");
    Ok(told.join(" "))
}

/// The verdict on a message, wherever it stands.
fn check(schema: &Schema, file: &str) -> Told {
    let bytes = fs::read(file)?;
    let verdict = schema.check(&bytes);
    for shift in 0..16 {
        let moved = [&[0; 16][..shift], &bytes].concat();
        assert_eq!(schema.check(&moved[shift..]), verdict);
    }
    Ok(line(&verdict))
}

/// Reads by a path of another root, which panics.
fn misfit(schema: &Schema, words: &[&str]) -> Told {
    let path = schema.with(&options(&words[..1])?)?.path(words[1])?;
    let bytes = fs::read(words[2])?;
    let read = quietly(|| schema.read(&bytes, &[path]).map(|_| ()))?;
    Ok(read.map_or_else(|fault| format!("error bad {fault}"), |()| "done".to_owned()))
}

/// Reads by a path that another load of the schema file resolved, which panics.
fn stranger(schema: &Schema, words: &[&str]) -> Told {
    let other = options(&words[3..])?.load(&fs::read(words[0])?)?;
    let (path, bytes) = (other.path(words[1])?, fs::read(words[2])?);
    let read = quietly(|| schema.read_all(&bytes, &[path]).map(|_| ()))?;
    Ok(read.map_or_else(|fault| format!("error bad {fault}"), |()| "done".to_owned()))
}

/// What a call gives, or the text by which it panics.
fn quietly<T>(call: impl FnOnce() -> T) -> Result<T, Box<dyn std::error::Error>> {
    panic::set_hook(Box::new(|_| ()));
    let given = panic::catch_unwind(panic::AssertUnwindSafe(call));
    let _ = panic::take_hook();
    given.map_err(|text| (*text.downcast::<&str>().expect("a text")).into())
}

fn threads(schema: &Schema, words: &[&str]) -> Told {
    let bytes = fs::read(words[0])?;
    let (count, threads): (usize, usize) = (words[1].parse()?, words[2].parse()?);
    let want = schema.check(&bytes);
    let path = words.get(3).map(|text| schema.path(text)).transpose()?;
    let values = path.map(|path| schema.read(&bytes, &[path])).transpose()?;
    let same = || match (path, values) {
        (Some(path), Some([value])) => {
            schema.read(&bytes, &[path]) == Ok([value])
                && schema.read_again(&bytes, &[path]) == Ok([value])
        }
        _ => schema.check(&bytes) == want,
    };
    let alike = || (0..count).filter(|_| same()).count();
    let sum: usize = thread::scope(|scope| {
        let running: Vec<_> = (0..threads).map(|_| scope.spawn(alike)).collect();
        running.into_iter().map(|one| one.join().unwrap()).sum()
    });
    Ok(sum.to_string())
}

fn kilobytes() -> Result<i64, Box<dyn std::error::Error>> {
    let told = fs::read_to_string("/proc/self/statm")?;
    Ok(4 * told.split(' ').nth(1).ok_or("no size")?.parse::<i64>()?)
}

fn loads(words: &[&str]) -> Told {
    let (file, count): (_, usize) = (fs::read(words[0])?, words[1].parse()?);
    let mut before = 0;
    for number in 0..count {
        if number == count / 10 {
            before = kilobytes()?;
        }
        let schema = Schema::new(&file)?;
        let other = schema.with(&Options::new().prefixed(true))?;
        assert!(other.check(b"").is_err());
        assert!(Schema::new(&file[..number % (file.len() / 2)]).is_err());
    }
    Ok((kilobytes()? - before).to_string())
}

fn time(schema: &Schema, words: &[&str]) -> Told {
    let (bytes, count): (_, u32) = (fs::read(words[0])?, words[1].parse()?);
    let good = schema.check(&bytes).is_ok();
    let mut best = u128::MAX;
    for _ in 0..400 {
        let begun = Instant::now();
        for _ in 0..count / 400 {
            assert!(schema.check(&bytes).is_ok() == good);
        }
        best = best.min(begun.elapsed().as_nanos() * 400 / u128::from(count));
    }
    Ok(best.to_string())
}

fn text(told: Option<impl Display>) -> String {
    told.map_or("-".to_owned(), |told| told.to_string())
}

fn done(schema: &mut Option<Schema>, words: &[&str], to: &mut impl Write) -> Told {
    let (name, rest) = words.split_first().ok_or("no word")?;
    match (*name, schema.as_ref()) {
        ("load", _) => *schema = Some(options(&rest[1..])?.load(&fs::read(rest[0])?)?),
        ("loads", _) => return loads(rest),
        ("commit", _) => return Ok(text(fbcheck::commit())),
        ("with", Some(old)) => *schema = Some(old.with(&options(rest)?)?),
        ("check", Some(schema)) => return check(schema, rest[0]),
        ("misfit", Some(schema)) => return misfit(schema, rest),
        ("patient", Some(schema)) => return patient(schema, rest, to),
        ("numbers", Some(schema)) => return numbers(schema, rest),
        ("again", Some(schema)) => return again(schema, rest),
        ("each", Some(schema)) => return each(schema, rest),
        ("stranger", Some(schema)) => return stranger(schema, rest),
        ("stream", Some(schema)) => return stream(schema, rest, to),
        ("read", Some(schema)) => return read(schema, rest),
        ("threads", Some(schema)) => return threads(schema, rest),
        ("time", Some(schema)) => return time(schema, rest),
        ("most", Some(schema)) => return Ok(schema.most_reads(rest[0].parse()?).to_string()),
        ("object", Some(schema)) => return Ok(text(schema.object_name(rest[0].parse()?))),
        ("field", Some(schema)) => {
            return Ok(text(schema.field_name(rest[0].parse()?, rest[1].parse()?)))
        }
        _ => return Err(format!("what is {name}?").into()),
    }
    Ok("done".to_owned())
}

fn main() {
    let mut schema = None;
    let mut to = BufWriter::new(stdout());
    for command in stdin().lines() {
        let command = command.expect("lines");
        let words: Vec<&str> = command.split(' ').collect();
        let told = match done(&mut schema, &words, &mut to) {
            Ok(told) => told,
            Err(error) => format!("error {error}"),
        };
        writeln!(to, "{told}\n.").expect("an open pipe");
    }
}
