//! `bill`: what checks cost by a tariff, by thread and together.

use crate::command::gather::{gathered, Gathered};
use crate::command::input::{called, mistakes, read, Input, Subject};
use crate::command::judge::judge;
use crate::command::options::Options;
use crate::command::service::{bill_for, one_biller, BILLER};
use crate::command::{json, print, words, Done, Status};
use crate::text::parse_tariff::tariff;
use reference::bill::{Bill, Tariff, NOT_ACCEPTED};
use reference::checker::accepted;
use reference::service::CALLERS;

/// One file: its bill with the names of its threads and a word about it, or why there is none.
type Billed = Result<(Bill, Vec<String>, String), String>;

pub fn run(args: &[&str]) -> Done {
    let options = Options::read(args, &["--tariff", "--billed", "--json"])?;
    let prices = prices(&options)?;
    let files = gathered(&options.files);
    if files.is_empty() {
        return Err("no file to bill; see outline --help".into());
    }
    let mut service = one_biller(options.billed.unwrap_or(0));
    let (mut out, mut worst, mut sum) = (String::new(), Status::Accepted, 0);
    for Gathered { file, fault } in &files {
        let billed = match fault {
            Some(fault) => Err(fault.clone()),
            None => bill_one(file, &prices, &mut service),
        };
        if let Ok((bill, ..)) = &billed {
            sum += u64::from(bill.cents);
        }
        worst = worst.max(status(&billed));
        let json = options.json;
        out += &if json { as_json(file, &billed) } else { as_words(file, &billed) + "\n" };
    }
    if !options.json {
        let all = if files.len() > 1 {
            format!("{} files: {sum} cents; ", files.len())
        } else {
            String::new()
        };
        out += &format!("{all}billed images: {}   ({BILLER})\n", service[CALLERS]);
    }
    print(out)?;
    Ok(worst)
}

/// The tariff of the file that is named.
fn prices(options: &Options) -> Result<Tariff, String> {
    let file = options.tariff.as_deref().ok_or("`--tariff FILE` is wanted; see outline --help")?;
    if file == "-" && options.files.iter().any(|file| file == "-") {
        return Err("standard input is one file: the tariff or an image".into());
    }
    let text = match read(file)? {
        Input::Text(text) => text,
        Input::Image(bytes) if bytes.is_empty() => String::new(),
        Input::Image(_) => return Err(format!("{}: this is no tariff", called(file))),
    };
    tariff(&text).map_err(|all| mistakes(file, &text, &all))
}

/// A bill for the one caller of the service.
fn bill_one(file: &str, prices: &Tariff, service: &mut [u32]) -> Billed {
    let subject = Subject::of(file)?;
    let bill = bill_for(service, 1, &subject.bytes, prices);
    let names = accepted(&subject.bytes).map(|image| subject.names(&image.program).threads);
    let said = match bill.code {
        0 => charged(&bill),
        NOT_ACCEPTED => {
            let verdict = judge(&subject.bytes);
            let said = words::verdict(&verdict, subject.source(), subject.claims());
            format!("NOT BILLED (code {NOT_ACCEPTED}): {said}")
        }
        code => {
            let number = bill.billed;
            format!("NOT BILLED (code {code}): {number} images are billed, and no more are counted")
        }
    };
    Ok((bill, names.unwrap_or_default(), said))
}

/// The cents, and whether they are the least charge.
fn charged(bill: &Bill) -> String {
    let sum: u32 = bill.threads.iter().sum();
    match sum < bill.cents {
        true => format!("{} cents, the least charge; the obligations come to {sum}", bill.cents),
        false => format!("{} cents", bill.cents),
    }
}

/// A bill in one line: cents, what each thread that is there costs, and the number by now.
pub fn in_a_line(bill: &Bill, names: &[String]) -> String {
    let threads = by_thread(bill, names).map(|(name, cents)| format!("{name}: {cents}"));
    let threads: Vec<String> = threads.collect();
    format!("{}; {}; billed images: {}", charged(bill), threads.join(", "), bill.billed)
}

fn status(billed: &Billed) -> Status {
    match billed {
        Ok((bill, ..)) if bill.code == 0 => Status::Accepted,
        Ok(_) => Status::Refused,
        Err(_) => Status::Unusable,
    }
}

/// What each thread that is there costs.
fn by_thread<'a>(bill: &Bill, names: &'a [String]) -> impl Iterator<Item = (&'a String, u32)> {
    names.iter().zip(bill.threads).filter(|_| bill.code == 0).collect::<Vec<_>>().into_iter()
}

fn as_words(file: &str, billed: &Billed) -> String {
    match billed {
        Ok((bill, names, said)) => {
            let threads =
                by_thread(bill, names).map(|(name, cents)| format!("\n  {name}: {cents}"));
            format!("{}: {said}{}", called(file), threads.collect::<String>())
        }
        Err(text) => format!("{}: NOT BILLED: {text}", called(file)),
    }
}

fn as_json(file: &str, billed: &Billed) -> String {
    let mut all = vec![("file", json::text(called(file)))];
    match billed {
        Ok((bill, names, said)) => {
            let thread = |(name, cents): (&String, u32)| {
                json::object(&[("thread", json::text(name)), ("cents", cents.to_string())])
            };
            all.push(("code", bill.code.to_string()));
            all.push(("cents", bill.cents.to_string()));
            all.push(("billed", bill.billed.to_string()));
            all.push(("threads", json::list(by_thread(bill, names).map(thread))));
            all.push(("words", json::text(said)));
            all.push(("biller", json::text(BILLER)));
        }
        Err(text) => {
            all.push(("error", json::text(text)));
            all.push(("mistakes", json::mistakes(&[file], text)));
        }
    }
    json::answer("bill", status(billed), &all)
}
