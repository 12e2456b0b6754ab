//! A day of a shop, kept in an account book: deposits, enquiries and one that is refused, the closing total, and the book in a file, which
//! is checked before it is gone on with.
//!
//! `cargo run --example shop FILE`: FILE is replaced and read back. examples/c/shop.c tells the same story and prints the same lines.
use ouriscado::limits::STATE_WORDS;
use ouriscado::{Appended, Book, Listed, OpenError, Place, Refusal, StartError, State};
use std::error::Error;
use std::fs::{self, File};
use std::io::{self, Write};
use std::path::Path;

const BODY_BYTES: usize = 65_536;
const NAMES: [&str; 4] = ["bakery", "florist", "kiosk", "tailor"];
const BAKERY: usize = 0;
const FLORIST: usize = 1;
const KIOSK: usize = 2;
const TAILOR: usize = 3;

type ShopBook = Book<Vec<u8>, Vec<u64>>;
/// Body, head words and state: a book, where they belong together.
type Parts = (Vec<u8>, Vec<u64>, State);

/// The amount of a record in cents: a stand-in for the table of records, which the firm keeps elsewhere.
fn cents(record: u64) -> u64 {
    record * 3719 % 9000 + 100
}

/// Records a deposit, and says where the account's list stands now.
fn deposit(book: &mut ShopBook, account: usize, record: u64) {
    print!("deposit {record} for the {}: ", NAMES[account]);
    match book.append(account as u64, record) {
        Err(refusal) => println!("refused with {} and not recorded: {}", refusal.number(), refusal.text()),
        Ok(Appended { place, rewritten }) => match place {
            Place::Empty => println!("empty, {rewritten} rewritten"),
            Place::Inline(_) => println!("inline, {rewritten} rewritten"),
            Place::Slab { class, used, offset } => {
                println!("slab of class {class} at {offset} with {used} numbers, {rewritten} rewritten");
            }
            Place::Pages { last } => println!("pages, the last at {last}, {rewritten} rewritten"),
        },
    }
}

/// One enquiry with a list of so many numbers, and what it says.
fn ask(book: &ShopBook, account: usize, room: usize) {
    let mut list = vec![0; room];
    print!("enquiry for the {}, with room for {room}: ", NAMES[account]);
    match book.read_into(account as u64, &mut list) {
        Err(refusal) => println!("refused with {}, this is no empty account: {}", refusal.number(), refusal.text()),
        Ok(Listed { length: 0, .. }) => println!("nothing was received"),
        Ok(Listed { length, pages, .. }) => println!("{length} from {} to {}, pages {pages}", list[0], list[length - 1]),
    }
}

/// The closing total over all accounts, an account a line. A refused enquiry ends it: the account is unknown, which must never pass for
/// empty.
fn closing(book: &ShopBook) -> Result<(), Refusal> {
    let mut total = 0;
    for (account, name) in NAMES.iter().enumerate() {
        let list = book.read(account as u64)?;
        let sum: u64 = list.iter().map(|&record| cents(record)).sum();
        println!("closing {name}: deposits {}, amount {}.{:02}", list.len(), sum / 100, sum % 100);
        total += sum;
    }
    println!("closing total: {}.{:02}", total / 100, total % 100);
    Ok(())
}

/// The bytes of words, the lowest byte of each first.
fn bytes(words: &[u64]) -> Vec<u8> {
    words.iter().flat_map(|word| word.to_le_bytes()).collect()
}

/// The words of bytes.
fn words(bytes: &[u8]) -> Vec<u64> {
    bytes.chunks_exact(8).map(|word| u64::from_le_bytes(word.try_into().expect("8 bytes"))).collect()
}

/// Saves a book, and tells how many bytes it has. Were it written over the file that is there, and the machine stopped in between, that file
/// would be a mix of two moments and the only copy gone. So a second file is written, brought to the disk, and given the name: at each moment
/// the name has the whole old book or the whole new one.
fn save(book: &ShopBook, path: &str) -> io::Result<usize> {
    let whole = [&bytes(&book.state().0)[..], &bytes(book.heads()), book.body()].concat(); // the three of one moment
    let beside = format!("{path}.new");
    let mut file = File::create(&beside)?;
    file.write_all(&whole)?;
    file.sync_all()?; // what was written may stand in memory alone until then
    fs::rename(&beside, path)?;
    sync_folder(path)?;
    Ok(whole.len())
}

/// Has the names in the folder of a path on the disk: a file that was renamed may have its old name there until then.
fn sync_folder(path: &str) -> io::Result<()> {
    let folder = Path::new(path).parent().filter(|folder| !folder.as_os_str().is_empty());
    File::open(folder.unwrap_or(Path::new(".")))?.sync_all()
}

/// Body, head words and state from such a file.
fn read_back(path: &str) -> Result<Parts, Box<dyn Error>> {
    let whole = fs::read(path)?;
    if whole.len() != 8 * (STATE_WORDS + NAMES.len()) + BODY_BYTES {
        return Err("the file has another length than the book".into());
    }
    let (state, rest) = whole.split_at(8 * STATE_WORDS);
    let (heads, body) = rest.split_at(8 * NAMES.len());
    let state = State(words(state).try_into().expect("as many words"));
    Ok((body.to_vec(), words(heads), state))
}

/// Goes on with a book from elsewhere, and tells whether it did: it is enquired only where it is a good start.
fn go_on((body, heads, state): Parts) -> Result<bool, Refusal> {
    let book = match Book::open(body, heads, state) {
        Err(OpenError { why: StartError::Refused(refusal), .. }) => return Err(refusal),
        Err(OpenError { why, .. }) => {
            println!("the book isn't opened: {why}");
            return Ok(false);
        }
        Ok(book) => book,
    };
    println!("the book is a good start");
    ask(&book, FLORIST, 512);
    ask(&book, BAKERY, 512);
    closing(&book)?;
    Ok(true)
}

fn main() -> Result<(), Box<dyn Error>> {
    let path = std::env::args().nth(1).ok_or("usage: shop FILE")?;
    println!("Ouriscado {}", env!("CARGO_PKG_VERSION"));
    let mut today = Book::fresh(vec![0; BODY_BYTES], vec![0; NAMES.len()])?;
    let month: Vec<u64> = (1..=300).map(|i| 10 * i).collect();
    println!("loaded for the bakery: 300, pages {}", today.load(BAKERY as u64, &month)?);
    // The tailor has closed: no deposit will follow, so that the list needs no spare slot.
    let year: Vec<u64> = (0..14).map(|i| 10 * i + 5).collect();
    println!("loaded tight for the tailor, who has closed: 14, pages {}", today.load_tight(TAILOR as u64, &year)?);

    for (account, record) in [(FLORIST, 3005), (BAKERY, 3006), (FLORIST, 3010), (FLORIST, 3012), (FLORIST, 3012)] {
        deposit(&mut today, account, record);
    }
    ask(&today, BAKERY, 300);
    ask(&today, BAKERY, 512);
    ask(&today, KIOSK, 0);
    closing(&today)?;

    println!("the book is written: {} bytes", save(&today, &path)?);
    if !go_on(read_back(&path)?)? {
        return Err("the book that was written is no good start".into());
    }

    let (body, mut heads, state) = read_back(&path)?;
    heads[KIOSK] = heads[FLORIST];
    println!("the florist's head word is copied over the kiosk's");
    if go_on((body, heads, state))? {
        return Err("a damaged book is a good start".into());
    }
    Ok(())
}
