//! The program of document 01, answered by the plain program: prints the
//! answers to a question file over a card file.

use second::plain::program::printed;

fn main() {
    let mut files = std::env::args_os()
        .skip(1)
        .map(|path| std::fs::read(path).ok());
    let card = files.next().flatten();
    let questions = files.next().flatten();
    print!("{}", printed(card.as_deref(), questions.as_deref()));
}
