//! Prints tests/vectors/more.txt.

fn main() {
    print!("{}", drive::more::text());
}
