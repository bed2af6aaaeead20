//! Parses a page from a socket as it comes (here one end of a pair, whose other end a thread writes to), and prints it normalised.
use std::io::{copy, Write};
use std::os::unix::net::UnixStream;
use zilqumet::Options;

fn main() -> Result<(), Box<dyn std::error::Error>> {
    let (mut ours, mut theirs) = UnixStream::pair()?;
    let sender = std::thread::spawn(move || theirs.write_all(b"<p>One<p>Two"));
    let mut parser = Options::new().max_input(1 << 20).parser()?;
    copy(&mut ours, &mut parser)?;
    print!("{}", parser.finish()?.serialise()?);
    sender.join().map_err(|_| "the sender stopped")??;
    Ok(())
}
