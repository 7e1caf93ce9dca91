//! A message is sealed under the next nonce of a counter, and opened again. A program keeps the key and the counter in
//! a file, under a lock: callers/c/example_gcm.c shows how.

use fotsgure_aes::gcm::{Counter, Gcm};
use std::io::Read;

fn main() -> Result<(), Box<dyn std::error::Error>> {
    let mut key = [0; 32];
    std::fs::File::open("/dev/urandom")?.read_exact(&mut key)?; // don't use a password as a key
    let gcm = Gcm::new(&key)?;
    let mut counter = Counter { next: [0; 12] }; // for a new key; else what was stored
    let mut text = *b"a message";
    let (nonce, tag) = gcm.seal_next(&mut counter, b"its name", &mut text)?;
    // Store counter.next here, and then send nonce, name, text and tag.
    gcm.open(&nonce, b"its name", &mut text, &tag)?; // an error if anything was changed
    println!("{}", std::str::from_utf8(&text)?);
    Ok(())
} // `gcm` is dropped, which wipes it; the key is the program's own
