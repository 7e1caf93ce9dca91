//! Seals a message by AES-GCM-SIV under the key in a file, and a nonce that is drawn at random, and opens it again.

use fotsgure_aes::gcm::GcmSiv;

fn main() -> Result<(), Box<dyn std::error::Error>> {
    let file = std::env::args().nth(1).ok_or("usage: message FILE, which has a key of 16 or 32 random bytes")?;
    let siv = GcmSiv::new(&std::fs::read(file)?)?;
    let mut text = *b"a message";
    let (nonce, tag) = siv.seal_random(b"its name", &mut text)?;
    // Send nonce, name, text and tag. Anyone who has the key opens the message:
    siv.open(&nonce, b"its name", &mut text, &tag)?; // an error if anything was changed
    println!("{}", std::str::from_utf8(&text)?);
    Ok(())
} // `siv` is dropped, which wipes it; the key that was read is the program's own
