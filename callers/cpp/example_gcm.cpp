// A message is sealed under the next nonce of a counter, and opened again. A program keeps the key and the counter in a file, under a lock:
// callers/c/example_gcm.c shows how.
#include <fotsgure_gcm.hpp>

#include <iostream>
#include <string>
#include <sys/random.h>

int main()
{
    std::array<std::uint8_t, 32> key;
    if (getrandom(key.data(), key.size(), 0) != static_cast<ssize_t>(key.size()))
        return 1;
    const fotsgure::Gcm gcm(key);
    fotsgure::Counter counter; // for a new key; else what was stored: counter(stored)
    const std::string name = "its name";
    std::string text = "a message";
    const auto [nonce, tag] = gcm.seal_next(counter, name, text);
    // Store counter.next() here, and then send nonce, name, text and tag.
    gcm.open(nonce, name, text, tag); // throws fotsgure::Refused if anything was changed
    std::cout << text << std::endl;
    return !std::cout || text != "a message";
} // the destructor of `gcm` wipes it; the key is the program's own
