// A message is sealed by AES-GCM-SIV under a nonce that is drawn at random, and opened again.
#include <fotsgure_gcm.hpp>

#include <exception>
#include <fstream>
#include <iostream>
#include <stdexcept>
#include <string>

// A key from a file of 32 random bytes: (umask 077; set -C; head -c 32 /dev/urandom > FILE)
static std::string read_key(const char *path)
{
    std::string key(32, '\0');
    std::ifstream file(path, std::ios::binary);
    if (!file.read(key.data(), 32) || file.get() != std::ifstream::traits_type::eof())
        throw std::runtime_error(std::string(path) + ": no file with a key of 32 bytes");
    return key;
}

static void seal_and_open(const std::string &key)
{
    const fotsgure::GcmSiv siv(key);
    const std::string name = "its name";
    std::string text = "a message";
    const auto [nonce, tag] = siv.seal_random(name, text);
    // Send nonce, name, text and tag. Anyone who has the key opens the message:
    siv.open(nonce, name, text, tag); // throws fotsgure::Refused if anything was changed
    if (!(std::cout << text << std::endl))
        throw std::runtime_error("the output can't be written");
} // the destructor of `siv` wipes it; the key is the program's own

int main(int count, char **words)
{
    if (count != 2) {
        std::cerr << "usage: message FILE    (FILE has a key of 32 bytes)\n";
        return 2;
    }
    try {
        seal_and_open(read_key(words[1]));
    } catch (const std::exception &error) {
        std::cerr << "message: " << error.what() << '\n';
        return 1;
    }
}
