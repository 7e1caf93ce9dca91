// The example of FIPS 197, C.3: a block is encrypted under a key of 32 bytes, and decrypted again. Bare blocks protect no message: see
// fotsgure_gcm.h.
#include <fotsgure_aes.hpp>

int main()
{
    const fotsgure::Block plain{0x00, 0x11, 0x22, 0x33, 0x44, 0x55, 0x66, 0x77, 0x88, 0x99, 0xaa, 0xbb, 0xcc, 0xdd, 0xee, 0xff};
    const fotsgure::Block cipher{0x8e, 0xa2, 0xb7, 0xca, 0x51, 0x67, 0x45, 0xbf, 0xea, 0xfc, 0x49, 0x90, 0x4b, 0x49, 0x60, 0x89};
    std::array<std::uint8_t, 32> key;
    for (std::size_t i = 0; i < key.size(); ++i)
        key[i] = static_cast<std::uint8_t>(i);
    fotsgure::Block block = plain;
    const fotsgure::Aes aes(key); // throws std::invalid_argument for a key of another length
    aes.encrypt(block);
    bool right = block == cipher;
    aes.decrypt(block);
    right = right && block == plain;
    return !right;
} // the destructor of `aes` wipes its key schedule
