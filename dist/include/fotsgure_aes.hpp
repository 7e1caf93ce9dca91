// AES for C++17 over fotsgure_aes.h: a key that wipes itself, counter mode, CBC and key wrap. The classes meet the header's
// conditions, except those that their caller has to meet. These are valid pointers, no overlap of buffers, no data race,
// enough stack, a processor that fits, and no initial counter block used twice under a key.
#ifndef FOTSGURE_AES_HPP
#define FOTSGURE_AES_HPP

#include "fotsgure_aes.h"
#include "fotsgure_bytes.hpp"
#ifdef FOTSGURE_BYTES_HPP_IS_WHOLE

#include <array>
#include <stdexcept>
#include <utility>
#include <vector>

namespace fotsgure {

using Block = std::array<std::uint8_t, 16>;
static_assert(sizeof(Block) == 16, "a block is its sixteen bytes");
// Whole blocks: what Bytes accepts, or elements of sixteen bytes.
using Blocks = BasicBytes<std::uint8_t, 16>;

namespace detail {

// Throws for every status but DONE, with the header's words.
inline void check(fotsgure_aes_status status)
{
    const char *const words = fotsgure_aes_status_text(status);
    switch (status) {
    case FOTSGURE_AES_DONE: return;
    case FOTSGURE_AES_KEY_LENGTH:
    case FOTSGURE_AES_UNEQUAL_COUNTS:
    case FOTSGURE_AES_INVALID_COUNT:
    case FOTSGURE_AES_TAG_LENGTH:
    case FOTSGURE_AES_NONCE_LENGTH: throw std::invalid_argument(words);
    case FOTSGURE_AES_KEYSTREAM_END:
    case FOTSGURE_AES_TOO_LONG: throw std::length_error(words);
    case FOTSGURE_AES_REFUSED: throw std::runtime_error(words);
    case FOTSGURE_AES_NO_KEY:
    case FOTSGURE_AES_OUT_OF_TURN: break;
    }
    throw std::logic_error(words);
}

// How many parts of `size` bytes there are.
inline std::size_t whole(std::size_t length, std::size_t size, const char *words)
{
    if (length % size != 0)
        throw std::invalid_argument(words);
    return length / size;
}

inline std::size_t blocks(std::size_t length)
{
    return whole(length, 16, "the length isn't a multiple of 16 bytes");
}

inline std::size_t semiblocks(std::size_t length)
{
    return whole(length, 8, "the length isn't a multiple of 8 bytes");
}

} // namespace detail

// A key of 16, 24 or 32 bytes. The destructor wipes it. It can't be copied, so that no copy is forgotten. It can be moved: the
// old object then has no key, and its calls throw std::logic_error. Threads may share one.
class Aes {
public:
    Aes(const std::uint8_t *key, std::size_t length) { detail::check(fotsgure_aes_set_key(&aes, key, length)); }
    explicit Aes(Bytes key) : Aes(key.data(), key.size()) {}
    ~Aes() { fotsgure_aes_wipe(&aes); }
    Aes(const Aes &) = delete;
    Aes &operator=(const Aes &) = delete;
    Aes(Aes &&from) noexcept : aes(from.aes) { fotsgure_aes_wipe(&from.aes); }
    Aes &operator=(Aes &&from) noexcept
    {
        if (this != &from) {
            aes = from.aes;
            fotsgure_aes_wipe(&from.aes);
        }
        return *this;
    }

    // Whole blocks in place: a vector, a span, an array or a string of bytes, or of blocks; or a pointer and how many bytes.
    void encrypt(Blocks data) const
    {
        detail::check(fotsgure_aes_encrypt_blocks(&aes, data.data(), detail::blocks(data.size())));
    }
    void decrypt(Blocks data) const
    {
        detail::check(fotsgure_aes_decrypt_blocks(&aes, data.data(), detail::blocks(data.size())));
    }
    void encrypt(std::uint8_t *bytes, std::size_t length) const { encrypt(Blocks(bytes, length)); }
    void decrypt(std::uint8_t *bytes, std::size_t length) const { decrypt(Blocks(bytes, length)); }

    // Key wrap (KW): returns the wrapped key, or the key again. Throws std::runtime_error if that was changed.
    [[nodiscard]] std::vector<std::uint8_t> wrap(Bytes key) const
    {
        std::vector<std::uint8_t> wrapped(key.size() + 8);
        detail::check(fotsgure_aes_wrap(&aes, key.data(), detail::semiblocks(key.size()), wrapped.data(), wrapped.size() / 8));
        return wrapped;
    }
    [[nodiscard]] std::vector<std::uint8_t> unwrap(Bytes wrapped) const
    {
        const std::size_t count = detail::semiblocks(wrapped.size());
        std::vector<std::uint8_t> key(count > 0 ? wrapped.size() - 8 : 0);
        detail::check(fotsgure_aes_unwrap(&aes, wrapped.data(), count, key.data(), key.size() / 8));
        return key;
    }
    // The same with padding (KWP), for keys of any number of bytes.
    [[nodiscard]] std::vector<std::uint8_t> wrap_padded(Bytes key) const
    {
        std::vector<std::uint8_t> wrapped((key.size() + 7) / 8 * 8 + 8);
        detail::check(fotsgure_aes_wrap_padded(&aes, key.data(), key.size(), wrapped.data(), wrapped.size() / 8));
        return wrapped;
    }
    [[nodiscard]] std::vector<std::uint8_t> unwrap_padded(Bytes wrapped) const
    {
        const std::size_t count = detail::semiblocks(wrapped.size());
        std::vector<std::uint8_t> key(count > 0 ? wrapped.size() - 8 : 0);
        std::size_t length = 0;
        detail::check(fotsgure_aes_unwrap_padded(&aes, wrapped.data(), count, key.data(), key.size() / 8, &length));
        key.resize(length);
        return key;
    }

private:
    friend class Ctr;
    friend class Cbc;
    fotsgure_aes aes{};
};

// Counter mode under a key, which has to outlive it. It can't be copied: a copy would give out the same keystream again.
// It can be moved: the old object then has no key, and its `apply` throws std::logic_error.
class Ctr {
public:
    Ctr(const Aes &under, const Block &iv) : key(&under)
    {
        for (std::size_t i = 0; i < 16; ++i)
            ctr.iv[i] = iv[i];
    }
    Ctr(const Aes &&, const Block &) = delete;
    Ctr(const Ctr &) = delete;
    Ctr(Ctr &&from) noexcept : key(std::exchange(from.key, nullptr)), ctr(from.ctr) {}
    Ctr &operator=(const Ctr &) = delete;

    // Encrypts or decrypts in place, and moves the position on.
    void apply(std::uint8_t *bytes, std::size_t length)
    {
        detail::check(fotsgure_aes_add_keystream(schedule(), &ctr, bytes, length));
    }
    // The same from one buffer to another of the same length, which doesn't overlap it.
    void apply(const std::uint8_t *input, std::uint8_t *output, std::size_t length)
    {
        detail::check(fotsgure_aes_add_keystream_to(schedule(), &ctr, input, length, output, length));
    }
    void apply(Blocks data) { apply(data.data(), data.size()); }
    std::uint64_t position() const { return ctr.position; }
    void seek(std::uint64_t position) { ctr.position = position; }

private:
    const Aes *key;
    fotsgure_aes_ctr ctr{};

    const fotsgure_aes *schedule() const
    {
        if (key == nullptr)
            throw std::logic_error("there is no key");
        return &key->aes;
    }
};

// CBC on whole blocks in place, under a key, which has to outlive it: a chain that continues from call to call. Check a tag over
// the initialization vector and the encrypted blocks before you decrypt.
class Cbc {
public:
    Cbc(const Aes &under, const Block &iv) : key(&under)
    {
        for (std::size_t i = 0; i < 16; ++i)
            cbc.previous[i] = iv[i];
    }
    Cbc(const Aes &&, const Block &) = delete;

    void encrypt(Blocks data)
    {
        detail::check(fotsgure_aes_cbc_encrypt(&key->aes, &cbc, data.data(), detail::blocks(data.size())));
    }
    void decrypt(Blocks data)
    {
        detail::check(fotsgure_aes_cbc_decrypt(&key->aes, &cbc, data.data(), detail::blocks(data.size())));
    }

private:
    const Aes *key;
    fotsgure_aes_cbc cbc{};
};

} // namespace fotsgure
#endif
#endif
