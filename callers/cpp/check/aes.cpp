// The wrapper for C++: FIPS 197, appendix C; slices of 0 to 40 blocks against single calls; SP 800-38A, F.5, cut at every place, and F.2.1
// (CBC); wrapped keys of RFC 3394 and RFC 5649; what has bytes; what it throws. The last line is `N passed, M failed`.
#include "fotsgure_aes.hpp"

#include <algorithm>
#include <cstddef>
#include <cstdio>
#include <string>
#include <utility>
#include <vector>

namespace {

using Bytes = std::vector<std::uint8_t>;

int passed, failed;

void expect(bool holds, const char *what, std::size_t size)
{
    ++(holds ? passed : failed);
    if (!holds)
        std::printf("failed: %s (%zu)\n", what, size);
}

Bytes bytes_of(const std::string &digits)
{
    Bytes bytes;
    for (std::size_t i = 0; i < digits.size(); i += 2)
        bytes.push_back(static_cast<std::uint8_t>(std::stoul(digits.substr(i, 2), nullptr, 16)));
    return bytes;
}

template <class Error, class Call> bool throws(Call call)
{
    try {
        call();
    } catch (const Error &) {
        return true;
    }
    return false;
}

template <class Call> bool says(const std::string &words, Call call)
{
    try {
        call();
    } catch (const std::exception &error) {
        return error.what() == words;
    }
    return false;
}

struct Row {
    const char *key, *cipher;
};

// FIPS 197, appendix C.
const char *const c_plain = "00112233445566778899aabbccddeeff";
const Row c_rows[] = {
    {"000102030405060708090a0b0c0d0e0f", "69c4e0d86a7b0430d8cdb78070b4c55a"},
    {"000102030405060708090a0b0c0d0e0f1011121314151617", "dda97ca4864cdfe06eaf70a0ec0d7191"},
    {"000102030405060708090a0b0c0d0e0f101112131415161718191a1b1c1d1e1f", "8ea2b7ca516745bfeafc49904b496089"},
};

// SP 800-38A, F.5.1, F.5.3 and F.5.5.
const char *const f_iv = "f0f1f2f3f4f5f6f7f8f9fafbfcfdfeff";
const char *const f_plain = "6bc1bee22e409f96e93d7e117393172aae2d8a571e03ac9c9eb76fac45af8e51"
                            "30c81c46a35ce411e5fbc1191a0a52eff69f2445df4f9b17ad2b417be66c3710";
const Row f_rows[] = {
    {"2b7e151628aed2a6abf7158809cf4f3c",
     "874d6191b620e3261bef6864990db6ce9806f66b7970fdff8617187bb9fffdff"
     "5ae4df3edbd5d35e5b4f09020db03eab1e031dda2fbe03d1792170a0f3009cee"},
    {"8e73b0f7da0e6452c810f32b809079e562f8ead2522c6b7b",
     "1abc932417521ca24f2b0459fe7e6e0b090339ec0aa6faefd5ccc2c6f4ce8e94"
     "1e36b26bd1ebc670d1bd1d665620abf74f78a7f6d29809585a97daec58c6b050"},
    {"603deb1015ca71be2b73aef0857d77811f352c073b6108d72d9810a30914dff4",
     "601ec313775789a5b7a7f504bbf3d228f443e3ca4d62b59aca84e990cacaf5c5"
     "2b0930daa23de94ce87017ba2d84988ddfc9c58db67aada613c2dd08457941a6"},
};

void blocks(const Row &row)
{
    const Bytes key = bytes_of(row.key), plain = bytes_of(c_plain);
    const fotsgure::Aes aes(key);
    Bytes block = plain;
    aes.encrypt(block);
    expect(block == bytes_of(row.cipher), "appendix C, encrypted", key.size());
    aes.decrypt(block);
    expect(block == plain, "appendix C, decrypted", key.size());
    bool same = true;
    for (std::size_t count = 0; count <= 40; ++count) {
        std::vector<fotsgure::Block> whole(count), single(count);
        for (std::size_t i = 0; i < 16 * count; ++i)
            whole[i / 16][i % 16] = single[i / 16][i % 16] = static_cast<std::uint8_t>(7 * i + i / 16);
        const auto text = whole;
        aes.encrypt(whole);
        for (auto &one : single)
            aes.encrypt(one);
        same = same && whole == single;
        aes.decrypt(whole);
        same = same && whole == text;
    }
    expect(same, "0 to 40 blocks", key.size());
    expect(throws<std::invalid_argument>([&] { Bytes odd(17); aes.encrypt(odd); }), "17 bytes are no blocks",
        key.size());
}

void counter_mode(const Row &row)
{
    const Bytes key = bytes_of(row.key), plain = bytes_of(f_plain), cipher = bytes_of(row.cipher),
        iv_bytes = bytes_of(f_iv);
    fotsgure::Block iv{};
    for (std::size_t i = 0; i < 16; ++i)
        iv[i] = iv_bytes[i];
    const fotsgure::Aes aes(key);
    bool same = true;
    for (std::size_t cut = 0; cut <= 64; ++cut) {
        fotsgure::Ctr ctr(aes, iv);
        Bytes bytes = plain;
        ctr.apply(bytes.data(), cut);
        ctr.apply(bytes.data() + cut, 64 - cut);
        same = same && bytes == cipher && ctr.position() == 64;
        ctr.seek(0);
        ctr.apply(bytes);
        same = same && bytes == plain;
        Bytes copied(64 - cut);
        ctr.seek(cut);
        ctr.apply(plain.data() + cut, copied.data(), copied.size());
        same = same && copied == Bytes(cipher.begin() + static_cast<std::ptrdiff_t>(cut), cipher.end());
    }
    expect(same, "F.5, cut at each place", key.size());
    fotsgure::Ctr ctr(aes, iv);
    ctr.seek(UINT64_MAX);
    Bytes one(1), none;
    std::string text(1, 0);
    ctr.apply(none);
    expect(says("the keystream ends: its position would pass 2^64 - 1", [&] { ctr.apply(text); }), "the end is named", key.size());
    expect(throws<std::length_error>([&] { ctr.apply(one); }) && one[0] == 0, "the end is refused", key.size());
    ctr.seek(3);
    fotsgure::Ctr moved(std::move(ctr));
    Bytes bytes = plain;
    moved.apply(bytes.data() + 3, 61);
    expect(std::equal(bytes.begin() + 3, bytes.end(), cipher.begin() + 3) && moved.position() == 64,
        "a moved stream continues", key.size());
    expect(throws<std::logic_error>([&] { ctr.apply(one); }) && one[0] == 0, "what was moved from has no key",
        key.size());
    expect(says("there is no key", [&] { ctr.apply(one); }), "no key is named", key.size());
}

// SP 800-38A, F.2.1: the four blocks of f_plain by CBC.
void chained_blocks()
{
    const Bytes plain = bytes_of(f_plain), cipher = bytes_of("7649abac8119b246cee98e9b12e9197d5086cb9b507219ee95db113a917678b2"
                                                             "73bed6b8e3c1743b7116e69e222295163ff1caa1681fac09120eca307586e1a7");
    const fotsgure::Block iv{0, 1, 2, 3, 4, 5, 6, 7, 8, 9, 10, 11, 12, 13, 14, 15};
    const fotsgure::Aes aes(bytes_of("2b7e151628aed2a6abf7158809cf4f3c"));
    Bytes bytes = plain;
    fotsgure::Cbc there(aes, iv), back(aes, iv);
    there.encrypt({bytes.data(), 16});
    there.encrypt({bytes.data() + 16, 48});
    expect(bytes == cipher, "F.2.1, encrypted in two calls", bytes.size());
    back.decrypt(bytes);
    expect(bytes == plain, "F.2.1, decrypted", bytes.size());
    expect(says("the length isn't a multiple of 16 bytes", [&] { back.decrypt({bytes.data(), 17}); }), "17 bytes are no blocks of CBC", 17);
}

// RFC 3394, 4.6, and RFC 5649, 6.
void wrapped_keys()
{
    const Bytes key = bytes_of("00112233445566778899aabbccddeeff000102030405060708090a0b0c0d0e0f"),
                wrapped = bytes_of("28c9f404c4b810f4cbccb35cfb87f8263f5786e2d80ed326cbc7f0e71a99f43bfb988b9b7a02dd21"),
                short_key = bytes_of("c37b7e6492584340bed12207808941155068f738"),
                padded = bytes_of("138bdeaa9b8fa7fc61f97742e72248ee5ae6ae5360d1ae6a5f54f373fa543b6a");
    const fotsgure::Aes aes(bytes_of("000102030405060708090a0b0c0d0e0f101112131415161718191a1b1c1d1e1f"));
    const fotsgure::Aes other(bytes_of("5840df6e29b02af1ab493b705bf16ea1ae8338f4dcc176a8"));
    expect(aes.wrap(key) == wrapped && aes.unwrap(wrapped) == key, "RFC 3394, 4.6", key.size());
    expect(other.wrap_padded(short_key) == padded && other.unwrap_padded(padded) == short_key, "RFC 5649, 6", short_key.size());
    const std::string changed = "the wrapped key or the message was changed, or is of another key";
    expect(says(changed, [&] { (void)aes.unwrap(padded); }) && says(changed, [&] { (void)aes.unwrap_padded(wrapped); }),
        "the other's wrapped key is refused", key.size());
    const std::string length = "a key of this length is not wrapped, or the output has another length";
    expect(says(length, [&] { (void)aes.wrap(Bytes(8)); }) && says(length, [&] { (void)aes.unwrap(Bytes{}); }) &&
        says("the length isn't a multiple of 8 bytes", [&] { (void)aes.wrap(Bytes(17)); }), "what isn't wrapped", 8);
}

// A key and a text are whatever has bytes, and a key moves.
void other_types()
{
    const std::string words(16, 'k');
    const std::uint8_t array[16] = {'k', 'k', 'k', 'k', 'k', 'k', 'k', 'k', 'k', 'k', 'k', 'k', 'k', 'k', 'k', 'k'};
    const std::vector<std::byte> single(16, std::byte{'k'});
    std::vector<std::byte> text(16, std::byte{1}), same = text, third = text;
    fotsgure::Aes aes(words);
    aes.encrypt(text);
    fotsgure::Aes(array).encrypt(same);
    fotsgure::Aes(single).encrypt(fotsgure::Blocks(third));
    std::uint8_t block[16] = {1, 1, 1, 1, 1, 1, 1, 1, 1, 1, 1, 1, 1, 1, 1, 1};
    aes.encrypt(block);
    expect(text == same && text == third && text != single && block[0] == std::to_integer<std::uint8_t>(text[0]),
        "keys and texts of several types", 16);
    fotsgure::Aes moved(std::move(aes));
    expect(says("there is no key", [&] { aes.decrypt(text); }), "a moved key is gone", 16);
    aes = std::move(moved);
    aes.decrypt(text);
    expect(text == std::vector<std::byte>(16, std::byte{1}), "a moved key works", 16);
}

} // namespace

int main()
{
    chained_blocks();
    wrapped_keys();
    other_types();
    for (const Row &row : c_rows)
        blocks(row);
    for (const Row &row : f_rows)
        counter_mode(row);
    expect(throws<std::invalid_argument>([] { fotsgure::Aes aes(Bytes(17)); }), "a key of 17 bytes is refused", 17);
    expect(throws<std::invalid_argument>([] { fotsgure::Aes aes(Bytes{}); }), "no bytes are no key", 0);
    expect(says("there is no key", [] { fotsgure::detail::check(FOTSGURE_AES_NO_KEY); }), "a status without a key", 0);
    std::printf("%d passed, %d failed\n", passed, failed);
    return failed != 0;
}
