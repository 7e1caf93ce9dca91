// GCM and AES-GCM-SIV in the wrapper for C++: test case 4 of the submission of GCM (McGrew and Viega, appendix B), and a message of RFC
// 8452, appendix C.1; texts of 0 to 300 bytes there and back; messages in pieces; keys that move; what it throws. The last line is
// `N passed, M failed`.
#include "fotsgure_gcm.hpp"

#include <algorithm>
#include <cstdio>
#include <string>
#include <string_view>
#include <vector>

namespace {

using fotsgure::Counter;
using fotsgure::Gcm;
using fotsgure::GcmSiv;
using fotsgure::Message;
using fotsgure::Nonce;
using fotsgure::Refused;
using fotsgure::Tag;
using Text = std::vector<std::uint8_t>;

static_assert(!std::is_copy_constructible_v<Gcm> && !std::is_copy_assignable_v<Gcm>, "a key isn't copied");
static_assert(!std::is_copy_constructible_v<GcmSiv> && !std::is_copy_assignable_v<GcmSiv>, "a key isn't copied");
static_assert(!std::is_copy_constructible_v<Message> && !std::is_copy_assignable_v<Message>, "a message isn't copied");
static_assert(!std::is_copy_constructible_v<Counter> && !std::is_move_constructible_v<Counter> &&
    !std::is_copy_assignable_v<Counter>, "a counter isn't copied");

int passed, failed;

void expect(bool holds, const char *what)
{
    ++(holds ? passed : failed);
    if (!holds)
        std::printf("failed: %s\n", what);
}

Text bytes_of(const std::string &digits)
{
    Text bytes;
    for (std::size_t i = 0; i < digits.size(); i += 2)
        bytes.push_back(static_cast<std::uint8_t>(std::stoul(digits.substr(i, 2), nullptr, 16)));
    return bytes;
}

template <class Error, class Call> bool throws(const std::string &words, Call call)
{
    try {
        call();
    } catch (const Error &error) {
        return error.what() == words;
    }
    return false;
}

const Text key = bytes_of("feffe9928665731c6d6a8f9467308308"), nonce = bytes_of("cafebabefacedbaddecaf888"),
           additional = bytes_of("feedfacedeadbeeffeedfacedeadbeefabaddad2"),
           plain = bytes_of("d9313225f88406e5a55909c5aff5269a86a7a9531534f7da2e4c303d8a318a72"
                            "1c3c0c95956809532fcf0e2449a6b525b16aedf5aa0de657ba637b39"),
           cipher = bytes_of("42831ec2217774244b7221b784d0d49ce3aa212f2c02a4e035c17e2329aca12e"
                             "21d514b25466931c7d8f6a5aac84aa051ba30b396a0aac973d58e091"),
           right = bytes_of("5bc94fbc3221a5db94fae95ae7121a47");
const std::string was_refused = "the message was changed, or sealed under another key",
                  no_key = "there is no key",
                  wrong_order = "the calls came in the wrong order, for example text after finish, or decrypt before accept",
                  key_length = "a key has 16, 24 or 32 bytes, of AES-GCM-SIV 16 or 32";

void known_answer(const Gcm &gcm)
{
    Text text = plain;
    const Tag tag = gcm.seal(nonce, additional, text);
    expect(text == cipher && Text(tag.begin(), tag.end()) == right, "case 4, sealed");
    const auto opens = [&](const Text &with, const Text &data, const Text &short_or_not) {
        return [&, with, data, short_or_not] { gcm.open(with, data, text, short_or_not); };
    };
    expect(throws<Refused>(was_refused, opens(nonce, {}, right)), "other additional data");
    expect(throws<Refused>(was_refused, opens(key, additional, right)), "another nonce");
    expect(throws<std::invalid_argument>("a tag has 16 bytes, or as many as are fixed", opens(nonce, additional, Text(15))),
        "a tag of 15 bytes");
    expect(throws<std::invalid_argument>("a nonce has one byte or more", opens({}, additional, right)), "no nonce");
    expect(text == cipher, "what is refused stays as it was");
    gcm.open(nonce, additional, text, right);
    expect(text == plain, "case 4, opened");
}

void there_and_back(const Gcm &gcm)
{
    Counter counter;
    bool same = true, refused = true;
    for (std::size_t length = 0; length <= 300; ++length) {
        std::string text(length, 'x');
        const auto [at, tag] = gcm.seal_next(counter, std::string_view("its name"), text);
        std::string changed = text, opened = text;
        gcm.open(at, std::string("its name"), opened, tag);
        same = same && opened == std::string(length, 'x') && at[11] == length % 256 && at[10] == length / 256;
        refused = refused && throws<Refused>(was_refused, [&, at = at, tag = tag] { gcm.open(at, {}, changed, tag); }) &&
            changed == text;
    }
    expect(same, "0 to 300 bytes");
    expect(refused, "0 to 300 bytes, without their additional data");
    expect(counter.next() == Nonce{0, 0, 0, 0, 0, 0, 0, 0, 0, 0, 1, 45}, "the counter");
    Nonce last;
    last.fill(0xff);
    Counter end(last);
    Text text = plain;
    expect(throws<std::length_error>("no nonce is left: use a new key", [&] { (void)gcm.seal_next(end, {}, text); }) &&
        text == plain && end.next() == last, "the end of the nonces");
}

// Case 4 in pieces of each size, both ways.
void pieces(const Gcm &gcm)
{
    bool same = true;
    for (std::size_t size = 1; size <= plain.size(); ++size) {
        Text text = plain;
        const auto each = [&](auto call) {
            for (std::size_t at = 0; at < text.size(); at += size)
                call(fotsgure::MutableBytes(text.data() + at, std::min(size, text.size() - at)));
        };
        Message sealed = gcm.begin(nonce);
        sealed.additional(additional);
        each([&](fotsgure::MutableBytes piece) { sealed.encrypt(piece); });
        const Tag tag = sealed.finish();
        same = same && text == cipher && Text(tag.begin(), tag.end()) == right;
        Message first = gcm.begin(nonce);
        first.additional(additional);
        each([&](fotsgure::MutableBytes piece) { first.verify(piece); });
        Message opened(std::move(first));
        opened.accept(right);
        each([&](fotsgure::MutableBytes piece) { opened.decrypt(piece); });
        same = same && text == plain && throws<std::logic_error>(wrong_order, [&] { first.verify(text); });
    }
    expect(same, "case 4 in pieces of each size");
}

// What a message in pieces refuses, and short tags.
void pieces_refused(const Gcm &gcm)
{
    Text text = cipher;
    const auto verified = [&] {
        Message message = gcm.begin(nonce);
        message.additional(additional);
        message.verify(text);
        return message;
    };
    Message wrong = verified();
    expect(throws<std::logic_error>(wrong_order, [&] { wrong.decrypt(text); }), "text before its tag");
    expect(throws<Refused>(was_refused, [&] { wrong.accept(Text(16)); }), "another tag");
    expect(throws<std::logic_error>(wrong_order, [&] { wrong.accept(right); }), "a message that was refused is wiped");
    Message cut = verified();
    cut.accept_short(12, Text(right.begin(), right.begin() + 12));
    cut.decrypt(text);
    expect(text == plain, "a tag of 12 bytes");
    expect(throws<std::invalid_argument>("a tag has 16 bytes, or as many as are fixed", [&] { verified().accept_short(12, right); }),
        "16 bytes are no tag of 12");
    text = cipher;
    Message at_once = gcm.begin(nonce);
    at_once.additional(additional);
    at_once.decrypt_unverified(text);
    at_once.accept(right);
    expect(text == plain, "decrypted before the tag was compared");
    Counter counter(Nonce{0, 0, 0, 0, 0, 0, 0, 0, 0, 0, 0, 7});
    auto [at, message] = gcm.begin_next(counter);
    message.encrypt(text);
    const Tag tag = message.finish();
    gcm.open(at, {}, text, tag);
    expect(text == plain && at[11] == 7 && counter.next()[11] == 8, "the counter's next nonce");
}

// A key moves, and leaves none behind.
void moves()
{
    Text text = plain;
    std::vector<Gcm> keys;
    keys.emplace_back(Text(32));
    keys.emplace_back(key);
    Gcm moved(std::move(keys[1]));
    expect(throws<std::logic_error>(no_key, [&] { moved = std::move(keys[0]), (void)keys[0].seal(nonce, {}, text); }) &&
        throws<std::logic_error>(no_key, [&] { (void)keys[1].seal(nonce, {}, text); }) && text == plain, "a moved key is gone");
    moved = Gcm(key);
    (void)moved.seal(nonce, additional, text);
    expect(text == cipher, "a moved key works");
    GcmSiv siv(key), other(std::move(siv));
    expect(throws<std::logic_error>(no_key, [&] { (void)siv.seal(Nonce{}, {}, text); }), "a moved key of AES-GCM-SIV is gone");
    siv = std::move(other);
    const auto [at, tag] = siv.seal_random({}, text);
    siv.open(at, {}, text, tag);
    expect(text == cipher, "a moved key of AES-GCM-SIV works");
}

void siv_known_answer()
{
    const GcmSiv siv(bytes_of("01000000000000000000000000000000"));
    const Nonce three{3};
    Text text = bytes_of("0100000000000000");
    const Tag tag = siv.seal(three, {}, text);
    expect(text == bytes_of("b5d839330ac7b786") && Text(tag.begin(), tag.end()) ==
        bytes_of("578782fff6013b815b287c22493a364c"), "RFC 8452, C.1, sealed");
    siv.open(three, {}, text, tag);
    expect(text == bytes_of("0100000000000000"), "RFC 8452, C.1, opened");
}

void siv_there_and_back()
{
    const GcmSiv siv(std::string(32, 'k'));
    bool same = true, refused = true;
    Nonce before{};
    for (std::size_t length = 0; length <= 300; ++length) {
        std::string text(length, 'x');
        const auto [at, tag] = siv.seal_random(std::string_view("its name"), text);
        std::string changed = text, opened = text;
        siv.open(at, std::string("its name"), opened, tag);
        same = same && opened == std::string(length, 'x') && at != before;
        refused = refused && changed == text &&
            throws<Refused>(was_refused, [&, at = at, tag = tag] { siv.open(at, {}, changed, tag); }) && changed == text;
        before = at;
    }
    expect(same, "AES-GCM-SIV, 0 to 300 bytes, each under another nonce");
    expect(refused, "AES-GCM-SIV, 0 to 300 bytes, without their additional data");
}

} // namespace

int main()
{
    siv_known_answer();
    siv_there_and_back();
    expect(throws<std::invalid_argument>(key_length, [] { GcmSiv middle_key(Text(24)); }), "no key of 24 bytes");
    const Gcm gcm(key);
    known_answer(gcm);
    there_and_back(gcm);
    pieces(gcm);
    pieces_refused(gcm);
    moves();
    expect(throws<std::invalid_argument>(key_length, [] { Gcm short_key(Text(17)); }), "a key of 17 bytes");
    expect(throws<std::logic_error>(no_key, [] { fotsgure::detail::check(FOTSGURE_GCM_NO_KEY); }),
        "a status without a key");
    std::printf("%d passed, %d failed\n", passed, failed);
    return failed != 0;
}
