// AES-GCM-SIV and AES-GCM for C++17 over fotsgure_gcm.h: keys that wipe themselves, and a counter that can't be copied.
// The classes meet the header's conditions, except those that their caller has to meet. These are no nonce twice under a
// key of GCM, valid bytes, no overlap, no data race, enough stack, and a processor that fits.
#ifndef FOTSGURE_GCM_HPP
#define FOTSGURE_GCM_HPP

#include "fotsgure_gcm.h"
#include "fotsgure_bytes.hpp"
#ifdef FOTSGURE_BYTES_HPP_IS_WHOLE

#include <array>
#include <stdexcept>
#include <utility>

namespace fotsgure {

using Nonce = std::array<std::uint8_t, FOTSGURE_GCM_NONCE>;
using Tag = std::array<std::uint8_t, FOTSGURE_GCM_TAG>;

// The tag isn't that of this key, nonce, additional data and text. The text stays as it was. Tell nobody more than
// that.
class Refused : public std::runtime_error {
public:
    Refused() : std::runtime_error(fotsgure_gcm_status_text(FOTSGURE_GCM_REFUSED)) {}
};

namespace detail {

// Throws for every status but DONE, with the header's words.
inline void check(fotsgure_gcm_status status)
{
    const char *const words = fotsgure_gcm_status_text(status);
    switch (status) {
    case FOTSGURE_GCM_DONE: return;
    case FOTSGURE_GCM_KEY_LENGTH:
    case FOTSGURE_GCM_NONCE_LENGTH:
    case FOTSGURE_GCM_TAG_LENGTH:
    case FOTSGURE_GCM_UNEQUAL_LENGTHS: throw std::invalid_argument(words);
    case FOTSGURE_GCM_TOO_LONG:
    case FOTSGURE_GCM_NONCES_END: throw std::length_error(words);
    case FOTSGURE_GCM_REFUSED: throw Refused();
    case FOTSGURE_GCM_NO_RANDOMNESS: throw std::runtime_error(words);
    case FOTSGURE_GCM_NO_KEY:
    case FOTSGURE_GCM_OUT_OF_TURN: break;
    }
    throw std::logic_error(words);
}

} // namespace detail

// A key of AES-GCM-SIV, of 16 or 32 bytes. The destructor wipes it. It can't be copied, so that no copy is forgotten. It can be
// moved: the old object then has no key, and its calls throw std::logic_error. Threads may share one.
class GcmSiv {
public:
    explicit GcmSiv(Bytes key) { detail::check(fotsgure_gcm_siv_set_key(&siv, key.data(), key.size())); }
    ~GcmSiv() { fotsgure_gcm_siv_wipe(&siv); }
    GcmSiv(const GcmSiv &) = delete;
    GcmSiv &operator=(const GcmSiv &) = delete;
    GcmSiv(GcmSiv &&from) noexcept : siv(from.siv) { fotsgure_gcm_siv_wipe(&from.siv); }
    GcmSiv &operator=(GcmSiv &&from) noexcept
    {
        if (this != &from) {
            siv = from.siv;
            fotsgure_gcm_siv_wipe(&from.siv);
        }
        return *this;
    }

    // Encrypts a text in place under a nonce that is drawn at random: returns that nonce and the tag.
    [[nodiscard]] std::pair<Nonce, Tag> seal_random(Bytes additional, MutableBytes text) const
    {
        std::pair<Nonce, Tag> made{};
        detail::check(fotsgure_gcm_siv_seal_random(&siv, made.first.data(), additional.data(), additional.size(),
            text.data(), text.size(), made.second.data()));
        return made;
    }
    // The same under a nonce of yours. One that is used twice only shows whether the two messages are the same.
    [[nodiscard]] Tag seal(const Nonce &nonce, Bytes additional, MutableBytes text) const
    {
        Tag tag{};
        detail::check(fotsgure_gcm_siv_seal(&siv, nonce.data(), additional.data(), additional.size(), text.data(),
            text.size(), tag.data()));
        return tag;
    }
    // Decrypts a text in place. Throws Refused if anything was changed, and the text then stays as it was.
    void open(const Nonce &nonce, Bytes additional, MutableBytes text, const Tag &tag) const
    {
        detail::check(fotsgure_gcm_siv_open(&siv, nonce.data(), additional.data(), additional.size(), text.data(),
            text.size(), tag.data()));
    }

private:
    fotsgure_gcm_siv siv{};
};

// The next nonce of a key of GCM. Under a new key make it without an argument, and after a restart from what was stored. It
// can't be copied: a copy would give out the same nonces again. After fork() only one of the two processes may use it.
class Counter {
public:
    Counter() = default;
    explicit Counter(const Nonce &stored)
    {
        for (std::size_t i = 0; i < stored.size(); ++i)
            counter.next[i] = stored[i];
    }
    Counter(const Counter &) = delete;
    Counter &operator=(const Counter &) = delete;

    // Store it after each message, and before the message is sent.
    Nonce next() const
    {
        Nonce nonce{};
        for (std::size_t i = 0; i < nonce.size(); ++i)
            nonce[i] = counter.next[i];
        return nonce;
    }

private:
    friend class Gcm;
    fotsgure_gcm_counter counter{};
};

// A message in pieces of any size, which Gcm::begin and begin_next make. Meanwhile the key has to stay where it is. Calls in
// the wrong order throw std::logic_error and change nothing. It is as secret as the key, and the destructor wipes it. It can't
// be copied: a copy would encrypt another text under the same nonce.
class Message {
public:
    ~Message() { fotsgure_gcm_wipe_message(&message); }
    Message(const Message &) = delete;
    Message &operator=(const Message &) = delete;
    Message(Message &&from) noexcept : gcm(from.gcm), message(from.message) { fotsgure_gcm_wipe_message(&from.message); }

    // Takes a piece of the additional data. All of it comes before the text.
    void additional(Bytes data) { detail::check(fotsgure_gcm_additional(gcm, &message, data.data(), data.size())); }
    // Encrypts a piece of the text in place.
    void encrypt(MutableBytes text) { detail::check(fotsgure_gcm_encrypt(gcm, &message, text.data(), text.size())); }
    // Ends a message that was encrypted: returns its tag.
    [[nodiscard]] Tag finish()
    {
        Tag tag{};
        detail::check(fotsgure_gcm_finish(gcm, &message, tag.data()));
        return tag;
    }
    // Takes a piece of an encrypted text, whose tag `accept` compares later.
    void verify(Bytes text) { detail::check(fotsgure_gcm_verify(gcm, &message, text.data(), text.size())); }
    // Throws Refused, and wipes the message, if the tag isn't that of what has come.
    void accept(Bytes tag) { accepted(fotsgure_gcm_accept(gcm, &message, tag.data(), tag.size())); }
    // The same for a protocol whose tags all have `fixed_length` bytes: 4, 8 or 12 to 15. Never read that number from a message.
    void accept_short(std::size_t fixed_length, Bytes tag)
    {
        accepted(fotsgure_gcm_accept_short(gcm, &message, fixed_length, tag.data(), tag.size()));
    }
    // Decrypts in place a piece of the text whose tag was right: the same text once more, from its beginning on.
    void decrypt(MutableBytes text) { detail::check(fotsgure_gcm_decrypt(gcm, &message, text.data(), text.size())); }
    // Adds a piece as `verify` does and decrypts it at once. NOBODY HAS AUTHENTICATED IT: use nothing of it before `accept` has
    // returned, and discard it if that throws.
    void decrypt_unverified(MutableBytes text)
    {
        detail::check(fotsgure_gcm_decrypt_unverified(gcm, &message, text.data(), text.size()));
    }

private:
    friend class Gcm;
    explicit Message(const fotsgure_gcm &under) : gcm(&under) {}
    void accepted(fotsgure_gcm_status status)
    {
        if (status == FOTSGURE_GCM_REFUSED)
            fotsgure_gcm_wipe_message(&message);
        detail::check(status);
    }

    const fotsgure_gcm *gcm;
    fotsgure_gcm_message message{};
};

// A key of GCM, of 16, 24 or 32 bytes. The destructor wipes it. It can't be copied, so that no copy is forgotten. It can be
// moved: the old object then has no key, and its calls throw std::logic_error. Threads may share one.
class Gcm {
public:
    explicit Gcm(Bytes key) { detail::check(fotsgure_gcm_set_key(&gcm, key.data(), key.size())); }
    ~Gcm() { fotsgure_gcm_wipe(&gcm); }
    Gcm(const Gcm &) = delete;
    Gcm &operator=(const Gcm &) = delete;
    Gcm(Gcm &&from) noexcept : gcm(from.gcm) { fotsgure_gcm_wipe(&from.gcm); }
    Gcm &operator=(Gcm &&from) noexcept
    {
        if (this != &from) {
            gcm = from.gcm;
            fotsgure_gcm_wipe(&from.gcm);
        }
        return *this;
    }

    // Encrypts a text in place under the counter's next nonce, which moves on: returns that nonce and the tag.
    [[nodiscard]] std::pair<Nonce, Tag> seal_next(Counter &counter, Bytes additional, MutableBytes text) const
    {
        std::pair<Nonce, Tag> made{};
        detail::check(fotsgure_gcm_seal_next(&gcm, &counter.counter, made.first.data(), additional.data(), additional.size(),
            text.data(), text.size(), made.second.data()));
        return made;
    }
    // The same under a nonce of yours: never one that was used before under this key.
    [[nodiscard]] Tag seal(Bytes nonce, Bytes additional, MutableBytes text) const
    {
        Tag tag{};
        detail::check(fotsgure_gcm_seal(&gcm, nonce.data(), nonce.size(), additional.data(), additional.size(), text.data(),
            text.size(), tag.data()));
        return tag;
    }
    // Decrypts a text in place. Throws Refused if anything was changed, and the text then stays as it was.
    void open(Bytes nonce, Bytes additional, MutableBytes text, Bytes tag) const
    {
        detail::check(fotsgure_gcm_open(&gcm, nonce.data(), nonce.size(), additional.data(), additional.size(), text.data(),
            text.size(), tag.data(), tag.size()));
    }

    // Begins a message in pieces under the counter's next nonce: returns that nonce and the message. Store the counter before
    // anything of the message is sent.
    [[nodiscard]] std::pair<Nonce, Message> begin_next(Counter &counter) const &
    {
        std::pair<Nonce, Message> begun{Nonce{}, Message(gcm)};
        detail::check(fotsgure_gcm_begin_next(&gcm, &begun.second.message, &counter.counter, begun.first.data()));
        return begun;
    }
    // The same under a nonce of yours.
    [[nodiscard]] Message begin(Bytes nonce) const &
    {
        Message message(gcm);
        detail::check(fotsgure_gcm_begin(&gcm, &message.message, nonce.data(), nonce.size()));
        return message;
    }
    std::pair<Nonce, Message> begin_next(Counter &counter) const && = delete;
    Message begin(Bytes nonce) const && = delete;

private:
    fotsgure_gcm gcm{};
};

} // namespace fotsgure
#endif
#endif
