// What must not compile, one line for each number of MISUSE, with words that the compiler has to say; 0 compiles.
#include "fotsgure_aes.hpp"
#include "fotsgure_gcm.hpp"

#include <memory>
#include <ostream>
#include <string>
#include <vector>

// No stream writes a key out: it isn't printed, nor converted to anything that is.
template <class Key, class = void> struct Printed : std::false_type {};
template <class Key>
struct Printed<Key, std::void_t<decltype(std::declval<std::ostream &>() << std::declval<Key &>())>> : std::true_type {};
template <class... Keys> constexpr bool none_is_printed = (!Printed<Keys>::value && ...);
static_assert(Printed<int>::value && none_is_printed<fotsgure::Aes, fotsgure::Ctr, fotsgure::Cbc>);
static_assert(none_is_printed<fotsgure::Gcm, fotsgure::GcmSiv, fotsgure::Message>);

void misuse(const fotsgure::Aes &aes, fotsgure::Ctr &ctr, const fotsgure::Gcm &gcm, fotsgure::Counter &counter)
{
    std::vector<std::uint8_t> bytes(16);
    std::vector<fotsgure::Block> blocks(1);
    std::vector<std::string> strings(4);
    std::vector<std::unique_ptr<int>> pointers(2);
    std::vector<double> numbers(2);
    [[maybe_unused]] std::array<bool, 16> bits{};
    [[maybe_unused]] char characters[] = "a message";
    const std::vector<std::uint8_t> constant(16);
    aes.encrypt(bytes);
    aes.encrypt(blocks);
    ctr.apply(bytes);
    (void)gcm.seal_next(counter, constant, bytes);
#if MISUSE == 1 // its elements are single bytes
    aes.encrypt(strings);
#elif MISUSE == 2 // its elements are single bytes
    aes.decrypt(pointers);
#elif MISUSE == 3 // its elements are single bytes
    ctr.apply(numbers);
#elif MISUSE == 4 // its elements are single bytes
    aes.encrypt(bits);
#elif MISUSE == 5 // the call writes these bytes, and they are const
    aes.encrypt(constant);
#elif MISUSE == 6 // its elements are single bytes
    (void)gcm.seal_next(counter, {}, strings);
#elif MISUSE == 7 // its elements are single bytes
    (void)gcm.seal_next(counter, numbers, bytes);
#elif MISUSE == 8 // its elements are single bytes
    (void)gcm.seal_next(counter, {}, blocks);
#elif MISUSE == 9 // the call writes these bytes, and they are const
    (void)gcm.seal_next(counter, {}, constant);
#elif MISUSE == 10 // deleted
    fotsgure::Counter copy = counter;
#elif MISUSE == 11 // deleted
    fotsgure::Gcm copy = gcm;
#elif MISUSE == 12 // deleted
    fotsgure::Ctr dangling(fotsgure::Aes(bytes), blocks[0]);
    dangling.apply(bytes);
#elif MISUSE == 13 // an array of char may end in a zero that isn't part of the text
    (void)gcm.seal_next(counter, "its name", bytes);
#elif MISUSE == 14 // an array of char may end in a zero that isn't part of the text
    (void)gcm.seal_next(counter, {}, characters);
#elif MISUSE == 15 // an array of char may end in a zero that isn't part of the text
    fotsgure::Aes password("0123456789abcdef");
#elif MISUSE == 16 // a pointer needs a length beside it
    (void)gcm.seal_next(counter, bytes.data(), bytes);
#elif MISUSE == 17 // deleted
    auto dangling = fotsgure::Gcm(bytes).begin(bytes);
#endif
}
