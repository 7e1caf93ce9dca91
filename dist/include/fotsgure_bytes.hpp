// What fotsgure_aes.hpp and fotsgure_gcm.hpp accept as bytes. It needs C++17, with exceptions.
#ifndef FOTSGURE_BYTES_HPP
#define FOTSGURE_BYTES_HPP

#if __cplusplus < 201703L
#error "the headers of fotsgure for C++ need C++17: compile with -std=c++17, or call C's functions"
#elif !defined(__cpp_exceptions)
#error "the headers of fotsgure for C++ throw: compile without -fno-exceptions, or call C's functions"
#else
#define FOTSGURE_BYTES_HPP_IS_WHOLE

#include <cstddef>
#include <cstdint>
#include <iterator>
#include <type_traits>
#include <utility>

namespace fotsgure {
namespace detail {

// Whether std::data and std::size accept a value of this type, and what its elements are.
template <class Data, class = void> struct Elements : std::false_type {
    using Type = void;
};
template <class Data>
struct Elements<Data, std::void_t<decltype(std::data(std::declval<Data &>())), decltype(std::size(std::declval<Data &>()))>>
    : std::true_type {
    using Type = std::remove_pointer_t<decltype(std::data(std::declval<Data &>()))>;
};

} // namespace detail

// Bytes that a call reads, or writes if Byte isn't const: a pointer and a length; or a vector, a span, a string, or an array
// of elements of one byte or of `Largest` bytes; or nothing.
template <class Byte, std::size_t Largest = 1> class BasicBytes {
public:
    BasicBytes() = default;
    BasicBytes(Byte *first, std::size_t count) : start(first), length(count) {}
    template <class Data, class = std::enable_if_t<!std::is_same_v<std::decay_t<Data>, BasicBytes>>> BasicBytes(Data &&data)
    {
        using Array = std::remove_reference_t<Data>;
        using Element = typename detail::Elements<Array>::Type;
        constexpr bool is_array_of_char =
            std::is_array_v<Array> && std::is_same_v<std::remove_cv_t<std::remove_extent_t<Array>>, char>;
        static_assert(!is_array_of_char,
            "an array of char may end in a zero that isn't part of the text: use a std::string or a std::string_view");
        static_assert(detail::Elements<Array>::value, "a pointer needs a length beside it: {pointer, length}");
        if constexpr (detail::Elements<Array>::value && !is_array_of_char) {
            constexpr bool is_writable = std::is_const_v<Byte> || !std::is_const_v<Element>;
            constexpr bool fits = std::is_trivially_copyable_v<Element> && !std::is_same_v<std::remove_cv_t<Element>, bool> &&
                (sizeof(Element) == 1 || sizeof(Element) == Largest);
            static_assert(is_writable, "the call writes these bytes, and they are const");
            static_assert(fits, "its elements are single bytes or, in calls on blocks, have sixteen bytes");
            if constexpr (is_writable && fits) {
                start = reinterpret_cast<Byte *>(std::data(data));
                length = std::size(data) * sizeof(Element);
            }
        }
    }
    Byte *data() const { return start; }
    std::size_t size() const { return length; }

private:
    Byte *start = nullptr;
    std::size_t length = 0;
};
using Bytes = BasicBytes<const std::uint8_t>;
using MutableBytes = BasicBytes<std::uint8_t>;

} // namespace fotsgure
#endif
#endif
