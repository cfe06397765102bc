// SPDX-License-Identifier: Apache-2.0
// dcsctp for C++17 and later: reads, checks, prints and writes SCTP packets (RFC 9260). A header over dcsctp.h, with
// dcsctp_kinds.hpp beside it, which registry/make.py generates.
//
// What is read is a view: it owns nothing, and the bytes have to outlive it. Whatever the bytes are, reading them is
// defined: what isn't there is std::nullopt, an empty range or an empty view, never an exception. Only chunk_fault,
// read_chunk, builder::add_asconf, and functions whose result or argument is a
// std::string or a std::vector allocate, or throw, and that std::bad_alloc alone; the library itself allocates in
// packet::print and packet::print_to, and returns result_code::no_memory.
//
//   dcsctp::packet packet(bytes);
//   if (auto fault = packet.first_fault())
//       return refuse(fault->text(), fault->offset);
//   for (dcsctp::chunk chunk : packet.chunks())
//       if (auto data = chunk.as_data())
//           receive(data->stream, data->tsn, data->payload);
//
// Any number of threads may read the same bytes at once. Of a function of dcsctp.h that one here calls, dcsctp.h says
// more: dcsctp_verify_tag of packet::verify_tag, and so on.
//
// With DCSCTP_PROCESSOR_CRC32C defined, in all files of a program, the processor's instruction computes each CRC32c that is
// verified or written here, where it is there. That isn't proved: dcsctp_processor.h says more.
#ifndef DCSCTP_HPP
#define DCSCTP_HPP

// (gcc: some functions have the name of a struct)
#ifdef __GNUC__
#pragma GCC diagnostic push
#pragma GCC diagnostic ignored "-Wshadow"
#endif
#include <dcsctp_inline.h>
#include <dcsctp_registered.h>
#ifdef DCSCTP_PROCESSOR_CRC32C
#include <dcsctp_processor.h>
#endif
#ifdef __GNUC__
#pragma GCC diagnostic pop
#endif

#include <algorithm>
#include <array>
#include <cstddef>
#include <cstdint>
#include <functional>
#include <initializer_list>
#include <iterator>
#include <optional>
#include <string>
#include <string_view>
#include <tuple>
#include <type_traits>
#include <utility>
#include <vector>

#if __has_include(<version>)
#include <version>
#endif
#ifdef __cpp_lib_expected
#include <expected>
#endif
#ifdef __cpp_lib_ranges
#include <ranges>
#endif

// What is made of an argument leads to its bytes: clang warns where they are gone.
#ifdef __clang__
#define DCSCTP_LIFETIME_BOUND [[clang::lifetimebound]]
#else
#define DCSCTP_LIFETIME_BOUND
#endif

// Two of these are equal where their fields are. (In the namespace of the struct, where `==` is looked for.)
#define DCSCTP_EQUAL(type, ...)                                                                                        \
    [[nodiscard]] inline bool operator==(const type &one, const type &other) noexcept                                  \
    {                                                                                                                  \
        const auto fields = [](const type &it) { return std::make_tuple(__VA_ARGS__); };                               \
        return fields(one) == fields(other);                                                                           \
    }                                                                                                                  \
    [[nodiscard]] inline bool operator!=(const type &one, const type &other) noexcept { return !(one == other); }
DCSCTP_EQUAL(struct dcsctp_header, it.source_port, it.destination_port, it.verification_tag, it.checksum)
DCSCTP_EQUAL(struct dcsctp_association, it.own_tag, it.peer_tag, it.has_peer_tag, it.awaits_cookie)
DCSCTP_EQUAL(struct dcsctp_known, it.refuses_zero, it.has_data, it.has_i_data)

namespace dcsctp {

/// Implementation. Not for use.
namespace detail {

// Whether a container leads to items of someone else: a view or a std::span, but no array.
template <typename Container> struct is_array : std::is_array<Container> {};
template <typename T, std::size_t size> struct is_array<std::array<T, size>> : std::true_type {};
template <typename Container>
inline constexpr bool borrows = std::is_trivially_copyable_v<Container> && !is_array<std::remove_cv_t<Container>>::value;
// Of what ends before what is made of it is read.
template <typename Container> using if_ends = std::enable_if_t<!std::is_reference_v<Container> && !borrows<Container>>;

} // namespace detail

// ---- views

/// Items that lie one after the other and belong to someone else: std::span, for C++17. It is made of an array, a
/// std::vector, a std::array or a std::span, and a std::span of it; of constant items also of a list in braces, in the
/// call that reads it.
template <typename T> class view {
    struct no_item {
        no_item() = delete;
    };
    template <typename Container, typename = void> struct holds_items : std::false_type {};
    template <typename Container>
    struct holds_items<Container, std::void_t<decltype(std::data(std::declval<Container &>())),
                                              decltype(std::size(std::declval<Container &>()))>>
        : std::bool_constant<
              !std::is_same_v<std::decay_t<Container>, view>
              && std::is_convertible_v<std::remove_pointer_t<decltype(std::data(std::declval<Container &>()))> (*)[],
                                    T (*)[]>
              && (std::is_const_v<T> || std::is_lvalue_reference_v<Container>)> {};

  public:
    using element_type = T;
    using value_type = std::remove_cv_t<T>;
    using size_type = std::size_t;
    using difference_type = std::ptrdiff_t;
    using iterator = T *;

    constexpr view() noexcept = default;
    /// `data` may be null where `size` is 0.
    constexpr view(T *data, std::size_t size) noexcept : data_(data), size_(size) {}
    /// The container has to outlive the view.
    template <typename Container, std::enable_if_t<holds_items<Container>::value
                                      && !detail::borrows<std::remove_reference_t<Container>>, int> = 0>
    constexpr view(Container &&container DCSCTP_LIFETIME_BOUND) noexcept
        : data_(std::data(container)), size_(std::size(container))
    {
    }
    /// The same items.
    template <typename View, std::enable_if_t<holds_items<View>::value
                                 && detail::borrows<std::remove_reference_t<View>>, int> = 0>
    constexpr view(View &&items) noexcept : data_(std::data(items)), size_(std::size(items))
    {
    }

    /// The items of a list end with the expression.
    constexpr view(std::initializer_list<std::conditional_t<std::is_const_v<T>, std::remove_const_t<T>, no_item>> items
                       DCSCTP_LIFETIME_BOUND) noexcept
        : data_(std::data(items)), size_(items.size())
    {
    }

    [[nodiscard]] constexpr T *data() const noexcept { return data_; }
    [[nodiscard]] constexpr std::size_t size() const noexcept { return size_; }
    [[nodiscard]] constexpr bool empty() const noexcept { return size_ == 0; }
    [[nodiscard]] constexpr T *begin() const noexcept { return data_; }
    [[nodiscard]] constexpr T *end() const noexcept { return data_ + size_; }
    /// `index` has to be below size().
    constexpr T &operator[](std::size_t index) const { return data_[index]; }
    /// The items from an index on, as many as there are of `count`; none where the index is past the end.
    [[nodiscard]] constexpr view subspan(std::size_t index,
                                         std::size_t count = static_cast<std::size_t>(-1)) const noexcept
    {
        const std::size_t first = index < size_ ? index : size_, rest = size_ - first;
        return view(data_ + first, count < rest ? count : rest);
    }

  private:
    T *data_ = nullptr;
    std::size_t size_ = 0;
};

/// Bytes that are read.
using bytes_view = view<const std::uint8_t>;
/// Bytes that are written.
using mutable_bytes_view = view<std::uint8_t>;

/// Returns the bytes of a text.
[[nodiscard]] inline bytes_view as_bytes(std::string_view text DCSCTP_LIFETIME_BOUND) noexcept
{
    return {reinterpret_cast<const std::uint8_t *>(text.data()), text.size()};
}

/// Returns bytes as those of this library.
[[nodiscard]] inline bytes_view as_bytes(view<const std::byte> bytes DCSCTP_LIFETIME_BOUND) noexcept
{
    return {reinterpret_cast<const std::uint8_t *>(bytes.data()), bytes.size()};
}

/// The bytes of what ends before they are read: name the text or the container.
template <typename Container, typename = detail::if_ends<Container>,
          typename = std::enable_if_t<std::is_convertible_v<Container, std::string_view>
                                      || std::is_convertible_v<Container, view<const std::byte>>>>
bytes_view as_bytes(Container &&) = delete;

/// Returns bytes that are written as those of this library.
[[nodiscard]] inline mutable_bytes_view as_writable_bytes(view<std::byte> bytes DCSCTP_LIFETIME_BOUND) noexcept
{
    return {reinterpret_cast<std::uint8_t *>(bytes.data()), bytes.size()};
}

/// Returns bytes as a text. Only the reason of an ABORT that builder::add_abort wrote is known to be UTF-8.
[[nodiscard]] inline std::string_view as_text(bytes_view bytes DCSCTP_LIFETIME_BOUND) noexcept
{
    return {reinterpret_cast<const char *>(bytes.data()), bytes.size()};
}

// ---- results

/// Returns the number of a chunk_type, a parameter_type, a cause_code, a result_code or another one of these enums.
template <typename Enum> [[nodiscard]] constexpr std::underlying_type_t<Enum> number(Enum value) noexcept
{
    return static_cast<std::underlying_type_t<Enum>>(value);
}

enum class result_code : std::uint32_t;
enum class chunk_type : std::uint8_t;

/// Returns what a code means, in a few words.
[[nodiscard]] inline const char *text(result_code code) noexcept { return ::dcsctp_result_text(number(code)); }

/// What a call that writes returns: true where all is well, so that calls are joined by `&&`.
class [[nodiscard]] result {
  public:
    constexpr result() noexcept = default;
    constexpr result(result_code code) noexcept : code_(code) {}
    constexpr explicit operator bool() const noexcept { return code_ == result_code{}; }
    [[nodiscard]] constexpr result_code code() const noexcept { return code_; }
    [[nodiscard]] const char *text() const noexcept { return dcsctp::text(code_); }

  private:
    result_code code_{};
};

/// A value, or why there is none: what std::expected<T, result_code> is, into which it converts where C++ has that. (It is
/// a type of its own in every version of C++, so that code of two versions links into one program.)
template <typename T> class [[nodiscard]] outcome {
  public:
    using value_type = T;
    using error_type = result_code;

    outcome(T value) : value_(std::move(value)) {}
    /// `code` is another than ok.
    outcome(result_code code) : value_(), code_(code) {}
    explicit operator bool() const noexcept { return has_value(); }
    [[nodiscard]] bool has_value() const noexcept { return code_ == result_code{}; }
    [[nodiscard]] result_code code() const noexcept { return code_; }
    /// The same; ask where there is no value.
    [[nodiscard]] result_code error() const noexcept { return code_; }
    [[nodiscard]] const char *text() const noexcept { return dcsctp::text(code_); }
    /// The value; T() where there is none.
    T &operator*() & noexcept { return value_; }
    const T &operator*() const & noexcept { return value_; }
    T &&operator*() && noexcept { return std::move(value_); }
    T *operator->() noexcept { return &value_; }
    const T *operator->() const noexcept { return &value_; }
    /// The value, or another one where there is none.
    template <typename U> [[nodiscard]] T value_or(U &&other) const &
    {
        return has_value() ? value_ : static_cast<T>(std::forward<U>(other));
    }
    template <typename U> [[nodiscard]] T value_or(U &&other) &&
    {
        return has_value() ? std::move(value_) : static_cast<T>(std::forward<U>(other));
    }
    /// What a function makes of the value, which is an outcome too; or why there is no value.
    template <typename Function> std::invoke_result_t<Function, const T &> and_then(Function &&function) const &
    {
        if (!has_value())
            return code_;
        return std::invoke(std::forward<Function>(function), value_);
    }
    template <typename Function> std::invoke_result_t<Function, T &&> and_then(Function &&function) &&
    {
        if (!has_value())
            return code_;
        return std::invoke(std::forward<Function>(function), std::move(value_));
    }
#ifdef __cpp_lib_expected
    operator std::expected<T, result_code>() const & { return outcome(*this); }
    operator std::expected<T, result_code>() &&
    {
        return has_value() ? std::expected<T, result_code>(std::move(value_)) : std::unexpected(code_);
    }
#endif

  private:
    T value_;
    result_code code_{};
};

/// How many bytes were written, or why none were.
struct [[nodiscard]] written {
    result_code code{};
    std::size_t size = 0; ///< where the code is no_room, how many are needed
    explicit operator bool() const noexcept { return code == result_code{}; }
};
DCSCTP_EQUAL(written, it.code, it.size)

/// The first fault of bytes that are no packet.
struct fault {
    result_code code{};
    std::size_t offset = 0; ///< where it is; of fault_size how many bytes there are, at most 65,535
    [[nodiscard]] const char *text() const noexcept { return dcsctp::text(code); }
};
DCSCTP_EQUAL(fault, it.code, it.offset)

// ---- ranges

/// What a packet, a chunk or a parameter lists, read as a `for` goes over it; nothing is kept. In C++20 it is a view,
/// std::ranges::forward_range and borrowed. Of the same range, iterators are equal where they are at one place.
template <typename Source> class range {
  public:
    using value_type = typename Source::value_type;

    class iterator {
      public:
        using value_type = typename Source::value_type;
        using difference_type = std::ptrdiff_t;
        using pointer = const value_type *;
        using reference = value_type;
        using iterator_category = std::input_iterator_tag;
#ifdef __cpp_lib_ranges
        using iterator_concept = std::forward_iterator_tag;
#endif
        iterator() = default;
        /// The iterator isn't the end.
        value_type operator*() const noexcept { return *value_; }
        pointer operator->() const noexcept { return &*value_; }
        iterator &operator++() noexcept
        {
            if (value_)
                read(Source::next(position_, *value_));
            return *this;
        }
        iterator operator++(int) noexcept
        {
            iterator before = *this;
            ++*this;
            return before;
        }
        friend bool operator==(const iterator &one, const iterator &other) noexcept { return one.position_ == other.position_; }
        friend bool operator!=(const iterator &one, const iterator &other) noexcept { return !(one == other); }

      private:
        friend class range;
        iterator(const Source &source, std::size_t position) noexcept : source_(source) { read(position); }
        void read(std::size_t position) noexcept
        {
            value_ = source_.read(position);
            position_ = value_ ? position : no_position;
        }
        static constexpr std::size_t no_position = static_cast<std::size_t>(-1);
        Source source_{};
        std::size_t position_ = no_position;
        std::optional<value_type> value_{};
    };
    using const_iterator = iterator;

    range() = default;
    range(const Source &source, std::size_t first) noexcept : source_(source), first_(first) {}
    [[nodiscard]] iterator begin() const noexcept { return iterator(source_, first_); }
    [[nodiscard]] iterator end() const noexcept { return iterator(); }
    [[nodiscard]] bool empty() const noexcept { return !source_.read(first_); }
    /// Counts the items, those of one size each without reading them.
    [[nodiscard]] std::size_t size() const noexcept
    {
        if constexpr (Source::is_counted)
            return source_.size();
        else
            return static_cast<std::size_t>(std::distance(begin(), end()));
    }
    /// Returns the items.
    [[nodiscard]] std::vector<value_type> to_vector() const
    {
        if constexpr (Source::is_counted) {
            std::vector<value_type> items(size());
            for (std::size_t i = 0; i < items.size(); i++)
                items[i] = source_.get_at(i);
            return items;
        } else {
            return {begin(), end()};
        }
    }
    /// Reads what is at a place: of chunks, parameters and error causes an offset into the packet, else an index.
    [[nodiscard]] std::optional<value_type> at(std::size_t position) const noexcept { return source_.read(position); }

  protected:
    Source source_{};
    std::size_t first_ = 0;
};

/// Implementation. Not for use.
namespace detail {

// What C's functions are passed: of a view its data and its size, of an enum its number.
template <typename T> auto spread(view<T> it) noexcept { return std::make_tuple(it.data(), it.size()); }
template <typename T> auto spread(T it) noexcept
{
    if constexpr (std::is_enum_v<T>)
        return std::make_tuple(dcsctp::number(it));
    else
        return std::make_tuple(it);
}
template <typename T, typename Function, typename... Arguments> T call(Function function, Arguments... arguments) noexcept
{
    return static_cast<T>(std::apply(function, std::tuple_cat(spread(arguments)...)));
}

// What a function writes into as many bytes at most.
template <typename Function, typename... Arguments>
outcome<std::vector<std::uint8_t>> made(std::size_t most, Function function, Arguments... arguments)
{
    std::vector<std::uint8_t> output(most);
    std::size_t size = 0;
    if (const auto code = call<result_code>(function, mutable_bytes_view(output), &size, arguments...); code != result_code{})
        return code;
    output.resize(size);
    return output;
}

// The bytes of a value at an offset; none where they aren't there.
inline bytes_view part(bytes_view bytes, std::size_t offset, std::size_t size) noexcept
{
    if (offset > bytes.size() || size > bytes.size() - offset)
        return {};
    return {bytes.data() + offset, size};
}

// The most bytes that a packet that is read has: what is larger is refused before it is gone through or copied.
inline constexpr std::size_t largest = 65535;

// The size of the header of a chunk, a parameter and an error cause (RFC 9260 sections 3.2, 3.2.1 and 3.3.10).
inline constexpr std::size_t header_size = 4;

// Numbers, most significant byte first.
inline std::uint16_t get16(const std::uint8_t *at) noexcept { return static_cast<std::uint16_t>(at[0] << 8 | at[1]); }
inline std::uint32_t get32(const std::uint8_t *at) noexcept
{
    return std::uint32_t{at[0]} << 24 | std::uint32_t{at[1]} << 16 | std::uint32_t{at[2]} << 8 | at[3];
}
inline std::uint16_t get_u16(const std::uint8_t *at, std::size_t) noexcept { return get16(at); }
inline std::uint32_t get_u32(const std::uint8_t *at, std::size_t) noexcept { return get32(at); }

// Each returns where it ends.
inline std::uint8_t *put16(std::uint8_t *at, std::uint32_t number) noexcept
{
    at[0] = static_cast<std::uint8_t>(number >> 8);
    at[1] = static_cast<std::uint8_t>(number);
    return at + 2;
}
inline std::uint8_t *put32(std::uint8_t *at, std::uint32_t number) noexcept
{
    return put16(put16(at, number >> 16), number);
}
inline void put_bytes(std::uint8_t *at, bytes_view bytes) noexcept { std::copy(bytes.begin(), bytes.end(), at); }

// The number of four bytes that a value is.
inline std::optional<std::uint32_t> number_of(bytes_view value) noexcept
{
    return value.size() == 4 ? std::optional<std::uint32_t>(get32(value.data())) : std::nullopt;
}

// The items of one size each that some bytes are, by index.
template <typename T, T (*get)(const std::uint8_t *, std::size_t)> struct list {
    using value_type = T;
    static constexpr bool is_counted = true;
    bytes_view bytes;
    std::size_t step = 1;
    [[nodiscard]] std::size_t size() const noexcept { return bytes.size() / step; }
    [[nodiscard]] T get_at(std::size_t index) const noexcept { return get(bytes.data() + step * index, step); }
    [[nodiscard]] std::optional<T> read(std::size_t index) const noexcept
    {
        return index < size() ? std::optional<T>(get_at(index)) : std::nullopt;
    }
    static std::size_t next(std::size_t index, const T &) noexcept { return index + 1; }
};

// The parameters or error causes of some bytes, by their offsets.
template <typename Item> struct items {
    using value_type = Item;
    static constexpr bool is_counted = false;
    bytes_view bytes;
    [[nodiscard]] std::optional<Item> read(std::size_t offset) const noexcept
    {
        ::dcsctp_parameter item{};
        if (!::dcsctp_inline_item_at(bytes.data(), bytes.size(), offset, &item))
            return std::nullopt;
        return Item(bytes, item, offset);
    }
    static std::size_t next(std::size_t, const Item &item) noexcept { return item.next_offset(); }
};

// A chunk, a parameter or an error cause: where it is in the bytes.
template <typename Place> class placed {
  public:
    /// What it holds, without its header and padding.
    [[nodiscard]] bytes_view value() const noexcept { return part(bytes_, it_.value_offset, it_.value_size); }
    /// All of it, with its header and without padding: what is sent back of one that isn't known.
    [[nodiscard]] bytes_view bytes() const noexcept { return part(bytes_, offset_, header_size + it_.value_size); }
    /// Where it begins in the packet.
    [[nodiscard]] std::size_t offset() const noexcept { return offset_; }
    /// Where the next one begins.
    [[nodiscard]] std::size_t next_offset() const noexcept { return it_.next; }

  protected:
    [[nodiscard]] const Place &place() const noexcept { return it_; }
    placed(bytes_view bytes, const Place &it, std::size_t offset) noexcept : bytes_(bytes), it_(it), offset_(offset) {}
    bytes_view bytes_;
    Place it_;
    std::size_t offset_;
};

class chunk_place : public placed<::dcsctp_chunk> {
  public:
    [[nodiscard]] chunk_type type() const noexcept { return static_cast<chunk_type>(it_.type); }
    [[nodiscard]] std::uint8_t flags() const noexcept { return it_.flags; }

  protected:
    using placed::placed;
};

// A chunk of a packet that was read in one call: its row says where it is.
class row_place {
  public:
    [[nodiscard]] chunk_type type() const noexcept { return static_cast<chunk_type>(row_->chunk.type); }
    [[nodiscard]] std::uint8_t flags() const noexcept { return row_->chunk.flags; }
    [[nodiscard]] bytes_view value() const noexcept { return part(bytes_, row_->chunk.value_offset, row_->chunk.value_size); }

  protected:
    [[nodiscard]] const ::dcsctp_chunk &place() const noexcept { return row_->chunk; }
    row_place(bytes_view bytes, const ::dcsctp_row &it) noexcept : bytes_(bytes), row_(&it) {}
    bytes_view bytes_;
    const ::dcsctp_row *row_;
};

class item : public placed<::dcsctp_parameter> {
  public:
    /// Reads a value that is one number of four bytes, whatever its type: the method of Zero Checksum Acceptable, the
    /// TSN of the cause No User Data.
    [[nodiscard]] std::optional<std::uint32_t> as_number() const noexcept { return number_of(value()); }

  protected:
    using placed::placed;
    item(std::uint16_t type, bytes_view value) noexcept : placed(value, {type, 0, value.size(), value.size()}, 0) {}
};

// A packet that is written into a buffer.
class writer {
  public:
    /// The most bytes that a packet has.
    static constexpr std::size_t most = 65532;

    /// Takes the last chunk back, with its list; nothing if that was done, or there is none. After it there is no chunk
    /// to add to, until one is added.
    void remove_last_chunk() noexcept { size_ = start_; }
    /// Writes the CRC32c. Call it last.
    result seal()
    {
        if (vector_ && size_ != 0)
            resize(size_);
        return call<result_code>(::dcsctp_seal, bytes());
    }
    /// The packet, as far as it is written; of 0 bytes where the buffer had no 12.
    [[nodiscard]] mutable_bytes_view bytes() const noexcept { return {data_, size_}; }
    [[nodiscard]] std::size_t size() const noexcept { return size_; }

  protected:
    // A size that no value has.
    static constexpr std::size_t no_size = static_cast<std::size_t>(-1);
    static constexpr result_code code(std::uint32_t number) noexcept { return static_cast<result_code>(number); }

    writer() noexcept = default;
    // Whether some of the items lie in the buffer; what is no view does not.
    template <typename T> static constexpr bool overlaps(const T &) noexcept { return false; }
    template <typename T> [[nodiscard]] bool overlaps(const view<T> &items) const noexcept
    {
        const std::less<const void *> before{};
        return !items.empty() && room_ != 0 && before(items.begin(), data_ + room_) && before(data_, items.end());
    }
    void resize(std::size_t room)
    {
        vector_->resize(room);
        data_ = vector_->data();
        room_ = room;
    }
    bool grow()
    {
        if (!vector_ || room_ >= limit_)
            return false;
        resize((std::min)(room_ < 128 ? 256 : 2 * room_, limit_));
        return true;
    }
    // Adds a header, and a value of a size, which `put` writes; nothing where the chunk would be larger than one may be.
    template <typename Put>
    result add_after(std::size_t chunk_size, std::uint32_t first, std::size_t size, Put put)
    {
        if (size > largest || chunk_size + header_size + size > largest)
            return code(DCSCTP_BAD_VALUE);
        const std::size_t end = size_ + (header_size + size + 3) / 4 * 4;
        while (end > room_ && end <= most && grow()) {
        }
        if (end > room_ || end > most)
            return code(DCSCTP_NO_ROOM);
        std::uint8_t *const at = put16(put16(data_ + size_, first), static_cast<std::uint32_t>(header_size + size));
        put(at);
        std::fill(at + size, data_ + end, std::uint8_t{0});
        size_ = end;
        return {};
    }
    // Adds a chunk with a value of a size, which `put` writes of views.
    template <typename Put, typename... Views>
    result add(chunk_type type, int flags, std::size_t size, Put put, const Views &...from)
    {
        if ((overlaps(from) || ...))
            return code(DCSCTP_BAD_VALUE);
        if (size_ == 0)
            return code(DCSCTP_BAD_PLACE);
        const std::size_t start = size_;
        const std::uint32_t first = std::uint32_t{number(type)} << 8 | static_cast<std::uint8_t>(flags);
        const result added = add_after(0, first, size, put);
        if (added)
            start_ = start;
        return added;
    }
    // Adds a parameter or an error cause to the last chunk, likewise.
    template <typename Put, typename... Views>
    result item(std::uint16_t type, std::size_t size, Put put, const Views &...from)
    {
        if ((overlaps(from) || ...))
            return code(DCSCTP_BAD_VALUE);
        // (its length may have been changed)
        if (start_ == size_ || (get16(data_ + start_ + 2) + 3u) / 4 * 4 != size_ - start_)
            return code(DCSCTP_BAD_PLACE);
        const std::size_t before = size_ - start_;
        const result added = add_after(before, type, size, put);
        if (added)
            put16(data_ + start_ + 2, static_cast<std::uint32_t>(before + header_size + size));
        return added;
    }
    // Has a function of C add to the packet, of views that lie elsewhere.
    template <typename Function, typename... Arguments> result extend(Function function, Arguments... arguments)
    {
        if ((overlaps(arguments) || ...))
            return code(DCSCTP_BAD_VALUE);
        result_code added{};
        do
            added = call<result_code>(function, mutable_bytes_view(data_, room_), &size_, arguments...);
        while (added == code(DCSCTP_NO_ROOM) && grow());
        return added;
    }
    // The same of one that adds a chunk.
    template <typename Function, typename... Arguments> result append(Function function, Arguments... arguments)
    {
        const std::size_t start = size_;
        const result added = extend(function, arguments...);
        start_ = size_ != start ? start : start_;
        return added;
    }

    std::vector<std::uint8_t> *vector_ = nullptr;
    std::uint8_t *data_ = nullptr;
    std::size_t room_ = 0, limit_ = 0, size_ = 0;
    std::size_t start_ = 0; // of the last chunk; size_ where there is none
};

} // namespace detail

class parameter;
class cause;

/// The parameters or error causes that end a value: their bytes, from `first` on.
template <typename Item> class item_list : public range<detail::items<Item>> {
  public:
    item_list() = default;
    item_list(bytes_view bytes DCSCTP_LIFETIME_BOUND, std::size_t first = 0) noexcept
        : range<detail::items<Item>>({bytes}, first)
    {
    }
    [[nodiscard]] bytes_view bytes() const noexcept { return this->source_.bytes.subspan(this->first_); }
};

/// The numbers of two bytes that a value is.
class short_numbers : public range<detail::list<std::uint16_t, &detail::get_u16>> {
  public:
    short_numbers() = default;
    short_numbers(bytes_view bytes DCSCTP_LIFETIME_BOUND) noexcept : range({bytes, 2}, 0) {}
    [[nodiscard]] bytes_view bytes() const noexcept { return source_.bytes; }
};

} // namespace dcsctp

#include "dcsctp_kinds.hpp"

namespace dcsctp {

[[nodiscard]] inline const char *name(result_code code) noexcept { return text(code); }
[[nodiscard]] inline std::string to_string(result_code code) { return name(code); }

/// The version of the headers, as a text.
[[nodiscard]] inline const char *version() noexcept { return ::dcsctp_version(); }
/// The version of the headers: 65,536 times the major one, 256 times the minor one, and the patch.
inline constexpr std::uint32_t version_number = DCSCTP_VERSION_NUMBER;
/// Returns the version of the library, which can be another one where the library is shared.
[[nodiscard]] inline std::uint32_t library_version_number() noexcept { return ::dcsctp_version_number(); }

// ---- what a receiver asks of a packet, and State Cookies

/// Returns whether the chunk or the parameter is reported.
[[nodiscard]] inline bool reports(action of) noexcept { return ::dcsctp_action_reports(number(of)); }
/// Returns whether the next one is processed.
[[nodiscard]] inline bool skips(action of) noexcept { return ::dcsctp_action_skips(number(of)); }
// ---- generated by registry/make.py of registry/sctp.txt and include/dcsctp.h
/// Returns what is done with a chunk of a type that your association doesn't know, by the type's two highest-order
/// bits.
[[nodiscard]] inline action unrecognized(chunk_type type) noexcept
{
    return detail::call<action>(::dcsctp_unrecognized_chunk, type);
}
/// Returns the same of a parameter.
[[nodiscard]] inline action unrecognized(parameter_type type) noexcept
{
    return detail::call<action>(::dcsctp_unrecognized_parameter, type);
}
// ---- end of what registry/make.py generates
/// Returns the name of a rule, as sctp_dump writes it, or "unknown".
[[nodiscard]] inline const char *name(rule of) noexcept { return ::dcsctp_rule_name(number(of)); }
/// Returns what breaks a rule, in a few words, or "unknown".
[[nodiscard]] inline const char *text(rule of) noexcept { return ::dcsctp_rule_text(number(of)); }

namespace detail {

// The rules of a set, by the bits that are left.
struct rule_bits {
    using value_type = rule;
    static constexpr bool is_counted = false;
    [[nodiscard]] std::optional<rule> read(std::size_t left) const noexcept
    {
        return left != 0 ? std::optional<rule>(static_cast<rule>(left & (~left + 1))) : std::nullopt;
    }
    static std::size_t next(std::size_t left, rule) noexcept { return left & (left - 1); }
};

} // namespace detail

/// A set of rules: those that a packet breaks, in the order of their bits.
class rules : public range<detail::rule_bits> {
  public:
    explicit rules(std::uint32_t bits = 0) noexcept : range({}, bits) {}
    [[nodiscard]] bool has(rule one) const noexcept { return (bits() & number(one)) != 0; }
    /// The bit of each rule that is in the set.
    [[nodiscard]] std::uint32_t bits() const noexcept { return static_cast<std::uint32_t>(first_); }
};
DCSCTP_EQUAL(rules, it.bits())

/// What is known of an association before the tag of a packet is looked at.
using association = struct ::dcsctp_association;
/// What you know of the association that a packet belongs to. All false: nothing.
using known_association = struct ::dcsctp_known;
/// The common header: source_port, destination_port, verification_tag, checksum.
using header = struct ::dcsctp_header;

// ---- generated by registry/make.py of registry/sctp.txt and include/dcsctp.h
/// What a State Cookie says: what its sender needs to set up the association, and for how long (section 5.1.3). Local
/// is the end that seals and opens it.
struct cookie {
    std::uint64_t created = 0; ///< in microseconds, on your clock
    std::uint64_t lifespan = 0; ///< in microseconds
    std::uint32_t local_tag = 0; ///< the initiate tag of the INIT ACK
    std::uint32_t peer_tag = 0; ///< that of the INIT
    /// the Local Tie-Tag (section 5.2.2): 0 where the INIT came without an association
    std::uint32_t local_tie_tag = 0;
    std::uint32_t peer_tie_tag = 0; ///< the Peer's Tie-Tag, likewise
    std::uint32_t local_initial_tsn = 0; ///< the initial TSN of the INIT ACK
    std::uint32_t peer_initial_tsn = 0; ///< that of the INIT
    std::uint16_t local_port = 0;
    std::uint16_t peer_port = 0;
    std::uint16_t outbound_streams = 0; ///< on which the local end sends
    std::uint16_t inbound_streams = 0;
    /// further bytes of yours, of any length: the peer's addresses, the parameters of its INIT, AUTH's key vectors
    bytes_view extra{};
};
DCSCTP_EQUAL(cookie, it.created, it.lifespan, it.local_tag, it.peer_tag, it.local_tie_tag, it.peer_tie_tag,
                     it.local_initial_tsn, it.peer_initial_tsn, it.local_port, it.peer_port, it.outbound_streams,
                     it.inbound_streams, as_text(it.extra))
// ---- end of what registry/make.py generates
/// A State Cookie that was opened: true where it is good.
struct [[nodiscard]] opened_cookie {
    cookie_state state = cookie_state::invalid;
    cookie says{};               ///< of one that is good or stale
    std::uint64_t staleness = 0; ///< of one that is stale, for how many microseconds; its lower 32 bits are in Stale Cookie
    explicit operator bool() const noexcept { return state == cookie_state::good; }
};

/// Which checksum fields are accepted, and whether padding is checked. All false: the field has to be the word, and
/// padding is ignored.
struct policy {
    bool any_checksum = false;   ///< accepts every checksum field
    bool zero_checksum = false;  ///< accepts a field of zero as well (RFC 9653), in every packet
    bool strict_padding = false; ///< padding has to be complete and zero
    /// Accepts a field of zero where RFC 9653 section 5.2 allows one, not in a packet that needs_checksum(): for an
    /// association in which you sent Zero Checksum Acceptable.
    bool allowed_zero_checksum = false;
};
DCSCTP_EQUAL(policy, it.any_checksum, it.zero_checksum, it.strict_padding, it.allowed_zero_checksum)
#undef DCSCTP_EQUAL

// ---- reading

/// A parameter of a chunk (RFC 9260 section 3.2.1).
class parameter : public detail::parameter_kinds {
  public:
    /// The parameter of a type with a value, which has to outlive it. It lies in no packet: its bytes() are none.
    parameter(parameter_type type, bytes_view value DCSCTP_LIFETIME_BOUND) noexcept : parameter_kinds(number(type), value) {}
    /// Returns the 4 or 16 octets of an IPv4 Address or IPv6 Address, as in_addr and in6_addr have them; none of another
    /// type, or of a wrong size.
    [[nodiscard]] std::optional<bytes_view> as_address() const noexcept
    {
        struct ::dcsctp_ip_address it {};
        if (!detail::call<bool>(::dcsctp_read_ip_address, bytes_, &it_, &it))
            return std::nullopt;
        return detail::part(bytes_, it.address_offset, it.address_size);
    }

  private:
    friend detail::items<parameter>;
    using parameter_kinds::parameter_kinds;
};

/// An error cause of an ABORT or an ERROR (section 3.3.10).
class cause : public detail::cause_kinds {
  public:
    /// The error cause of a code with a value, likewise.
    cause(cause_code code, bytes_view value DCSCTP_LIFETIME_BOUND) noexcept : cause_kinds(number(code), value) {}

  private:
    friend detail::items<cause>;
    using cause_kinds::cause_kinds;
};

/// A chunk of a packet (section 3.2).
class chunk : public detail::chunk_kinds<detail::chunk_place> {
  public:
    /// The parameters; none of ABORT and ERROR, or where the type has none.
    [[nodiscard]] range<detail::items<parameter>> parameters() const noexcept
    {
        return {{has_causes() ? bytes_view() : up_to_end()}, ::dcsctp_inline_list_offset(&it_)};
    }
    /// The error causes; none but of ABORT and ERROR.
    [[nodiscard]] range<detail::items<cause>> causes() const noexcept
    {
        return {{has_causes() ? up_to_end() : bytes_view()}, ::dcsctp_inline_list_offset(&it_)};
    }
    /// The bytes of these, up to the end of the value.
    [[nodiscard]] bytes_view list() const noexcept { return up_to_end().subspan(::dcsctp_inline_list_offset(&it_)); }
    /// Returns whether it is a SACK whose gap ack blocks are in order, apart, and begin at 2 or later.
    [[nodiscard]] bool is_valid_sack() const noexcept { return detail::call<bool>(::dcsctp_validate_sack, bytes_, &it_); }

  private:
    friend class builder;
    friend class packet;
    friend class row_view;
    using chunk_kinds::chunk_kinds;
    [[nodiscard]] bytes_view up_to_end() const noexcept { return bytes_.subspan(0, it_.value_offset + it_.value_size); }
    [[nodiscard]] bool has_causes() const noexcept
    {
        return type() == chunk_type::abort || type() == chunk_type::error;
    }
};

// ---- reading a packet in one call

/// What packet::read writes of a chunk; a row_view reads it.
using row = struct ::dcsctp_row;

/// A chunk of a packet that was read in one call, as its row says where it is: it is read as a chunk is.
class row_view : public detail::chunk_kinds<detail::row_place> {
  public:
    /// The chunk, with its parameters and error causes.
    [[nodiscard]] chunk whole() const noexcept
    {
        return chunk(bytes_, row_->chunk, row_->chunk.value_offset - detail::header_size);
    }
    /// What follows the numbers in the value: the payload, the gap ack blocks and then the duplicate TSNs, the skipped
    /// streams, the parameters or the error causes.
    [[nodiscard]] bytes_view rest() const noexcept { return detail::part(bytes_, row_->rest_offset, row_->rest_size); }

  private:
    friend class reading;
    using chunk_kinds::chunk_kinds;
};

/// A packet that was read in one call, as a range of its chunks; or its first fault. It leads to the bytes and to the
/// rows, which have to outlive it and stay as they are.
class [[nodiscard]] reading {
    struct row_source {
        using value_type = row_view;
        static constexpr bool is_counted = false;
        bytes_view bytes;
        view<const row> rows;
        [[nodiscard]] std::optional<row_view> read(std::size_t index) const noexcept
        {
            return index < rows.size() ? std::optional<row_view>(row_view(bytes, rows[index])) : std::nullopt;
        }
        static std::size_t next(std::size_t index, const row_view &) noexcept { return index + 1; }
    };

  public:
    /// What dcsctp_read, or dcsctp_read_many, wrote of a packet: `bytes` are the packet's own, and its rows come first in
    /// `rows`.
    reading(bytes_view bytes DCSCTP_LIFETIME_BOUND, const struct ::dcsctp_packet &packet,
            view<const row> rows DCSCTP_LIFETIME_BOUND) noexcept
        : bytes_(bytes), packet_(packet), rows_(rows.subspan(0, packet.chunk_count))
    {
    }
    /// Whether the bytes are a packet.
    explicit operator bool() const noexcept { return code() == result_code::ok; }
    [[nodiscard]] result_code code() const noexcept { return static_cast<result_code>(packet_.code); }
    [[nodiscard]] const char *text() const noexcept { return dcsctp::text(code()); }
    /// The first fault, if there is one.
    [[nodiscard]] std::optional<fault> first_fault() const noexcept
    {
        return *this ? std::nullopt : std::optional<fault>(fault{code(), packet_.fault_offset});
    }
    /// The common header; none where the bytes are no packet.
    [[nodiscard]] std::optional<dcsctp::header> header() const noexcept
    {
        return *this ? std::optional<dcsctp::header>(packet_.header) : std::nullopt;
    }
    /// How many chunks the packet has: how many rows are needed.
    [[nodiscard]] std::size_t chunk_count() const noexcept { return packet_.chunk_count; }
    /// Whether each chunk has a row.
    [[nodiscard]] bool has_all() const noexcept { return rows_.size() == packet_.chunk_count; }
    /// The chunks that have a row, from the first on.
    [[nodiscard]] range<row_source> chunks() const noexcept { return {{bytes_, rows_}, 0}; }

  private:
    bytes_view bytes_;
    struct ::dcsctp_packet packet_;
    view<const row> rows_;
};

/// What a packet's checksum field has to be, most significant byte first: of packet::word(), or of a number that was
/// computed elsewhere, as by a network card. The field itself is never it.
class checksum_word {
    std::uint32_t number_;

  public:
    constexpr explicit checksum_word(std::uint32_t number) noexcept : number_(number) {}
    [[nodiscard]] constexpr std::uint32_t number() const noexcept { return number_; }
    friend constexpr bool operator==(checksum_word one, checksum_word other) noexcept { return one.number_ == other.number_; }
    friend constexpr bool operator!=(checksum_word one, checksum_word other) noexcept { return !(one == other); }
};

/// A packet in its bytes, from the source port on; or bytes of which first_fault says that they are none. docs/C.md has
/// what is said of each field, and what is still to be checked of a packet without a fault.
///
/// `word` is what the checksum field has to be, if you have computed it; else the CRC32c is computed, unless the policy
/// accepts any checksum.
class packet {
    struct chunk_source {
        using value_type = chunk;
        static constexpr bool is_counted = false;
        bytes_view bytes;
        [[nodiscard]] std::optional<chunk> read(std::size_t offset) const noexcept { return packet(bytes).chunk_at(offset); }
        static std::size_t next(std::size_t, const chunk &it) noexcept { return it.next_offset(); }
    };

  public:
    using word_option = std::optional<checksum_word>;

    constexpr packet() noexcept = default;
    constexpr explicit packet(bytes_view bytes DCSCTP_LIFETIME_BOUND) noexcept : bytes_(bytes) {}
    /// A packet of bytes that end before it is none: name the container.
    template <typename Container, typename = detail::if_ends<Container>> explicit packet(Container &&) = delete;
    [[nodiscard]] constexpr bytes_view bytes() const noexcept { return bytes_; }
    [[nodiscard]] constexpr std::size_t size() const noexcept { return bytes_.size(); }

    /// Returns ok, or the code of the first fault.
    result check(policy accepted = {}, word_option word = {}) const noexcept
    {
        const ::dcsctp_policy it = c_policy(accepted);
        return detail::call<result_code>(::dcsctp_check, bytes_, word_of(accepted, word), &it);
    }
    /// Returns the first fault, if there is one.
    [[nodiscard]] std::optional<fault> first_fault(policy accepted = {}, word_option word = {}) const noexcept
    {
        const ::dcsctp_policy it = c_policy(accepted);
        fault first;
        first.code = detail::call<result_code>(::dcsctp_first_fault, bytes_, word_of(accepted, word), &it, &first.offset);
        return first.code == result_code::ok ? std::nullopt : std::optional<fault>(first);
    }
    /// Checks and reads the packet in one call, into the rows: as many chunks as have room, at most 16,380.
    ///
    ///   std::array<dcsctp::row, 16> rows;
    ///   const dcsctp::reading read = packet.read(rows);
    ///   for (dcsctp::row_view chunk : read.chunks())
    [[nodiscard]] reading read(view<row> rows DCSCTP_LIFETIME_BOUND, policy accepted = {},
                               word_option word = {}) const noexcept
    {
        const ::dcsctp_policy it = c_policy(accepted);
        struct ::dcsctp_packet wrote {};
        detail::call<void>(::dcsctp_read, bytes_, word_of(accepted, word), &it, rows, &wrote);
        return reading(bytes_, wrote, rows);
    }
    /// Computes what the checksum field has to be. For fewer than 12 bytes it has no meaning.
    [[nodiscard]] checksum_word word() const noexcept { return checksum_word(::dcsctp_word(bytes_.data(), bytes_.size())); }

    /// Returns whether it has to have its CRC32c also where a checksum of zero was negotiated (RFC 9653 section 5.2): it
    /// has INIT, COOKIE ECHO or ASCONF; or it answers a packet out of the blue, by a chunk with is_tag_reflected().
    [[nodiscard]] bool needs_checksum() const noexcept
    {
        for (const chunk &it : chunks())
            if (it.type() == chunk_type::init || it.type() == chunk_type::cookie_echo || it.type() == chunk_type::asconf
                || it.is_tag_reflected())
                return true;
        return false;
    }

    /// Reads the common header; none of fewer than 12 bytes.
    [[nodiscard]] std::optional<dcsctp::header> header() const noexcept
    {
        dcsctp::header it{};
        return ::dcsctp_header(bytes_.data(), bytes_.size(), &it) ? std::optional<dcsctp::header>(it) : std::nullopt;
    }
    /// The chunks. If the bytes are a packet, these are all; else they end where there is no whole chunk.
    [[nodiscard]] range<chunk_source> chunks() const noexcept { return {{bytes_}, DCSCTP_FIRST_CHUNK}; }
    /// Reads the chunk at an offset.
    [[nodiscard]] std::optional<chunk> chunk_at(std::size_t offset) const noexcept
    {
        ::dcsctp_chunk it{};
        if (!::dcsctp_inline_chunk_at(bytes_.data(), bytes_.size(), offset, &it))
            return std::nullopt;
        return chunk(bytes_, it, offset);
    }

    // ---- generated by registry/make.py of registry/sctp.txt and include/dcsctp.h
    /// Returns what is done with it by its verification tag (sections 8.5 and 8.5.1); check it first.
    [[nodiscard]] tag_verdict verify_tag(const association &known) const noexcept
    {
        return detail::call<tag_verdict>(::dcsctp_verify_tag, bytes_, &known);
    }
    /// Returns what is done with it where it belongs to no association (section 8.4); `is_unicast` says whether it is
    /// to and from unicast addresses. Ask only of a packet that check accepts: other bytes may be answered too.
    [[nodiscard]] answer out_of_the_blue(bool is_unicast) const noexcept
    {
        return detail::call<answer>(::dcsctp_out_of_the_blue, bytes_, is_unicast);
    }
    /// Returns the fault of an INIT (section 3.3.2), or of an INIT ACK (section 3.3.3) where `is_ack` is true.
    [[nodiscard]] dcsctp::init_fault init_fault(bool is_ack) const noexcept
    {
        return detail::call<dcsctp::init_fault>(::dcsctp_init_fault, bytes_, is_ack);
    }
    /// Returns the rules that it breaks. Its CRC32c is computed here.
    [[nodiscard]] rules broken_rules(const known_association &of = {}) const noexcept
    {
        return rules(detail::call<std::uint32_t>(::dcsctp_broken_rules, bytes_, &of));
    }
    /// Writes the packet's text, in UTF-8: a line for the header and one for each chunk, with no line feed at the end.
    /// The output does not overlap the packet.
    written print_to(mutable_bytes_view output, policy accepted = {}, word_option word = {}) const noexcept
    {
        return write(::dcsctp_print, output, accepted, word);
    }
    /// Returns this text.
    outcome<std::string> print(policy accepted = {}, word_option word = {}) const
    {
        return make<std::string>(::dcsctp_print, accepted, word);
    }
    /// Writes all that the packet holds, in UTF-8, as `sctp_dump --payload` prints it, likewise.
    written report_to(mutable_bytes_view output, policy accepted = {}, word_option word = {}) const noexcept
    {
        return write(::dcsctp_report, output, accepted, word ? word : this->word());
    }
    /// Returns this text.
    outcome<std::string> report(policy accepted = {}, word_option word = {}) const
    {
        return make<std::string>(::dcsctp_report, accepted, word ? word : this->word());
    }
    /// Writes the canonical packet, likewise: two packets have the same one if and only if they mean the same.
    written canonical_to(mutable_bytes_view output, policy accepted = {}, word_option word = {}) const noexcept
    {
        return write(::dcsctp_canonical, output, accepted, word);
    }
    /// Returns the canonical packet.
    outcome<std::vector<std::uint8_t>> canonical(policy accepted = {}, word_option word = {}) const
    {
        return make<std::vector<std::uint8_t>>(::dcsctp_canonical, accepted, word);
    }
    // ---- end of what registry/make.py generates

  private:
    [[nodiscard]] ::dcsctp_policy c_policy(const policy &of) const noexcept
    {
        const auto is_allowed = [&] {
            const auto read = header();
            return read && read->checksum == 0 && size() <= detail::largest && !needs_checksum();
        };
        return {of.any_checksum, of.zero_checksum || (of.allowed_zero_checksum && is_allowed()), of.strict_padding, {}};
    }
    [[nodiscard]] std::uint32_t word_of(const policy &accepted, const word_option &option) const noexcept
    {
        return option ? option->number() : accepted.any_checksum ? 0 : word().number();
    }
    template <typename Function>
    written write(Function function, mutable_bytes_view output, const policy &accepted, word_option option) const noexcept
    {
        const ::dcsctp_policy it = c_policy(accepted);
        written wrote;
        wrote.code = detail::call<result_code>(function, bytes_, word_of(accepted, option), &it, output, &wrote.size);
        return wrote;
    }
    template <typename Container, typename Function>
    outcome<Container> make(Function function, const policy &accepted, const word_option &option) const
    {
        const checksum_word known(word_of(accepted, option));
        written wrote = write(function, {}, accepted, known);
        if (wrote.code != result_code::no_room)
            return wrote.code;
        Container output(wrote.size, {});
        wrote = write(function, {reinterpret_cast<std::uint8_t *>(output.data()), output.size()}, accepted, known);
        return wrote ? outcome<Container>(std::move(output)) : wrote.code;
    }
    bytes_view bytes_{};
};

// ---- reading a chunk without a packet around it

/// Returns the first fault of bytes that have to be one chunk, with or without its padding: as SDP has an INIT in
/// `a=sctp-init`, and the cause Unrecognized Chunk Type any chunk. Its offset is into these bytes; it is fault_length where
/// the chunk ends if something follows it.
[[nodiscard]] inline std::optional<fault> chunk_fault(bytes_view bytes)
{
    const auto it = packet(bytes).chunk_at(0);
    const bytes_view whole = bytes.subspan(0, it ? it->next_offset() : detail::largest);
    std::vector<std::uint8_t> around(DCSCTP_FIRST_CHUNK);
    around.insert(around.end(), whole.begin(), whole.end());
    policy accepted;
    accepted.any_checksum = true;
    if (const auto first = packet(around).first_fault(accepted))
        return fault{first->code, first->offset - DCSCTP_FIRST_CHUNK};
    return whole.size() < bytes.size() ? std::optional(fault{result_code::fault_length, whole.size()}) : std::nullopt;
}

/// Reads the chunk that bytes are, if they have no chunk_fault. Its bytes() write it.
[[nodiscard]] inline std::optional<chunk> read_chunk(bytes_view bytes DCSCTP_LIFETIME_BOUND)
{
    return chunk_fault(bytes) ? std::nullopt : packet(bytes).chunk_at(0);
}
/// A chunk of bytes that end before it is none: name the container.
template <typename Container, typename = detail::if_ends<Container>> std::optional<chunk> read_chunk(Container &&) = delete;

// ---- changing a packet in place

/// Writes the CRC32c into the checksum field. bad_place for fewer than 12 bytes.
inline result seal(mutable_bytes_view packet) noexcept { return detail::call<result_code>(::dcsctp_seal, packet); }
/// Writes the verification tag; seal the packet after it. bad_place for fewer than 12 bytes.
inline result set_tag(mutable_bytes_view packet, std::uint32_t verification_tag) noexcept
{
    return detail::call<result_code>(::dcsctp_set_tag, packet, verification_tag);
}

/// Brings gap ack blocks into order, joins those that overlap or touch, and drops those that end before their start.
/// Returns those that are left, at the front; those after them are of no use.
[[nodiscard]] inline view<gap_ack_block> clean_blocks(view<gap_ack_block> blocks) noexcept
{
    static_assert(sizeof(gap_ack_block) == sizeof(struct ::dcsctp_gap_ack_block) && offsetof(gap_ack_block, end) == 2);
    const auto all = reinterpret_cast<struct ::dcsctp_gap_ack_block *>(blocks.data());
    return {blocks.data(), ::dcsctp_clean_blocks(all, blocks.size())};
}
/// The same, and the vector has as many as are left.
inline void clean_blocks(std::vector<gap_ack_block> &blocks)
{
    blocks.resize(clean_blocks(view<gap_ack_block>(blocks)).size());
}

// ---- what is asked of whoever receives a packet, and what is authenticated, by HMACs with SHA-1 or SHA-256 under keys of any
// length. Two HMACs are compared to their end, wherever they differ; nothing is proved of the time that this takes.

// ---- generated by registry/make.py of registry/sctp.txt and include/dcsctp.h
/// Returns what answer::shutdown_complete or answer::abort sends back to the sender of a packet with this header: the
/// tag reflected, with the T bit. Seal it. bad_value for another answer.
[[nodiscard]] inline outcome<std::vector<std::uint8_t>> reply(const header &to, answer with)
{
    return detail::made(16, ::dcsctp_reply, &to, with);
}
/// Returns what is done where an INIT, or an INIT ACK, has a fault, and of an INIT ACK by whether you are in the state
/// COOKIE-WAIT; refusal::discard for no_fault, and a number that is no fault's.
[[nodiscard]] inline refusal init_refusal(dcsctp::init_fault fault, bool is_ack, bool in_cookie_wait) noexcept
{
    return detail::call<refusal>(::dcsctp_init_refusal, fault, is_ack, in_cookie_wait);
}
/// Returns the packet with the ABORT that says a fault to the sender of an INIT or INIT ACK with this initiate tag in a
/// packet with this header. Seal it. bad_value for no_fault, and a number that is no fault's.
[[nodiscard]] inline outcome<std::vector<std::uint8_t>> init_abort(const header &to, std::uint32_t initiate_tag,
                                                                   dcsctp::init_fault fault)
{
    return detail::made(28, ::dcsctp_init_abort, &to, initiate_tag, fault);
}
/// Returns whether an INIT adds addresses to an association that is there already (section 5.2.2): an ABORT with
/// builder::add_new_addresses answers it. `known` are the association's addresses, as parameters: the bytes() of each
/// IPv4 Address and IPv6 Address, one after the other; bound how many you keep.
[[nodiscard]] inline bool adds_addresses(const chunk &of, bytes_view known) noexcept
{
    return detail::call<bool>(::dcsctp_adds_addresses, of.list(), known);
}
/// Returns whether a chunk of a type has to come after AUTH: `list` is the value of the receiver's Chunk List (RFC 4895
/// section 3.2).
[[nodiscard]] inline bool is_listed(bytes_view list, chunk_type type) noexcept
{
    return detail::call<bool>(::dcsctp_is_listed, list, type);
}
/// Returns an association shared key (RFC 4895 section 6.1) of the endpoint pair shared key, which may be empty, and
/// the key vectors of both ends, whichever is passed first. A key vector is the parameters Random, Chunk List and
/// Requested HMAC Algorithm that an end sent, in this order: their bytes().
[[nodiscard]] inline std::vector<std::uint8_t> shared_key(bytes_view pair_key, bytes_view one, bytes_view other)
{
    return *detail::made(pair_key.size() + one.size() + other.size(), ::dcsctp_shared_key, pair_key, one, other);
}
/// Returns whether the HMAC of an AUTH chunk is right under an association shared key (RFC 4895 section 6.3). The bytes
/// are those of the packet from the AUTH chunk on, up to its end.
[[nodiscard]] inline bool verify_auth(bytes_view key, bytes_view bytes) noexcept
{
    return detail::call<bool>(::dcsctp_verify_auth, key, bytes);
}
/// Writes the HMAC into an AUTH chunk of a packet that isn't sealed yet. The bytes are those from the AUTH chunk on,
/// and don't overlap the key. bad_value, and nothing is changed, where verify_auth would be false whatever the HMAC is.
inline result sign_auth(bytes_view key, mutable_bytes_view bytes) noexcept
{
    return detail::call<bool>(::dcsctp_sign_auth, key, bytes) ? result_code::ok : result_code::bad_value;
}
/// Returns a State Cookie, with an HMAC under a key that nobody else knows.
[[nodiscard]] inline std::vector<std::uint8_t> seal_cookie(bytes_view key, const cookie &says)
{
    const struct ::dcsctp_cookie it = {says.created, says.lifespan, says.local_tag, says.peer_tag, says.local_tie_tag,
                                       says.peer_tie_tag, says.local_initial_tsn, says.peer_initial_tsn,
                                       says.local_port, says.peer_port, says.outbound_streams, says.inbound_streams, 0,
                                       0};
    return *detail::made(80 + says.extra.size(), ::dcsctp_seal_cookie, key, &it, says.extra);
}
/// Opens a State Cookie at a time in microseconds, on the clock by which it was sealed. It is good from before it was
/// created, on a clock that was set back, to the end of its life. Its further bytes are a part of these.
[[nodiscard]] inline opened_cookie open_cookie(bytes_view key, bytes_view bytes DCSCTP_LIFETIME_BOUND,
                                               std::uint64_t now) noexcept
{
    struct ::dcsctp_cookie it {};
    opened_cookie opened;
    opened.state = detail::call<cookie_state>(::dcsctp_open_cookie, key, bytes, now, &it, &opened.staleness);
    opened.says = {it.created, it.lifespan, it.local_tag, it.peer_tag, it.local_tie_tag, it.peer_tie_tag,
                   it.local_initial_tsn, it.peer_initial_tsn, it.local_port, it.peer_port, it.outbound_streams,
                   it.inbound_streams, detail::part(bytes, it.extra_offset, it.extra_size)};
    return opened;
}
// ---- end of what registry/make.py generates
/// A State Cookie of bytes that end before it is none: name the container.
template <typename Container, typename = detail::if_ends<Container>>
opened_cookie open_cookie(bytes_view, Container &&, std::uint64_t) = delete;

// ---- writing

/// Writes a packet: each `add_` adds a chunk, and add_parameter, add_cause, add_number, add_re_config,
/// add_missing_parameters, add_new_addresses, and that of each parameter or error cause add to the last chunk's list. Each returns ok; or it changes nothing, and returns why:
///   bad_place  the buffer had no 12 bytes for the header; or there is no chunk to add to
///   bad_value  the chunk would have more than 65,535 bytes, or what is to be written lies in the buffer itself
///   no_room    the packet would have more bytes than the buffer, the limit or 65,532
/// so one can seal, send, and begin the next packet with the chunk that had no room. The values are written as they
/// are: whether RFC 9260 lets them be sent, or packet::check would accept the packet, isn't checked.
///
///   std::vector<std::uint8_t> bytes;
///   dcsctp::builder packet(bytes, source_port, destination_port, tag);
///   if (packet.add_sack(tsn, a_rwnd) && packet.add_data(data) && packet.seal())
///       transmit(packet.bytes());
class builder : public detail::builder_kinds {
  public:
    /// Begins a packet in a buffer, which has to outlive the builder; its size is the room. Bytes after the packet
    /// stay.
    builder(mutable_bytes_view buffer DCSCTP_LIFETIME_BOUND, std::uint16_t source_port, std::uint16_t destination_port,
            std::uint32_t verification_tag) noexcept
    {
        data_ = buffer.data();
        room_ = buffer.size();
        begin(source_port, destination_port, verification_tag);
    }
    /// Begins a packet in a vector, which loses what it had, grows up to `limit` as chunks are added, and ends with the
    /// packet when that is sealed. Leave it alone until then. With a limit below 12 it is empty, and no packet.
    builder(std::vector<std::uint8_t> &buffer DCSCTP_LIFETIME_BOUND, std::uint16_t source_port,
            std::uint16_t destination_port, std::uint32_t verification_tag, std::size_t limit = most)
    {
        vector_ = &buffer;
        limit_ = limit < most ? limit : most;
        if (limit_ < DCSCTP_FIRST_CHUNK)
            buffer.clear();
        else
            grow();
        begin(source_port, destination_port, verification_tag);
    }
    builder(const builder &) = delete;
    builder &operator=(const builder &) = delete;
    /// Takes the packet over, in its buffer. The other builder then has none: each call on it returns bad_place.
    builder(builder &&other) noexcept { swap(other); }
    builder &operator=(builder &&other) noexcept
    {
        builder taken(std::move(other));
        swap(taken);
        return *this;
    }
    void swap(builder &other) noexcept { std::swap(static_cast<writer &>(*this), static_cast<writer &>(other)); }

    /// Adds a chunk of any type.
    result add_chunk(chunk_type type, std::uint8_t flags = 0, bytes_view value = {})
    {
        return add(type, flags, value.size(), [&](std::uint8_t *at) { detail::put_bytes(at, value); }, value);
    }
    /// Adds HEARTBEAT with this heartbeat info.
    result add_heartbeat(bytes_view info) { return heartbeat(chunk_type::heartbeat, info); }
    /// Adds HEARTBEAT ACK with this heartbeat info.
    result add_heartbeat_ack(bytes_view info) { return heartbeat(chunk_type::heartbeat_ack, info); }
    /// Adds ABORT with the cause User-Initiated Abort; bad_value where the reason isn't UTF-8. For other causes:
    /// add_chunk(chunk_type::abort), and add_cause.
    result add_abort(std::string_view reason, bool tag_reflected = false)
    {
        return append(::dcsctp_add_abort, tag_reflected, as_bytes(reason));
    }

    /// Adds an IPv4 Address of 4 octets, or an IPv6 Address of 16, to the last chunk (RFC 9260 section 3.3.2.1); bad_value
    /// for another number of octets.
    result add_address(bytes_view octets)
    {
        const bool is_ipv4 = octets.size() == 4;
        const struct ::dcsctp_ip_address it {0, octets.size()};
        const auto type = is_ipv4 ? parameter_type::ipv4_address : parameter_type::ipv6_address;
        return extend(::dcsctp_write_ip_address, start_, type, &it, octets);
    }

    // ---- generated by registry/make.py of registry/sctp.txt and include/dcsctp.h
    /// Adds a parameter to the last chunk.
    result add_parameter(parameter_type type, bytes_view value = {})
    {
        return any_item(number(type), value);
    }
    /// Adds a parameter whose value is a number of four bytes: Zero Checksum Acceptable.
    result add_number(parameter_type type, std::uint32_t value) { return four_bytes(number(type), value); }
    /// Adds an error cause to the last chunk.
    result add_cause(cause_code code, bytes_view value = {})
    {
        return any_item(number(code), value);
    }
    /// Adds an error cause whose value is a number of four bytes: No User Data.
    result add_number(cause_code code, std::uint32_t value) { return four_bytes(number(code), value); }
    /// Adds to an INIT ACK, the last chunk, an Unrecognized Parameter for each parameter of an INIT that came whose
    /// type isn't one of `types` and is to be reported (section 3.2.2), or nothing. Returns where your program stops:
    /// the offset of the parameter at which processing stops, or of the end of the INIT's value.
    outcome<std::size_t> add_unrecognized_parameters(const chunk &of, view<const std::uint16_t> types)
    {
        std::size_t stop = 0;
        const result added = extend(::dcsctp_add_unrecognized_parameters, start_, of.list(), types, &stop);
        return stopped(added, ::dcsctp_list_offset(&of.it_) + stop);
    }
    /// Adds an ERROR with a cause Unrecognized Parameters for each parameter of an INIT ACK that came, or of another
    /// chunk but INIT, likewise; no ERROR if there is none. The packet is the one that answers.
    outcome<std::size_t> add_unrecognized_parameters_error(const chunk &of, view<const std::uint16_t> types)
    {
        std::size_t stop = 0;
        const result added = append(::dcsctp_add_unrecognized_parameters_error, of.list(), types, &stop);
        return stopped(added, ::dcsctp_list_offset(&of.it_) + stop);
    }
    /// Adds an ERROR with a cause Unrecognized Chunk Type for each chunk of a packet that came whose type isn't one of
    /// `types` and is to be reported (section 3.2), likewise.
    outcome<std::size_t> add_unrecognized_chunks(bytes_view came, bytes_view types)
    {
        std::size_t stop = 0;
        const result added = append(::dcsctp_add_unrecognized_chunks, came, types, &stop);
        return stopped(added, stop);
    }
    /// Adds to an ABORT, the last chunk, the cause Restart of an Association with New Addresses, with the addresses
    /// that an INIT adds to those of an association: see adds_addresses.
    result add_new_addresses(const chunk &of, bytes_view known)
    {
        return extend(::dcsctp_add_new_addresses, start_, of.list(), known);
    }
    // ---- end of what registry/make.py generates

    /// The last chunk, where it lies in the buffer: its bytes() are all that is sent of one without a packet around it.
    [[nodiscard]] std::optional<chunk> last_chunk() const noexcept
    {
        return packet(bytes_view(data_, size_)).chunk_at(start_);
    }

  private:
    void begin(std::uint16_t source_port, std::uint16_t destination_port, std::uint32_t tag) noexcept
    {
        if (::dcsctp_begin(data_, room_, &size_, source_port, destination_port, tag) != DCSCTP_OK)
            size_ = 0;
        start_ = size_;
    }
    result any_item(std::uint16_t type, bytes_view value)
    {
        return item(type, value.size(), [&](std::uint8_t *at) { detail::put_bytes(at, value); }, value);
    }
    result four_bytes(std::uint16_t type, std::uint32_t value)
    {
        return item(type, 4, [&](std::uint8_t *at) { detail::put32(at, value); });
    }
    result heartbeat(chunk_type type, bytes_view info)
    {
        return add(type, 0, detail::header_size + info.size(), [&](std::uint8_t *at) {
            at = detail::put16(at, number(parameter_type::heartbeat_info));
            at = detail::put16(at, static_cast<std::uint32_t>(detail::header_size + info.size()));
            detail::put_bytes(at, info);
        }, info);
    }
    static outcome<std::size_t> stopped(result added, std::size_t stop)
    {
        return added ? outcome<std::size_t>(stop) : added.code();
    }
};

} // namespace dcsctp

#ifdef __cpp_lib_ranges
template <typename T> inline constexpr bool std::ranges::enable_view<dcsctp::view<T>> = true;
template <typename T> inline constexpr bool std::ranges::enable_borrowed_range<dcsctp::view<T>> = true;
template <typename Source> inline constexpr bool std::ranges::enable_view<dcsctp::range<Source>> = true;
template <typename Source> inline constexpr bool std::ranges::enable_borrowed_range<dcsctp::range<Source>> = true;
template <typename Source> inline constexpr bool std::ranges::disable_sized_range<dcsctp::range<Source>> = true;
#endif

#endif
