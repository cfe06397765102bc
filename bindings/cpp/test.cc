// SPDX-License-Identifier: Apache-2.0
// usage: test [FOLDER]. Reads and writes the vectors in FOLDER, registry/vectors of the repository, and in the file that
// $VECTORS names; compares what is read of any bytes with what the proved calls read; and tests what only C++ has. Packets here
// are written by hand from the RFCs.
#include "dcsctp.hpp"

#include <algorithm>
#include <array>
#include <cstdio>
#include <cstdlib>
#include <cstring>
#include <fstream>
#include <memory>
#include <new>
#ifdef __cpp_lib_span
#include <span>
#endif

using namespace dcsctp;
using bytes = std::vector<std::uint8_t>;

static std::size_t allocations;

// The library's requests for memory, of which one is refused: test.sh links with --wrap.
static std::size_t granted = static_cast<std::size_t>(-1);
extern "C" void *__real_malloc(std::size_t size);
extern "C" void *__real_realloc(void *block, std::size_t size);
extern "C" void *__wrap_malloc(std::size_t size)
{
    return granted-- == 0 ? nullptr : __real_malloc(size);
}
extern "C" void *__wrap_realloc(void *block, std::size_t size)
{
    return granted-- == 0 ? nullptr : __real_realloc(block, size);
}

void *operator new(std::size_t size)
{
    allocations++;
    if (void *memory = std::malloc(size))
        return memory;
    throw std::bad_alloc();
}
void operator delete(void *memory) noexcept { std::free(memory); }
void operator delete(void *memory, std::size_t) noexcept { std::free(memory); }

namespace {

int passed, failed;
std::string of_line; // the vector that is tried

void check(bool is_so, const char *what, int line)
{
    (is_so ? passed : failed)++;
    if (!is_so)
        std::printf("test.cc:%d: not so: %s%s\n", line, what, of_line.c_str());
}
#define CHECK(...) check(static_cast<bool>(__VA_ARGS__), #__VA_ARGS__, __LINE__)

bytes of_hex(std::string_view text)
{
    bytes all;
    unsigned digits = 0, value = 0;
    for (char c : text) {
        if (c == ' ')
            continue;
        value = value * 16 + static_cast<unsigned>(c <= '9' ? c - '0' : c - 'a' + 10);
        if (++digits % 2 == 0)
            all.push_back(static_cast<std::uint8_t>(value));
    }
    return all;
}

std::string hex(bytes_view bytes)
{
    std::string text;
    for (std::uint8_t byte : bytes) {
        text += "0123456789abcdef"[byte >> 4];
        text += "0123456789abcdef"[byte & 15];
    }
    return text;
}

bytes joined(bytes one, bytes_view other)
{
    one.insert(one.end(), other.begin(), other.end());
    return one;
}

// A packet from port 5000 to port 5001 under the tag 0x01020304.
bytes sealed(std::string_view chunks)
{
    bytes packet = joined(of_hex("1388 1389 01020304 00000000"), of_hex(chunks));
    CHECK(seal(packet));
    return packet;
}

bool same(bytes_view one, bytes_view other)
{
    return std::equal(one.begin(), one.end(), other.begin(), other.end());
}

// Whether what is written by `write`, into an array and into a vector, is `wanted`.
template <typename Write> bool writes(const bytes &wanted, Write write)
{
    bytes room(wanted.size() + 1, 0xee);
    builder one(mutable_bytes_view{room}, 5000, 5001, 0x01020304);
    bytes vector = {1, 2, 3};
    builder other(vector, 5000, 5001, 0x01020304);
    return write(one) && one.seal() && same(one.bytes(), wanted) && room.back() == 0xee && write(other) && other.seal()
        && vector == wanted;
}

// The only chunk of a packet without a fault, padding with it. It is checked that there is one.
chunk only(const bytes &packet)
{
    CHECK(!dcsctp::packet(packet).first_fault({false, false, true}));
    CHECK(dcsctp::packet(packet).chunks().size() == 1);
    return *dcsctp::packet(packet).chunks().begin();
}

// ---- vectors: lines of JSON without blanks and without escapes, which are compared as texts

// The text that an object has by a key; empty where it has none.
std::string by_key(std::string_view object, std::string_view key)
{
    for (std::size_t at = 1; at < object.size();) {
        const std::size_t end_of_key = object.find(':', at);
        std::size_t end = end_of_key + 1;
        for (int depth = 0; depth > 0 || (object[end] != ',' && object[end] != '}'); end++)
            depth += object[end] == '{' || object[end] == '[' ? 1 : object[end] == '}' || object[end] == ']' ? -1 : 0;
        if (object.substr(at + 1, end_of_key - at - 2) == key)
            return std::string(object.substr(end_of_key + 1, end - end_of_key - 1));
        at = end + 1;
    }
    return {};
}

std::string text_by(std::string_view object, std::string_view key)
{
    const std::string text = by_key(object, key);
    return text.size() < 2 ? text : text.substr(1, text.size() - 2);
}
bytes bytes_by(std::string_view object, std::string_view key) { return of_hex(text_by(object, key)); }
bool is_by(std::string_view object, std::string_view key) { return by_key(object, key) == "true"; }
std::uint32_t number_by(std::string_view object, std::string_view key)
{
    return static_cast<std::uint32_t>(std::strtoul(by_key(object, key).c_str(), nullptr, 10));
}

// The text of a list, of what a function makes of each item.
template <typename Range, typename Function> std::string list_of(const Range &items, Function function)
{
    std::string text;
    for (auto it : items)
        text += (text.empty() ? "" : ",") + function(it);
    return '[' + text + ']';
}
template <typename Range> std::string numbers(const Range &items)
{
    return list_of(items, [](auto it) { return std::to_string(it); });
}
template <typename T> std::vector<T> numbers_by(std::string_view object, std::string_view key)
{
    std::vector<T> items;
    const std::string text = text_by(object, key);
    for (std::size_t at = 0; at < text.size(); at = std::min(text.find(',', at), text.size() - 1) + 1)
        items.push_back(static_cast<T>(std::strtoul(text.c_str() + at, nullptr, 10)));
    return items;
}

template <typename T, std::enable_if_t<std::is_integral_v<T>, int> = 0> std::string json(T it)
{
    return std::is_same_v<T, bool> ? it ? "true" : "false" : std::to_string(it);
}
std::string json(bytes_view it) { return '"' + hex(it) + '"'; }
std::string json(const char *name) { return '"' + std::string(name) + '"'; }
std::string json(const std::string &text) { return text; }

// The text of an object, of keys and values.
template <typename T, typename... More> std::string object(const char *key, const T &value, const More &...more)
{
    const std::string text = '"' + std::string(key) + "\":" + json(value);
    if constexpr (sizeof...(more) == 0)
        return '{' + text + '}';
    else
        return '{' + text + ',' + object(more...).substr(1);
}

// Whether two values are equal, and aren't any more as soon as one of these fields is another.
template <typename T, typename... Field> bool compares(Field T::*...field)
{
    const auto differs = [](auto one_field) {
        T one{};
        auto changed = one.*one_field;
        std::memset(&changed, 1, sizeof changed);
        one.*one_field = changed;
        return one != T{} && !(one == T{}) && one == T(one);
    };
    return T{} == T{} && !(T{} != T{}) && (differs(field) && ...);
}

#include "test_kinds.hpp"

bool write(builder &to, const chunk &it)
{
    bool wrote = write_alone(to, it);
    for (parameter one : it.parameters())
        wrote = wrote && write_alone(to, one);
    for (cause one : it.causes())
        wrote = wrote && write_alone(to, one);
    return wrote;
}

std::string show(const std::optional<fault> &it)
{
    static const char *const names[] = {"ok", "size", "checksum", "length", "value", "padding"};
    return it ? '[' + json(names[number(it->code)]) + ',' + std::to_string(it->offset) + ']' : "";
}

bool alike(std::uint32_t one, std::uint32_t other) { return one == other; }

// Whether what is read of a chunk or an item is what a proved call reads.
struct alike_by_c {
    bytes_view from;
    template <typename T, typename Owner, typename C>
    bool operator()(const std::optional<T> &it, const Owner &of,
                    bool (*c)(const std::uint8_t *, std::size_t, const Owner *, C *)) const
    {
        C read{};
        return it.has_value() == c(from.data(), from.size(), &of, &read) && (!it || alike(*it, read));
    }
    // The same of each item of a list.
    template <typename Range, typename Owner, typename C>
    bool operator()(const Range &range, const Owner &of,
                    bool (*c)(const std::uint8_t *, std::size_t, const Owner *, std::size_t, C *),
                    std::size_t (*all)(const std::uint8_t *, std::size_t, const Owner *, C *, std::size_t)) const
    {
        std::vector<C> read(all(from.data(), from.size(), &of, nullptr, 0) + 1);
        all(from.data(), from.size(), &of, read.data(), read.size());
        C one{};
        const auto items = range.to_vector();
        return items.size() + 1 == read.size() && !c(from.data(), from.size(), &of, items.size(), &one)
            && std::equal(items.begin(), items.end(), read.begin(),
                          [](const auto &it, const auto &other) { return alike(it, other); });
    }
};

// The same of the parameters or error causes of a chunk, one after the other.
template <typename Range>
std::size_t agrees_up_to(bytes_view from, const Range &range, const ::dcsctp_chunk &of, std::size_t next)
{
    ::dcsctp_parameter item{};
    for (const auto &it : range) {
        CHECK(::dcsctp_parameter_at(from.data(), from.size(), &of, next, &item) && it.offset() == next
              && it.next_offset() == item.next);
        CHECK(::dcsctp_item_at(from.data(), of.value_offset + of.value_size, next, &item) && it.next_offset() == item.next);
        CHECK(it.value().data() == from.data() + item.value_offset && it.value().size() == item.value_size);
        each_reader(it, item, alike_by_c{from});
        next = it.next_offset();
    }
    return next;
}

void agrees(bytes_view from, const chunk &it)
{
    ::dcsctp_chunk of{};
    CHECK(::dcsctp_chunk_at(from.data(), from.size(), it.offset(), &of));
    each_reader(it, of, alike_by_c{from});
    CHECK(!it.as_data() || it.as_data()->payload.end() == it.value().end());
    ::dcsctp_parameter more{};
    const std::size_t next =
        agrees_up_to(from, it.causes(), of, agrees_up_to(from, it.parameters(), of, ::dcsctp_list_offset(&of)));
    CHECK(!::dcsctp_parameter_at(from.data(), from.size(), &of, next, &more));
    CHECK(it.parameters().size() + it.causes().size() == ::dcsctp_parameters(from.data(), from.size(), &of, nullptr, 0));
}

void kind_line(std::string_view line)
{
    const bytes given = joined(of_hex("1388 1389 01020304 00000000"), bytes_by(line, "bytes"));
    const packet it(given);
    const std::string shown = list_of(it.chunks(), [](const chunk &one) { return show(one); });
    std::size_t next = DCSCTP_FIRST_CHUNK;
    for (const chunk &one : it.chunks()) {
        CHECK(one.offset() == next);
        agrees(given, one);
        next = one.next_offset();
    }
    ::dcsctp_chunk more{};
    CHECK(!::dcsctp_chunk_at(given.data(), given.size(), next, &more));
    CHECK(show(it.first_fault({true, false, false})) == by_key(line, "fault"));
    std::vector<row> rows(it.chunks().size());
    const reading read = it.read(rows, {true, false, false});
    if (!read)
        return;
    CHECK(show(it.first_fault({true, false, true})) == by_key(line, "strict") && shown == by_key(line, "chunks"));
    CHECK(list_of(read.chunks(), [](row_view one) { return show(one.whole()); }) == shown && read.has_all());
    for (std::size_t i = 0; i < rows.size(); i++)
        each_reader(*read.chunks().at(i), rows[i].chunk, alike_by_c{given});
    bytes wanted = given;
    if (const bytes other = bytes_by(line, "written"); !other.empty())
        wanted = joined(bytes(given.begin(), given.begin() + 12), other);
    CHECK(seal(wanted) && writes(wanted, [&](builder &to) {
        const auto chunks = it.chunks();
        return std::all_of(chunks.begin(), chunks.end(), [&](const chunk &one) { return write(to, one); });
    }));
}

void registered_line(std::string_view line)
{
    const std::string of = text_by(line, "level"), fields = by_key(line, "fields");
    const auto type = static_cast<std::uint16_t>(number_by(line, "type"));
    const bytes value = bytes_by(line, "value");
    bytes buffer, wrote;
    builder from(buffer, 1, 2, 3), to(wrote, 1, 2, 3);
    if (is_by(line, "refused") && of == "parameter") { // (an address tells its type, so no other one is written)
        CHECK(!parameter(static_cast<parameter_type>(type), bytes_by(fields, "address")).as_address());
        return;
    }
    if (is_by(line, "refused")) {
        const auto counts = numbers_by<std::uint16_t>(fields, "counts");
        const bytes lists = bytes_by(fields, "lists");
        const nr_sack it = {0, number_by(fields, "cumulative_tsn_ack"), number_by(fields, "a_rwnd"), counts[0], counts[1],
                            counts[2], lists};
        CHECK(to.add_nr_sack(it).code() == result_code::bad_value);
        return;
    }
    const auto same_fields = [&](const auto &it, builder &out) {
        const std::string found = fields_of(it);
        CHECK(found == fields || (found == "null" && fields == "{}"));
        return found != "null" && write_fields(out, it);
    };
    bool is_written = false;
    CHECK(from.add_chunk(static_cast<chunk_type>(of == "chunk" ? type : 0), 0xa5, of == "chunk" ? value : bytes()));
    if (of == "chunk")
        is_written = same_fields(*from.last_chunk(), to);
    else
        is_written = to.add_chunk(chunk_type::error)
            && (of == "parameter" ? same_fields(parameter(static_cast<parameter_type>(type), value), to)
                                  : same_fields(cause(static_cast<cause_code>(type), value), to));
    CHECK(is_written == (fields != "null" && fields != "{}"));
    const auto last = to.last_chunk();
    if (is_written) {
        const bytes again(last->value().begin() + (of == "chunk" ? 0 : 4), last->value().end());
        CHECK(again == value || again == bytes_by(line, "written"));
    }
}

// ---- what is asked of whoever receives a packet

template <typename Enum, std::size_t count> Enum named(const char *const (&names)[count], const std::string &name)
{
    return static_cast<Enum>(std::find(names, names + count, name) - names);
}

void call_line(std::string_view line)
{
    const std::string call = text_by(line, "call"), wanted = by_key(line, "returns"), header_of = by_key(line, "header");
    const bytes given = bytes_by(line, "packet");
    const packet it(given);
    const bytes known = bytes_by(line, "known");
    const header to{static_cast<std::uint16_t>(number_by(header_of, "source_port")),
                    static_cast<std::uint16_t>(number_by(header_of, "destination_port")),
                    number_by(header_of, "verification_tag"), 77};
    const auto fault = named<init_fault>(names_of_init_fault, text_by(line, "fault"));
    const auto made = [](auto sent) { return sent && seal(*sent) ? json(bytes_view(*sent)) : std::string("null"); };
    std::string found;
    if (call == "unrecognized_chunk") {
        found = json(names_of_action[number(unrecognized(static_cast<chunk_type>(number_by(line, "type"))))]);
    } else if (call == "unrecognized_parameter") {
        found = json(names_of_action[number(unrecognized(static_cast<parameter_type>(number_by(line, "type"))))]);
    } else if (call == "verify_tag") {
        const bool has_peer_tag = by_key(line, "peer_tag") != "null";
        association of{number_by(line, "own_tag"), number_by(line, "peer_tag"), has_peer_tag, is_by(line, "awaits_cookie")};
        found = json(names_of_tag_verdict[number(it.verify_tag(of))]);
    } else if (call == "out_of_the_blue") {
        found = json(names_of_answer[number(it.out_of_the_blue(is_by(line, "is_unicast")))]);
    } else if (call == "reply") {
        found = made(reply(to, named<answer>(names_of_answer, text_by(line, "answer"))));
    } else if (call == "init_fault") {
        found = json(names_of_init_fault[number(it.init_fault(is_by(line, "is_ack")))]);
    } else if (call == "init_refusal") {
        found = json(names_of_refusal[number(init_refusal(fault, is_by(line, "is_ack"), is_by(line, "in_cookie_wait")))]);
    } else if (call == "init_abort") {
        found = made(init_abort(to, number_by(line, "initiate_tag"), fault));
    } else if (call == "broken_rules") {
        const rules broken = it.broken_rules({is_by(line, "refuses_zero"), is_by(line, "has_data"), is_by(line, "has_i_data")});
        found = list_of(broken, [&](rule one) {
            std::string text = name(one);
            std::replace(text.begin(), text.end(), '-', '_');
            std::transform(text.begin(), text.end(), text.begin(),
                           [](char c) { return c == '_' ? c : static_cast<char>(c - 32); });
            CHECK(broken.has(one) && (broken.bits() & number(one)) != 0);
            return json(text.c_str());
        });
        CHECK(broken.empty() == (wanted == "[]"));
    } else if (call == "adds_addresses") {
        found = json(adds_addresses(*it.chunks().begin(), known));
    } else {
        // What adds to a packet, in a vector, and has to be refused where it has a byte less of room.
        bytes buffer, room(text_by(line, "returns").size() / 2 + 11);
        outcome<std::size_t> end(0), refused(0);
        const auto numbers_known = numbers_by<std::uint16_t>(line, "known");
        const auto add = [&](builder &adds) -> outcome<std::size_t> {
            if (call == "add_unrecognized_parameters")
                return adds.add_init_ack({}) ? adds.add_unrecognized_parameters(*it.chunks().begin(), numbers_known)
                                             : result_code::no_room;
            if (call == "add_unrecognized_parameters_error")
                return adds.add_unrecognized_parameters_error(*it.chunks().begin(), numbers_known);
            if (call == "add_unrecognized_chunks")
                return adds.add_unrecognized_chunks(given, numbers_by<std::uint8_t>(line, "known"));
            const result added =
                adds.add_chunk(chunk_type::abort) ? adds.add_new_addresses(*it.chunks().begin(), known) : result_code::no_room;
            return added ? outcome<std::size_t>(0) : added.code();
        };
        builder adds(buffer, 5000, 5001, 0x01020304), short_of(mutable_bytes_view{room}, 5000, 5001, 0x01020304);
        end = add(adds);
        found = end ? json(adds.bytes().subspan(12)) : "null";
        const bool has_chunk = adds.size() > 12;
        CHECK(!has_chunk || (add(short_of).error() == result_code::no_room && short_of.size() <= room.size()));
        CHECK(adds.last_chunk().has_value() == has_chunk && (!has_chunk || adds.last_chunk()->offset() == 12));
        // (where it stops at none, the end of the packet, or of the chunk's value)
        const bool of_chunks = call == "add_unrecognized_chunks";
        const std::size_t whole = of_chunks ? given.size() : 12 + it.chunks().begin()->bytes().size();
        const std::size_t list = of_chunks ? 0 : whole - it.chunks().begin()->list().size();
        const std::string stop = by_key(line, "end");
        CHECK(stop.empty() || (stop == "null" ? *end == whole : std::to_string(*end - list) == stop));
    }
    CHECK(found == wanted);
}

void vectors(const std::string &path, void (*of_a_line)(std::string_view))
{
    std::ifstream file(path);
    int count = 0;
    for (std::string line; std::getline(file, line); count++) {
        of_line = "\n  " + line;
        of_a_line(line);
    }
    of_line = ": " + path;
    CHECK(count > 0);
    of_line.clear();
}

// ---- what is read of any bytes

std::size_t touched;

// The rest of the registry, down to the items in items.
template <typename Item> void read_each(const Item &it)
{
    touched += fields_of(it).size();
    if constexpr (std::is_same_v<Item, parameter>) {
        if (const auto of = it.as_unrecognized_parameter())
            for (parameter one : of->parameters)
                read_each(one);
        if (const auto of = it.as_error_cause_indication())
            for (cause one : of->causes)
                read_each(one);
    } else if (const auto of = it.as_parameters_cause()) {
        for (parameter one : of->parameters)
            read_each(one);
    }
}

void read_all(bytes_view bytes)
{
    const packet it(bytes);
    touched += it.first_fault({true, false, true}).has_value() + it.header().has_value();
    for (chunk chunk : it.chunks()) {
        agrees(bytes, chunk);
        touched += hex(chunk.bytes()).size();
        touched += fields_of(chunk).size();
        if (const auto of = chunk.as_asconf())
            for (parameter one : of->parameters)
                read_each(one);
        for (parameter one : chunk.parameters())
            read_each(one);
        for (cause one : chunk.causes())
            read_each(one);
    }
}

// Bytes of the length that they have: a sanitizer sees what is read after them.
void any_bytes()
{
    std::uint32_t state = 1;
    const auto random = [&] { return state = state * 1664525 + 1013904223; };
    const char *const chunks[] = {
        "0300001c 0000000a 00010000 0002 0001 0002 0003 0005 0005 00000009",
        "000b0013 01020304 0005 0006 00000033 616263 00",
        "40010015 00000015 0006 0000 00000008 00000033 61 000000",
        "07000008 00000011",
        "82000030 000d0014000000010000000200000003 00040005 0010001400000009 000000010000000a0000000b 0012000c0000000100030000",
        "09000024 0002 000a 00000001 0007 0000 0009 0008 00000005 000a 0004  000d 0007 626164 00",
        "c2000014 0000000a 0001 0001 00000002 0003 0000 00000002",
        "c0000010 0000000a 0001 0001 0000 0002",
        "8000002c 08090a0b c0050008 00000001 c003001c 00000002 00a10014 c0010010 00000002 00050008 c0000201",
        "c1000020 08090a0b 00050008 c0000201 c0020010 00000001 00050008 c0000202",
        "0f00000c 0102 0003 01020304",
        "01000024 00000001 00000002 0003 0004 00000005 8004 0008 0003 0001 0005 0008 c0000201"};
    bytes whole = of_hex("1388 1389 01020304 00000000");
    for (const char *one : chunks)
        whole = joined(whole, of_hex(one));
    for (const char *one : chunks)
        for (std::size_t cut = 0; cut < of_hex(one).size(); cut++) {
            // a chunk alone, of each size
            bytes alone = of_hex(one);
            alone.resize(cut);
            if (cut > 3)
                alone[2] = 0, alone[3] = static_cast<std::uint8_t>(cut);
            read_all(joined(of_hex("1388 1389 01020304 00000000"), alone));
        }
    for (std::size_t size = 0; size <= whole.size(); size++)
        for (int round = 0; round < 20; round++) {
            std::unique_ptr<std::uint8_t[]> part(new std::uint8_t[size]);
            std::copy_n(whole.begin(), size, part.get());
            for (int changes = round; changes > 0 && size > 0; changes--)
                part[(random() >> 8) % size] = static_cast<std::uint8_t>(random() >> 24);
            const bytes_view given(part.get(), size);
            read_all(given);
            // A chunk is what is the only one of a packet.
            const dcsctp::packet packet(given);
            const bool is_only = packet.check({true, false, false}) && packet.chunks().size() == 1;
            CHECK(size < 12 || read_chunk(given.subspan(12)).has_value() == is_only);
        }
    CHECK(touched > 0);
}

// ---- what only C++ has

// Views of what goes on, which no compiler may warn of; test.sh has those of what is gone.
bytes_view right(mutable_bytes_view bytes) { return bytes; }
packet right(bytes_view bytes) { return packet(bytes); }
bytes_view right(builder &builder) { return builder.bytes(); }
builder right_too(mutable_bytes_view bytes) { return builder(bytes, 1, 2, 3); }
std::string_view right_too(bytes_view bytes) { return as_text(bytes); }
bytes_view right_too(std::string_view text) { return as_bytes(text); }

void right_views()
{
    const std::string text = "ab";
    bytes own(100);
    const bytes &constant = own;
    builder to = right_too(mutable_bytes_view(own));
    CHECK(to.add_cookie_echo(bytes(2)) && to.add_cookie_echo({1, 2}) && to.add_sack(1, 2, {{2, 3}}, {4})
          && to.add_cookie_echo(as_bytes(std::string_view(std::string(text)))) && to.seal());
    CHECK(right(right(to)).check() && packet(bytes_view(bytes(to.bytes().begin(), to.bytes().end()))).check()
          && packet(constant).size() == right(mutable_bytes_view(own)).size() && right_too(right_too(text)) == text);
}

void whole_packets()
{
    bytes packet = sealed("0b000004 000b0013 01020304 0005 0006 00000033 616263 00");
    const dcsctp::packet whole(packet);
    const auto header = whole.header();
    CHECK(header == dcsctp::header{5000, 5001, 0x01020304, whole.word().number()} && whole.check() && !whole.first_fault());
    const dcsctp::checksum_word wrong(whole.word().number() + 1);
    CHECK(whole.check({}, whole.word()) && whole.check({}, wrong).code() == result_code::fault_checksum);
    CHECK(wrong != whole.word());
    static_assert(!std::is_convertible_v<std::uint32_t, packet::word_option>); // the checksum field is no word
    CHECK(whole.chunk_at(16)->type() == chunk_type::data && !whole.chunk_at(36) && !whole.chunk_at(99));
    CHECK(!dcsctp::packet().header() && dcsctp::packet().chunks().empty() && dcsctp::packet().size() == 0);
    bytes canonical = packet;
    std::fill(canonical.begin() + 8, canonical.begin() + 12, std::uint8_t{0});
    const dcsctp::packet zero(canonical);
    CHECK(*whole.canonical() == canonical && zero.check({false, true, false}) && zero.check({true, false, false}));
    std::uint8_t room[2000];
    CHECK(whole.canonical_to(room).size == canonical.size() && same({room, canonical.size()}, canonical));
    CHECK(whole.canonical_to({room, 35}) == written{result_code::no_room, 36});
    const auto text = whole.print(), report = whole.report();
    CHECK(text && text->find("source=5000 destination=5001 tag=16909060 ") == 0
          && as_text({room, whole.print_to(room).size}) == *text);
    CHECK(report && report->back() == '\n' && as_text({room, whole.report_to(room).size}) == *report);
    CHECK(whole.report_to({room, 10}) == written{result_code::no_room, report->size()});
    dcsctp::policy any;
    any.any_checksum = true;
    CHECK(report->find(": right\n") != std::string::npos && *whole.report(any) == *report);
    CHECK(as_text({room, whole.report_to(room, any).size}) == *report);
    CHECK(set_tag(packet, 7) && !whole.check() && seal(packet) && whole.check() && whole.header()->verification_tag == 7);
    CHECK(seal({room, 11}).code() == result_code::bad_place && set_tag({room, 11}, 1).code() == result_code::bad_place);
    CHECK(dcsctp::packet().check().text() == std::string_view("not the size of a packet") && (*zero.print()).empty());
    // a word of 0 that is passed is what the field has to be
    const dcsctp::checksum_word none(0);
    CHECK(zero.check({}, none) && zero.print({}, none) && zero.report({}, none) && zero.canonical({}, none));
    CHECK(!whole.print({}, none));

    std::vector<gap_ack_block> mixed = {{5, 6}, {2, 3}, {9, 8}, {4, 4}, {9, 9}};
    clean_blocks(mixed);
    CHECK(mixed == std::vector<gap_ack_block>{{2, 6}, {9, 9}});
    CHECK(!only(sealed("03000014 0000000a 00010000 0001 0000 0001 0001")).is_valid_sack());
    CHECK(only(sealed("03000014 0000000a 00010000 0001 0000 0002 0002")).is_valid_sack());
    // values of thousands of bytes
    const bytes large(65000, 'x');
    const std::string reason(5000, 'r');
    bytes buffer;
    builder to(buffer, 1, 2, 3);
    CHECK(to.add_cookie_echo(large) && to.seal() && same(only(buffer).value(), large));
    builder other(buffer, 1, 2, 3);
    CHECK(other.add_abort(reason) && other.seal()
          && dcsctp::packet(buffer).report()->find('"' + reason + '"') != std::string::npos);
}

void builders()
{
    // What has no room changes nothing.
    std::array<std::uint8_t, 32> buffer;
    buffer.fill(0xee);
    builder to(buffer, 1, 2, 3);
    to.remove_last_chunk();
    CHECK(to.size() == 12 && to.add_cause(cause_code::no_user_data).code() == result_code::bad_place && !to.last_chunk());
    CHECK(to.add_cookie_ack() && to.size() == 16);
    const auto before = buffer;
    CHECK(to.add_chunk(chunk_type::error, 0, bytes(13)).code() == result_code::no_room && buffer == before);
    CHECK(to.add_chunk(chunk_type::error, 0, bytes(65532)).code() == result_code::bad_value && to.size() == 16);
    CHECK(to.add_abort("\xff").code() == result_code::bad_value && to.size() == 16
          && to.last_chunk()->type() == chunk_type::cookie_ack);
    CHECK(to.add_chunk(chunk_type::error, 0, bytes(12)) && to.size() == 32);
    CHECK(to.add_cause(cause_code::protocol_violation).code() == result_code::no_room && to.size() == 32);
    to.remove_last_chunk();
    CHECK(to.size() == 16 && to.add_cause(cause_code::protocol_violation).code() == result_code::bad_place);
    CHECK(to.seal() && packet(to.bytes()).check());
    // conveniences
    CHECK(writes(
        sealed("0400000a 0001 0006 6869 0000 0500000a 0001 0006 6869 0000 0601000c 000c 0008 62796521"), [](builder &it) {
            return it.add_heartbeat(as_bytes("hi")) && it.add_heartbeat_ack(as_bytes("hi")) && it.add_abort("bye!", true);
        }));
    // types and results that have no place; a chunk of 65,535 bytes, and one byte more
    bytes vector;
    builder wrong(vector, 1, 2, 3);
    re_config response;
    response.type = parameter_type::state_cookie;
    CHECK(wrong.add_re_config(response).code() == result_code::bad_place && wrong.add_chunk(chunk_type::re_config));
    CHECK(wrong.add_re_config(response).code() == result_code::bad_value);
    response.type = parameter_type::reconfiguration_response;
    response.result = static_cast<re_config_result>(7);
    CHECK(wrong.add_re_config(response).code() == result_code::bad_value && wrong.size() == 16);
    const std::vector<std::uint16_t> many(32765);
    CHECK(wrong.add_missing_parameters(many).code() == result_code::bad_value);
    CHECK(wrong.add_missing_parameters(view<const std::uint16_t>(many).subspan(0, 32752)).code() == result_code::ok);
    wrong.bytes()[15] ^= 4; // a length that isn't the chunk's
    CHECK(wrong.add_cause(cause_code::out_of_resource).code() == result_code::bad_place);

    // What lies in the buffer isn't written, and what lies beside it is.
    std::array<std::uint8_t, 64> both{};
    builder front(mutable_bytes_view(both.data(), 40), 1, 2, 3);
    CHECK(front.add_cookie_echo({both.data() + 39, 2}).code() == result_code::bad_value && front.size() == 12);
    CHECK(front.add_cookie_echo({both.data() + 40, 2}) && front.size() == 20);
    const view<const std::uint32_t> inside(reinterpret_cast<const std::uint32_t *>(&both), 1);
    CHECK(front.add_sack(1, 2, {}, inside).code() == result_code::bad_value && front.size() == 20);
    CHECK(front.add_parameter(parameter_type::state_cookie, front.bytes()).code() == result_code::bad_value);
    CHECK(front.add_unrecognized_chunks(front.bytes(), {}).error() == result_code::bad_value);
    CHECK(front.add_new_addresses(*front.last_chunk(), {}).code() == result_code::bad_value
          || front.last_chunk()->list().empty());

    // There is no packet in 11 bytes. A vector grows as far as its limit.
    builder small(mutable_bytes_view(both.data(), 11), 1, 2, 3);
    CHECK(small.size() == 0 && small.add_cookie_ack().code() == result_code::bad_place
          && small.seal().code() == result_code::bad_place);
    builder growing(vector, 1, 2, 3);
    CHECK(growing.add_chunk(chunk_type::cookie_echo, 0, bytes(65516)) && growing.size() == 65532);
    CHECK(growing.add_cookie_ack().code() == result_code::no_room && growing.seal() && vector.size() == 65532
          && packet(vector).check());
    growing.remove_last_chunk();
    CHECK(growing.seal() && vector.size() == 12 && growing.add_cookie_ack() && growing.seal() && vector.size() == 16);
    builder limited(vector, 1, 2, 3, 20);
    CHECK(limited.add_cookie_ack() && limited.add_cookie_ack());
    CHECK(limited.add_cookie_ack().code() == result_code::no_room && limited.seal() && vector.size() == 20);
    builder none(vector, 1, 2, 3, 11);
    CHECK(vector.empty() && none.size() == 0 && none.add_cookie_ack().code() == result_code::bad_place && !none.seal());
}

// A builder that is moved goes on in its buffer, with its last chunk; the one before has none.
builder begun(bytes &buffer)
{
    builder to(buffer, 1, 2, 3);
    CHECK(to.add_chunk(chunk_type::error));
    return to;
}

void moved_builders()
{
    bytes one, two;
    std::optional<builder> held(begun(one));
    CHECK(held->size() == 16 && held->add_cause(cause_code::protocol_violation) && held->size() == 20);
    builder to(std::move(*held));
    CHECK(to.add_cause(cause_code::protocol_violation) && to.bytes().data() == one.data() && to.size() == 24);
    CHECK(held->bytes().data() == nullptr && held->add_cookie_ack().code() == result_code::bad_place && !held->seal());
    *held = begun(two);
    to = std::move(*held);
    CHECK(to.size() == 16 && to.bytes().data() == two.data() && held->size() == 0 && one.size() > 24);
    builder &same = to;
    to = std::move(same);
    CHECK(to.size() == 16 && to.add_cookie_ack() && to.seal() && two.size() == 20 && two[16] == 11);
    static_assert(std::is_nothrow_move_constructible_v<builder> && std::is_nothrow_move_assignable_v<builder>);
    static_assert(!std::is_copy_constructible_v<builder> && !std::is_copy_assignable_v<builder>);
}

void outcomes()
{
    const bytes bytes_of_it = sealed("0b000004");
    const packet whole(bytes_of_it), none;
    const auto size = [](const std::string &text) { return outcome<std::size_t>(text.size()); };
    const auto last = [](std::string text) { return text.empty() ? outcome<char>(result_code::no_room) : text.back(); };
    CHECK(whole.print().has_value() && whole.print().value_or("none") == *whole.print()
          && none.print().value_or("none") == "none");
    CHECK(none.print().error() == result_code::fault_size && none.print().and_then(size).error() == result_code::fault_size);
    const outcome<std::string> text = whole.print(), empty = std::string();
    CHECK(*text.and_then(size) == text->size() && *text.and_then(last) == 'K' && *whole.print().and_then(last) == 'K');
    CHECK(text.value_or("none") == *text && empty.and_then(last).error() == result_code::no_room);
    outcome<std::unique_ptr<int>> owned(std::make_unique<int>(7));
    CHECK(*std::move(owned).value_or(nullptr) == 7);
#ifdef __cpp_lib_expected
    const std::expected<std::string, result_code> expected = whole.print(), unexpected = none.print(), copy = text;
    CHECK(expected == *text && copy == *text && unexpected == std::unexpected(result_code::fault_size));
#endif
}

void names()
{
    CHECK(name(chunk_type::i_forward_tsn) == std::string_view("I-FORWARD-TSN")
          && to_string(cause_code::stale_cookie) == "Stale Cookie");
    CHECK(is_known(chunk_type::data) && is_known(parameter_type::random) && is_known(cause_code::no_user_data));
    CHECK(!is_known(static_cast<chunk_type>(99)) && to_string(static_cast<chunk_type>(99)) == "chunk type 99 (0x63)");
    CHECK(to_string(static_cast<parameter_type>(0x8006)) == "parameter type 32774 (0x8006)");
    CHECK(!is_known(static_cast<parameter_type>(99)) && !is_known(static_cast<cause_code>(99)));
    CHECK(to_string(static_cast<cause_code>(99)) == "cause code 99 (0x0063)"
          && to_string(re_config_result::denied) == "Denied");
    CHECK(to_string(static_cast<re_config_result>(7)) == "result 7" && is_known(re_config_result::in_progress));
    CHECK(to_string(result_code::fault_padding) == "wrong padding" && text(rule::port_zero) == std::string_view("a port is 0"));
    CHECK(reports(action::skip_and_report) && !skips(action::stop_and_report) && skips(action::skip) && !reports(action::stop));
    CHECK(std::string_view(version()) == DCSCTP_VERSION && library_version_number() == version_number);
    const rules two(number(rule::tag_zero) | number(rule::port_zero));
    CHECK(two.to_vector() == std::vector<rule>{rule::port_zero, rule::tag_zero} && two != rules() && rules().empty());
}

void equality()
{
    equal_structs();
    CHECK(compares(&header::source_port, &header::destination_port, &header::verification_tag, &header::checksum));
    CHECK(compares(&fault::code, &fault::offset) && compares(&written::code, &written::size));
    CHECK(compares(&policy::any_checksum, &policy::zero_checksum, &policy::strict_padding, &policy::allowed_zero_checksum));
    const bytes one = {1, 2}, same_bytes = {1, 2};
    data with, again;
    with.payload = one;
    again.payload = same_bytes;
    CHECK(with == again && with != data{});
}

void views()
{
    std::uint8_t array[] = {1, 2, 3};
    const std::array<std::uint8_t, 2> other = {1, 2};
    const bytes vector = {1, 2, 3};
    const std::byte std_bytes[] = {std::byte{1}, std::byte{2}};
    CHECK(same(array, vector) && bytes_view(other).size() == 2 && mutable_bytes_view(array)[2] == 3);
    CHECK(same(as_bytes(std_bytes), other) && bytes_view().empty() && as_text(as_bytes("ab")) == "ab");
    CHECK(same(mutable_bytes_view(array), bytes_view(mutable_bytes_view(array))));
    const bytes_view all(vector);
    CHECK(same(all.subspan(1), of_hex("0203")) && same(all.subspan(1, 1), of_hex("02")) && same(all.subspan(0, 9), vector));
    CHECK(all.subspan(1).data() == vector.data() + 1 && all.subspan(3).empty() && all.subspan(4).empty());
    CHECK(all.subspan(2, static_cast<std::size_t>(-1)).size() == 1 && bytes_view().subspan(1, 1).empty());
    CHECK(detail::part(all, 3, 0).data() == vector.data() + 3 && !detail::part(all, 4, 0).data()
          && detail::part(all, 2, 2).empty());
    CHECK(detail::part(all, 4, 1).empty() && detail::part(all, 1, static_cast<std::size_t>(-1)).empty());
    std::byte room[24] = {};
    builder to(as_writable_bytes(room), 1, 2, 3);
    CHECK(to.add_cookie_echo({7, 8}) && to.seal() && room[16] == std::byte{7} && packet(as_bytes(room)).size() == 24);
    static_assert(!std::is_convertible_v<std::initializer_list<std::uint8_t>, mutable_bytes_view>);
    static_assert(std::is_convertible_v<bytes, bytes_view> && std::is_convertible_v<bytes &, mutable_bytes_view>);
    static_assert(
        !std::is_convertible_v<bytes, mutable_bytes_view> && !std::is_convertible_v<const bytes &, mutable_bytes_view>);
    static_assert(!std::is_convertible_v<bytes_view, mutable_bytes_view> && !std::is_convertible_v<std::string, bytes_view>);
    static_assert(!std::is_convertible_v<std::vector<std::uint16_t>, bytes_view>);
    static_assert(!std::is_constructible_v<packet, bytes> && !std::is_constructible_v<packet, const bytes>);
    static_assert(!std::is_constructible_v<packet, std::array<std::uint8_t, 16>>);
    static_assert(std::is_constructible_v<packet, bytes &> && std::is_constructible_v<packet, const bytes &>);
    static_assert(std::is_constructible_v<packet, bytes_view> && std::is_constructible_v<packet, mutable_bytes_view>);
    static_assert(std::is_trivially_copyable_v<packet> && std::is_trivially_copyable_v<chunk>);
    static_assert(noexcept(packet(vector).first_fault()) && noexcept(packet(vector).word()));
    static_assert(noexcept(packet().header()) && noexcept(++packet().chunks().begin()));
    static_assert(noexcept(packet().chunk_at(12)->as_data()) && noexcept(packet().chunk_at(12)->skipped_streams()));
#ifdef __cpp_lib_span
    const std::span<const std::uint8_t> span(vector), back = bytes_view(vector);
    std::span<std::uint8_t> changeable(array);
    const std::span<std::uint8_t> once_more = mutable_bytes_view(changeable);
    CHECK(same(span, vector) && packet(span).size() == 3 && back.data() == vector.data() && once_more.data() == array);
#endif
    const bytes two = sealed("0b000004 08000004");
#ifdef __cpp_lib_ranges
    using chunks = decltype(packet().chunks());
    static_assert(std::ranges::forward_range<chunks> && std::ranges::view<chunks> && std::ranges::borrowed_range<chunks>);
    static_assert(std::ranges::forward_range<gap_ack_blocks> && std::ranges::view<gap_ack_blocks>);
    static_assert(!std::ranges::sized_range<chunks>); // it would take as long as reading
    static_assert(std::ranges::contiguous_range<bytes_view> && std::ranges::view<bytes_view>);
    CHECK(std::ranges::count(packet(two).chunks(), chunk_type::shutdown_ack, &chunk::type) == 1);
#endif
    auto at = packet(two).chunks().begin();
    const auto first = at++;
    CHECK(first->type() == chunk_type::cookie_ack && at->type() == chunk_type::shutdown_ack && first != at);
    CHECK(++at == packet(two).chunks().end() && ++at == packet(two).chunks().end());
    const bytes blocks = sealed("0300001c 0000000a 00010000 0002 0001 0002 0003 0005 0005 00000009");
    const auto range = only(blocks).gap_ack_blocks();
    CHECK(range.at(1) == gap_ack_block{5, 5} && !range.at(2) && !range.empty() && range.begin()->end == 3 && range.size() == 2);
    CHECK(range.begin() != range.end() && std::next(range.begin())->start == 5
          && std::distance(range.begin(), range.end()) == 2);
}

// Calls `write` until no request for memory is refused: the first, then the second, and so on. Returns how many it made.
template <typename Write> std::size_t refused(Write write)
{
    for (std::size_t requests = 0;; requests++) {
        granted = requests;
        const result_code code = write();
        granted = static_cast<std::size_t>(-1);
        if (code == result_code::ok)
            return requests;
        CHECK(code == result_code::no_memory);
        if (code != result_code::no_memory)
            return requests;
    }
}

void memory()
{
    const bytes packet =
        sealed("0300001c 0000000a 00010000 0002 0001 0002 0003 0005 0005 00000009 0600000c 000c 0008 62796521");
    const dcsctp::packet it(packet);
    std::array<std::uint8_t, 500> output{};
    CHECK(refused([&] { return it.print_to(output).code; }) > 0 && refused([&] { return it.canonical_to(output).code; }) == 0);
    CHECK(refused([&] { return it.report_to(output).code; }) == 0 && output.back() == 0);
    // The string or the vector asks too, and throws; the library is called twice.
    const auto code = [](const auto &expected, auto make) {
        try {
            const auto made = make();
            return made && *made != *expected ? result_code::bad_value : made.code();
        } catch (const std::bad_alloc &) {
            return result_code::no_memory;
        }
    };
    const auto text = it.print(), report = it.report();
    const auto canonical = it.canonical();
    CHECK(refused([&] { return code(text, [&] { return it.print(); }); }) > 2);
    CHECK(refused([&] { return code(canonical, [&] { return it.canonical(); }); }) == 1);
    CHECK(refused([&] { return code(report, [&] { return it.report(); }); }) == 1);
    // Neither reading nor writing into a buffer allocates.
    std::array<row, 3> rows{};
    const std::size_t before = allocations;
    std::size_t read = 0;
    for (row_view one : it.read(rows).chunks()) {
        for (gap_ack_block block : one.whole().gap_ack_blocks())
            read += block.start;
        for (cause cause : one.whole().causes())
            read += cause.value().size() + cause.as_stale_cookie().has_value();
    }
    builder to(output, 1, 2, 3);
    CHECK(read == 11 && to.add_cookie_echo(packet) && to.add_sack(1, 2, {{2, 3}}, {4}) && to.seal() && allocations == before);
}

// What a stack needs besides packets: bare chunks, items of a type and bytes, flags, checksums of zero, rows.
void stacks()
{
    const bytes init = of_hex("01000020 00000001 00000002 0003 0004 00000005 8008 0006 82c0 0000 c000 0004");
    const auto chunk = read_chunk(init);
    CHECK(chunk && chunk->as_init() == dcsctp::init{1, 2, 3, 4, 5} && same(chunk->bytes(), init)
          && chunk->parameters().size() == 2);
    const bytes padded = of_hex("0a000005 61 000000");
    CHECK(read_chunk(padded)->next_offset() == 8 && read_chunk(bytes_view(padded).subspan(0, 5))->next_offset() == 5);
    const auto has_chunk_fault = [](const bytes &given, result_code code, std::size_t offset) {
        CHECK(chunk_fault(given) == fault{code, offset} && !read_chunk(given));
    };
    has_chunk_fault({}, result_code::fault_size, 0);
    has_chunk_fault(of_hex("0b000003"), result_code::fault_length, 0);
    has_chunk_fault(of_hex("82000010 0010 000c 00000001 00000007"), result_code::fault_value, 4);
    // something behind it: half a chunk, a chunk, padding twice
    has_chunk_fault(of_hex("0b000004 00"), result_code::fault_length, 4);
    has_chunk_fault(of_hex("0b000004 0b000004"), result_code::fault_length, 4);
    has_chunk_fault(of_hex("0a000005 61 000000 00000000"), result_code::fault_length, 8);
    // A packet has at most 65,535 bytes, and 12 of them before its first chunk.
    bytes large = joined(of_hex("0a00fff4"), bytes(0xfff0));
    has_chunk_fault(large, result_code::fault_size, 65523);
    large[3] = 0xf3;
    large.resize(0xfff3);
    CHECK(read_chunk(large));
    const bytes reset = of_hex("00000001 0002");
    const parameter made(parameter_type::incoming_ssn_reset, reset);
    CHECK(made.bytes().empty() && made.as_re_config()->request_number == 1 && made.reset_streams().at(0) == 2);

    // RFC 9260 section 3.3.1: the bits I, U, B and E, of which E is the lowest.
    data it;
    it = it.with_flags(0xf5);
    CHECK(it.flags() == 5 && it.is_unordered && it.is_end && !it.is_beginning && !it.immediate_ack
          && it.with_flags(10).flags() == 10);

    // RFC 9653 section 5.2: INIT, COOKIE ECHO and ASCONF; what answers a packet out of the blue reflects its tag.
    policy allowed;
    allowed.allowed_zero_checksum = true;
    for (const char *text :
         {"0100001400000001000000020003000400000005", "0a00000561000000", "c100000800000001", "06010004", "0e010004"})
        for (const std::string &before : {std::string(), std::string("0b000004")}) {
            const bytes given = joined(of_hex("1388 1389 01020304 00000000"), of_hex(before + text)),
                        right = sealed(before + text);
            CHECK(packet(given).needs_checksum()
                  && packet(given).first_fault(allowed) == fault{result_code::fault_checksum, 8});
            CHECK(packet(right).check(allowed) && packet(given).check({false, true, false}));
        }
    for (const char *text :
         {"02ff00140000000100000002 0003000400000005", "0b000004", "06000004", "0401000800010004", "c8010004"}) {
        bytes given = joined(of_hex("1388 1389 01020304 00000000"), of_hex(text));
        CHECK(!packet(given).needs_checksum() && packet(given).check(allowed) && packet(given).print(allowed)
              && !packet(given).check());
        given[11] = 1;
        CHECK(!packet(given).check(allowed));
    }

    // fewer rows than chunks, and none; a fault; what the C function wrote
    const bytes two = sealed("07000008 00000011 0b000004");
    std::array<row, 3> rows{};
    rows[2].tsn = 7;
    const reading read = packet(two).read(rows), few = packet(two).read(view<row>(rows).subspan(0, 1)),
                  wrong = packet(two).read(rows, {}, dcsctp::checksum_word(1));
    CHECK(read && !read.first_fault() && read.header() == packet(two).header() && read.chunk_count() == 2
          && read.chunks().size() == 2);
    CHECK(rows[2].tsn == 7 && few && few.chunk_count() == 2 && !few.has_all() && few.chunks().size() == 1
          && !read.chunks().at(2));
    CHECK(!wrong && wrong.first_fault() == fault{result_code::fault_checksum, 8} && !wrong.header() && wrong.chunks().empty());
    CHECK(read.chunks().at(0)->rest().empty() && read.chunks().at(0)->as_shutdown() == 17u && wrong.chunk_count() == 0);
    struct ::dcsctp_packet wrote {};
    const ::dcsctp_policy any{true, false, false, {}};
    CHECK(::dcsctp_read(two.data(), two.size(), 0, &any, rows.data(), rows.size(), &wrote) == DCSCTP_OK);
    CHECK(reading(two, wrote, rows).chunks().at(1)->type() == chunk_type::cookie_ack);
}

void registered_values()
{
    const bytes v4 = of_hex("c0000201"), v6(16), five(5), item = of_hex("c006 0008 00000001");
    std::array<std::uint8_t, 200> buffer{};
    builder to(buffer, 1, 2, 3);
    CHECK(to.add_address(v4).code() == result_code::bad_place && to.add_init({1, 2, 3, 4, 5}));
    CHECK(to.add_address(v4) && to.add_address(v6) && to.add_address(five).code() == result_code::bad_value);
    const auto addresses = to.last_chunk()->parameters();
    CHECK(same(*addresses.begin()->as_address(), v4) && std::next(addresses.begin())->as_address()->size() == 16);
    CHECK(!parameter(parameter_type::ipv6_address, v4).as_address() && !parameter(parameter_type::random, v4).as_address());
    const auto before = buffer;
    const bytes_view own = view<std::uint8_t>(buffer).subspan(4, 4), whole(item);
    for (const result refused :
         {to.add_congestion(chunk_type::auth, {0, 1}), to.add_random_or_padding(parameter_type::state_cookie, {}),
          to.add_address_request(parameter_type::random, {1, v4}), to.add_parameters_cause(cause_code::stale_cookie, {}),
          to.add_asconf({0, 1, five, {}}), to.add_asconf({0, 1, v4, whole.subspan(2)}), to.add_asconf({0, 1, own, whole}),
          to.add_random_or_padding(parameter_type::random, {own}), to.add_nr_sack({0, 1, 2, 1, 0, 0, v6})})
        CHECK(refused.code() == result_code::bad_value && buffer == before);
    CHECK(to.add_asconf({0, 7, v4, whole}) && to.last_chunk()->as_asconf() == asconf({0, 7, v4, whole}));
    CHECK(to.last_chunk()->as_asconf()->parameters.begin()->as_number() == 1u && !to.last_chunk()->as_asconf_ack());
    // As many lists in one another as a parameter has room for: each read goes one level deeper.
    bytes deep;
    for (std::size_t size = 65528; size >= 4; size -= 4)
        deep.insert(deep.end(), {0, 8, static_cast<std::uint8_t>(size >> 8), static_cast<std::uint8_t>(size)});
    std::size_t depth = 0;
    for (auto it = std::optional(parameter(parameter_type::unrecognized_parameter, deep)); it; depth++) {
        const auto inside = it->as_unrecognized_parameter()->parameters;
        it = inside.empty() ? std::nullopt : std::optional(*inside.begin());
    }
    CHECK(depth == 65528 / 4 + 1);
}

// The rows are those of tests/c/auth.c, whose HMACs are those that Python's hmac gives.
void authenticated()
{
    const bytes key = {'a', ' ', 'k', 'e', 'y'}, extra = {192, 0, 2, 1}, wanted = of_hex(
        "0e7f54ce817b4159983e9114aa8511194e5e71af023a055c38cb78f905a9ac0400000000000f4240"
        "000000000393870001020304050607081112131415161718090a0b0c0d0e0f1013881389000a0014c0000201");
    const cookie says = {1000000, 60000000, 0x01020304, 0x05060708, 0x11121314, 0x15161718, 0x090a0b0c, 0x0d0e0f10,
                         5000, 5001, 10, 20, extra};
    CHECK(seal_cookie(key, says) == wanted);
    // Good to the end of its life, and on a clock that was set back; then stale.
    for (std::uint64_t now : {0u, 61000000u, 61000002u}) {
        const opened_cookie opened = open_cookie(key, wanted, now);
        CHECK(opened.says == says && opened.staleness == (now == 61000002 ? 2 : 0) && bool(opened) == (opened.staleness == 0));
        CHECK(opened.state == (opened ? cookie_state::good : cookie_state::stale)
              && opened.says.extra.data() == wanted.data() + 80);
    }
    const opened_cookie other = open_cookie({}, wanted, 0), cut = open_cookie(key, bytes_view(wanted).subspan(0, 83), 0);
    CHECK(!other && other.state == cookie_state::invalid && other.says == cookie{} && cut.state == cookie_state::invalid);

    bytes auth = of_hex("0f00001c00000001c7495116c0ef32e9165201fbb044c4bb612e9d0e0003001400000001000200030000003361620000");
    const bytes before = auth;
    CHECK(verify_auth(key, auth) && !verify_auth({}, auth) && !verify_auth(key, bytes_view(auth).subspan(0, 47)));
    std::fill_n(auth.begin() + 8, 20, std::uint8_t{0xa5});
    CHECK(!verify_auth(key, auth) && sign_auth(key, auth) && auth == before);
    CHECK(sign_auth(key, mutable_bytes_view(auth).subspan(28)).code() == result_code::bad_value && auth == before);
    const bytes list = {0xc1, 0x80, 1};
    CHECK(is_listed(list, chunk_type::asconf) && !is_listed(list, chunk_type::init) && !is_listed({}, chunk_type::asconf));
    // RFC 4895 section 6.1: the smaller number first; of two that are equal, the shorter
    CHECK(shared_key(as_bytes("p"), {1, 3}, {2}) == bytes{'p', 2, 1, 3} && shared_key({}, {5}, {0, 5}) == bytes{5, 0, 5});
}

} // namespace

int main(int count, char **words)
{
    if (count > 1) {
        const std::string folder = words[1];
        vectors(folder + "/kinds.jsonl", kind_line);
        vectors(folder + "/registered.jsonl", registered_line);
        vectors(folder + "/calls.jsonl", call_line);
    }
    if (const char *path = std::getenv("VECTORS"))
        vectors(path, kind_line);
    for (auto test : {any_bytes, whole_packets, builders, moved_builders, right_views, outcomes, names, equality, views, memory,
                      stacks, registered_values, authenticated})
        test();
    std::printf("cpp: %d passed, %d failed\n", passed, failed);
    return failed != 0;
}
