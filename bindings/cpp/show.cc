// SPDX-License-Identifier: Apache-2.0
// usage: show FILE. Reads packets, one a line, in hexadecimal without blanks, and prints the chunks of each, its text,
// and the packet that answers it: for examples/packets.txt what examples/expected.txt has.
#include "dcsctp.hpp"

#include <fstream>
#include <iostream>

namespace {

// This side of the one association, and the tag of the other side, which its INIT asks for (RFC 9260 section 8.5).
const dcsctp::init own = {0x0da73798, 0x20000, 4, 4, 0x66e387ab};
std::uint32_t peer_tag;

std::string hex(dcsctp::bytes_view bytes)
{
    std::string text;
    for (std::uint8_t byte : bytes) {
        text += "0123456789abcdef"[byte >> 4];
        text += "0123456789abcdef"[byte & 15];
    }
    return text;
}

void print_chunk(dcsctp::chunk chunk)
{
    std::cout << "  chunk " << +number(chunk.type()) << ", flags " << +chunk.flags() << ", " << chunk.value().size()
              << " bytes\n";
    if (auto data = chunk.as_data())
        std::cout << "    tsn " << data->tsn << ", stream " << data->stream << ", ssn " << data->ssn << ", mid "
                  << data->mid << ", fsn " << data->fsn << ", ppid " << data->ppid << ", U " << data->is_unordered
                  << ", B " << data->is_beginning << ", E " << data->is_end << ", I " << data->immediate_ack
                  << "\n    payload " << hex(data->payload) << '\n';
    if (auto sack = chunk.as_sack()) {
        std::cout << "    cumulative tsn " << sack->cumulative_tsn_ack << ", a_rwnd " << sack->a_rwnd << "\n    blocks";
        for (dcsctp::gap_ack_block block : chunk.gap_ack_blocks())
            std::cout << ' ' << block.start << '-' << block.end;
        std::cout << "\n    duplicates";
        for (std::uint32_t tsn : chunk.duplicate_tsns())
            std::cout << ' ' << tsn;
        std::cout << '\n';
    }
    for (dcsctp::parameter parameter : chunk.parameters())
        std::cout << "    item " << number(parameter.type()) << ", " << parameter.value().size() << " bytes\n";
    for (dcsctp::cause cause : chunk.causes())
        std::cout << "    item " << number(cause.code()) << ", " << cause.value().size() << " bytes\n";
}

// Writes the answer to a packet: INIT ACK to an INIT, a SACK to DATA. Returns its bytes; none if there is none.
dcsctp::bytes_view answer(dcsctp::packet packet, dcsctp::mutable_bytes_view room)
{
    auto header = packet.header();
    auto chunk = packet.chunk_at(DCSCTP_FIRST_CHUNK);
    if (!header || !chunk)
        return {};
    auto init = chunk->as_init();
    const bool is_init = init && chunk->type() == dcsctp::chunk_type::init && chunk->next_offset() == packet.size()
        && header->verification_tag == 0 && init->initiate_tag != 0;
    if (is_init)
        peer_tag = init->initiate_tag;
    dcsctp::builder reply(room, header->destination_port, header->source_port, peer_tag);
    if (is_init) {
        if (reply.add_init_ack(own)
            && reply.add_parameter(dcsctp::parameter_type::state_cookie, dcsctp::as_bytes("abcd")) && reply.seal())
            return reply.bytes();
    } else if (auto data = chunk->as_data(); data && header->verification_tag == own.initiate_tag) {
        if (reply.add_sack(data->tsn, own.a_rwnd) && reply.seal())
            return reply.bytes();
    }
    return {};
}

void show(dcsctp::packet packet)
{
    std::cout << "packet of " << packet.size() << " bytes\n";
    if (auto fault = packet.first_fault()) {
        std::cout << "  fault " << number(fault->code) << " at byte " << fault->offset << '\n';
        return;
    }
    for (dcsctp::chunk chunk : packet.chunks())
        print_chunk(chunk);
    if (auto text = packet.print())
        std::cout << *text << '\n';
    std::uint8_t room[1200];
    if (auto reply = answer(packet, room); !reply.empty())
        std::cout << "  answer " << hex(reply) << '\n';
}

} // namespace

int main(int count, char **words)
{
    std::ifstream file(count == 2 ? words[1] : "");
    if (!file) {
        std::cerr << "usage: show FILE\n";
        return 2;
    }
    for (std::string line; std::getline(file, line);) {
        if (line.empty() || line[0] == '#')
            continue;
        std::vector<std::uint8_t> bytes;
        for (std::size_t i = 0; i + 1 < line.size(); i += 2)
            bytes.push_back(static_cast<std::uint8_t>(std::stoul(line.substr(i, 2), nullptr, 16)));
        show(dcsctp::packet(bytes));
    }
}
