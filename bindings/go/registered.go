// SPDX-License-Identifier: Apache-2.0

package davgyuti

// #include "calls.h"
import "C"

import (
	"fmt"
	"net/netip"
	"strings"
)

// A Registered is what a chunk, a parameter or an error cause holds whose type has no method of its own here, but a place in
// IANA's registry: addresses, and the chunks of RFC 4895 and RFC 5061, say. docs/C.md has each type with its fields. What a type
// doesn't carry is empty.
//
//	reply.AddRegisteredChunk(davgyuti.ChunkASCONF, davgyuti.Registered{
//		Numbers: []uint32{serial},
//		Address: netip.MustParseAddr("192.0.2.1"),
//	})
type Registered struct {
	// Numbers has the numbers in the order of the value, but for reserved ones: of AUTH the key's and the HMAC's, of a request of
	// ASCONF its correlation id.
	Numbers []uint32
	Address netip.Addr // valid if and only if the type has one
	Flags   uint8      // of a chunk, as they come and are written: of PKTDROP PKTDROPMiddlebox and the like
	// Rest is what ends the value, where it lies in the packet: parameters, error causes, short numbers, an HMAC, padding.
	Rest   []byte
	fields []field // of one that was read
	packet Packet
	offset int // of the rest, in the packet
}

// form is what a field of a value is.
type form int

const (
	ofU32        form = iota // a number of four bytes
	ofU16                    // one of two
	ofAddress                // the address
	ofParameters             // the rest, as all that follow
	ofCauses
	ofShortNumbers
	ofBytes
)

// field is a field of a value, by its name in the registry.
type field struct {
	name string
	form form
}

// layouts has the fields of the types of a level.
type layouts []struct {
	number uint16
	fields []field
}

// of returns the fields of a type; false where it isn't one of these.
func (all layouts) of(number uint16) ([]field, bool) {
	for _, it := range all {
		if it.number == number {
			return it.fields, true
		}
	}
	return nil, false
}

// The levels, and the types of each that Registered reads.
const (
	chunkLevel = iota
	parameterLevel
	causeLevel
)

var allLayouts = [...]layouts{registeredChunks, registeredParameters, registeredCauses}

// Registered reads ECNE, CWR, AUTH, NR-SACK, ASCONF ACK, PKTDROP, PAD or ASCONF. Each of these three methods returns false for
// another type, and where the value has a size that its type doesn't allow, or a list that is broken: Check looks at none of
// these values. A list is looked at one level deep.
func (chunk Chunk) Registered() (Registered, bool) {
	return registered(chunkLevel, uint16(chunk.Type), chunk.Flags, chunk.Value, chunk.packet(), chunk.Offset+4)
}

// registered returns what C reads of a value that lies at an offset in a packet.
func registered(level C.int, number uint16, flags uint8, value, packet Packet, offset int) (Registered, bool) {
	fields, isThere := allLayouts[level].of(number)
	read := C.go_registered(level, C.uint16_t(number), C.uint8_t(flags), bytesOf(value), C.size_t(len(value)))
	if !isThere || !bool(read.is_there) {
		return Registered{}, false
	}
	it := read.it
	longs := []uint32{uint32(it.number), uint32(it.second_number)}
	shorts := []uint16{uint16(it.short_number), uint16(it.second_short_number), uint16(it.third_short_number)}
	result := Registered{Flags: uint8(it.flags), fields: fields, packet: packet}
	for _, field := range fields {
		switch field.form {
		case ofU32:
			result.Numbers, longs = append(result.Numbers, longs[0]), longs[1:]
		case ofU16:
			result.Numbers, shorts = append(result.Numbers, uint32(shorts[0])), shorts[1:]
		case ofAddress:
			result.Address, _ = netip.AddrFromSlice(value.part(int(it.address_offset), int(it.address_size)))
		default:
			result.offset = offset + int(it.rest_offset)
			result.Rest = value.part(int(it.rest_offset), int(it.rest_size))
		}
	}
	return result, true
}

// Number returns a number by its name in docs/C.md: "sequence number" of ASCONF, the first of the "counts" of NR-SACK.
// False where no number has the name, and for what wasn't read.
func (it Registered) Number(name string) (uint32, bool) {
	i := 0
	for _, field := range it.fields {
		if field.form <= ofU16 {
			if field.name == name {
				return it.Numbers[i], true
			}
			i++
		}
	}
	return 0, false
}

// String returns the names and values of what was read, as in "sequence number=1 address=192.0.2.1 parameters=16 bytes".
func (it Registered) String() string {
	var parts []string
	numbers := it.Numbers
	for _, field := range it.fields {
		switch field.form {
		case ofU32, ofU16:
			parts, numbers = append(parts, fmt.Sprintf("%s=%d", field.name, numbers[0])), numbers[1:]
		case ofAddress:
			parts = append(parts, fmt.Sprintf("%s=%v", field.name, it.Address))
		default:
			parts = append(parts, fmt.Sprintf("%s=%d bytes", field.name, len(it.Rest)))
		}
	}
	return strings.Join(parts, " ")
}

// endIn returns the rest of what was read, if it is this.
func (it Registered) endIn(form form) []byte {
	if len(it.fields) > 0 && it.fields[len(it.fields)-1].form == form {
		return it.Rest
	}
	return nil
}

// Parameters goes over the parameters that end what was read: the requests of ASCONF, the addresses of the cause Restart of an
// Association with New Addresses. Others have none.
func (it Registered) Parameters() *Iterator[Parameter] {
	parameters := parametersOf(it.packet, it.endIn(ofParameters), it.offset)
	return &parameters
}

// Causes goes over the error causes of an Error Cause Indication; others have none.
func (it Registered) Causes() *Iterator[Cause] {
	causes := causesOf(it.packet, it.endIn(ofCauses), it.offset)
	return &causes
}

// ShortNumbers goes over the numbers of two bytes of Supported Address Types and Requested HMAC Algorithm; others have none.
func (it Registered) ShortNumbers() *Iterator[uint16] {
	return &Iterator[uint16]{items: appendShorts[uint16](nil, it.endIn(ofShortNumbers))}
}

// Addresses returns the addresses of parameters, in order: those of the IPv4 Address and IPv6 Address parameters of an INIT or INIT
// ACK (RFC 9260 section 3.3.2.1), or of the cause Restart of an Association with New Addresses. All else is passed over, and so is an
// address parameter of a wrong size.
func Addresses(parameters *Iterator[Parameter]) []netip.Addr {
	var addresses []netip.Addr
	for parameters.Next() {
		parameter := parameters.Value()
		if parameter.Type != ParameterIPv4Address && parameter.Type != ParameterIPv6Address {
			continue
		}
		if it, isThere := parameter.Registered(); isThere {
			addresses = append(addresses, it.Address)
		}
	}
	return addresses
}

// ---- writing

// AddAddresses adds an IPv4 Address or IPv6 Address parameter for each address to the last chunk (RFC 9260 section 3.3.2.1). It
// returns what AddRegisteredParameter does; those before the one that has no room are then added.
func (b *Builder) AddAddresses(addresses ...netip.Addr) error {
	for _, address := range addresses {
		parameterType := ParameterIPv6Address
		if address.Is4() {
			parameterType = ParameterIPv4Address
		}
		if err := b.AddRegisteredParameter(parameterType, Registered{Address: address}); err != nil {
			return err
		}
	}
	return nil
}

// AddRegisteredChunk adds a chunk that Registered reads. A number that is left out is 0; what the type doesn't carry is ignored.
// Each of these three functions returns ErrBadValue also for another type, a number that has no room in its field, an address that
// is missing or has a zone, and a rest that the type doesn't allow, as a broken list.
func (b *Builder) AddRegisteredChunk(chunkType ChunkType, it Registered) error {
	return b.addRegistered(chunkLevel, uint16(chunkType), it)
}

// addRegistered calls C with the places of the address and the rest, and the bytes that they lie in, apart from the builder's.
func (b *Builder) addRegistered(level C.int, number uint16, it Registered) error {
	c := C.struct_dcsctp_registered{flags: C.uint8_t(it.Flags)}
	var bytes []byte
	fields, isThere := allLayouts[level].of(number)
	if !isThere {
		return ErrBadValue
	}
	longs, shorts := []*C.uint32_t{&c.number, &c.second_number},
		[]*C.uint16_t{&c.short_number, &c.second_short_number, &c.third_short_number}
	numbers := it.Numbers
	for _, field := range fields {
		var value uint32
		if field.form <= ofU16 && len(numbers) > 0 {
			value, numbers = numbers[0], numbers[1:]
		}
		switch field.form {
		case ofU32:
			*longs[0], longs = C.uint32_t(value), longs[1:]
		case ofU16:
			if value > 0xffff {
				return ErrBadValue
			}
			*shorts[0], shorts = C.uint16_t(value), shorts[1:]
		case ofAddress:
			if it.Address.Zone() != "" {
				return ErrBadValue
			}
			bytes = it.Address.AsSlice()
			c.address_size = C.size_t(len(bytes))
		default:
			c.rest_offset, c.rest_size = C.size_t(len(bytes)), C.size_t(len(it.Rest))
			if len(bytes) == 0 {
				bytes = b.apart(it.Rest)
			} else {
				bytes = append(bytes, it.Rest...)
			}
		}
	}
	return b.added(level == chunkLevel, func(to *C.uint8_t, room C.size_t, size *C.size_t, start C.size_t) C.uint32_t {
		return C.go_add_registered(level, to, room, size, start, C.uint16_t(number), &c, bytesOf(bytes), C.size_t(len(bytes)))
	})
}
