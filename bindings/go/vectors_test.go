// SPDX-License-Identifier: Apache-2.0

package davgyuti_test

import (
	"bytes"
	"encoding/base64"
	"encoding/hex"
	"encoding/json"
	"fmt"
	"net/netip"
	"os"
	"regexp"
	"strings"
	"testing"

	"davgyuti.example/davgyuti"
)

// The vectors of the repository's registry/vectors, whose README.md has their form: all packages read and write the same.
// kinds_gen_test.go has what reads and writes chunks.

const vectors = "../../registry/vectors/"

// An object has the fields of a parameter or an error cause.
type object = map[string]interface{}

// names are of fields, whose underscores are left out, and values are bytes, which encoding/json has in base64.
var names, values = regexp.MustCompile(`"[a-z_]+":`), regexp.MustCompile(`:"[0-9a-f]*"`)

// vectorsOf calls a function for each line of a file, if it is there.
func vectorsOf[T any](t *testing.T, path string, least int, use func(what string, it T)) {
	t.Helper()
	text, err := os.ReadFile(path)
	if os.IsNotExist(err) {
		t.Skip(path, "isn't here")
	}
	equal(t, path, err, nil)
	lines := bytes.Split(bytes.TrimSpace(text), []byte("\n"))
	for i, line := range lines {
		var it T
		line = names.ReplaceAllFunc(line, func(name []byte) []byte { return bytes.ReplaceAll(name, []byte("_"), nil) })
		if err := json.Unmarshal(line, &it); err != nil {
			t.Fatal(err)
		}
		use(fmt.Sprintf("%s:%d", path, i+1), it)
	}
	equal(t, path+" is long", len(lines) >= least, true)
}

// fold returns a name as all of its forms are: INIT_ACK, "INIT ACK" and initAck.
func fold(name string) string {
	name = strings.ToLower(regexp.MustCompile(`[^A-Za-z0-9=]`).ReplaceAllString(name, ""))
	return strings.TrimSuffix(strings.TrimSuffix(name, "request"), "type")
}

// A vector is a line of kinds.jsonl.
type vector struct {
	Bytes, Written string
	Fault, Strict  []interface{}
	Chunks         []json.RawMessage
	test           *testing.T
	what           string
	to             *davgyuti.Builder
}

// A bareVector has what isn't of one kind.
type bareVector struct {
	Kind               string
	Type, Code         uint16
	Flags              uint8
	Value              []byte
	Parameters, Causes []json.RawMessage
}

// An itemVector has a parameter or an error cause.
type itemVector struct {
	bareVector
	Streams                                              []uint16
	Types                                                []davgyuti.ParameterType
	NextTSNs                                             *struct{ Sender, Receiver uint32 }
	RequestNumber, ResponseNumber, Method, TSN           *uint32
	Info, Cookie, ChunkTypes, Reason, Information, Chunk []byte
}

func (it chunkVector) flags() uint8 {
	if it.TagReflected {
		return davgyuti.TagReflected
	}
	return it.Flags
}

func (v *vector) equal(what string, found, wanted interface{}) {
	v.test.Helper()
	equal(v.test, v.what+" "+what, found, wanted)
}

func (v *vector) decode(text json.RawMessage, to interface{}) {
	text = values.ReplaceAllFunc(text, func(value []byte) []byte {
		return []byte(`:"` + base64.StdEncoding.EncodeToString(ofHex(string(value[2:len(value)-1]))) + `"`)
	})
	if err := json.Unmarshal(text, to); err != nil {
		v.test.Fatal(v.what, err)
	}
}

func (v *vector) checked(packet davgyuti.Packet, policy davgyuti.Policy, wanted []interface{}) {
	v.test.Helper()
	var found []interface{}
	if err, isFault := packet.Check(policy).(*davgyuti.Error); isFault {
		found = []interface{}{err.Code.Name(), float64(err.Offset)}
	}
	v.equal("fault", found, wanted)
}

func (v *vector) run() {
	packet := davgyuti.Packet(ofHex("1388 1389 01020304 00000000" + v.Bytes))
	v.checked(packet, davgyuti.Policy{AnyChecksum: true}, v.Fault)
	var parsed davgyuti.Parsed
	equal(v.test, v.what, parsed.Read(packet, davgyuti.Policy{AnyChecksum: true}) == nil, v.Fault == nil)
	chunks := packet.Chunks().Slice()
	if v.Fault != nil {
		for _, chunk := range chunks {
			v.refused(chunk, int(v.Fault[1].(float64)))
		}
		return
	}
	v.checked(packet, davgyuti.Policy{AnyChecksum: true, StrictPadding: true}, v.Strict)
	v.to, _ = davgyuti.Begin(bytes.Repeat([]byte{0xee}, 65535), 5000, 5001, 0x01020304)
	v.equal("chunks", []int{len(chunks), parsed.Len()}, []int{len(v.Chunks), len(v.Chunks)})
	for i := 0; i < len(chunks) && i < parsed.Len() && i < len(v.Chunks); i++ {
		v.equal("parsed", append(readsAt(&parsed, i), itemsAt(&parsed, i)...), append(readsOf(chunks[i]), itemsOf(chunks[i])...))
		v.chunk(chunks[i], v.Chunks[i])
	}
	if v.Written == "" {
		v.Written = v.Bytes
	}
	v.equal("written", hex.EncodeToString(v.to.Bytes()[12:]), v.Written)
}

// refused tests that what has the fault is no kind to whoever reads it all the same.
func (v *vector) refused(chunk davgyuti.Chunk, at int) {
	if chunk.Offset == at {
		v.equal("refused", readsOf(chunk), readsOf(davgyuti.Chunk{Type: davgyuti.ChunkCookieAck}))
	}
	for _, it := range chunk.Parameters().Slice() {
		_, isReConfig := it.ReConfig()
		v.equal("refused", it.Offset == at && (isReConfig || it.ResetStreams().Next()), false)
	}
	for _, it := range chunk.Causes().Slice() {
		v.equal("refused", it.Offset == at && it.MissingParameters().Next(), false)
	}
}

// itemsOf returns a chunk with its parameters, those of RE-CONFIG read too, and its error causes.
func itemsOf(chunk davgyuti.Chunk) (all []interface{}) {
	for _, it := range chunk.Parameters().Slice() {
		if chunk.Type != davgyuti.ChunkReConfig {
			it.Type = 0
		}
		reConfig, isReConfig := it.ReConfig()
		all = append(all, reConfig, isReConfig, it.ResetStreams().Slice())
	}
	return append(all, chunk, chunk.Type, chunk.Parameters().Slice(), chunk.Causes().Slice())
}

func itemsAt(parsed *davgyuti.Parsed, i int) (all []interface{}) {
	var parameters []davgyuti.Parameter
	for k := 0; k < parsed.ParameterCount(i); k++ {
		parameters = append(parameters, parsed.Parameter(i, k))
		reConfig, isReConfig := parsed.ReConfig(i, k)
		all = append(all, reConfig, isReConfig, parsed.ResetStreams(i, k))
	}
	var causes []davgyuti.Cause
	for k := 0; k < parsed.CauseCount(i); k++ {
		causes = append(causes, parsed.Cause(i, k))
	}
	return append(all, parsed.Chunk(i), parsed.Type(i), parameters, causes)
}

// named compares a type by its kind's name, or by its number.
func (v *vector) named(it bareVector, name fmt.Stringer, found, wanted uint16) {
	if it.Kind != "" {
		v.equal("kind", fold(name.String()), fold(it.Kind))
	} else {
		v.equal("number", found, wanted)
	}
}

// chunk compares a chunk with what is wanted, and writes that.
func (v *vector) chunk(chunk davgyuti.Chunk, text json.RawMessage) {
	it := v.reads(chunk, text)
	v.named(it.bareVector, chunk.Type, uint16(chunk.Type), it.Type)
	v.equal("T", chunk.IsTagReflected(), it.TagReflected)
	if it.Kind == "" || it.Cookie != nil {
		v.equal("value", chunk.Value, append(append([]byte{}, it.Value...), it.Cookie...))
	}
	if it.Kind == "" {
		v.equal("flags", chunk.Flags, it.Flags)
	}
	parameters, causes := chunk.Parameters().Slice(), chunk.Causes().Slice()
	v.equal("items", []int{len(parameters), len(causes)}, []int{len(it.Parameters), len(it.Causes)})
	for i := 0; i < len(parameters) && i < len(it.Parameters); i++ {
		v.parameter(parameters[i], it.Parameters[i])
	}
	for i := 0; i < len(causes) && i < len(it.Causes); i++ {
		v.cause(causes[i], it.Causes[i])
	}
}

func (v *vector) parameter(found davgyuti.Parameter, text json.RawMessage) {
	var it itemVector
	v.decode(text, &it)
	v.named(it.bareVector, found.Type, uint16(found.Type), it.Type)
	var wanted davgyuti.ReConfig
	isReConfig := it.RequestNumber != nil || it.ResponseNumber != nil
	if isReConfig {
		v.decode(text, &wanted)
		wanted.Type, wanted.StreamCount = found.Type, len(it.Streams)
	}
	if next := it.NextTSNs; next != nil {
		wanted.HasNextTSNs, wanted.SenderNextTSN, wanted.ReceiverNextTSN = true, next.Sender, next.Receiver
	}
	reConfig, ok := found.ReConfig()
	v.equal("ReConfig", []interface{}{reConfig, ok}, []interface{}{wanted, isReConfig})
	v.equal("streams", append([]uint16{}, found.ResetStreams().Slice()...), append([]uint16{}, it.Streams...))
	if !isReConfig {
		writes(v, it, found.Type, found.Value, found.Number, v.to.AddNumber, v.to.AddParameter)
		return
	}
	if it.Streams == nil {
		it.Streams = make([]uint16, 3) // which are ignored
	}
	v.equal("added", v.to.AddReConfig(wanted, it.Streams), nil)
}

func (v *vector) cause(found davgyuti.Cause, text json.RawMessage) {
	var it itemVector
	v.decode(text, &it)
	v.named(it.bareVector, found.Code, uint16(found.Code), it.Code)
	v.equal("types", append([]davgyuti.ParameterType{}, found.MissingParameters().Slice()...), append([]davgyuti.ParameterType{}, it.Types...))
	if it.Types != nil {
		v.equal("added", v.to.AddMissingParameters(it.Types), nil)
	} else {
		writes(v, it, found.Code, found.Value, found.Number, v.to.AddCauseNumber, v.to.AddCause)
	}
}

// writes compares a value that is a number or bytes, and writes it.
func writes[N ~uint16](v *vector, it itemVector, number N, value []byte, read func() (uint32, bool), addNumber func(N, uint32) error,
	add func(N, []byte) error) {
	for _, wanted := range []*uint32{it.Method, it.TSN} {
		if wanted != nil {
			found, ok := read()
			v.equal("number", []interface{}{found, ok, addNumber(number, found)}, []interface{}{*wanted, true, nil})
			return
		}
	}
	wanted := bytes.Join([][]byte{it.Value, it.Info, it.Cookie, it.ChunkTypes, it.Reason, it.Information, it.Chunk}, nil)
	v.equal("value", []interface{}{value, add(number, value)}, []interface{}{wanted, nil})
}

func TestKinds(t *testing.T) {
	run := func(what string, it vector) {
		it.test, it.what = t, what
		it.run()
	}
	vectorsOf(t, vectors+"kinds.jsonl", 300, run)
	if more, isThere := os.LookupEnv("VECTORS"); isThere {
		vectorsOf(t, more, 1, run)
	}
}

// Fields are those of a value of registered.jsonl, in their order.
type fields []struct {
	name  string
	value interface{}
}

// UnmarshalJSON reads an object; null has no fields.
func (all *fields) UnmarshalJSON(text []byte) error {
	decoder := json.NewDecoder(bytes.NewReader(text))
	if open, err := decoder.Token(); err != nil || open == nil {
		return err
	}
	*all = fields{}
	for decoder.More() {
		name, err := decoder.Token()
		var value interface{}
		if err == nil {
			err = decoder.Decode(&value)
		}
		if err != nil {
			return err
		}
		*all = append(*all, fields{{name.(string), value}}...)
	}
	return nil
}

// rest returns the bytes of a list: items with their padding, or numbers of two bytes.
func rest(list []interface{}) (all []byte) {
	for _, it := range list {
		item, isItem := it.(object)
		if !isItem {
			all = append(all, byte(uint16(it.(float64))>>8), byte(it.(float64)))
			continue
		}
		number, isType := item["type"].(float64)
		if !isType {
			number = item["code"].(float64)
		}
		one, _ := davgyuti.NewParameter(davgyuti.ParameterType(number), ofHex(item["value"].(string)))
		all = append(append(all, make([]byte, -len(all)&3)...), one.Bytes()...)
	}
	return all
}

func TestRegistered(t *testing.T) {
	vectorsOf(t, vectors+"registered.jsonl", 200, func(what string, it struct {
		Level, Value, Written string
		Type                  uint16
		Fields                fields
		Refused               bool
	}) {
		wanted, names, lists := davgyuti.Registered{}, []string{}, []interface{}{}
		for _, field := range it.Fields {
			switch value := field.value.(type) {
			case float64:
				names = append(names, fold(field.name)+"=")
				wanted.Numbers = append(wanted.Numbers, uint32(value))
			case string:
				if wanted.Rest = ofHex(value); field.name == "address" {
					wanted.Address, _ = netip.AddrFromSlice(wanted.Rest)
					wanted.Rest = nil
				}
			case []interface{}:
				if wanted.Rest, lists = rest(value), value; field.name == "counts" {
					for _, it := range value {
						wanted.Numbers = append(wanted.Numbers, uint32(it.(float64)))
					}
					wanted.Rest, lists = nil, []interface{}{}
				}
			}
		}
		builder, _ := davgyuti.Begin(make([]byte, 66000), 5000, 5001, 1)
		equal(t, what, builder.AddChunk(davgyuti.ChunkError, 0, nil), nil)
		parameter, _ := davgyuti.NewParameter(davgyuti.ParameterType(it.Type), ofHex(it.Value))
		read, isThere := parameter.Registered()
		err, at := builder.AddRegisteredParameter(parameter.Type, wanted), 4
		if cause, _ := davgyuti.NewCause(davgyuti.CauseCode(it.Type), parameter.Value); it.Level == "cause" {
			builder.RemoveLastChunk()
			_ = builder.AddChunk(davgyuti.ChunkError, 0, nil)
			read, isThere = cause.Registered()
			err = builder.AddRegisteredCause(cause.Code, wanted)
		} else if it.Level == "chunk" {
			chunk, _ := davgyuti.Packet(append([]byte{byte(it.Type), 0}, parameter.Bytes()[2:]...)).ChunkAt(0)
			read, isThere = chunk.Registered()
			err, at = builder.AddRegisteredChunk(chunk.Type, wanted), 0
		}
		if it.Refused {
			equal(t, what, err, davgyuti.ErrBadValue)
			return
		}
		equal(t, what, isThere, it.Fields != nil)
		if it.Fields == nil {
			equal(t, what, read.String(), "")
			return
		}
		equal(t, what, []interface{}{read.Numbers, read.Address}, []interface{}{wanted.Numbers, wanted.Address})
		for _, name := range names {
			equal(t, what+" "+name+" in "+read.String(), strings.Contains(fold(read.String()), name), true)
		}
		found := []interface{}{}
		for _, it := range read.Parameters().Slice() {
			found = append(found, object{"type": float64(it.Type), "value": hex.EncodeToString(it.Value)})
		}
		for _, it := range read.Causes().Slice() {
			found = append(found, object{"code": float64(it.Code), "value": hex.EncodeToString(it.Value)})
		}
		for _, it := range read.ShortNumbers().Slice() {
			found = append(found, float64(it))
		}
		equal(t, what, found, lists)
		if len(lists) == 0 {
			equal(t, what, hex.EncodeToString(read.Rest), hex.EncodeToString(wanted.Rest))
		}
		if it.Written == "" {
			it.Written = it.Value
		}
		chunk, _ := builder.LastChunk()
		equal(t, what, []interface{}{err, hex.EncodeToString(chunk.Value[at:])}, []interface{}{nil, it.Written})
	})
}

// A call is a line of calls.jsonl.
type call struct {
	Call, Packet, Answer, Fault                                                  string
	Known                                                                        json.RawMessage
	Returns, End                                                                 interface{}
	Type                                                                         uint16
	OwnTag, InitiateTag                                                          uint32
	PeerTag                                                                      *uint32
	AwaitsCookie, IsUnicast, IsAck, InCookieWait, RefusesZero, HasData, HasIData bool
	Header                                                                       davgyuti.Header
}

// known returns what a call has as known.
func known[T any](it call) (all T) {
	if err := json.Unmarshal(it.Known, &all); err != nil {
		panic(err)
	}
	return all
}

// added adds to as much room as there has to be, and to a byte less: in a packet in which something is added before.
func (it call) added(t *testing.T, first davgyuti.Chunk, before func(*davgyuti.Builder) error, add func(*davgyuti.Builder) (int, error)) interface{} {
	wanted := ofHex(it.Returns.(string))
	b, _ := davgyuti.Begin(make([]byte, davgyuti.FirstChunk+len(wanted)+3&^3), 5000, 5001, 0x01020304)
	equal(t, "before", before(b), nil)
	empty := len(b.Bytes())
	end, err := add(b)
	_, isThere := b.LastChunk()
	equal(t, "added", []interface{}{err, isThere}, []interface{}{nil, len(wanted) > 0})
	if where, stops := it.End.(float64); stops {
		if _, isInit := first.Init(); isInit {
			where += 16
		}
		equal(t, "end", end, int(where)+map[bool]int{true: first.Offset + 4}[it.Call != "add_unrecognized_chunks"])
	}
	found := hex.EncodeToString(b.Bytes()[davgyuti.FirstChunk:])
	if len(b.Bytes()) > empty {
		b, _ = davgyuti.Begin(make([]byte, len(b.Bytes())-1), 5000, 5001, 0x01020304)
		_ = before(b)
		_, err = add(b)
		equal(t, "no room", []interface{}{err, len(b.Bytes())}, []interface{}{davgyuti.ErrNoRoom, empty})
	}
	return found
}

// asks returns what a call returns, as a vector has it: by a word, a truth value, or bytes.
func (it call) asks(t *testing.T) interface{} {
	packet := davgyuti.Packet(ofHex(it.Packet))
	first, _ := packet.ChunkAt(davgyuti.FirstChunk)
	sealed := func(reply davgyuti.Packet, err error) interface{} {
		if reply == nil {
			return map[bool]interface{}{false: err}[err == davgyuti.ErrBadValue]
		}
		equal(t, "seal", reply.Seal(), nil)
		return hex.EncodeToString(reply)
	}
	fault, answer := davgyuti.InitFault(0), davgyuti.Answer(0)
	for ; it.Fault != "" && word(fault) != fold(it.Fault); fault++ {
	}
	for ; it.Answer != "" && word(answer) != fold(it.Answer); answer++ {
	}
	nothing := func(*davgyuti.Builder) error { return nil }
	switch it.Call {
	case "unrecognized_chunk":
		return word(davgyuti.ChunkType(it.Type).UnrecognizedAction())
	case "unrecognized_parameter":
		return word(davgyuti.ParameterType(it.Type).UnrecognizedAction())
	case "verify_tag":
		association := davgyuti.Association{OwnTag: it.OwnTag, HasPeerTag: it.PeerTag != nil, AwaitsCookie: it.AwaitsCookie}
		if it.PeerTag != nil {
			association.PeerTag = *it.PeerTag
		}
		return word(packet.VerifyTag(association))
	case "out_of_the_blue":
		return word(packet.OutOfTheBlue(it.IsUnicast))
	case "reply":
		return sealed(it.Header.Reply(answer))
	case "init_fault":
		return word(packet.InitFault(it.IsAck))
	case "init_refusal":
		return word(fault.Refusal(it.IsAck, it.InCookieWait))
	case "init_abort":
		return sealed(it.Header.InitAbort(it.InitiateTag, fault))
	case "adds_addresses":
		return first.AddsAddresses(ofHex(known[string](it)))
	case "add_new_addresses":
		return it.added(t, first, func(b *davgyuti.Builder) error { return b.AddChunk(davgyuti.ChunkAbort, 0, nil) },
			func(b *davgyuti.Builder) (int, error) { return 0, b.AddNewAddresses(first, ofHex(known[string](it))) })
	case "add_unrecognized_parameters":
		return it.added(t, first, func(b *davgyuti.Builder) error { return b.AddInitAck(davgyuti.Init{}) }, func(b *davgyuti.Builder) (int, error) {
			return b.AddUnrecognizedParameters(first, known[[]davgyuti.ParameterType](it))
		})
	case "add_unrecognized_parameters_error":
		return it.added(t, first, nothing, func(b *davgyuti.Builder) (int, error) {
			return b.AddUnrecognizedParametersError(first, known[[]davgyuti.ParameterType](it))
		})
	case "add_unrecognized_chunks":
		return it.added(t, davgyuti.Chunk{}, nothing, func(b *davgyuti.Builder) (int, error) {
			return b.AddUnrecognizedChunks(packet, known[[]davgyuti.ChunkType](it))
		})
	case "broken_rules":
		names := []interface{}{}
		for _, rule := range packet.BrokenRules(davgyuti.Known{RefusesZero: it.RefusesZero, HasData: it.HasData, HasIData: it.HasIData}).List() {
			names = append(names, fold(rule.Name()))
		}
		return names
	}
	return "no such call"
}

// word returns the identifier that has these words.
func word(it fmt.Stringer) string {
	return strings.Replace(fold(it.String()), "initiatetag0", "tagzero", 1)
}

func TestCalls(t *testing.T) {
	vectorsOf(t, vectors+"calls.jsonl", 400, func(what string, it call) {
		switch wanted := it.Returns.(type) {
		case []interface{}:
			for i := range wanted {
				wanted[i] = fold(wanted[i].(string))
			}
		case string:
			it.Returns = fold(wanted)
		}
		equal(t, what+" "+it.Call, it.asks(t), it.Returns)
	})
}
