// SPDX-License-Identifier: Apache-2.0

// A peer of WebRTC, pion, which does what each line of its input says: JSON, [number, method, given..]; [number, value, error] answers
// it. A line {"packet": .., "is_sent": .., "copies": ..} tells of each SCTP packet, and how often it goes on.
package main

import (
	"bufio"
	"encoding/hex"
	"encoding/json"
	"fmt"
	"os"
	"sync"
	"time"

	"davgyuti.example/davgyuti"
	"github.com/pion/sctp"
	"github.com/pion/webrtc"
)

type settings struct {
	Ordered           *bool
	MaxRetransmits    *uint16
	MaxPacketLifeTime *uint16
}

// A message is a string, or a list of one: bytes in hexadecimal.
type peer struct {
	mutex      sync.Mutex
	connection *webrtc.PeerConnection
	channels   map[string]*webrtc.DataChannel
	got        map[string][]interface{}
	counts     map[[2]int]int // packets with DATA of a stream, or with none, that an end sent while some are lost
	isLossy    bool
}

var output sync.Mutex

func say(value interface{}) {
	line, _ := json.Marshal(value)
	output.Lock()
	defer output.Unlock()
	fmt.Println(string(line))
}

// take keeps a packet, and returns how often it goes on: while some are lost, of seven packets with DATA of a channel, or with none, the
// third isn't, and the sixth is twice.
func (p *peer) take(raw []byte, isSent bool) int {
	p.mutex.Lock()
	defer p.mutex.Unlock()
	copies, stream, isKept := 1, -1, !p.isLossy
	for _, it := range davgyuti.Packet(raw).Chunks().Slice() {
		if data, isData := it.Data(); isData && stream < 0 {
			stream = int(data.Stream)
		}
		isKept = isKept || it.Type == davgyuti.ChunkForwardTSN || it.Type == davgyuti.ChunkReConfig
	}
	if !isKept {
		kind := [2]int{0, stream}
		if isSent {
			kind[0] = 1
		}
		p.counts[kind]++
		switch p.counts[kind] % 7 {
		case 3:
			copies = 0
		case 6:
			copies = 2
		}
	}
	say(map[string]interface{}{"packet": hex.EncodeToString(raw), "is_sent": isSent, "copies": copies})
	return copies
}

func newPeer() *peer {
	p := &peer{channels: map[string]*webrtc.DataChannel{}, got: map[string][]interface{}{}, counts: map[[2]int]int{}}
	sctp.Tap = p.take
	var engine webrtc.SettingEngine
	engine.SetIncludeLoopbackCandidate(true)
	engine.SetInterfaceFilter(func(name string) bool { return name == "lo" })
	engine.SetNetworkTypes([]webrtc.NetworkType{webrtc.NetworkTypeUDP4})
	connection, err := webrtc.NewAPI(webrtc.WithSettingEngine(engine)).NewPeerConnection(webrtc.Configuration{})
	if err != nil {
		panic(err)
	}
	p.connection = connection
	connection.OnDataChannel(p.watch)
	return p
}

func (p *peer) watch(channel *webrtc.DataChannel) {
	p.mutex.Lock()
	defer p.mutex.Unlock()
	label := channel.Label()
	p.channels[label], p.got[label] = channel, []interface{}{}
	channel.OnMessage(func(message webrtc.DataChannelMessage) {
		p.mutex.Lock()
		defer p.mutex.Unlock()
		if message.IsString {
			p.got[label] = append(p.got[label], string(message.Data))
		} else {
			p.got[label] = append(p.got[label], []string{hex.EncodeToString(message.Data)})
		}
	})
}

func (p *peer) all(labels []string, holds func(*webrtc.DataChannel) bool) bool {
	for _, label := range labels {
		if channel := p.channels[label]; channel == nil || !holds(channel) {
			return false
		}
	}
	return true
}

func (p *peer) holds(state string, given json.RawMessage) (bool, error) {
	p.mutex.Lock()
	defer p.mutex.Unlock()
	if state == "received" {
		var counts map[string]int
		err := json.Unmarshal(given, &counts)
		for label, count := range counts {
			if len(p.got[label]) < count {
				return false, err
			}
		}
		return true, err
	}
	var labels []string
	err := json.Unmarshal(given, &labels)
	switch state {
	case "open":
		return p.all(labels, func(it *webrtc.DataChannel) bool { return it.ReadyState() == webrtc.DataChannelStateOpen }), err
	case "drained":
		return p.all(labels, func(it *webrtc.DataChannel) bool { return it.BufferedAmount() == 0 }), err
	}
	return p.all(labels, func(it *webrtc.DataChannel) bool { return it.ReadyState() == webrtc.DataChannelStateClosed }), err
}

func (p *peer) describe(description webrtc.SessionDescription, err error) (interface{}, error) {
	if err != nil {
		return nil, err
	}
	gathered := webrtc.GatheringCompletePromise(p.connection)
	if err := p.connection.SetLocalDescription(description); err != nil {
		return nil, err
	}
	<-gathered
	return p.connection.LocalDescription().SDP, nil
}

func (p *peer) call(method string, given []json.RawMessage) (interface{}, error) {
	var text string
	if len(given) > 0 {
		_ = json.Unmarshal(given[0], &text)
	}
	switch method {
	case "offer":
		var channels map[string]settings
		if err := json.Unmarshal(given[0], &channels); err != nil {
			return nil, err
		}
		for label, it := range channels {
			channel, err := p.connection.CreateDataChannel(label, &webrtc.DataChannelInit{Ordered: it.Ordered,
				MaxRetransmits: it.MaxRetransmits, MaxPacketLifeTime: it.MaxPacketLifeTime})
			if err != nil {
				return nil, err
			}
			p.watch(channel)
		}
		return p.describe(p.connection.CreateOffer(nil))
	case "answer":
		offer := webrtc.SessionDescription{Type: webrtc.SDPTypeOffer, SDP: text}
		if err := p.connection.SetRemoteDescription(offer); err != nil {
			return nil, err
		}
		return p.describe(p.connection.CreateAnswer(nil))
	case "accept":
		return nil, p.connection.SetRemoteDescription(webrtc.SessionDescription{Type: webrtc.SDPTypeAnswer, SDP: text})
	case "until":
		for {
			if holds, err := p.holds(text, given[1]); holds || err != nil {
				return nil, err
			}
			time.Sleep(5 * time.Millisecond)
		}
	case "send":
		var messages []interface{}
		if err := json.Unmarshal(given[1], &messages); err != nil {
			return nil, err
		}
		for _, it := range messages {
			if message, isText := it.(string); isText {
				if err := p.channels[text].SendText(message); err != nil {
					return nil, err
				}
				continue
			}
			bytes, _ := hex.DecodeString(it.([]interface{})[0].(string))
			if err := p.channels[text].Send(bytes); err != nil {
				return nil, err
			}
		}
		return nil, nil
	case "received":
		p.mutex.Lock()
		defer p.mutex.Unlock()
		return p.got, nil
	case "close":
		return nil, p.channels[text].Close()
	case "lossy":
		p.mutex.Lock()
		defer p.mutex.Unlock()
		return nil, json.Unmarshal(given[0], &p.isLossy)
	case "counts":
		return []int64{sctp.ByPackage.Read, sctp.ByPackage.Written}, nil
	case "end":
		_ = p.connection.Close() // (that it was closed already is no error)
		return nil, nil
	}
	return nil, fmt.Errorf("no method %s", method)
}

func main() {
	p, lines := newPeer(), bufio.NewScanner(os.Stdin)
	lines.Buffer(nil, 1<<26)
	for lines.Scan() {
		var words []json.RawMessage
		var method string
		if json.Unmarshal(lines.Bytes(), &words) != nil || len(words) < 2 || json.Unmarshal(words[1], &method) != nil {
			panic("no line of JSON")
		}
		go func() {
			value, err := p.call(method, words[2:])
			if err != nil {
				say([]interface{}{words[0], nil, err.Error()})
			} else {
				say([]interface{}{words[0], value})
			}
		}()
	}
}
