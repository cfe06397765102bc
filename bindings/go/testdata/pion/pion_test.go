// SPDX-License-Identifier: Apache-2.0

package davgyuti_test

import (
	"bytes"
	"math/rand"
	"net"
	"sync/atomic"
	"testing"
	"time"

	"github.com/pion/logging"
	"github.com/pion/sctp"

	"davgyuti.example/davgyuti"
)

// Beside the package, in a GOPATH that has pion/sctp: dist/test.sh puts it there.

// A noisyConn changes a byte of every fifth packet that it writes.
type noisyConn struct {
	net.Conn
	written, changed int32
}

func (c *noisyConn) Write(packet []byte) (int, error) {
	if atomic.AddInt32(&c.written, 1)%5 == 0 {
		packet = append([]byte(nil), packet...)
		packet[rand.Intn(len(packet))] ^= 1
		atomic.AddInt32(&c.changed, 1)
	}
	return c.Conn.Write(packet)
}

// forgedPackets returns an ABORT, without the T bit and with it, under a tag that neither end has.
func forgedPackets() []davgyuti.Packet {
	return []davgyuti.Packet{sealed("06000004"), sealed("06010004")}
}

// A forged ABORT ends pion's association over a checkedConn alone.
func TestPionForged(t *testing.T) {
	for _, forged := range forgedPackets() {
		one, other := net.Pipe()
		config := func(conn net.Conn) sctp.Config {
			checked := &checkedConn{Conn: conn, report: func(string, error) {}}
			return sctp.Config{NetConn: checked, LoggerFactory: logging.NewDefaultLoggerFactory()}
		}
		ended := make(chan error, 1)
		go func() {
			server, err := sctp.Server(config(other))
			if err == nil {
				_, err = server.AcceptStream()
			}
			ended <- err
		}()
		if _, err := sctp.Client(config(one)); err != nil {
			t.Fatal(err)
		}
		if _, err := one.Write(forged); err != nil {
			t.Fatal(err)
		}
		select {
		case err := <-ended:
			equal(t, "the association ended", err != nil, true)
		case <-time.After(5 * time.Minute):
			t.Errorf("after %x the association goes on", []byte(forged))
		}
	}
}

// Two associations of pion over checkedConns and taggedConns: all that they write is a packet, all that the way changes is dropped,
// and the message comes whole.
func TestPion(t *testing.T) {
	var faults int32
	one, other := net.Pipe()
	noisy := &noisyConn{Conn: one}
	config := func(conn net.Conn) sctp.Config {
		checked := &checkedConn{Conn: conn, report: func(direction string, fault error) {
			atomic.AddInt32(&faults, 1)
			equal(t, fault.Error(), direction, "read")
		}}
		return sctp.Config{NetConn: &taggedConn{Conn: checked}, LoggerFactory: logging.NewDefaultLoggerFactory()}
	}
	message := make([]byte, 60000)
	rand.New(rand.NewSource(1)).Read(message)
	received := make(chan []byte)
	go func() {
		server, err := sctp.Server(config(other))
		if err != nil {
			t.Error(err)
			close(received)
			return
		}
		stream, err := server.AcceptStream()
		if err != nil {
			t.Error(err)
			close(received)
			return
		}
		buffer := make([]byte, len(message)+1)
		size, err := stream.Read(buffer)
		equal(t, "read", err, nil)
		received <- buffer[:size]
	}()
	client, err := sctp.Client(config(noisy))
	if err != nil {
		t.Fatal(err)
	}
	stream, err := client.OpenStream(7, sctp.PayloadTypeWebRTCBinary)
	if err != nil {
		t.Fatal(err)
	}
	for _, forged := range forgedPackets() {
		if _, err := one.Write(forged); err != nil {
			t.Fatal(err)
		}
	}
	if _, err := stream.Write(message); err != nil {
		t.Fatal(err)
	}
	equal(t, "the message came", bytes.Equal(<-received, message), true)
	changed, found := atomic.LoadInt32(&noisy.changed), atomic.LoadInt32(&faults)
	if changed == 0 || found == 0 || found > changed || found < changed-1 { // (the last one may be on its way)
		t.Errorf("%d packets are changed, and %d are dropped", changed, found)
	}
	t.Logf("%d packets are written, %d changed and %d dropped", noisy.written, changed, found)
}
