package hags

import (
	"bytes"
	"context"
	"encoding/binary"
	"encoding/hex"
	"errors"
	"fmt"
	"net"
	"strings"
	"testing"
	"time"
)

// played is a daemon that a test plays: for each line of a call it has an answer and events.
type played struct {
	conn        *net.UDPConn
	incarnation uint32 // that its Downs say, and its pieces where it is not 0
	networks    map[byte]bool
	lost        int // how many Ups of each call go unanswered
	asked       int // how many questions came
	script      func(line string) (answer byte, events []string)
	lines       chan string
}

func newPlayed(t *testing.T) (*played, string) {
	t.Helper()
	for {
		conn, err := net.ListenUDP("udp4", &net.UDPAddr{IP: net.IPv4(127, 0, 0, 1)})
		if err != nil {
			t.Fatal(err)
		}
		if port := conn.LocalAddr().(*net.UDPAddr).Port; port <= lastPort {
			t.Cleanup(func() { conn.Close() })
			settings := fmt.Sprintf("node 1\nadapter 1 1 127.0.0.1\nadapter 1 2 127.0.0.1\nport %d\nbegin\n", port-1)
			p := &played{conn: conn, incarnation: 5, lines: make(chan string, 100), networks: map[byte]bool{1: true, 2: true}}
			p.script = func(string) (byte, []string) { return 1, nil }
			return p, settings
		}
		conn.Close()
	}
}

// life is what the daemon knows of a key.
type life struct {
	key    [4]byte
	done   uint32
	answer byte
	events []string
}

func (p *played) serve() {
	big, buffer, sent, it, unanswered := binary.BigEndian, make([]byte, 2000), uint64(0), life{}, 0
	for {
		length, from, err := p.conn.ReadFromUDP(buffer)
		if err != nil {
			return
		}
		if !p.networks[buffer[0]] {
			continue
		}
		up := buffer[25:length]
		if string(up[:4]) == "RG\x01\x16" {
			sent++
			p.reply(from, buffer[0], sent, up)
			continue
		}
		key, number, heard, line := [4]byte{up[4], up[5], up[6], up[7]}, big.Uint32(up[8:]), big.Uint32(up[12:]), string(up[18:])
		if key != it.key {
			it = life{key: key}
		}
		if unanswered++; line != "" && unanswered <= p.lost {
			continue
		}
		unanswered = 0
		if number == it.done+1 && line != "" {
			p.lines <- line
			answer, events := p.script(line)
			it.done, it.answer, it.events = number, answer, append(it.events, events...)
		}
		down := append([]byte("RS\x02\x00"), key[:]...)
		down = big.AppendUint32(down, p.incarnation)
		down = big.AppendUint32(down, it.done)
		down = append(down, it.answer)
		down = big.AppendUint32(down, heard+1)
		events := it.events[heard:]
		events = events[:min(len(events), mostEvents)]
		down = append(down, byte(len(events)))
		for _, event := range events {
			down = big.AppendUint16(down, uint16(len(event)))
			down = append(down, event...)
		}
		sent++
		count := (len(down) + pieceData - 1) / pieceData
		for at := count - 1; at >= 0; at-- { // backwards, and each twice
			piece := append([]byte{buffer[0]}, "RP\x01\x00"...)
			piece = big.AppendUint32(piece, uint32(max(5, int(p.incarnation))))
			piece = big.AppendUint64(piece, sent)
			piece = big.AppendUint32(piece, uint32(at))
			piece = big.AppendUint32(piece, uint32(count))
			piece = append(piece, down[at*pieceData:min(len(down), (at+1)*pieceData)]...)
			p.conn.WriteToUDP(piece, from)
			p.conn.WriteToUDP(piece, from)
		}
	}
}

// reply answers a question, but for the first one.
func (p *played) reply(to *net.UDPAddr, network byte, sent uint64, question []byte) {
	if p.asked++; p.asked == 1 {
		return
	}
	big := binary.BigEndian
	out := big.AppendUint32(append([]byte{network}, "RP\x01\x00"...), p.incarnation)
	out = big.AppendUint64(big.AppendUint64(out, sent), 1)
	out = append(append(out, "RG\x01\x17............"...), question[16:20]...)
	out = append(out, map[byte]string{
		askView:   "hagsns 3.1.5 coord=1 members=1.5,2.9 frozen=no\n",
		askGroups: "hagsgr a leader=? len=0 members=- value=\nhagsgr db leader=1 len=3 members=1.5.7.1 value=a%20b\n",
	}[question[20]]...)
	p.conn.WriteToUDP(out, to)
}

func TestLook(t *testing.T) {
	p, settings := newPlayed(t)
	c := opened(t, p, settings)
	c.SetIdle(time.Second)
	for _, it := range []struct{ group, wanted string }{
		{Hosts, "noted 1.a 3.1.5 HostMembership - 1.5,2.9 ="},
		{"db", "noted 1.a 3.1.5 db 2 1.5.7.1 =a%20b"},
		{"a", "noted 1.a 3.1.5 a - - ="},
		{"b", ""},
	} {
		noted, isThere, err := c.Look(soon(t), it.group)
		if err != nil || isThere != (it.wanted != "") || isThere && noted.String() != it.wanted {
			t.Errorf("%s: %v %v %v", it.group, noted, isThere, err)
		}
	}
	given, giveUp := context.WithCancel(context.Background())
	giveUp()
	if _, _, err := c.Look(given, "db"); err != context.Canceled {
		t.Error(err)
	}
	if _, isThere, err := c.Look(soon(t), "db"); err != nil || !isThere {
		t.Error(isThere, err)
	}
	c.Close()
	if _, _, err := c.Look(soon(t), "db"); err != ErrClosed {
		t.Error(err)
	}
}

func opened(t *testing.T, p *played, settings string) *Client {
	t.Helper()
	go p.serve()
	c, err := Open(soon(t), settings, 1, "a")
	if err != nil {
		t.Fatal(err)
	}
	t.Cleanup(func() { c.Close() })
	if line := <-p.lines; line != "client 1 a -" {
		t.Fatal(line)
	}
	return c
}

func soon(t *testing.T) context.Context {
	ctx, cancel := context.WithTimeout(context.Background(), time.Minute)
	t.Cleanup(cancel)
	return ctx
}

// The two datagrams that docs/remote-sessions.md spells.
func TestBytes(t *testing.T) {
	up := "01 5250 00 00 00000000 0000000000000001 00000000 00000001 52530100 00000007 00000001 00000000 000C 636C69656E7420312061202D"
	down := "01 5250 01 00 00000005 0000000000000001 00000000 00000001 52530200 00000007 00000005 00000001 01 00000001 00"
	bytesOf := func(text string) []byte {
		bytes, err := hex.DecodeString(strings.ReplaceAll(text, " ", ""))
		if err != nil {
			t.Fatal(err)
		}
		return bytes
	}
	s := &session{node: 1, key: 7}
	s.begin("client 1 a -")
	if it := s.datagram(1, s.up()); !bytes.Equal(it, bytesOf(up)) {
		t.Errorf("%x", it)
	}
	it, isDown := downOf(s.joined(bytesOf(down)))
	if events, err := s.take(it); !isDown || err != nil || len(events) > 0 || s.isUnderWay || !s.isTaken || s.incarnation != 5 {
		t.Errorf("%+v %+v", it, s)
	}
}

func TestCalls(t *testing.T) {
	p, settings := newPlayed(t)
	c := opened(t, p, settings)
	ctx := soon(t)
	all := Attributes{true, BatchBoth, true, 20, "disk", true, 7}
	two := Members{{1, 5, 7, 1}, {2, 4294967295, 65535, 9}}
	ask := func(_ Asked, err error) error { return err }
	for _, it := range []struct {
		line string
		make func() error
	}{
		{"join a db 7", func() error { return ask(c.Join(ctx, "db", 7, Attributes{})) }},
		{"join a db 65535 phases=n batch=both default=reject limit=20 source=disk sphases=n slimit=7",
			func() error { return ask(c.Join(ctx, "db", 65535, all)) }},
		{"leave a db n", func() error { return ask(c.Leave(ctx, "db", true)) }},
		{"expel a db 1 1.5.7.1 2.4294967295.65535.9", func() error { return ask(c.Expel(ctx, "db", false, two)) }},
		{"state a db 1 a%20b%25c~", func() error { return ask(c.State(ctx, "db", false, []byte("a b%c~"))) }},
		{"state a db n %7E", func() error { return ask(c.State(ctx, "db", true, []byte("~"))) }},
		{"message a db n %00%FF%0A", func() error { return ask(c.Message(ctx, "db", true, []byte("\x00\xff\n"))) }},
		{"message a db 1 ~", func() error { return ask(c.Message(ctx, "db", false, nil)) }},
		{"attrs a db 1 batch=joins", func() error { return ask(c.Change(ctx, "db", false, Attributes{Batch: BatchJoins})) }},
		{"vote a db A", func() error { return c.Vote(ctx, "db", VoteApprove, nil) }},
		{"vote a db C=~", func() error { return c.Vote(ctx, "db", VoteContinue, []byte{}) }},
		{"subscribe a HostMembership", func() error { return c.Subscribe(ctx, Hosts) }},
		{"unsubscribe a db", func() error { return c.Unsubscribe(ctx, "db") }},
	} {
		if err := it.make(); err != nil {
			t.Errorf("%s: %v", it.line, err)
		} else if line := <-p.lines; line != it.line {
			t.Errorf("%s: %s", it.line, line)
		}
	}
	for _, err := range []error{
		ask(c.Join(ctx, "d b", 7, Attributes{})), ask(c.Leave(ctx, "", false)), ask(c.Call(ctx, "")),
		ask(c.Join(ctx, "db", 7, Attributes{Source: "d b"})), ask(c.Call(ctx, "leave a db 1\n")),
		ask(c.Message(ctx, "db", false, make([]byte, 600))),
	} {
		if !errors.Is(err, ErrBad) {
			t.Error(err)
		}
	}
}

func TestEventsComeOnceAndInOrder(t *testing.T) {
	p, settings := newPlayed(t)
	p.lost = 3
	want := []string{"asked 1.5.7.1 1 db join"}
	for at := 0; at < 100; at++ {
		want = append(want, fmt.Sprintf("heard 1.5.7.1 1.1.5 db %d once-state 1.5.7.1 =%s", at, strings.Repeat("x", 10*at)))
	}
	p.script = func(line string) (byte, []string) {
		if strings.HasPrefix(line, "join") {
			return 1, want
		}
		return 1, nil
	}
	c := opened(t, p, settings)
	asked, err := c.Join(soon(t), "db", 7, Attributes{})
	if err != nil || asked != (Asked{Provider{1, 5, 7, 1}, 1, "db", Joining}) {
		t.Fatal(asked, err)
	}
	for _, line := range want {
		if event := <-c.Events(); event.String() != line {
			t.Fatalf("%s and not %s", event, line)
		}
	}
	if c.Incarnation() != 5 || c.Silence() > time.Minute || c.Err() != nil {
		t.Error(c.Incarnation(), c.Silence(), c.Err())
	}
}

func TestRefusals(t *testing.T) {
	p, settings := newPlayed(t)
	p.script = func(line string) (byte, []string) {
		switch {
		case strings.HasPrefix(line, "leave"):
			return 2, []string{"refused 1.a BAD_MEMBER_TOKEN"}
		case strings.HasPrefix(line, "flow"):
			return 2, nil
		}
		return 1, nil
	}
	c := opened(t, p, settings)
	var refused *Refused
	if _, err := c.Leave(soon(t), "db", false); !errors.As(err, &refused) || refused.Code != "BAD_MEMBER_TOKEN" {
		t.Error(err)
	}
	if _, err := c.Call(soon(t), "flow"); !errors.As(err, &refused) || refused.Code != "" || refused.Line != "flow" {
		t.Error(err)
	}
}

// Where a network brings no answer the next one is tried.
func TestSecondNetwork(t *testing.T) {
	p, settings := newPlayed(t)
	p.networks = map[byte]bool{2: true}
	opened(t, p, settings)
}

func TestNoReplyAndBadNames(t *testing.T) {
	_, settings := newPlayed(t)
	ctx, cancel := context.WithTimeout(context.Background(), 50*time.Millisecond)
	defer cancel()
	if _, err := Open(ctx, settings, 1, "a"); !errors.Is(err, context.DeadlineExceeded) {
		t.Error(err)
	}
	for _, name := range []string{"", "a name", "abcdefghijklmnopq"} {
		if _, err := Open(ctx, settings, 1, name); !errors.Is(err, ErrBad) {
			t.Error(name, err)
		}
	}
	if _, err := Open(ctx, settings, 9, "a"); err == nil {
		t.Error("node 9")
	}
}

func TestLostAndFull(t *testing.T) {
	p, settings := newPlayed(t)
	p.script = func(line string) (byte, []string) {
		if strings.HasPrefix(line, "leave") {
			p.incarnation = 6
		}
		return 1, []string{"told 1.5.7.1 1 DISSOLVED"}
	}
	c := opened(t, p, settings)
	if _, err := c.Leave(soon(t), "db", false); err != ErrLost {
		t.Error(err)
	}
	if event := <-c.Events(); event.String() != "told 1.5.7.1 1 DISSOLVED" {
		t.Error(event)
	}
	if event, isOpen := <-c.Events(); isOpen {
		t.Error(event)
	}
	if _, err := c.Leave(soon(t), "db", false); err != ErrLost || c.Err() != ErrLost || c.Close() != nil {
		t.Error(err, c.Err())
	}
	full, settings := newPlayed(t)
	full.script = func(string) (byte, []string) { return 3, nil }
	go full.serve()
	if _, err := Open(soon(t), settings, 1, "a"); err != ErrFull {
		t.Error(err)
	}
}

// A client at rest asks as seldom as it was told, but once a second at least; and a call goes out at once all the same.
func TestIdle(t *testing.T) {
	p, settings := newPlayed(t)
	c := opened(t, p, settings)
	c.SetIdle(time.Hour)
	for c.Silence() < 800*time.Millisecond {
		time.Sleep(time.Millisecond)
	}
	began := time.Now()
	if _, err := c.Leave(soon(t), "db", false); err != nil || time.Since(began) > time.Second {
		t.Error(err, time.Since(began))
	}
	for began := time.Now(); time.Since(began) < 3*time.Second; time.Sleep(10 * time.Millisecond) {
		if c.Silence() > 2*time.Second { // it asks after one, and a busy machine may be late
			t.Fatal(c.Silence())
		}
	}
	c.SetIdle(0)
}

// A daemon that has ended a session says so by an incarnation of 0, whether or not it was heard before.
func TestEnded(t *testing.T) {
	p, settings := newPlayed(t)
	p.script = func(line string) (byte, []string) {
		if strings.HasPrefix(line, "leave") {
			p.incarnation = 0
			return answerFull, nil
		}
		return answerDone, nil
	}
	c := opened(t, p, settings)
	if _, err := c.Leave(soon(t), "db", false); err != ErrEnded || !errors.Is(err, ErrLost) || errors.Is(err, ErrFull) {
		t.Error(err)
	}
	if _, isOpen := <-c.Events(); isOpen || c.Err() != ErrEnded {
		t.Error(c.Err())
	}
	ended, settings := newPlayed(t)
	ended.incarnation = 0
	ended.script = func(string) (byte, []string) { return answerFull, nil }
	go ended.serve()
	if _, err := Open(soon(t), settings, 1, "a"); err != ErrEnded {
		t.Error(err)
	}
}

func TestClose(t *testing.T) {
	p, settings := newPlayed(t)
	c := opened(t, p, settings)
	if err := c.Close(); err != nil || <-p.lines != "goodbye a" || c.Err() != ErrClosed {
		t.Error(err, c.Err())
	}
	if _, err := c.Leave(soon(t), "db", false); err != ErrClosed || c.Close() != nil {
		t.Error(err)
	}
	for range c.Events() {
	}
}

// Many goroutines may call at once, and a call whose context has ended is not made.
func TestManyCallers(t *testing.T) {
	p, settings := newPlayed(t)
	c := opened(t, p, settings)
	ctx, done := soon(t), make(chan error)
	for at := 0; at < 20; at++ {
		go func(at int) {
			_, err := c.State(ctx, "db", false, []byte{byte('a' + at)})
			done <- err
		}(at)
	}
	for at := 0; at < 20; at++ {
		if err := <-done; err != nil {
			t.Error(err)
		}
		<-p.lines
	}
	ended, cancel := context.WithCancel(ctx)
	cancel()
	if _, err := c.State(ended, "db", false, nil); err != context.Canceled {
		t.Error(err)
	}
	if _, err := c.State(ctx, "last", false, nil); err != nil || <-p.lines != "state a last 1 ~" {
		t.Error(err)
	}
}

func Example() {
	settings := "node 1\nadapter 1 1 127.0.0.1\nbegin\n"
	ctx, cancel := context.WithTimeout(context.Background(), 10*time.Millisecond)
	defer cancel()
	client, err := Open(ctx, settings, 1, "web")
	if err != nil {
		fmt.Println("no daemon answers")
		return
	}
	defer client.Close()
	// Output: no daemon answers
}
