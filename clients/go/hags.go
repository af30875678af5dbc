// Package hags is a client of a hags daemon on this or another machine, over UDP: it joins groups, sets their values,
// votes, and hears what every member hears, in the same order. It needs the standard library alone.
//
//	client, err := hags.Open(ctx, settings, 1, "web")
//	if err != nil {
//		return err
//	}
//	defer client.Close()
//	if _, err := client.Join(ctx, "db", 7, hags.Attributes{}); err != nil {
//		return err
//	}
//	for event := range client.Events() {
//		fmt.Println(event)
//	}
//	return client.Err()
//
// The daemon runs with `--remote`, and settings are the text that it reads. A call returns once the daemon has taken it,
// or with an error. The group's leader may refuse it later: Told comes, with the number of its request. Where the daemon
// runs with `--entries`, Put is each entry of a group's list itself, before it is heard: what is proposed and by whom, a
// message's text, votes and causes.
//
// A client is kept until Close, or until nothing came of it for as long as the daemon's `--silence` says: then its
// memberships end. A daemon without `--silence` keeps one that is killed as a member, which never votes.
//
// One goroutine serves a client. Its methods may be called by many at once.
package hags

import (
	"context"
	"crypto/rand"
	"encoding/binary"
	"errors"
	"fmt"
	"net"
	"sync"
	"sync/atomic"
	"time"
)

const (
	shortest          = time.Millisecond      // from one Up to the next, while something happens
	longest           = 20 * time.Millisecond // and while nothing does, unless SetIdle says otherwise
	mostIdle          = time.Second           // daemons may end a session that was silent for as little as that
	goodbye           = time.Second           // how long Close waits for the daemon
	room              = 1024                  // events in the channel
	otherNetworkAfter = 8                     // Ups without an answer
	receiveBuffer     = 1 << 20               // bytes
)

var (
	// ErrLost ends a session: the daemon was started anew. Open begins another one, which joins anew.
	ErrLost = errors.New("hags: the session is lost: the daemon was started anew")
	// ErrEnded ends a session: the daemon has ended it, since nothing came of this client for as long as its `--silence`
	// says, since the process was stopped or the network cut. It is an ErrLost too: what the client held others may hold.
	ErrEnded error = ended{}
	// ErrFull ends a session: the daemon keeps 1,024 clients, and takes no more. Use another node.
	ErrFull = errors.New("hags: the daemon takes no more clients")
	// ErrClosed is of a client that was closed.
	ErrClosed = errors.New("hags: the client is closed")
	// ErrBad is of a call that no daemon takes. Nothing was sent.
	ErrBad = errors.New("hags: no such call")
)

type ended struct{}

func (ended) Error() string {
	return "hags: the daemon has ended the session, since nothing came of this client for too long"
}

func (ended) Is(target error) bool { return target == ErrLost }

// Refused is the error of a call that the daemon refused, and which did nothing.
type Refused struct {
	Line string // the call
	Code string // as EXISTS, or BAD_PARAMETER value; empty where the line is no call that this client may make
}

func (r *Refused) Error() string {
	if r.Code == "" {
		return fmt.Sprintf("hags: the daemon refused %q: no call that this client may make", r.Line)
	}
	return fmt.Sprintf("hags: the daemon refused %q: %s", r.Line, r.Code)
}

// answer is what became of a call.
type answer struct {
	asked Asked
	err   error
}

type call struct {
	ctx      context.Context
	line     string
	answered chan answer // has room for it
}

// Client is a session with the daemon of a node.
type Client struct {
	name   string
	whom   string // as daemons name it, with the node
	conn   *net.UDPConn
	places []place
	calls  chan *call
	events chan Event

	questions chan *question

	ending    context.Context // until Close
	end       context.CancelFunc
	ended     chan struct{} // closed once the goroutine is done; `err` stands then
	err       error
	closeOnce sync.Once
	closeErr  error

	idle        atomic.Int64 // the longest wait, in nanoseconds
	incarnation atomic.Uint32
	last        atomic.Int64 // when the daemon was heard, in nanoseconds since `began`
	began       time.Time
}

// Open begins a session with the daemon of a node, under a name of 1 to 16 letters, digits, `_`, `-` and `.`. settings is
// the text that the daemon reads. ctx is for the opening alone. A *Refused with EXISTS: a client of this name is there,
// or was and said no goodbye.
func Open(ctx context.Context, settings string, node int, name string) (*Client, error) {
	places, err := placesOf(settings, node)
	if err != nil {
		return nil, err
	}
	if !isName(name, mostName) {
		return nil, fmt.Errorf("%w: a name has 1 to %d letters, digits, _, - and .: %q", ErrBad, mostName, name)
	}
	key := make([]byte, 4)
	if _, err := rand.Read(key); err != nil {
		return nil, err
	}
	// The socket is not connected, since the daemon may answer from another of its addresses.
	conn, err := net.ListenUDP("udp4", nil)
	if err != nil {
		return nil, err
	}
	conn.SetReadBuffer(receiveBuffer) // as much of it as the system gives: many events come as many pieces at once
	c := &Client{name: name, whom: fmt.Sprintf("%d.%s", node, name), conn: conn, places: places, calls: make(chan *call, 1), events: make(chan Event, room),
		questions: make(chan *question, 1),
		ended:     make(chan struct{}), began: time.Now()}
	c.SetIdle(longest)
	c.ending, c.end = context.WithCancel(context.Background())
	go c.run(&session{node: node, key: binary.BigEndian.Uint32(key)})
	if _, err := c.Call(ctx, fmt.Sprintf("client %d %s -", node, name)); err != nil {
		c.stop()
		return nil, err
	}
	return c, nil
}

// Events gives what the client hears. It is closed once the session has ended, which Err says why. Events that nobody
// takes are kept, and the session goes on.
func (c *Client) Events() <-chan Event { return c.events }

// Err is why the session ended: ErrLost, ErrEnded, ErrFull, ErrClosed; nil while it goes on.
func (c *Client) Err() error {
	select {
	case <-c.ended:
		return c.err
	default:
		return nil
	}
}

// Incarnation is that of the daemon.
func (c *Client) Incarnation() uint32 { return c.incarnation.Load() }

// Silence is for how long the daemon has not been heard. One that lives answers many times a second.
func (c *Client) Silence() time.Duration {
	return time.Since(c.began) - time.Duration(c.last.Load())
}

// SetIdle says how long at most the client waits before it asks the daemon for news, while nothing happens: from a
// millisecond to a second, and 20 milliseconds at first, which is 50 datagrams a second. An event may be so late. Since
// it never waits for longer, no `--silence` ends a client that lives and whose datagrams arrive.
func (c *Client) SetIdle(idle time.Duration) {
	if idle < shortest {
		idle = shortest
	}
	if idle > mostIdle {
		idle = mostIdle
	}
	c.idle.Store(int64(idle))
}

// Call makes a call, a line of docs/formats.md with the client's name in it, and waits for its answer: what it asked of a
// group, if anything. Where ctx ends before, the call may be under way; the next one waits for its answer first.
func (c *Client) Call(ctx context.Context, line string) (Asked, error) {
	if err := checkLine(line); err != nil {
		return Asked{}, err
	}
	it := &call{ctx, line, make(chan answer, 1)}
	select {
	case c.calls <- it:
	case <-c.ended:
		return Asked{}, c.err
	case <-ctx.Done():
		return Asked{}, ctx.Err()
	}
	c.wake()
	select {
	case answer := <-it.answered:
		return answer.asked, answer.err
	case <-c.ended:
		select { // it may have been answered before the end
		case answer := <-it.answered:
			return answer.asked, answer.err
		default:
			return Asked{}, c.err
		}
	case <-ctx.Done():
		return Asked{}, ctx.Err()
	}
}

func checkLine(line string) error {
	for at := 0; at < len(line); at++ {
		if line[at] < ' ' || line[at] > '~' {
			return fmt.Errorf("%w: byte %d of the line is no printable ASCII", ErrBad, at)
		}
	}
	if line == "" || len(line) > mostLine {
		return fmt.Errorf("%w: a line has 1 to %d bytes, and this one %d", ErrBad, mostLine, len(line))
	}
	return nil
}

// wake lets the goroutine look for calls at once.
func (c *Client) wake() { c.conn.SetReadDeadline(time.Unix(1, 0)) }

// Close says goodbye, by which all memberships end, and waits at most a second for the daemon. Events that nobody has
// taken are gone. It may be called more than once.
func (c *Client) Close() error {
	c.closeOnce.Do(func() {
		ctx, cancel := context.WithTimeout(context.Background(), goodbye)
		defer cancel()
		if _, err := c.Call(ctx, "goodbye "+c.name); !errors.Is(err, ErrLost) && !errors.Is(err, ErrFull) {
			c.closeErr = err
		}
		c.stop()
	})
	return c.closeErr
}

// stop ends the goroutine without a goodbye.
func (c *Client) stop() {
	c.end()
	c.wake()
	<-c.ended
}

// server is what the goroutine of a client holds.
type server struct {
	*Client
	*session
	call       *call     // under way
	question   *question // that waits for its reply
	queue      []Event
	due        time.Time
	pause      time.Duration
	at         int // the place to which Ups go
	unanswered int
}

// run serves the session until it ends.
func (c *Client) run(it *session) {
	s := &server{Client: c, session: it, pause: shortest, due: time.Now()}
	buffer := make([]byte, 65536)
	var err error
	for err == nil {
		err = s.turn(buffer)
	}
	c.conn.Close()
	if s.call != nil {
		s.call.answered <- answer{err: err}
	}
	c.err = err
	close(c.ended)
	for _, event := range s.queue {
		select {
		case c.events <- event:
		case <-c.ending.Done():
		}
	}
	close(c.events)
}

// turn sends where something is due, and takes what comes until then.
func (s *server) turn(buffer []byte) error {
	s.hand()
	if !time.Now().Before(s.due) && s.number > 0 {
		s.send()
	}
	// First the deadline, then the calls: so a call that comes later sets an earlier deadline behind this one.
	if s.number > 0 {
		s.conn.SetReadDeadline(s.next())
	} else {
		s.conn.SetReadDeadline(time.Time{})
	}
	if s.ending.Err() != nil {
		return ErrClosed
	}
	if s.isReady() || s.asks() {
		return nil
	}
	length, _, err := s.conn.ReadFromUDP(buffer)
	if errors.Is(err, net.ErrClosed) {
		return ErrClosed
	}
	if err != nil {
		return nil // the deadline, or a fault of the network, which is a lost datagram
	}
	return s.receive(buffer[:length])
}

// next is when something is due.
func (s *server) next() time.Time {
	if s.question != nil && s.question.due.Before(s.due) {
		return s.question.due
	}
	return s.due
}

// hand hands events on as far as the channel has room.
func (s *server) hand() {
	for len(s.queue) > 0 {
		select {
		case s.events <- s.queue[0]:
			s.queue = s.queue[1:]
		default:
			return
		}
	}
}

// isReady begins the next call, if there is one and none is under way.
func (s *server) isReady() bool {
	if s.isUnderWay {
		return false
	}
	select {
	case it := <-s.calls:
		if it.ctx.Err() != nil {
			return true // nobody waits for it any more
		}
		s.call = it
		s.begin(it.line)
		s.pause, s.due = shortest, time.Now()
		return true
	default:
		return false
	}
}

func (s *server) send() {
	if s.unanswered++; s.unanswered > otherNetworkAfter {
		s.at = (s.at + 1) % len(s.places)
	}
	to := s.places[s.at]
	s.conn.WriteToUDP(s.datagram(to.network, s.up()), to.at) // one that fails is a lost one, and goes again
	s.due = time.Now().Add(s.pause)
	if s.pause *= 2; s.pause > time.Duration(s.idle.Load()) {
		s.pause = time.Duration(s.idle.Load())
	}
}

func (s *server) receive(datagram []byte) error {
	message := s.joined(datagram)
	if message == nil || s.takeReply(message) {
		return nil
	}
	it, isDown := downOf(message)
	if !isDown || it.key != s.key {
		return nil
	}
	s.unanswered = 0
	s.last.Store(int64(time.Since(s.began)))
	before := s.heard
	events, err := s.take(it)
	s.queue = append(s.queue, events...)
	if err != nil {
		return err
	}
	s.Client.incarnation.Store(s.session.incarnation)
	if s.call != nil && !s.isUnderWay {
		s.call.answered <- answer{s.asked, s.refusal()}
		s.call = nil
	}
	if s.heard != before {
		s.pause, s.due = shortest, time.Now().Add(shortest)
		if len(it.events) == mostEvents {
			s.due = time.Now()
		}
	}
	s.hand()
	return nil
}

// refusal is the error of the last call, if it was refused.
func (s *server) refusal() error {
	if s.isTaken {
		return nil
	}
	return &Refused{s.call.line, s.why}
}
