package hags

import (
	"context"
	"crypto/rand"
	"encoding/binary"
	"fmt"
	"strconv"
	"strings"
	"time"
)

// What is asked, as docs/formats.md has it, and how long until it is asked again.
const (
	askView   = 2
	askGroups = 3
	askAgain  = 100 * time.Millisecond
)

// question is one of those of `hags status`, which a daemon answers whoever asks them.
type question struct {
	ctx    context.Context
	what   byte
	number uint32
	reply  chan string // has room for it
	due    time.Time   // when it is asked, for the first time or again
}

// Look asks the daemon how a group stands now, or with Hosts its view: what a subscription does not tell, which notes
// changes. What is Noted of a later view, or of a later place in it, is newer. isThere is false where the daemon knows no
// such group. It is no call.
func (c *Client) Look(ctx context.Context, group string) (noted Noted, isThere bool, err error) {
	view, groups, err := c.askAll(ctx, group == Hosts)
	if err != nil {
		return Noted{}, false, err
	}
	host := strings.Fields(view)
	if len(host) < 5 {
		return Noted{}, false, fmt.Errorf("hags: the daemon answers %q", view)
	}
	if group == Hosts {
		noted, isThere = c.notedOf(host[1], group, "-", host[3], "")
		return noted, isThere, nil
	}
	for _, line := range strings.Split(groups, "\n") {
		if words := strings.Split(line, " "); len(words) >= 6 && words[1] == group {
			place := "-"
			if length, err := strconv.Atoi(strings.TrimPrefix(words[3], "len=")); err == nil && length > 0 {
				place = strconv.Itoa(length - 1)
			}
			noted, isThere = c.notedOf(host[1], group, place, words[4], strings.TrimPrefix(words[5], "value="))
			return noted, isThere, nil
		}
	}
	return Noted{}, false, nil
}

// askAll gives the replies about the view and, unless hosts are asked for, about the groups in it: so the view is asked
// for again, until it was the same before and after.
func (c *Client) askAll(ctx context.Context, areHosts bool) (view, groups string, err error) {
	if view, err = c.ask(ctx, askView); err != nil || areHosts {
		return view, "", err
	}
	for {
		before := view
		if groups, err = c.ask(ctx, askGroups); err != nil {
			return "", "", err
		}
		if view, err = c.ask(ctx, askView); err != nil || view == before {
			return view, groups, err
		}
	}
}

// notedOf is the event that would be noted so.
func (c *Client) notedOf(view, group, place, members, value string) (Noted, bool) {
	members = strings.TrimPrefix(members, "members=")
	noted, isNoted := EventOf(fmt.Sprintf("noted %s %s %s %s %s =%s", c.whom, view, group, place, members, value)).(Noted)
	return noted, isNoted
}

// ask hands a question to the goroutine, and waits for its reply.
func (c *Client) ask(ctx context.Context, what byte) (string, error) {
	number := make([]byte, 4)
	if _, err := rand.Read(number); err != nil {
		return "", err
	}
	it := &question{ctx: ctx, what: what, number: binary.BigEndian.Uint32(number), reply: make(chan string, 1)}
	select {
	case c.questions <- it:
	case <-c.ended:
		return "", c.err
	case <-ctx.Done():
		return "", ctx.Err()
	}
	c.wake()
	select {
	case text := <-it.reply:
		return text, nil
	case <-c.ended:
		return "", c.err
	case <-ctx.Done():
		return "", ctx.Err()
	}
}

// asks sends the question that waits, when it is due, and takes the next one where none does. Has it sent one?
func (s *server) asks() bool {
	if s.question != nil && s.question.ctx.Err() != nil {
		s.question = nil // nobody waits for it any more
	}
	if s.question == nil {
		select {
		case s.question = <-s.questions:
		default:
			return false
		}
	}
	now := time.Now()
	if now.Before(s.question.due) {
		return false
	}
	to := s.places[s.at]
	s.conn.WriteToUDP(s.datagram(to.network, queryOf(to.network, s.node, s.question)), to.at)
	s.question.due = now.Add(askAgain)
	return true
}

// takeReply takes a message that is the reply to the question that waits. Is it a reply?
func (s *server) takeReply(message []byte) bool {
	if len(message) < 20 || string(message[:4]) != "RG\x01\x17" {
		return false
	}
	if s.question != nil && binary.BigEndian.Uint32(message[16:]) == s.question.number {
		s.question.reply <- string(message[20:])
		s.question = nil
	}
	return true
}

// queryOf is a packet of kind 22 for a node, on the network on which it goes.
func queryOf(network byte, node int, it *question) []byte {
	out := []byte{'R', 'G', 1, 22, network, 0, byte(node), 0, 0, 0, 0, 0, 0, 0, 0, 5}
	out = binary.BigEndian.AppendUint32(out, it.number)
	return append(out, it.what)
}
