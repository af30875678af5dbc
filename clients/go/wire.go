package hags

import (
	"encoding/binary"
	"strings"
)

// What goes over the wire, as docs/remote-sessions.md and docs/pieces.md have it.
const (
	pieceHead  = 24
	pieceData  = 1176
	downHead   = 22
	mostEvents = 16
	mostDown   = downHead + mostEvents*(2+65535)
	mostPieces = (mostDown + pieceData - 1) / pieceData
	answerFull = 3
	answerDone = 1
)

// session is a client's end of a session: bytes go in and come out, and it neither waits nor looks at a clock.
type session struct {
	node           int
	key            uint32
	sent           uint64
	heard, number  uint32
	line           string // of the call that has no answer yet
	incarnation    uint32
	hasIncarnation bool
	isUnderWay     bool
	isTaken        bool // the last call
	why            string
	asked          Asked
	newest         joiner
}

// joiner keeps the pieces that came of the daemon's newest message.
type joiner struct {
	incarnation uint32
	number      uint64
	pieces      [][]byte
	missing     int
}

// begin makes a call. The last one has its answer.
func (s *session) begin(line string) {
	s.number++
	s.line, s.isUnderWay, s.isTaken, s.why, s.asked = line, true, false, "", Asked{}
}

// datagram is that of the next message to a network: one of sender 0 in incarnation 0, of one piece.
func (s *session) datagram(network byte, message []byte) []byte {
	s.sent++
	big := binary.BigEndian
	out := make([]byte, 0, 1+pieceHead+len(message))
	out = append(out, network, 'R', 'P', 0, 0, 0, 0, 0, 0)
	out = big.AppendUint64(out, s.sent)
	out = big.AppendUint32(out, 0)
	out = big.AppendUint32(out, 1)
	return append(out, message...)
}

// up is the Up of this moment.
func (s *session) up() []byte {
	big := binary.BigEndian
	out := append(make([]byte, 0, 18+len(s.line)), 'R', 'S', 1, 0)
	out = big.AppendUint32(out, s.key)
	out = big.AppendUint32(out, s.number)
	out = big.AppendUint32(out, s.heard)
	out = big.AppendUint16(out, uint16(len(s.line)))
	return append(out, s.line...)
}

// joined is the message whose last missing piece this datagram is, nil where it is none.
func (s *session) joined(datagram []byte) []byte {
	if len(datagram) <= 1+pieceHead || string(datagram[1:3]) != "RP" || int(datagram[3]) != s.node || datagram[4] != 0 {
		return nil
	}
	big, head, data := binary.BigEndian, datagram[1:], datagram[1+pieceHead:]
	incarnation, number := big.Uint32(head[4:]), big.Uint64(head[8:])
	index, count := int64(big.Uint32(head[16:])), int64(big.Uint32(head[20:]))
	isLast := index+1 == count
	if count > mostPieces || index >= count || isLast && len(data) > pieceData || !isLast && len(data) != pieceData {
		return nil
	}
	it := &s.newest
	if incarnation > it.incarnation || incarnation == it.incarnation && number > it.number {
		*it = joiner{incarnation, number, make([][]byte, count), int(count)}
	}
	if incarnation != it.incarnation || number != it.number || int(count) != len(it.pieces) || it.pieces[index] != nil {
		return nil
	}
	it.pieces[index] = append([]byte{}, data...)
	if it.missing--; it.missing > 0 {
		return nil
	}
	var whole []byte
	for _, piece := range it.pieces {
		whole = append(whole, piece...)
	}
	return whole
}

// down is what a Down says.
type down struct {
	key, incarnation, done uint32
	answer                 byte
	first                  uint32
	events                 []string
}

// downOf is the Down that bytes spell, to their last one, if they do.
func downOf(bytes []byte) (down, bool) {
	if len(bytes) < downHead || string(bytes[:4]) != "RS\x02\x00" || bytes[16] > answerFull || bytes[21] > mostEvents {
		return down{}, false
	}
	big := binary.BigEndian
	it := down{big.Uint32(bytes[4:]), big.Uint32(bytes[8:]), big.Uint32(bytes[12:]), bytes[16], big.Uint32(bytes[17:]), nil}
	count, rest := int(bytes[21]), bytes[downHead:]
	for ; count > 0; count-- {
		if len(rest) < 2 {
			return down{}, false
		}
		length := int(big.Uint16(rest))
		if rest = rest[2:]; len(rest) < length {
			return down{}, false
		}
		it.events, rest = append(it.events, string(rest[:length])), rest[length:]
	}
	return it, len(rest) == 0
}

// take takes a Down. It gives the events that are new, and the error with which the session ends.
func (s *session) take(it down) (events []Event, err error) {
	if it.key != s.key {
		return nil, nil
	}
	if it.answer == answerFull && it.incarnation == 0 {
		return nil, ErrEnded
	}
	if s.hasIncarnation && it.incarnation != s.incarnation {
		return nil, ErrLost
	}
	if it.answer == answerFull {
		return nil, ErrFull
	}
	s.incarnation, s.hasIncarnation = it.incarnation, true
	for at, line := range it.events {
		if uint64(it.first)+uint64(at) == uint64(s.heard)+1 {
			s.heard++
			if strings.HasPrefix(line, "refused ") {
				_, s.why, _ = strings.Cut(line[len("refused "):], " ")
				continue
			}
			event := EventOf(line)
			if asked, isAsked := event.(Asked); isAsked {
				s.asked = asked
			}
			events = append(events, event)
		}
	}
	if it.done != s.number {
		return events, nil
	}
	if s.line != "" {
		s.line, s.isTaken = "", it.answer == answerDone
	}
	// An answer may come before the events of its call, where more of them wait than a Down can carry.
	isWhole := len(it.events) < mostEvents && uint64(it.first)+uint64(len(it.events)) <= uint64(s.heard)+1
	s.isUnderWay = s.isUnderWay && !isWhole
	return events, nil
}
