package hags

import (
	"reflect"
	"strings"
	"testing"
)

var lines = []string{
	"asked 1.5.7.1 1 db join",
	"heard 1.5.7.1 3.1.5 db 12 begin-attrs 1.5.7.1,2.9.65535.4294967295 =a%20%00b%25",
	"heard 1.5.7.1 3.1.5 db 0 reject - =",
	"heard 1.5.7.1 3.1.5 db 0 once-state 1.5.7.1 ==,|~",
	"cast 1.5.7.1 3.1.5/0 2 C=x",
	"cast 1.5.7.1 3.1.5/0 1 A",
	"cast 1.5.7.1 3.1.5/0 1 R=",
	"told 1.5.7.1 0 LIST_FULL 4096/12",
	"told 1.5.7.1 3 DISSOLVED",
	"noted 2.bob 3.1.5 HostMembership - 1.5,2.9 =",
	"noted 2.bob 3.1.5 db 4 1.5.7.1 =x",
	"put 1 3.1.5 db 4 once message 1.5.7.1/3 =hello",
	"put 1 3.1.5 db 0 once join 1.5.7.1",
	"put 1 3.1.5 db 0 begin join 1.5.7.1,2.6.8.1 phases=n batch=both default=reject limit=20 source=disk sphases=n slimit=30 src=0",
	"put 1 3.1.5 db 1 begin leave 1.5.7.1/2",
	"put 1 3.1.5 db 2 once fail 2.6.8.1:died,3.1.1.1:gone,3.1.2.2:cast",
	"put 2 3.1.5 db 3 begin expel 1.5.7.1/3 2.6.8.1,3.1.1.1",
	"put 2 3.1.5 db 5 once state 1.5.7.1/4 =",
	"put 2 3.1.5 db 7 once attrs 1.5.7.1/6",
	"put 2 3.1.5 db 7 once attrs 1.5.7.1/6 batch=joins slimit=10000",
	"put 2 3.1.5 db 8 begin reflect 3.1.5/12 =red",
	"put 2 3.1.5 db 9 phase 3.1.5/8 1 1.5.7.1=A,2.6.8.1=C =",
	"put 2 3.1.5 db 10 phase 3.1.5/8 2 - -",
	"put 2 3.1.5 db 11 approve 3.1.5/8 3 1.5.7.1=LA,2.6.8.1=FA =new%20",
	"put 2 3.1.5 db 12 reject 3.1.5/8 200 1.5.7.1=R,2.6.8.1=LR,3.1.1.1=FR",
	"put 2 3.1.5 db 13 late 3.1.5/8 1 1.5.7.1,2.6.8.1",
}

func TestEventsAreSpelledAgain(t *testing.T) {
	for _, line := range lines {
		event := EventOf(line)
		if _, isOther := event.(Other); isOther || event.String() != line {
			t.Errorf("%q is %#v, spelled %q", line, event, event)
		}
	}
}

func TestPartsOfEvents(t *testing.T) {
	heard := EventOf(lines[1])
	want := Heard{Provider{1, 5, 7, 1}, View{3, 1, 5}, "db", 12, Begin, Changing,
		Members{{1, 5, 7, 1}, {2, 9, 65535, 4294967295}}, Value("a \x00b%")}
	if !reflect.DeepEqual(heard, want) {
		t.Errorf("%#v", heard)
	}
	if cast := EventOf(lines[5]).(Cast); cast.Value != nil || cast.Vote != VoteApprove {
		t.Errorf("%#v", cast)
	}
	if cast := EventOf(lines[6]).(Cast); cast.Value == nil || len(cast.Value) != 0 {
		t.Errorf("%#v", cast)
	}
	if noted := EventOf(lines[9]).(Noted); noted.Place != -1 || noted.Members[1] != (Provider{Node: 2, Incarnation: 9}) {
		t.Errorf("%#v", noted)
	}
}

func TestPartsOfEntries(t *testing.T) {
	ann, bob := Provider{1, 5, 7, 1}, Provider{2, 6, 8, 1}
	at := func(put Put) Put {
		put.Node, put.View, put.Group, put.Place = 2, View{3, 1, 5}, "db", 4
		return put
	}
	length := uint32(9)
	for line, want := range map[string]Put{
		"begin join 1.5.7.1,2.6.8.1 phases=n source=disk src=9": {Step: Begin, Proposal: &Proposal{Kind: Joining,
			Members: Members{ann, bob}, Attributes: Attributes{ByVote: true, Source: "disk"}, SourceLength: &length}},
		"once message 1.5.7.1/5 =a%20b": {Step: Once, Proposal: &Proposal{Kind: Messaging, Asker: ann, Request: 5, Value: Value("a b")}},
		"once fail 1.5.7.1:died,2.6.8.1:cast": {Step: Once, Proposal: &Proposal{Kind: Failing, Members: Members{ann, bob},
			Causes: []Cause{Died, CastOut}}},
		"approve 3.1.5/2 1 1.5.7.1=A,2.6.8.1=LA =new": {Step: Approve, Protocol: Protocol{View{3, 1, 5}, 2}, Phase: 1,
			Rows: []Row{{ann, Approved}, {bob, LateApproved}}, Value: Value("new")},
		"late 3.1.5/2 3 2.6.8.1": {Step: LateVoters, Protocol: Protocol{View{3, 1, 5}, 2}, Phase: 3, Late: Members{bob}},
	} {
		if put := EventOf("put 2 3.1.5 db 4 " + line); !reflect.DeepEqual(put, at(want)) {
			t.Errorf("%s: %#v", line, put)
		}
	}
}

func TestOtherLines(t *testing.T) {
	for _, line := range []string{
		"", " ", "new", "asked", "asked 1.5.7.1 1 db", "asked 1.5.7.1 1 db join more", "asked 1.5.7 1 db join",
		"asked 1.5.7.1 01 db join", "asked 1.5.7.1 +1 db join", "asked 1.5.7.1 4294967296 db join", "asked 33.5.7.1 1 db join",
		"asked 1.5.7.1 1  join", "asked 1.5.65536.1 1 db join", "heard 1.5.7.1 3.1.5 db 0 once-new - =",
		"heard 1.5.7.1 3.1.5 db 0 once - =", "heard 1.5.7.1 3.1.5 db 0 phase-join - =", "heard 1.5.7.1 3.1.5 db 0 once-join - ",
		"heard 1.5.7.1 3.1.5 db 0 once-join 1.5.7.1, =", "heard 1.5.7.1 3.1.5 db 0 once-join - =%2", "told 1.5.7.1 1",
		"heard 1.5.7.1 3.1.5 db 0 once-join - =%2g", "heard 1.5.7.1 3.1.5 db 0 once-join - =%2f", "cast 1.5.7.1 3.1.5 1 A",
		"cast 1.5.7.1 3.1.5/0 1 B", "noted 1.a 3.1.5 HostMembership - 1.5.7.1 =", "put 1 3.1.5 db 4", "put 1 3.1.5 db 4 ",
		"put 1 3.1.5 db 4 once", "put 1 3.1.5 db 4 once state 1.5.7.1/4", "put 1 3.1.5 db 4 once sing 1.5.7.1/4 =x",
		"put 1 3.1.5 db 4 begun state 1.5.7.1/4 =x", "put 1 3.1.5 db 4 once state 1.5.7.1 =x", "put 1 3.1.5 db 4 phase 3.1.5/2 1",
		"put 1 3.1.5 db 4 once fail -", "put 1 3.1.5 db 4 once fail 1.5.7.1:tired", "put 1 3.1.5 db 4 reject 3.1.5/2 1 1.5.7.1=X",
		"put 1 3.1.5 db 4 reject 3.1.5/2 1 1.5.7.1=R =x", "put 1 3.1.5 db 4 once join 1.5.7.1 limit=05",
		"put 1 3.1.5 db 4 once join 1.5.7.1 batch=none", "put 1 3.1.5 db 4 once join 1.5.7.1 new=5",
		"put 1 3.1.5 db 4 once join 1.5.7.1 limit=5 phases=n", "put 1 3.1.5 db 4 once join 1.5.7.1 src=x",
	} {
		if event := EventOf(line); event != Other(line) {
			t.Errorf("%q is %#v", line, event)
		}
	}
}

func FuzzEventOf(f *testing.F) {
	for _, line := range lines {
		f.Add(line)
	}
	f.Fuzz(func(t *testing.T, line string) {
		event := EventOf(line)
		if _, isOther := event.(Other); !isOther && EventOf(event.String()).String() != event.String() {
			t.Errorf("%q is %q", line, event)
		}
	})
}

func FuzzDatagrams(f *testing.F) {
	f.Add([]byte("\x01RP\x01\x00\x00\x00\x00\x05\x00\x00\x00\x00\x00\x00\x00\x01\x00\x00\x00\x00\x00\x00\x00\x01"+
		"RS\x02\x00\x00\x00\x00\x07\x00\x00\x00\x05\x00\x00\x00\x01\x01\x00\x00\x00\x01\x01\x00\x03abc"), 30)
	f.Fuzz(func(t *testing.T, bytes []byte, cut int) {
		s := &session{node: 1, key: 7}
		s.begin("client 1 a -")
		for _, datagram := range [][]byte{bytes, bytes[:len(bytes)-min(len(bytes), max(cut, 0))]} {
			if message := s.joined(datagram); message != nil {
				if it, isDown := downOf(message); isDown {
					s.take(it)
				}
			}
		}
	})
}

func min(one, other int) int {
	if one < other {
		return one
	}
	return other
}

func max(one, other int) int { return -min(-one, -other) }

func TestSettings(t *testing.T) {
	text := "# a test\nnode 1\nnode  2\nadapter 1 2 127.0.0.1\nadapter 1 1 127.0.1.1\nport 3000\nbegin\nport 9\n"
	places, err := placesOf(text, 1)
	if err != nil || len(places) != 2 || places[0].network != 1 || places[0].at.String() != "127.0.1.1:3001" {
		t.Errorf("%v %v", places, err)
	}
	if places, err := placesOf("node 3", 3); err != nil || places[0].at.String() != "10.1.0.3:12350" {
		t.Errorf("%v %v", places, err)
	}
	for _, faulty := range []string{"", "node 2\nbegin", "begin\nnode 1", "node 1\nport 0", "node 1\nport 65001",
		"node 1\nadapter 2 1 127.0.0.1", "node 1\nadapter 1 5 127.0.0.1", "node 1\nadapter 1 1 host"} {
		if _, err := placesOf(faulty, 1); err == nil || !strings.HasPrefix(err.Error(), "hags: ") {
			t.Errorf("%q: %v", faulty, err)
		}
	}
}
