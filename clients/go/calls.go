package hags

import (
	"context"
	"fmt"
	"strings"
)

const (
	mostNodes    = 32
	mostNetworks = 4
	mostInstance = 65535
	mostLine     = 1100
	mostName     = 16
	mostGroup    = 64 // bytes of a group's name in a call; the daemon refuses those over 32
)

// Vote is what a provider votes in a phase.
type Vote string

const (
	VoteApprove  Vote = "A"
	VoteContinue Vote = "C"
	VoteReject   Vote = "R"
)

func (v Vote) isGood() bool { return v == VoteApprove || v == VoteContinue || v == VoteReject }

// Batch says which of a group's joins and failures that wait begin together.
type Batch string

const (
	BatchJoins    Batch = "joins"
	BatchFailures Batch = "failures"
	BatchBoth     Batch = "both"
)

// Attributes of a group. The zero value is what nobody has to say: one phase, no batch, approval by default, no limit, no
// source.
type Attributes struct {
	ByVote       bool // joins, and the removal of who failed
	Batch        Batch
	Rejects      bool // the vote of who gives none
	Limit        int  // ticks that a phase may take, 0 any
	Source       string
	SourceByVote bool
	SourceLimit  int
}

func (a Attributes) words() string {
	var out strings.Builder
	add := func(isSaid bool, form string, what ...any) {
		if isSaid {
			fmt.Fprintf(&out, form, what...)
		}
	}
	add(a.ByVote, " phases=n")
	add(a.Batch != "", " batch=%s", a.Batch)
	add(a.Rejects, " default=reject")
	add(a.Limit != 0, " limit=%d", a.Limit)
	add(a.Source != "", " source=%s", a.Source)
	add(a.SourceByVote, " sphases=n")
	add(a.SourceLimit != 0, " slimit=%d", a.SourceLimit)
	return out.String()
}

func isName(name string, most int) bool {
	isLetter := func(it rune) bool {
		return it >= 'a' && it <= 'z' || it >= 'A' && it <= 'Z' || it >= '0' && it <= '9' || strings.ContainsRune("_-.", it)
	}
	return name != "" && len(name) <= most && strings.IndexFunc(name, func(it rune) bool { return !isLetter(it) }) < 0
}

// phases is how a change is decided.
func phases(byVote bool) string {
	if byVote {
		return "n"
	}
	return "1"
}

// textOf is a text as a word of a call.
func textOf(text []byte) string {
	switch word := escaped(text, "%"); word {
	case "":
		return "~"
	case "~":
		return "%7E"
	default:
		return word
	}
}

// callGroup makes a call about a group: its word, the client's name, the group, and more words.
func (c *Client) callGroup(ctx context.Context, word, group, more string) (Asked, error) {
	if !isName(group, mostGroup) {
		return Asked{}, fmt.Errorf("%w: a group's name has 1 to 32 letters, digits, _, - and .: %q", ErrBad, group)
	}
	return c.Call(ctx, fmt.Sprintf("%s %s %s%s", word, c.name, group, more))
}

// Join joins a group. The client is a provider once Heard has the answer's provider among its members; Told says that it
// will not be. All members give the same attributes, and those of one node different instance numbers, 1 to 65,535.
func (c *Client) Join(ctx context.Context, group string, instance int, attributes Attributes) (Asked, error) {
	if attributes.Source != "" && !isName(attributes.Source, mostGroup) {
		return Asked{}, fmt.Errorf("%w: no name of a group: %q", ErrBad, attributes.Source)
	}
	return c.callGroup(ctx, "join", group, fmt.Sprintf(" %d%s", instance, attributes.words()))
}

// Leave leaves a group.
func (c *Client) Leave(ctx context.Context, group string, byVote bool) (Asked, error) {
	return c.callGroup(ctx, "leave", group, " "+phases(byVote))
}

// Expel removes others from a group.
func (c *Client) Expel(ctx context.Context, group string, byVote bool, members Members) (Asked, error) {
	more := " " + phases(byVote)
	for _, member := range members {
		more += " " + member.String()
	}
	return c.callGroup(ctx, "expel", group, more)
}

// State sets a group's value, of up to 256 bytes.
func (c *Client) State(ctx context.Context, group string, byVote bool, value []byte) (Asked, error) {
	return c.callGroup(ctx, "state", group, " "+phases(byVote)+" "+textOf(value))
}

// Message sends a message of up to 1,024 bytes, which may be spelled in no more than some 1,050. Its text is in the Put of
// members whose daemon runs with `--entries`; others hear that there was one.
func (c *Client) Message(ctx context.Context, group string, byVote bool, text []byte) (Asked, error) {
	return c.callGroup(ctx, "message", group, " "+phases(byVote)+" "+textOf(text))
}

// Change changes the group's attributes.
func (c *Client) Change(ctx context.Context, group string, byVote bool, attributes Attributes) (Asked, error) {
	return c.callGroup(ctx, "attrs", group, " "+phases(byVote)+attributes.words())
}

// Vote votes, once a phase was heard to begin. A value that is not nil is proposed in place of the one that was. What is
// voted on is in the Put before the Heard that began it.
func (c *Client) Vote(ctx context.Context, group string, vote Vote, value []byte) error {
	word := " " + string(vote)
	if value != nil {
		word += "=" + textOf(value)
	}
	_, err := c.callGroup(ctx, "vote", group, word)
	return err
}

// Subscribe lets each change of a group's members or value be Noted from now on, and what they are as a view begins.
func (c *Client) Subscribe(ctx context.Context, group string) error {
	_, err := c.callGroup(ctx, "subscribe", group, "")
	return err
}

// Unsubscribe ends that.
func (c *Client) Unsubscribe(ctx context.Context, group string) error {
	_, err := c.callGroup(ctx, "unsubscribe", group, "")
	return err
}
