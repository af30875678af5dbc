package hags

import (
	"fmt"
	"math"
	"strconv"
	"strings"
)

// Hosts is the group whose members are the nodes of each view. One subscribes to it and cannot join it.
const Hosts = "HostMembership"

// Provider is a membership: one join of one client, written 1.5.7.2. Of Hosts a member is a node with its incarnation,
// and Instance and Join are 0.
type Provider struct {
	Node        int
	Incarnation uint32 // of the node's daemon
	Instance    int    // the number that the client chose
	Join        uint32 // the number of the request that joined
}

func (p Provider) String() string {
	if p.Instance == 0 && p.Join == 0 {
		return fmt.Sprintf("%d.%d", p.Node, p.Incarnation)
	}
	return fmt.Sprintf("%d.%d.%d.%d", p.Node, p.Incarnation, p.Instance, p.Join)
}

// View is the id of a view, written 3.1.5: its number, and the node that gathered it with its incarnation.
type View struct {
	Number      uint32
	Coordinator int
	Incarnation uint32
}

func (v View) String() string { return fmt.Sprintf("%d.%d.%d", v.Number, v.Coordinator, v.Incarnation) }

// Protocol is the id of a vote, written 3.1.5/2: the view and the place of the entry that began it.
type Protocol struct {
	View  View
	Place uint32
}

func (p Protocol) String() string { return fmt.Sprintf("%v/%d", p.View, p.Place) }

// Members are the members of a group, in the order in which they joined.
type Members []Provider

func (m Members) String() string {
	words := make([]string, len(m))
	for at, member := range m {
		words[at] = member.String()
	}
	return orDash(strings.Join(words, ","))
}

// Has says whether a provider is among the members.
func (m Members) Has(provider Provider) bool {
	for _, member := range m {
		if member == provider {
			return true
		}
	}
	return false
}

func orDash(word string) string {
	if word == "" {
		return "-"
	}
	return word
}

// Value is the value of a group, or one that is proposed. Where there is none it is nil, which an empty one is not.
type Value []byte

// String is the value as transcripts have it: `=` and its bytes, or nothing where there is none.
func (v Value) String() string {
	if v == nil {
		return ""
	}
	return "=" + escaped(v, "%")
}

func escaped(bytes []byte, special string) string {
	var out strings.Builder
	for _, it := range bytes {
		if it <= ' ' || it > '~' || strings.IndexByte(special, it) >= 0 {
			fmt.Fprintf(&out, "%%%02X", it)
		} else {
			out.WriteByte(it)
		}
	}
	return out.String()
}

// Kind is what a call or an entry is about.
type Kind string

const (
	Joining    Kind = "join"
	Leaving    Kind = "leave"
	Failing    Kind = "fail" // members that failed are removed
	Expelling  Kind = "expel"
	Setting    Kind = "state"
	Messaging  Kind = "message"
	Changing   Kind = "attrs"
	Reflecting Kind = "reflect" // the value of the source group has changed
)

// Step is what an entry of a group's list does.
type Step string

const (
	Once       Step = "once"    // a proposal that is approved at once
	Begin      Step = "begin"   // a vote on a proposal begins, with phase 1
	Phase      Step = "phase"   // the next phase of the vote begins
	Approve    Step = "approve" // the proposal is approved
	Reject     Step = "reject"  // it is rejected
	LateVoters Step = "late"
)

// Event is what a client hears: Asked, Heard, Cast, Told, Noted, Put or Other. Its String is the line of a transcript.
type Event interface {
	fmt.Stringer
	isEvent()
}

// Asked says that a call was taken, and asks something of a group. The provider is the caller's membership.
type Asked struct {
	Provider Provider
	Request  uint32
	Group    string
	Kind     Kind
}

// Heard is the entry at a place of a group's list, and the members and the value after it. The provider is one of this
// client. Kind is empty but at Once and Begin.
type Heard struct {
	Provider Provider
	View     View
	Group    string
	Place    uint32
	Step     Step
	Kind     Kind
	Members  Members
	Value    Value
}

// Cast says that this client's vote was cast: A, C or R, with a value or not.
type Cast struct {
	Provider Provider
	Protocol Protocol
	Phase    int
	Vote     Vote
	Value    Value
}

// Told says that a call that was taken was refused later. Where it was a join, and at DISSOLVED, the membership is no more.
type Told struct {
	Provider Provider
	Request  uint32
	Code     string // as COLLIDE
	Detail   string // what belongs to the code, or ""
}

// Noted is the members and the value of a group to which the client subscribes, as they are now. Place is that of the
// entry that changed them, and -1 where a view begins.
type Noted struct {
	Client  string
	View    View
	Group   string
	Place   int64
	Members Members
	Value   Value
}

// Cause is why a member has failed.
type Cause string

const (
	Died    Cause = "died" // its node
	Gone    Cause = "gone" // its client
	CastOut Cause = "cast" // with its node, which has no member of the source group any more
)

// Proposal is what an entry proposes, or does at once. A part that its kind has not is zero.
type Proposal struct {
	Kind         Kind
	Asker        Provider   // who asked: of Leaving, Expelling, Setting, Messaging and Changing
	Request      uint32     // the number of that call, which Asked has too
	Members      Members    // who joins, has failed or is to be expelled
	Causes       []Cause    // of Failing, why each of them
	Value        Value      // of Setting the value, of Messaging the text, of Reflecting the value of the source group
	Attributes   Attributes // of Joining those that the joiners give, of Changing the new ones
	Source       Protocol   // of Reflecting, the view and the place of the source group's entry
	SourceLength *uint32    // of Joining a group with a source, how long the source's list was
}

// RowVote is what counted for a member as a phase closed: its vote, or the default where it was late or had failed.
type RowVote string

const (
	Approved       RowVote = "A"
	Continued      RowVote = "C"
	Rejected       RowVote = "R"
	LateApproved   RowVote = "LA"
	LateRejected   RowVote = "LR"
	FailedApproved RowVote = "FA"
	FailedRejected RowVote = "FR"
)

// Row is what counted for a member as a phase closed.
type Row struct {
	Provider Provider
	Vote     RowVote
}

// Put is an entry itself, directly before the Heard of its view and place, once. Daemons that run with `--entries` tell
// of entries; others do not.
type Put struct {
	Node     int // the client's own
	View     View
	Group    string
	Place    uint32
	Step     Step
	Proposal *Proposal // at Once and Begin
	Protocol Protocol  // at the other steps: the vote
	Phase    int       // which closed, or in which they are late
	Rows     []Row     // at Phase, Approve and Reject: the votes of that phase
	Late     Members   // at LateVoters
	Value    Value     // at Phase and Approve: the value that a vote has brought, if any
}

// Other is a line that this client cannot take apart, as a later daemon may write one.
type Other string

func (Asked) isEvent() {}
func (Heard) isEvent() {}
func (Cast) isEvent()  {}
func (Told) isEvent()  {}
func (Noted) isEvent() {}
func (Put) isEvent()   {}
func (Other) isEvent() {}

func (e Asked) String() string {
	return fmt.Sprintf("asked %v %d %s %s", e.Provider, e.Request, e.Group, e.Kind)
}

func (e Heard) String() string {
	what := string(e.Step)
	if e.Kind != "" {
		what += "-" + string(e.Kind)
	}
	return fmt.Sprintf("heard %v %v %s %d %s %v %v", e.Provider, e.View, e.Group, e.Place, what, e.Members, e.Value)
}

func (e Cast) String() string {
	return fmt.Sprintf("cast %v %v %d %s%v", e.Provider, e.Protocol, e.Phase, e.Vote, e.Value)
}

func (e Told) String() string {
	return strings.TrimRight(fmt.Sprintf("told %v %d %s %s", e.Provider, e.Request, e.Code, e.Detail), " ")
}

func (e Noted) String() string {
	place := "-"
	if e.Place >= 0 {
		place = strconv.FormatInt(e.Place, 10)
	}
	return fmt.Sprintf("noted %s %v %s %s %v %v", e.Client, e.View, e.Group, place, e.Members, e.Value)
}

func (e Put) String() string {
	where := fmt.Sprintf("put %d %v %s %d %s", e.Node, e.View, e.Group, e.Place, e.Step)
	if e.Proposal != nil {
		return fmt.Sprintf("%s %v", where, e.Proposal)
	}
	where = fmt.Sprintf("%s %v %d", where, e.Protocol, e.Phase)
	if e.Step == LateVoters {
		return fmt.Sprintf("%s %v", where, e.Late)
	}
	rows := make([]string, len(e.Rows))
	for at, row := range e.Rows {
		rows[at] = fmt.Sprintf("%v=%s", row.Provider, row.Vote)
	}
	where += " " + orDash(strings.Join(rows, ","))
	if e.Step == Reject {
		return where
	}
	return where + " " + orDash(e.Value.String())
}

// String is the proposal as transcripts have it.
func (p *Proposal) String() string {
	asked := fmt.Sprintf("%s %v/%d", p.Kind, p.Asker, p.Request)
	switch p.Kind {
	case Joining:
		length := ""
		if p.SourceLength != nil {
			length = fmt.Sprintf(" src=%d", *p.SourceLength)
		}
		return fmt.Sprintf("join %v%s%s", p.Members, p.Attributes.words(), length)
	case Failing:
		words := make([]string, len(p.Members))
		for at, member := range p.Members {
			words[at] = fmt.Sprintf("%v:%s", member, p.Causes[at])
		}
		return "fail " + strings.Join(words, ",")
	case Expelling:
		return fmt.Sprintf("%s %v", asked, p.Members)
	case Setting, Messaging:
		return fmt.Sprintf("%s %v", asked, p.Value)
	case Changing:
		return asked + p.Attributes.words()
	case Reflecting:
		return fmt.Sprintf("reflect %v %v", p.Source, p.Value)
	}
	return asked
}

func (e Other) String() string { return string(e) }

// EventOf is the event that a line of a transcript is.
func EventOf(line string) Event {
	words := strings.Split(line, " ")
	r := &reader{words: words[1:]}
	var event Event
	switch words[0] {
	case "asked":
		event = Asked{r.provider(), r.number(), r.word(), r.kind()}
	case "heard":
		event = r.heard()
	case "cast":
		event = r.cast()
	case "told":
		event = Told{r.provider(), r.number(), r.word(), r.rest()}
	case "noted":
		event = r.noted()
	case "put":
		event = r.put()
	default:
		return Other(line)
	}
	if r.isFaulty || len(r.words) > 0 {
		return Other(line)
	}
	return event
}

// reader takes the words of a line one after another. Once one is none of its kind the line is faulty.
type reader struct {
	words    []string
	isFaulty bool
}

func (r *reader) word() string {
	if len(r.words) == 0 || r.words[0] == "" {
		r.isFaulty = true
		return ""
	}
	word := r.words[0]
	r.words = r.words[1:]
	return word
}

// rest is what stands behind, and may be nothing.
func (r *reader) rest() string {
	rest := strings.Join(r.words, " ")
	r.words = nil
	return rest
}

// numberOf is digits without a needless zero, of a number of at most `most`.
func (r *reader) numberOf(word string, most uint64) uint64 {
	number, err := strconv.ParseUint(word, 10, 64)
	if err != nil || number > most || strconv.FormatUint(number, 10) != word {
		r.isFaulty = true
		return 0
	}
	return number
}

func (r *reader) numberTo(most uint64) uint64 { return r.numberOf(r.word(), most) }
func (r *reader) number() uint32              { return uint32(r.numberTo(math.MaxUint32)) }

func (r *reader) providerOf(word string, isHost bool) Provider {
	parts := strings.Split(word, ".")
	if len(parts) != 4 && !isHost || len(parts) != 2 && isHost {
		r.isFaulty = true
		return Provider{}
	}
	provider := Provider{Node: int(r.numberOf(parts[0], mostNodes)), Incarnation: uint32(r.numberOf(parts[1], math.MaxUint32))}
	if !isHost {
		provider.Instance = int(r.numberOf(parts[2], mostInstance))
		provider.Join = uint32(r.numberOf(parts[3], math.MaxUint32))
	}
	return provider
}

func (r *reader) provider() Provider { return r.providerOf(r.word(), false) }

func (r *reader) viewOf(word string) View {
	parts := strings.Split(word, ".")
	if len(parts) != 3 {
		r.isFaulty = true
		return View{}
	}
	number, incarnation := r.numberOf(parts[0], math.MaxUint32), r.numberOf(parts[2], math.MaxUint32)
	return View{uint32(number), int(r.numberOf(parts[1], mostNodes)), uint32(incarnation)}
}

func (r *reader) view() View { return r.viewOf(r.word()) }

func (r *reader) protocol() Protocol {
	view, place, _ := strings.Cut(r.word(), "/")
	return Protocol{r.viewOf(view), uint32(r.numberOf(place, math.MaxUint32))}
}

func (r *reader) put() Event {
	put := Put{Node: int(r.numberTo(mostNodes)), View: r.view(), Group: r.word(), Place: r.number(), Step: Step(r.word())}
	if put.Step == Once || put.Step == Begin {
		put.Proposal = r.proposal()
		return put
	}
	put.Protocol, put.Phase = r.protocol(), int(r.numberTo(math.MaxUint16))
	switch put.Step {
	case LateVoters:
		put.Late = r.members(false)
	case Phase, Approve, Reject:
		put.Rows = r.rows()
		if put.Step != Reject {
			put.Value = r.valueOrDash()
		}
	default:
		r.isFaulty = true
	}
	return put
}

func (r *reader) proposal() *Proposal {
	p := &Proposal{Kind: r.kind()}
	switch p.Kind {
	case Joining:
		p.Members = r.members(false)
		if last := len(r.words) - 1; last >= 0 && strings.HasPrefix(r.words[last], "src=") {
			length := uint32(r.numberOf(r.words[last][len("src="):], math.MaxUint32))
			p.SourceLength, r.words = &length, r.words[:last]
		}
		p.Attributes = r.attributes()
		return p
	case Failing:
		for _, pair := range strings.Split(r.word(), ",") {
			member, cause, _ := strings.Cut(pair, ":")
			r.isFaulty = r.isFaulty || cause != string(Died) && cause != string(Gone) && cause != string(CastOut)
			p.Members, p.Causes = append(p.Members, r.providerOf(member, false)), append(p.Causes, Cause(cause))
		}
		return p
	case Reflecting:
		p.Source, p.Value = r.protocol(), r.valueOf(r.word())
		return p
	}
	asker, number, _ := strings.Cut(r.word(), "/")
	p.Asker, p.Request = r.providerOf(asker, false), uint32(r.numberOf(number, math.MaxUint32))
	switch p.Kind {
	case Expelling:
		p.Members = r.members(false)
	case Setting, Messaging:
		p.Value = r.valueOf(r.word())
	case Changing:
		p.Attributes = r.attributes()
	}
	return p
}

// attributes takes all words that are left, which are those of attributes in their order, each at most once.
func (r *reader) attributes() Attributes {
	var a Attributes
	words := r.rest()
	for _, word := range strings.Fields(words) {
		name, value, _ := strings.Cut(word, "=")
		switch name {
		case "phases":
			a.ByVote = value == "n"
		case "batch":
			a.Batch = Batch(value)
			r.isFaulty = r.isFaulty || a.Batch != BatchJoins && a.Batch != BatchFailures && a.Batch != BatchBoth
		case "default":
			a.Rejects = value == "reject"
		case "limit":
			a.Limit = int(r.numberOf(value, math.MaxUint16))
		case "source":
			a.Source = value
		case "sphases":
			a.SourceByVote = value == "n"
		case "slimit":
			a.SourceLimit = int(r.numberOf(value, math.MaxUint16))
		}
	}
	r.isFaulty = r.isFaulty || strings.TrimPrefix(a.words(), " ") != words
	return a
}

func (r *reader) rows() []Row {
	word := r.word()
	if word == "-" {
		return nil
	}
	var rows []Row
	for _, pair := range strings.Split(word, ",") {
		member, vote, _ := strings.Cut(pair, "=")
		switch RowVote(vote) {
		case Approved, Continued, Rejected, LateApproved, LateRejected, FailedApproved, FailedRejected:
		default:
			r.isFaulty = true
		}
		rows = append(rows, Row{r.providerOf(member, false), RowVote(vote)})
	}
	return rows
}

func (r *reader) valueOrDash() Value {
	if word := r.word(); word != "-" {
		return r.valueOf(word)
	}
	return nil
}

func (r *reader) kindOf(word string) Kind {
	switch kind := Kind(word); kind {
	case Joining, Leaving, Failing, Expelling, Setting, Messaging, Changing, Reflecting:
		return kind
	}
	r.isFaulty = true
	return ""
}

func (r *reader) kind() Kind { return r.kindOf(r.word()) }

func (r *reader) members(areHosts bool) Members {
	word := r.word()
	if word == "-" {
		return nil
	}
	parts := strings.Split(word, ",")
	members := make(Members, len(parts))
	for at, part := range parts {
		members[at] = r.providerOf(part, areHosts)
	}
	return members
}

func (r *reader) valueOf(word string) Value {
	if !strings.HasPrefix(word, "=") {
		r.isFaulty = true
		return nil
	}
	value, err := unescaped(word[1:])
	r.isFaulty = r.isFaulty || err != nil
	return value
}

// unescaped are the bytes that a text with %XX spells.
func unescaped(text string) ([]byte, error) {
	bytes := make([]byte, 0, len(text))
	for at := 0; at < len(text); at++ {
		if text[at] != '%' {
			bytes = append(bytes, text[at])
			continue
		}
		if at+2 >= len(text) {
			return nil, fmt.Errorf("hags: %q lacks two digits", text)
		}
		spelled := text[at+1 : at+3]
		it, err := strconv.ParseUint(spelled, 16, 8)
		if err != nil || strings.ToUpper(spelled) != spelled {
			return nil, fmt.Errorf("hags: %q has no two digits behind %%", text)
		}
		bytes, at = append(bytes, byte(it)), at+2
	}
	return bytes, nil
}

func (r *reader) heard() Event {
	heard := Heard{Provider: r.provider(), View: r.view(), Group: r.word(), Place: r.number()}
	step, kind, hasKind := strings.Cut(r.word(), "-")
	heard.Step = Step(step)
	switch heard.Step {
	case Once, Begin:
		heard.Kind = r.kindOf(kind)
	case Phase, Approve, Reject, LateVoters:
		r.isFaulty = r.isFaulty || hasKind
	default:
		r.isFaulty = true
	}
	heard.Members, heard.Value = r.members(false), r.valueOf(r.word())
	return heard
}

func (r *reader) cast() Event {
	cast := Cast{Provider: r.provider(), Protocol: r.protocol(), Phase: int(r.numberTo(math.MaxUint16))}
	word := r.word()
	if word == "" {
		return cast
	}
	cast.Vote = Vote(word[:1])
	r.isFaulty = r.isFaulty || !cast.Vote.isGood()
	if len(word) > 1 {
		cast.Value = r.valueOf(word[1:])
	}
	return cast
}

func (r *reader) noted() Event {
	noted := Noted{Client: r.word(), View: r.view(), Group: r.word(), Place: -1}
	if place := r.word(); place != "-" {
		noted.Place = int64(r.numberOf(place, math.MaxUint32))
	}
	noted.Members, noted.Value = r.members(noted.Group == Hosts), r.valueOf(r.word())
	return noted
}
