// The driver of clients/go, as tests/conformance/README.md has it.
package main

import (
	"bufio"
	"context"
	"errors"
	"fmt"
	"hags"
	"os"
	"strconv"
	"strings"
	"time"
)

type driver struct {
	settings string
	node     int
	patience time.Duration
	client   *hags.Client
	stands   string // what the last look has found
}

func main() {
	if len(os.Args) != 4 {
		stop("usage: driver SETTINGS NODE SECONDS")
	}
	settings, err := os.ReadFile(os.Args[1])
	if err != nil {
		stop(err)
	}
	d := &driver{settings: string(settings), node: numberOf(os.Args[2])}
	d.patience = time.Duration(numberOf(os.Args[3])) * time.Second
	commands := make(chan string)
	go func() {
		for input := bufio.NewScanner(os.Stdin); input.Scan(); {
			commands <- input.Text()
		}
		close(commands)
	}()
	for d.wait(commands) {
	}
}

func stop(why any) {
	fmt.Fprintln(os.Stderr, "driver:", why)
	os.Exit(1)
}

func numberOf(word string) int {
	number, err := strconv.Atoi(word)
	if err != nil {
		stop(err)
	}
	return number
}

// events are those of the session, if there is one.
func (d *driver) events() <-chan hags.Event {
	if d.client == nil {
		return nil
	}
	return d.client.Events()
}

// wait waits for an event, or a command, which it carries out. False where it is to end.
func (d *driver) wait(commands <-chan string) bool {
	select {
	case event, isOpen := <-d.events():
		if isOpen {
			fmt.Println("event", event)
		} else {
			fmt.Println("lost")
			d.client = nil
		}
	case command, isOpen := <-commands:
		if !isOpen || command == "quit" {
			return false
		}
		d.carryOut(command)
	}
	return true
}

// carryOut does what a command says, and writes what is heard meanwhile.
func (d *driver) carryOut(command string) {
	if d.client == nil && !strings.HasPrefix(command, "open ") {
		fmt.Println("did lost") // it was given before that was told
		return
	}
	before, done := d.client, make(chan error)
	go func() { done <- d.do(command) }()
	var events <-chan hags.Event
	if before != nil {
		events = before.Events()
	}
	for {
		select {
		case event, isOpen := <-events:
			if isOpen {
				fmt.Println("event", event)
			} else {
				events = nil
			}
		case err := <-done:
			d.answer(command, err)
			return
		}
	}
}

func (d *driver) answer(command string, err error) {
	var refused *hags.Refused
	switch {
	case err == nil && strings.HasPrefix(command, "open "):
		fmt.Println("did taken", d.client.Incarnation())
	case err == nil && strings.HasPrefix(command, "look "):
		fmt.Printf("did stands%s\n", d.stands)
	case err == nil:
		fmt.Println("did taken")
		if command == "close" {
			d.client = nil
		}
	case errors.As(err, &refused):
		fmt.Println(strings.TrimRight("did refused "+refused.Code, " "))
	case errors.Is(err, hags.ErrBad):
		fmt.Println("did bad")
	case errors.Is(err, context.DeadlineExceeded):
		fmt.Println("did late")
	case errors.Is(err, hags.ErrFull):
		fmt.Println("did full")
	case errors.Is(err, hags.ErrLost):
		for d.client != nil { // what was heard before
			event, isOpen := <-d.client.Events()
			if !isOpen {
				break
			}
			fmt.Println("event", event)
		}
		d.client = nil
		fmt.Println("did lost")
	default:
		stop(err)
	}
}

func (d *driver) do(command string) error {
	ctx, cancel := context.WithTimeout(context.Background(), d.patience)
	defer cancel()
	if line := strings.TrimPrefix(command, "raw "); line != command {
		_, err := d.client.Call(ctx, line)
		return err
	}
	words := strings.Split(command, " ")
	c, rest := d.client, words[1:]
	byVote := len(rest) > 1 && rest[1] == "n"
	var err error
	switch words[0] {
	case "open":
		d.client, err = hags.Open(ctx, d.settings, d.node, rest[0])
	case "close":
		err = c.Close()
	case "join":
		_, err = c.Join(ctx, rest[0], numberOf(rest[1]), attributesOf(rest[2:]))
	case "attrs":
		_, err = c.Change(ctx, rest[0], byVote, attributesOf(rest[2:]))
	case "leave":
		_, err = c.Leave(ctx, rest[0], byVote)
	case "expel":
		_, err = c.Expel(ctx, rest[0], byVote, membersOf(rest[2:]))
	case "state":
		_, err = c.State(ctx, rest[0], byVote, textOf(rest[2]))
	case "message":
		_, err = c.Message(ctx, rest[0], byVote, textOf(rest[2]))
	case "vote":
		vote, text, hasValue := strings.Cut(rest[1], "=")
		var value []byte
		if hasValue {
			value = textOf(text)
		}
		err = c.Vote(ctx, rest[0], hags.Vote(vote), value)
	case "look":
		noted, isThere, fault := c.Look(ctx, rest[0])
		if d.stands, err = "", fault; isThere {
			d.stands = " " + noted.String()
		}
	case "subscribe":
		err = c.Subscribe(ctx, rest[0])
	case "unsubscribe":
		err = c.Unsubscribe(ctx, rest[0])
	default:
		stop(command)
	}
	return err
}

func textOf(word string) []byte {
	text := []byte{}
	if word == "~" {
		return text
	}
	for at := 0; at < len(word); at++ {
		if word[at] != '%' {
			text = append(text, word[at])
			continue
		}
		it, err := strconv.ParseUint(word[at+1:at+3], 16, 8)
		if err != nil {
			stop(err)
		}
		text, at = append(text, byte(it)), at+2
	}
	return text
}

func attributesOf(words []string) hags.Attributes {
	var it hags.Attributes
	for _, word := range words {
		name, value, _ := strings.Cut(word, "=")
		switch name {
		case "phases":
			it.ByVote = value == "n"
		case "sphases":
			it.SourceByVote = value == "n"
		case "default":
			it.Rejects = value == "reject"
		case "limit":
			it.Limit = numberOf(value)
		case "slimit":
			it.SourceLimit = numberOf(value)
		case "source":
			it.Source = value
		case "batch":
			if value != "none" {
				it.Batch = hags.Batch(value)
			}
		}
	}
	return it
}

func membersOf(words []string) hags.Members {
	var members hags.Members
	for _, word := range words {
		parts := strings.Split(word, ".")
		members = append(members, hags.Provider{Node: numberOf(parts[0]), Incarnation: uint32(numberOf(parts[1])),
			Instance: numberOf(parts[2]), Join: uint32(numberOf(parts[3]))})
	}
	return members
}
