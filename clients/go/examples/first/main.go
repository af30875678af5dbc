// first SETTINGS NODE NAME: joins the group db, sets its value, and writes what it hears for a second.
package main

import (
	"context"
	"fmt"
	"hags"
	"log"
	"os"
	"strconv"
	"time"
)

func main() {
	if len(os.Args) != 4 {
		log.Fatal("usage: first SETTINGS NODE NAME")
	}
	settings, err := os.ReadFile(os.Args[1])
	if err != nil {
		log.Fatal(err)
	}
	node, _ := strconv.Atoi(os.Args[2])
	ctx, cancel := context.WithTimeout(context.Background(), 10*time.Second)
	defer cancel()

	client, err := hags.Open(ctx, string(settings), node, os.Args[3])
	if err != nil {
		log.Fatal(err)
	}
	defer client.Close()
	if _, err := client.Join(ctx, "db", 8, hags.Attributes{}); err != nil {
		log.Fatal(err)
	}
	for {
		select {
		case event, isOpen := <-client.Events():
			if !isOpen {
				log.Fatal(client.Err())
			}
			fmt.Println(event)
			if heard, isHeard := event.(hags.Heard); isHeard && heard.Kind == hags.Joining {
				client.State(ctx, "db", false, []byte("blue"))
			}
		case <-time.After(time.Second):
			return
		}
	}
}
