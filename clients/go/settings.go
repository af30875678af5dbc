package hags

import (
	"fmt"
	"net"
	"sort"
	"strconv"
	"strings"
)

const (
	defaultPort = 12347
	lastPort    = 65000
)

// place is where a daemon is on a network.
type place struct {
	network byte
	at      *net.UDPAddr
}

// placesOf is where settings have the daemon of a node, by the least of its networks first.
func placesOf(settings string, node int) ([]place, error) {
	port, hasNode, hasAdapters := defaultPort, false, false
	var places []place
	for _, line := range strings.Split(settings, "\n") {
		words := strings.Fields(line)
		if len(words) == 0 || strings.HasPrefix(line, "#") {
			continue
		}
		if words[0] == "begin" {
			break
		}
		var err error
		switch {
		case words[0] == "node" && len(words) == 2:
			hasNode = hasNode || words[1] == strconv.Itoa(node)
		case words[0] == "port" && len(words) == 2:
			if port, err = strconv.Atoi(words[1]); err != nil || port < 1 || port > lastPort {
				return nil, fmt.Errorf("hags: settings: %q", line)
			}
		case words[0] == "adapter" && len(words) == 4:
			hasAdapters = true
			network, err := strconv.Atoi(words[2])
			address := net.ParseIP(words[3]).To4()
			if err != nil || network < 1 || network > mostNetworks || address == nil {
				return nil, fmt.Errorf("hags: settings: %q", line)
			}
			if words[1] == strconv.Itoa(node) {
				places = append(places, place{byte(network), &net.UDPAddr{IP: address}})
			}
		}
	}
	if !hasAdapters {
		places = []place{{1, &net.UDPAddr{IP: net.IPv4(10, 1, 0, byte(node))}}}
	}
	if !hasNode || len(places) == 0 {
		return nil, fmt.Errorf("hags: the settings have no node %d, or no address of it", node)
	}
	for _, it := range places {
		it.at.Port = port + node
	}
	sort.Slice(places, func(one, other int) bool { return places[one].network < places[other].network })
	return places, nil
}
