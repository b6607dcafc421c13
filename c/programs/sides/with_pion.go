// An agent of pion/ice that sends back what it receives: with_pion ROLE. It prints its description, up
// to a=end-of-candidates, and reads the other's likewise. A second one restarts ICE: it prints its own
// new one. At the line "restart" it does so first.
package main

import (
	"bufio"
	"context"
	"fmt"
	"log"
	"os"
	"strings"

	"github.com/pion/ice/v2"
)

func require(err error) {
	if err != nil {
		log.Fatal(err)
	}
}

// Gathers candidates, and prints the description.
func describe(agent *ice.Agent) {
	done := make(chan struct{})
	var lines []string
	require(agent.OnCandidate(func(candidate ice.Candidate) {
		if candidate == nil {
			close(done)
		} else {
			lines = append(lines, "a=candidate:"+candidate.Marshal())
		}
	}))
	require(agent.GatherCandidates())
	<-done
	fragment, password, err := agent.GetLocalUserCredentials()
	require(err)
	lines = append([]string{"a=ice-ufrag:" + fragment, "a=ice-pwd:" + password}, lines...)
	fmt.Println(strings.Join(append(lines, "a=end-of-candidates"), "\n"))
}

func restart(agent *ice.Agent) {
	require(agent.Restart("", ""))
	describe(agent)
}

// Connects, and sends back what comes.
func echo(agent *ice.Agent, controls bool, fragment, password string) {
	connect := agent.Accept
	if controls {
		connect = agent.Dial
	}
	connection, err := connect(context.Background(), fragment, password)
	require(err)
	data := make([]byte, 2000)
	for {
		length, err := connection.Read(data)
		require(err)
		_, _ = connection.Write(data[:length])
	}
}

func main() {
	types := []ice.NetworkType{ice.NetworkTypeUDP4}
	agent, err := ice.NewAgent(&ice.AgentConfig{NetworkTypes: types, MulticastDNSMode: ice.MulticastDNSModeDisabled})
	require(err)
	describe(agent)
	var fragment, password string
	var candidates []string
	isConnecting, isAnswered := false, false
	lines := bufio.NewScanner(os.Stdin)
	for lines.Scan() {
		name, value, _ := strings.Cut(strings.TrimPrefix(lines.Text(), "a="), ":")
		switch name {
		case "restart":
			restart(agent)
			isAnswered = false
		case "ice-ufrag":
			fragment = value
		case "ice-pwd":
			password = value
		case "candidate":
			candidates = append(candidates, value)
		case "end-of-candidates":
			if isAnswered {
				restart(agent)
			}
			if isConnecting {
				require(agent.SetRemoteCredentials(fragment, password))
			} else {
				go echo(agent, os.Args[1] == "controlling", fragment, password)
			}
			for _, it := range candidates {
				candidate, err := ice.UnmarshalCandidate(it)
				require(err)
				require(agent.AddRemoteCandidate(candidate))
			}
			isConnecting, isAnswered, candidates = true, true, nil
		}
	}
}
