// Prints of each UPDATE of the stream on the standard input its routes, the AS that they came from, their next hops and communities.
package main

import (
	"fmt"
	"os"
	"ristulva"
)

func main() {
	octets, _ := os.ReadFile("/dev/stdin")
	messages, _ := ristulva.Messages(ristulva.Context{AS4: true, IP4: true, IP6: true}, octets)
	for _, message := range messages {
		routes, _ := message.Routes()
		for _, route := range routes {
			fmt.Println(route)
		}
		if facts := message.Facts(); facts != nil {
			if facts.OriginAS != nil {
				fmt.Println("origin", *facts.OriginAS)
			}
			for _, hop := range facts.NextHops() {
				fmt.Println("next hop", ristulva.Shown(hop))
			}
			for _, number := range message.Communities() {
				fmt.Printf("community %d:%d\n", number>>16, number&65535)
			}
		}
	}
}
