// A service that answers calls: calls CALLS ROUNDS. The messages are those of calls.hm.
package main

import (
	"fmt"
	"os"
	"strconv"
)

type ask struct {
	number int
	twice  chan<- int
}

type job struct {
	calls   int
	service chan<- ask
	total   chan<- int
}

func doubler(asks <-chan ask) {
	for a := range asks {
		a.twice <- a.number * 2
	}
}

func client(start <-chan job) {
	j := <-start
	twice := make(chan int, 1)
	sum := 0
	for k := 1; k <= j.calls; k++ {
		j.service <- ask{k, twice}
		sum += <-twice
	}
	j.total <- sum
}

func main() {
	calls, _ := strconv.Atoi(os.Args[1])
	rounds, _ := strconv.Atoi(os.Args[2])
	total := make(chan int, 8)
	all := 0
	for ; rounds > 0; rounds-- {
		// With room for a call of each client no client waits to put one, as none does at a port.
		service := make(chan ask, 8)
		go doubler(service)
		for clients := 0; clients < 8; clients++ {
			c := make(chan job, 1)
			go client(c)
			c <- job{calls, service, total}
		}
		for clients := 0; clients < 8; clients++ {
			all += <-total
		}
	}
	fmt.Println(all)
}
