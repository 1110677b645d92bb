// The ring of the nodes given: ring NODES HOPS. The messages are those of the program that `hermes make` prints.
package main

import (
	"fmt"
	"os"
	"strconv"
	"sync"
)

type nodeStart struct {
	inp  <-chan int
	next chan<- int
	out  chan<- string
}

func node(start <-chan nodeStart, ended *sync.WaitGroup) {
	defer ended.Done()
	m := <-start
	for {
		n := <-m.inp
		if n == 0 {
			m.out <- "token home"
		}
		m.next <- n - 1
		if n < 1 {
			return
		}
	}
}

func main() {
	nodes, _ := strconv.Atoi(os.Args[1])
	hops, _ := strconv.Atoi(os.Args[2])
	out := make(chan string, 1)
	var ended sync.WaitGroup
	create := func(inp <-chan int, next chan<- int) {
		start := make(chan nodeStart, 1)
		ended.Add(1)
		go node(start, &ended)
		start <- nodeStart{inp, next, out}
	}
	// With room for the token no node waits for the next one, as none does at a port.
	first := make(chan int, 1)
	next := first
	for k := 1; k < nodes; k++ {
		inp := make(chan int, 1)
		create(inp, next)
		next = inp
	}
	create(first, next)
	first <- hops
	ended.Wait()
	fmt.Println(<-out)
}
