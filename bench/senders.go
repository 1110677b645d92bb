// Eight senders to one receiver: senders MESSAGES ROUNDS. The messages are those of senders.hm.
package main

import (
	"fmt"
	"os"
	"strconv"
)

type item struct{ who, number int }

type job struct {
	who, messages int
	receiver      chan<- item
}

type task struct {
	messages int
	items    <-chan item
	total    chan<- int
}

func sender(start <-chan job) {
	j := <-start
	for k := 1; k <= j.messages; k++ {
		j.receiver <- item{j.who, k}
	}
}

func receiver(start <-chan task) {
	t := <-start
	sum := 0
	for left := 8 * t.messages; left > 0; left-- {
		i := <-t.items
		sum += i.number
	}
	t.total <- sum
}

func main() {
	messages, _ := strconv.Atoi(os.Args[1])
	rounds, _ := strconv.Atoi(os.Args[2])
	total := make(chan int, 1)
	all := 0
	for ; rounds > 0; rounds-- {
		// With room for all messages no sender waits, as none does at a port.
		items := make(chan item, 8*messages)
		r := make(chan task, 1)
		go receiver(r)
		r <- task{messages, items, total}
		for who := 1; who <= 8; who++ {
			s := make(chan job, 1)
			go sender(s)
			s <- job{who, messages, items}
		}
		all += <-total
	}
	fmt.Println(all)
}
